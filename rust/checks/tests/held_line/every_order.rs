//! Every order of writes of the reading rule, bytes, breaks and sends, the archive beside the model at
//! every transition, and the peer beside the archive. The history reads each byte by the rule in force
//! when it was accepted, across all writes.

use raftershim_checks::bridge::call::{frame, Call};
use raftershim_checks::bridge::frames::*;
use raftershim_checks::bridge::orders::Orders;
use raftershim_checks::bridge::{TheBridge, ARCHIVE, PEER};
use raftershim_checks::explore::{first_states, EVERY_STATE};
use raftershim_checks::implementation::Both;
use raftershim_checks::machine::Machine;
use Call::{Ask, Break, Line, Register, Reset, Take};

/// A limit where all states are too many for every day.
fn nearest() -> usize {
    first_states(880_000, 22_000_000)
}

/// Goes through them with these two, a correct return and a damaged one.
fn held(orders: &Orders, both: Both<TheBridge>) {
    let found = orders.explored(both, &[0, 1]);
    found.assert_met(&["frames sent", "changes of the reading rule"]);
    found.assert_refusals(&[10]);
}

#[test]
fn r10_on_and_off() {
    let orders = Orders {
        name: "held line, R10, store 4",
        receive: (4, 1),
        start: &[ASSIGN, TALK],
        calls: &[
            Line(13),
            Line(10),
            Line(50),
            SEND,
            Register(10, 0),
            Register(10, 8),
            Register(10, 12),
        ],
        limit: EVERY_STATE,
    };
    held(&orders, TheBridge::BOTH);
    held(&orders, [PEER, ARCHIVE]);
}

#[test]
fn every_pair_of_two_characters() {
    held(
        &Orders {
            name: "held line, C00 and C01, store 4",
            receive: (4, 1),
            start: &[Register(10, 8), ASSIGN, TALK],
            calls: &[
                Line(13),
                Line(10),
                SEND,
                Register(16, 13),
                Register(16, 10),
                Register(17, 13),
                Register(17, 10),
            ],
            limit: EVERY_STATE,
        },
        TheBridge::BOTH,
    );
}

#[test]
fn all_three_and_breaks() {
    held(
        &Orders {
            name: "held line, all three and breaks, store 4",
            receive: (4, 1),
            start: &[ASSIGN, TALK],
            calls: &[
                Line(13),
                Line(10),
                Break,
                SEND,
                Register(10, 0),
                Register(10, 8),
                Register(16, 10),
                Register(16, 13),
                Register(17, 13),
                Register(17, 10),
            ],
            limit: EVERY_STATE,
        },
        TheBridge::BOTH,
    );
}

/// What is refused for its value, with nothing held and under a held line.
#[test]
fn values_that_are_refused_first() {
    let orders = Orders {
        name: "held line, refusals in their order",
        receive: (4, 1),
        start: &[ASSIGN, TALK],
        calls: &[
            Line(50),
            SEND,
            CLEAR,
            Register(10, 8),
            Register(10, 0),
            Register(10, 1),
            Register(10, 16),
            Register(16, 256),
            Register(17, 65_546),
            Register(9, 0),
            Register(20, 19),
        ],
        limit: EVERY_STATE,
    };
    for both in [TheBridge::BOTH, [PEER, ARCHIVE]] {
        let found = orders.explored(both, &[0]);
        found.assert_refusals(&[5, 6, 7, 8, 10]);
        found.assert_met(&["changes of the reading rule"]);
    }
}

#[test]
fn more_room_roles_and_other_writes() {
    held(
        &Orders {
            name: "held line, store 6, roles and other writes",
            receive: (6, 2),
            start: &[],
            calls: &[
                Line(13),
                Line(10),
                Line(50),
                Break,
                Ask,
                Take(19),
                Take(65),
                SEND,
                SEND_STATUS,
                ASSIGN,
                TALK,
                LISTEN,
                CLEAR,
                frame(2, 65),
                Reset,
                Register(0, 9),
                Register(1, 15),
                Register(10, 0),
                Register(10, 12),
                Register(11, 0),
                Register(11, 8),
                Register(16, 10),
                Register(17, 13),
            ],
            limit: nearest(),
        },
        TheBridge::BOTH,
    );
}
