//! Every order of asks, of takes by right and wrong names, and of what makes another byte next, the
//! archive beside the model at every transition, and the peer beside the archive. The history knows
//! which byte is next, and counts as handed out what was taken.

use raftershim_checks::bridge::call::{frame, Call};
use raftershim_checks::bridge::frames::*;
use raftershim_checks::bridge::orders::Orders;
use raftershim_checks::bridge::{TheBridge, ARCHIVE, PEER};
use raftershim_checks::explore::{first_states, EVERY_STATE};
use raftershim_checks::implementation::Both;
use raftershim_checks::machine::Machine;
use Call::{Ask, Line, Register, Reset, ShowTransmit, Take};

/// What has to be met: takes of both kinds, and those that are refused for each reason.
const MET: [&str; 6] = [
    "line bytes taken",
    "go and stop taken",
    "takes of another byte than the next",
    "takes where nothing is next",
    "takes of what waits while go or stop is owed",
    "takes of go or stop where an equal byte waits",
];

/// Goes through them with these two.
fn held(orders: &Orders, both: Both<TheBridge>) {
    let found = orders.explored(both, &[]);
    found.assert_met(&MET);
    found.assert_refusals(&[12]);
}

#[test]
fn bytes_that_equal_go_and_stop() {
    let orders = Orders {
        name: "ask and take, bytes that equal go and stop",
        receive: (4, 1),
        start: &[ASSIGN, LISTEN],
        calls: &[
            Line(50),
            Line(17),
            Line(19),
            frame(0, 17),
            frame(0, 19),
            CLEAR,
            Ask,
            Take(17),
            Take(19),
            Take(50),
        ],
        limit: EVERY_STATE,
    };
    held(&orders, TheBridge::BOTH);
    held(&orders, [PEER, ARCHIVE]);
}

#[test]
fn the_protocol_on_and_off() {
    let orders = Orders {
        name: "ask and take, the protocol on and off",
        receive: (4, 1),
        start: &[ASSIGN, LISTEN],
        calls: &[
            Line(50),
            Line(19),
            frame(0, 19),
            Register(11, 0),
            Register(11, 8),
            Reset,
            ASSIGN,
            LISTEN,
            Ask,
            Take(17),
            Take(19),
            Take(0),
        ],
        limit: EVERY_STATE,
    };
    held(&orders, TheBridge::BOTH);
}

#[test]
fn characters_that_change_and_bytes_in_their_order() {
    held(
        &Orders {
            name: "ask and take, other characters and lines, store 6",
            receive: (6, 2),
            start: &[Register(10, 4), ASSIGN, LISTEN],
            calls: &[
                Line(50),
                Line(19),
                frame(0, 65),
                frame(2, 66),
                SEND,
                TALK,
                LISTEN,
                CLEAR,
                Register(20, 65),
                Register(21, 66),
                Register(20, 17),
                Register(21, 19),
                Register(1, 3),
                ShowTransmit,
                Ask,
                Take(10),
                Take(13),
                Take(17),
                Take(19),
                Take(65),
                Take(66),
            ],
            limit: first_states(300_000, 20_000_000),
        },
        TheBridge::BOTH,
    );
}
