//! Every order of bytes, breaks and sends, the archive beside the model at every transition, with the
//! receive store as it is and with other bits above its marks before every call.

use raftershim_checks::bridge::call::Call;
use raftershim_checks::bridge::frames::*;
use raftershim_checks::bridge::garbled::{garbled, Archive, Peer};
use raftershim_checks::bridge::orders::Orders;
use raftershim_checks::bridge::{TheBridge, MODEL};
use raftershim_checks::explore::{first_states, EVERY_STATE};
use raftershim_checks::implementation::Both;
use raftershim_checks::machine::Machine;
use Call::{Break, Line, Register, Reset, ShowReceive, Take};

/// A limit where all states are too many for every day.
fn nearest() -> usize {
    first_states(440_000, 22_000_000)
}

/// Goes through them with these two, a correct return and a damaged one.
fn held(orders: &Orders, both: Both<TheBridge>) {
    let found = orders.explored(both, &[0, 1]);
    found.assert_met(&["breaks", "frames sent", "sends that a break changed"]);
}

/// Goes through them with the archive beside the model, as it is and garbled.
fn held_twice(orders: Orders) {
    held(&orders, TheBridge::BOTH);
    held(&orders, [garbled::<Archive>(), MODEL]);
}

#[test]
fn bytes_breaks_and_sends() {
    held_twice(Orders {
        name: "breaks, store 4",
        receive: (4, 1),
        start: &[Register(10, 8), ASSIGN, TALK],
        calls: &[Line(13), Line(10), Line(50), Break, SEND, ShowReceive],
        limit: EVERY_STATE,
    });
}

#[test]
fn a_pair_of_equal_bytes() {
    held_twice(Orders {
        name: "breaks, pair 10, 10, store 5",
        receive: (5, 1),
        start: &[Register(10, 8), Register(16, 10), ASSIGN, TALK],
        calls: &[Line(10), Line(50), Break, SEND, FINISH],
        limit: EVERY_STATE,
    });
}

#[test]
fn the_rule_on_and_off() {
    held_twice(Orders {
        name: "breaks, the rule on and off",
        receive: (4, 1),
        start: &[ASSIGN, TALK],
        calls: &[
            Line(13),
            Line(10),
            Break,
            SEND,
            Register(10, 0),
            Register(10, 8),
        ],
        limit: EVERY_STATE,
    });
}

#[test]
fn holding_off_status_and_clears() {
    held_twice(Orders {
        name: "breaks, holding off, status and clears",
        receive: (4, 1),
        start: &[
            Register(10, 8),
            Register(0, 9),
            Register(2, 1),
            ASSIGN,
            TALK,
        ],
        calls: &[
            Line(13),
            Line(10),
            Break,
            SEND,
            SEND_STATUS,
            Take(17),
            Take(19),
            CLEAR,
            OTHER_COMMAND,
        ],
        limit: nearest(),
    });
}

#[test]
fn more_room_and_resets() {
    held_twice(Orders {
        name: "breaks, store 6 and resets",
        receive: (6, 2),
        start: &[Register(10, 8), ASSIGN, TALK],
        calls: &[
            Line(13),
            Line(10),
            Line(50),
            Break,
            SEND,
            ShowReceive,
            Reset,
            Register(10, 8),
            ASSIGN,
            TALK,
        ],
        limit: nearest(),
    });
}

/// The peer of the benchmarks counts no more of a cell than the archive does.
#[test]
fn the_peer_garbled() {
    let orders = Orders {
        name: "breaks, peer, store 4",
        receive: (4, 1),
        start: &[Register(10, 8), ASSIGN, TALK],
        calls: &[Line(13), Line(10), Line(50), Break, SEND],
        limit: nearest(),
    };
    held(&orders, [garbled::<Peer>(), MODEL]);
}
