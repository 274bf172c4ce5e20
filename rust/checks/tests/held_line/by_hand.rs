//! What is held, what is not, and which refusal comes first, written from the requests.

use raftershim_checks::answer::{framed, refused, with_room, DONE};
use raftershim_checks::bridge::call::{frame, Call};
use raftershim_checks::bridge::frames::*;
use raftershim_checks::bridge::Pair;
use Call::{Break, Line, Register, Reset};

/// A frame that goes on while the transmit store is empty, which has three places.
const fn out(control: u64, data: u64) -> u64 {
    with_room(3, framed(control, data))
}

/// Writes of the reading rule: values that it has at start, and others.
const WRITES: [Call; 8] = [
    Register(10, 0),
    Register(10, 4),
    Register(10, 8),
    Register(10, 12),
    Register(16, 13),
    Register(16, 50),
    Register(17, 10),
    Register(17, 255),
];

/// A talker on a receive store of 8 that these calls were made on.
fn talker(calls: &[Call]) -> Pair {
    let mut bridge = Pair::create(8, 3, 3);
    bridge.expect(ASSIGN, out(5, 130));
    bridge.expect(TALK, out(4, 65));
    for &call in calls {
        bridge.ask(call);
    }
    bridge
}

/// Every write of the reading rule is refused, and others are taken.
fn is_held(bridge: &mut Pair) {
    for write in WRITES {
        bridge.expect(write, refused(10));
    }
    for other in [Register(0, 9), Register(11, 8), Register(18, 1)] {
        bridge.expect(other, DONE);
    }
}

#[test]
fn anything_that_is_held_refuses_every_value() {
    let half = [Register(10, 8), Line(50), Line(13)];
    let pair = [Register(10, 8), Line(13), Line(10)];
    let rows: [&[Call]; 6] = [
        &[Line(50)],
        &[Register(10, 4), Line(50), Break],
        &half,
        &pair,
        // What waits is held however often a send has found no frame.
        &[half[0], half[1], half[2], SEND, SEND],
        // The frame of a byte is under way, and another byte is held.
        &[Line(50), Line(51), SEND],
    ];
    for calls in rows {
        let mut bridge = talker(calls);
        is_held(&mut bridge);
        bridge.expect(Register(16, 256), refused(6));
        bridge.expect(Register(10, 16), refused(6));
        bridge.expect(Register(10, 1), refused(7));
        bridge.expect(Register(9, 0), refused(5));
        bridge.expect(Register(20, 19), refused(8));
    }
    println!("held line by hand: {} rows refused", rows.len());
}

#[test]
fn nothing_held_refuses_nothing() {
    let rows: [&[Call]; 6] = [
        &[],
        // A frame under way is not held.
        &[Line(50), SEND],
        // A byte for the line is held in the other store.
        &[LISTEN, frame(0, 65)],
        &[Line(50), CLEAR],
        &[Line(50), Reset],
        // A break with nothing held, and bytes that are never stored.
        &[Break, Line(17), Line(19)],
    ];
    for calls in rows {
        let mut bridge = talker(calls);
        for write in WRITES {
            bridge.expect(write, DONE);
        }
    }
    println!("held line by hand: {} rows taken", rows.len());
}

#[test]
fn a_pair_is_held_until_a_send_removes_it() {
    let mut bridge = talker(&[Register(10, 8), Line(13), Line(10)]);
    is_held(&mut bridge);
    bridge.expect(SEND, out(5, 64));
    bridge.expect(Register(16, 50), DONE);
    // Bytes that no end of line follows are held back until a break decides them.
    for call in [Line(51), Line(50), SEND] {
        bridge.ask(call);
    }
    is_held(&mut bridge);
    bridge.expect(Break, DONE);
    is_held(&mut bridge);
    bridge.expect(SEND, out(0, 51));
    bridge.expect(frame(0, 51), out(0, 50));
    bridge.expect(Register(17, 11), DONE);
    println!("held line by hand: {} answers", bridge.asked());
}

#[test]
fn half_a_reading_is_read_whole_by_its_own_pair() {
    let mut bridge = talker(&[Register(10, 8), Line(50), Line(46)]);
    bridge.expect(Register(16, 59), refused(10));
    bridge.expect(Register(17, 59), refused(10));
    for byte in [53, 13, 10] {
        bridge.ask(Line(byte));
    }
    bridge.expect(SEND, out(0, 50));
    bridge.expect(frame(0, 50), out(0, 46));
    bridge.expect(frame(0, 46), out(2, 53));
    // Its last frame is under way, and nothing is held.
    bridge.expect(Register(16, 59), DONE);
    bridge.expect(Register(17, 59), DONE);
    for byte in [55, 59, 59] {
        bridge.ask(Line(byte));
    }
    bridge.expect(frame(2, 53), out(2, 55));
    bridge.expect(frame(2, 55), out(5, 64));
    println!("held line by hand, the story: {} answers", bridge.asked());
}
