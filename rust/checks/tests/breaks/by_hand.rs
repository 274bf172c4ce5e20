//! What a break does, answer by answer, written from the request.

use raftershim_checks::answer::{framed, refused, with_room, DONE};
use raftershim_checks::bridge::call::{frame, Call};
use raftershim_checks::bridge::frames::*;
use raftershim_checks::bridge::rule::BREAK;
use raftershim_checks::bridge::Pair;
use Call::{Break, Line, Register, Reset, ShowReceive};

/// A frame that goes on while the transmit store is empty, which has three places.
const fn out(control: u64, data: u64) -> u64 {
    with_room(3, framed(control, data))
}

/// A bridge with address 1, addressed to talk, that detects ends of line by this pair.
fn talker(rx_len: usize, pair: [u32; 2]) -> Pair {
    let mut bridge = Pair::create(rx_len, 3, 1);
    bridge.expect(Register(10, 8), DONE);
    bridge.expect(Register(16, pair[0]), DONE);
    bridge.expect(Register(17, pair[1]), DONE);
    bridge.expect(ASSIGN, out(5, 130));
    bridge.expect(TALK, out(4, 65));
    bridge
}

/// What comes on the line, a break being the mark alone. The store has room for all of it.
fn comes(bridge: &mut Pair, items: &[u16]) {
    for &item in items {
        match item {
            BREAK => bridge.expect(Break, DONE),
            byte => drop(bridge.ask(Line(byte as u8))),
        }
    }
}

/// The frames that are read out until the bridge has none, each control and data.
fn read_out(bridge: &mut Pair) -> Vec<(u64, u64)> {
    let mut frames = Vec::new();
    let mut answer = bridge.ask(SEND);
    while answer != out(5, 64) {
        let sent = answer & 0x7ff;
        assert!(sent < 1024, "{}", bridge.script());
        frames.push((sent >> 8, sent & 255));
        answer = bridge.ask(Call::Frame(sent as u32));
    }
    frames
}

/// The cells that are held, oldest first.
fn held(bridge: &Pair) -> Vec<u16> {
    let (ring, store) = (bridge.state().expect("a state").receive, bridge.buffers());
    let store = store.stores().0;
    let cell = |index| store[(ring.oldest + index) % store.len()];
    (0..ring.held).map(cell).collect()
}

/// A pair, what comes, the cells that it leaves, the frames, and the cells that are left after them.
type Row<'a> = ([u32; 2], &'a [u16], &'a [u16], &'a [(u64, u64)], &'a [u16]);

/// Where a byte before a break is marked.
const B10: u16 = BREAK | 10;
const B13: u16 = BREAK | 13;
const B50: u16 = BREAK | 50;

const CR_LF: [u32; 2] = [13, 10];
const LF_LF: [u32; 2] = [10, 10];

const ROWS: [Row; 12] = [
    (CR_LF, &[BREAK], &[], &[], &[]),
    (CR_LF, &[BREAK, 50], &[50], &[], &[50]),
    (CR_LF, &[50, BREAK, BREAK], &[B50], &[(0, 50)], &[]),
    (CR_LF, &[50, BREAK, 13, 10], &[B50, 13, 10], &[(0, 50)], &[]),
    (CR_LF, &[13, BREAK, 10], &[B13, 10], &[(0, 13)], &[10]),
    (
        CR_LF,
        &[50, 13, BREAK],
        &[50, B13],
        &[(0, 50), (0, 13)],
        &[],
    ),
    (
        CR_LF,
        &[50, 13, BREAK, 10, 13],
        &[50, B13, 10, 13],
        &[(0, 50), (0, 13)],
        &[10, 13],
    ),
    (CR_LF, &[50, 13, 10, BREAK], &[50, 13, B10], &[(2, 50)], &[]),
    (CR_LF, &[13, 10, BREAK], &[13, B10], &[], &[]),
    (
        CR_LF,
        &[13, 10, BREAK, 13, 10, 50],
        &[13, B10, 13, 10, 50],
        &[],
        &[50],
    ),
    (LF_LF, &[10, BREAK, 10], &[B10, 10], &[(0, 10)], &[10]),
    (
        LF_LF,
        &[50, 10, BREAK, 10, 10],
        &[50, B10, 10, 10],
        &[(0, 50), (0, 10)],
        &[],
    ),
];

#[test]
fn no_end_of_line_spans_a_break() {
    for (pair, items, cells, frames, left) in ROWS {
        let mut bridge = talker(8, pair);
        comes(&mut bridge, items);
        assert_eq!(held(&bridge), cells, "{items:?}");
        assert_eq!(read_out(&mut bridge), frames, "{items:?}");
        assert_eq!(held(&bridge), left, "{items:?}");
    }
    println!("breaks by hand: {} rows", ROWS.len());
}

#[test]
fn undecided_bytes_are_decided_by_the_break_and_not_before() {
    let mut bridge = talker(8, CR_LF);
    comes(&mut bridge, &[50, 13]);
    bridge.expect(SEND, out(5, 64));
    comes(&mut bridge, &[BREAK]);
    bridge.expect(SEND, out(0, 50));
    // While the 50 is under way the line feed comes: too late for the carriage return.
    comes(&mut bridge, &[10]);
    bridge.expect(frame(0, 50), out(0, 13));
    bridge.expect(frame(0, 13), out(5, 64));
    assert_eq!(held(&bridge), [10]);
    // A break that comes when a byte is gone marks nothing of it.
    comes(&mut bridge, &[46]);
    bridge.expect(SEND, out(0, 10));
    comes(&mut bridge, &[BREAK]);
    assert_eq!(held(&bridge), [BREAK | 46]);
    bridge.expect(frame(0, 10), out(0, 46));
    comes(&mut bridge, &[BREAK]);
    bridge.expect(ShowReceive, 0);
    println!("breaks by hand, in between: {} answers", bridge.asked());
}

#[test]
fn a_mark_takes_no_room_and_ends_with_its_byte() {
    let mut bridge = talker(4, CR_LF);
    for (byte, room) in [(50, 3), (51, 2), (52, 1), (53, 0)] {
        bridge.expect(Line(byte), with_room(room, DONE));
        bridge.expect(Break, DONE);
    }
    assert_eq!(held(&bridge), [50, 51, 52, 53].map(|byte| BREAK | byte));
    // The store is full: the byte is lost, and so is not marked.
    bridge.expect(Line(54), with_room(0, DONE));
    bridge.expect(Break, DONE);
    bridge.expect(SEND, out(0, 50));
    bridge.expect(Line(55), with_room(0, DONE));
    assert_eq!(held(&bridge), [BREAK | 51, BREAK | 52, BREAK | 53, 55]);
    // Neither a clear nor a reset writes a cell, and the next byte has no mark.
    bridge.expect(frame(4, 20), out(4, 20));
    bridge.expect(Break, DONE);
    bridge.expect(Line(56), with_room(3, DONE));
    assert_eq!(
        bridge.buffers().stores().0,
        [56, BREAK | 51, BREAK | 52, BREAK | 53]
    );
    bridge.expect(Reset, DONE);
    bridge.expect(Break, DONE);
    assert_eq!(bridge.buffers().stores().0[0], 56);
    println!("breaks by hand, room: {} answers", bridge.asked());
}

#[test]
fn without_the_rule_marks_are_written_and_mean_nothing() {
    let mut bridge = talker(8, CR_LF);
    bridge.expect(Register(10, 0), DONE);
    comes(&mut bridge, &[50, 13, BREAK, 10, 13, BREAK, 10]);
    assert_eq!(held(&bridge), [50, B13, 10, B13, 10]);
    bridge.expect(SEND, out(0, 50));
    bridge.expect(frame(0, 50), out(0, 13));
    // The marks mean nothing and are held, so the rule stays off until all are read.
    bridge.expect(Register(10, 8), refused(10));
    for byte in [(13, 10), (10, 13), (13, 10)] {
        bridge.expect(frame(0, byte.0), out(0, byte.1));
    }
    bridge.expect(Register(10, 8), DONE);
    comes(&mut bridge, &[10, 13, BREAK, 10]);
    bridge.expect(frame(0, 10), out(0, 10));
    bridge.expect(frame(0, 10), out(0, 13));
    bridge.expect(frame(0, 13), out(5, 64));
    assert_eq!(held(&bridge), [10]);
    println!("breaks by hand, the rule off: {} answers", bridge.asked());
}

#[test]
fn the_status_byte_tells_of_a_break_as_before() {
    let mut bridge = talker(4, CR_LF);
    bridge.expect(Register(0, 8), DONE);
    bridge.expect(Register(2, 1), DONE);
    // Break, transmit not full and empty; 64 is the request.
    comes(&mut bridge, &[BREAK]);
    bridge.expect(SEND_STATUS, out(1, 64 + 16 + 3));
    // Again while it is under way, behind a byte: the bit stays, and the byte is marked.
    comes(&mut bridge, &[50, BREAK]);
    bridge.expect(frame(1, 64 + 16 + 3), out(5, 64));
    bridge.expect(SEND_STATUS, out(0, 16 + 4 + 3));
    bridge.expect(frame(0, 16 + 4 + 3), out(5, 64));
    bridge.expect(SEND_STATUS, out(0, 4 + 3));
    assert_eq!(held(&bridge), [B50]);
    println!("breaks by hand, status: {} answers", bridge.asked());
}

#[test]
fn a_refused_break_marks_nothing() {
    let mut good = talker(4, CR_LF);
    comes(&mut good, &[50]);
    let (rx, tx) = good.buffers().stores();
    let mut block = good.buffers().block().to_vec();
    block[0] = 2;
    let mut bridge = Pair::holding(&block, rx, tx);
    bridge.expect(Break, refused(2));
    assert_eq!(bridge.buffers().stores().0, [50, 0, 0, 0]);
    let mut bridge = Pair::holding(good.buffers().block(), &rx[..3], tx);
    bridge.expect(Break, refused(2));
    assert_eq!(bridge.buffers().stores().0, [50, 0, 0]);
}
