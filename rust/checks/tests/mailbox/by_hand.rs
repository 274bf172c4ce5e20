//! What the user could not test, at the mailbox: a store that fills in the very call that drains
//! it, an end mark on its way, damage while the status byte is under way, and every order of bytes
//! and frames. Answers are written from the rules.

use crate::alphabets::BUS;
use raftershim_checks::answer::{byte, end, framed, lines, refused, DONE, NONE};
use raftershim_checks::mailbox::call::{frame, Call};
use raftershim_checks::mailbox::Pair;
use Call::{Byte, Clear, Command, Fetch, Lines};

const SEND: Call = frame(5, 96);
const SEND_STATUS: Call = frame(5, 97);
/// The end of a sending: all well, or our frame came back damaged.
const OVER: u64 = framed(5, 64);
const DAMAGED: u64 = framed(5, 65);

/// A mailbox that is addressed to talk on the loop and listens on the bus.
fn to_loop(len: usize) -> Pair {
    let mut pair = Pair::create(1, len, BUS);
    pair.expect(frame(4, 79), framed(4, 79));
    pair.expect(Command(32 + BUS), DONE);
    pair
}

/// A mailbox that listens on the loop and is talker of the bus.
fn to_bus(len: usize) -> Pair {
    let mut pair = Pair::create(len, 1, BUS);
    pair.expect(frame(4, 47), framed(4, 47));
    pair.expect(Command(64 + BUS), DONE);
    pair
}

fn written(pair: &Pair, what: &str) {
    println!(
        "the mailbox by hand, {what}: {} answers as written",
        pair.asked()
    );
}

#[test]
fn a_reading_goes_each_way_with_its_end_mark() {
    let mut pair = to_loop(4);
    for (number, mark) in [(50, 0), (46, 0), (53, 1)] {
        pair.expect(Byte(number, mark), DONE);
    }
    pair.expect(frame(6, 0), framed(7, 0));
    pair.expect(SEND, framed(1, 50));
    pair.expect(frame(1, 50), framed(1, 46));
    pair.expect(frame(0, 46), framed(3, 53));
    pair.expect(frame(3, 53), OVER);
    pair.expect(frame(6, 0), framed(6, 0));
    written(&pair, "a reading to the loop");
    let mut pair = to_bus(4);
    for (control, data) in [(0, 50), (1, 46), (3, 53)] {
        pair.expect(frame(control, data), framed(control.into(), data.into()));
    }
    pair.expect(Lines, lines(true, 0));
    for answer in [byte(50), byte(46), end(53), NONE] {
        pair.expect(Fetch, answer);
    }
    pair.expect(Lines, lines(false, 0));
    written(&pair, "a reading to the bus");
}

#[test]
fn stores_fill_in_the_call_that_follows_the_drain() {
    for len in 1..4 {
        let mut pair = to_bus(len);
        for number in 0..len as u32 {
            pair.expect(frame(0, number), framed(0, number.into()));
        }
        for number in len as u8..40 {
            pair.expect(frame(2, number.into()), refused(4));
            let oldest = number - len as u8;
            let left = if oldest < len as u8 {
                byte(oldest)
            } else {
                end(oldest)
            };
            pair.expect(Fetch, left);
            pair.expect(frame(2, number.into()), framed(2, number.into()));
        }
        written(&pair, "a store to the bus that is always full");
        let mut pair = to_loop(len);
        for number in 0..len as u8 {
            pair.expect(Byte(number, 0), DONE);
        }
        pair.expect(SEND, framed(1, 0));
        for number in len as u8..40 {
            // The place that the sending has just left; a store of one place starts a new request.
            pair.expect(Byte(number, 0), DONE);
            pair.expect(Byte(number, 0), refused(4));
            let sent = u32::from(number) - len as u32;
            pair.expect(frame(0, sent), framed(1, u64::from(sent) + 1));
        }
        written(&pair, "a store to the loop that is always full");
    }
}

#[test]
fn not_ready_holds_the_frame_before_the_last_place() {
    let mut pair = to_bus(3);
    pair.expect(frame(4, 15), framed(4, 15));
    pair.expect(frame(0, 50), framed(0, 50));
    pair.expect(frame(2, 46), framed(5, 66));
    // The talker finishes by it, and our own 5,66 comes round.
    pair.expect(frame(5, 66), framed(2, 46));
    pair.expect(frame(5, 66), framed(5, 66));
    for answer in [byte(50), end(46), NONE] {
        pair.expect(Fetch, answer);
    }
    written(&pair, "not ready");
}

#[test]
fn every_damage_while_the_status_byte_is_under_way() {
    let (mut damaged, mut unchanged) = (0, 0);
    for back in 0..1024 {
        let mut pair = to_loop(2);
        pair.expect(Byte(50, 0), DONE);
        pair.expect(SEND_STATUS, framed(1, 65));
        if back == 65 || back == 256 + 65 {
            pair.expect(Call::Frame(back), OVER);
            pair.expect(SEND_STATUS, framed(0, 0));
            unchanged += 1;
        } else {
            pair.expect(Call::Frame(back), DAMAGED);
            pair.expect(SEND_STATUS, framed(0, 1));
            damaged += 1;
        }
    }
    assert_eq!((damaged, unchanged), (1022, 2));
    println!("the mailbox by hand, status: {damaged} damages kept the news, {unchanged} told them");
}

#[test]
fn commands_while_the_status_byte_is_under_way() {
    let mut forgotten = 0;
    for command in 0..256 {
        let mut pair = to_loop(2);
        pair.expect(Byte(50, 0), DONE);
        pair.expect(SEND_STATUS, framed(1, 65));
        pair.expect(frame(4, command), framed(4, command.into()));
        // A listener stores what comes round.
        pair.expect(frame(0, 65), framed(0, 65));
        pair.expect(frame(4, 79), framed(4, 79));
        pair.expect(SEND_STATUS, framed(0, 1));
        forgotten += 1;
    }
    println!("the mailbox by hand, status: {forgotten} times forgotten by a command, news kept");
}

#[test]
fn news_while_the_status_byte_is_under_way() {
    let mut pair = to_loop(2);
    pair.expect(Byte(50, 0), DONE);
    pair.expect(SEND_STATUS, framed(1, 65));
    // A byte beside another is no news.
    pair.expect(Byte(51, 0), DONE);
    pair.expect(frame(0, 65), OVER);
    pair.expect(SEND_STATUS, framed(0, 0));
    pair.expect(frame(0, 0), OVER);
    // A byte after a clear is.
    pair.expect(Command(20), DONE);
    pair.expect(Byte(52, 0), DONE);
    pair.expect(SEND_STATUS, framed(1, 65));
    pair.expect(Command(20), DONE);
    pair.expect(Byte(53, 0), DONE);
    pair.expect(frame(0, 65), OVER);
    pair.expect(SEND_STATUS, framed(1, 65));
    pair.expect(frame(0, 65), OVER);
    pair.expect(SEND, framed(0, 53));
    pair.expect(frame(0, 53), OVER);
    written(&pair, "news while status is under way");
}

#[test]
fn the_bus_polls() {
    let mut pair = to_bus(2);
    for (command, answer) in [(32 + BUS, DONE), (5, DONE), (106, DONE)] {
        pair.expect(Command(command), answer);
    }
    pair.expect(Lines, lines(false, 0));
    pair.expect(frame(0, 50), framed(0, 50));
    pair.expect(Lines, lines(true, 4));
    pair.expect(Command(24), DONE);
    pair.expect(Fetch, NONE);
    pair.expect(Command(64 + BUS), DONE);
    pair.expect(Fetch, byte(65));
    pair.expect(Lines, lines(false, 0));
    pair.expect(Fetch, NONE);
    pair.expect(Clear, DONE);
    pair.expect(Command(64 + BUS), DONE);
    pair.expect(Fetch, byte(50));
    written(&pair, "polls of the bus");
}

#[test]
fn the_identities() {
    let mut pair = to_loop(1);
    pair.expect(frame(5, 99), framed(0, 67));
    pair.expect(frame(0, 67), OVER);
    let mut ready = frame(5, 98);
    for number in *b"HP82169A\r\n" {
        pair.expect(ready, framed(0, number.into()));
        ready = frame(0, number.into());
    }
    pair.expect(ready, OVER);
    written(&pair, "identities");
}

/// Calls `each` with every order of so many moves of two parties: whether the first one moves.
fn every_order(left: [usize; 2], order: &mut Vec<bool>, each: &mut dyn FnMut(&[bool])) {
    if left == [0; 2] {
        return each(order);
    }
    for (party, first) in [true, false].into_iter().enumerate() {
        if left[party] > 0 {
            let mut less = left;
            less[party] -= 1;
            order.push(first);
            every_order(less, order, each);
            order.pop();
        }
    }
}

/// The reading as the bus sends it, and as the loop gets it.
const READING: [(u8, u32); 3] = [(50, 0), (46, 0), (53, 1)];
const HEARD: [u64; 3] = [50, 46, 2 << 8 | 53];

#[test]
fn every_order_of_bytes_of_the_bus_and_frames_of_the_loop() {
    let (mut orders, mut busy) = (0, 0);
    for len in 1..4 {
        every_order([6, 6], &mut Vec::new(), &mut |order| {
            let mut pair = to_loop(len);
            let (mut left, mut heard, mut last) = (0, Vec::new(), OVER);
            let mut turn = |pair: &mut Pair, bus: bool| {
                if bus {
                    let (number, mark) = READING[left % 3];
                    let taken = pair.ask(Byte(number, mark));
                    left += usize::from(taken == DONE);
                    busy += usize::from(taken == refused(4));
                } else {
                    let back = last & 0x7ff;
                    last = pair.ask(if last == OVER {
                        SEND
                    } else {
                        Call::Frame(back as u32)
                    });
                    heard.extend((last != OVER).then_some(last & 0x6ff));
                }
            };
            order.iter().for_each(|&bus| turn(&mut pair, bus));
            // What still waits comes too, and a last sending finds nothing.
            (0..8).for_each(|_| turn(&mut pair, false));
            let due: Vec<u64> = (0..left).map(|index| HEARD[index % 3]).collect();
            assert_eq!(heard, due, "{}", pair.script());
            orders += 1;
        });
    }
    assert!(busy > 0);
    println!("the mailbox by hand: {orders} orders, each byte heard once; {busy} times busy");
}
