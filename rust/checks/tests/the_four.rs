//! What the user could not test: a buffer that fills in the very call that drains it, an end of
//! line cut between its two characters, damage on the loop while the status byte is under way, and
//! every order of meter bytes, loop frames and key presses. Answers are written from the paper.

use raftershim_checks::answer::{byte, framed, refused, with_room, DONE, NONE};
use raftershim_checks::bridge::call::{frame, Call};
use raftershim_checks::bridge::Pair;
use Call::{Ask, Key, Line, Register, Take};

const SEND: Call = frame(5, 96);
const SEND_STATUS: Call = frame(5, 97);
/// The end of a sending: all well, or our frame came back damaged.
const OVER: u64 = out(5, 64);
const DAMAGED: u64 = out(5, 65);

/// A frame that goes on while the transmit store is empty, which has three places.
const fn out(control: u64, data: u64) -> u64 {
    with_room(3, framed(control, data))
}

/// A bridge with address 1, addressed to talk, that detects ends of line; transmit store 3.
fn talker(rx_len: usize, margin: u32) -> Pair {
    let mut pair = Pair::create(rx_len, 3, margin);
    pair.expect(Register(10, 8), DONE);
    pair.expect(frame(5, 129), out(5, 130));
    pair.expect(frame(4, 65), out(4, 65));
    pair
}

/// Bytes for a receive store that has so much room. Each takes a place; where there is none it is
/// lost.
fn lines(pair: &mut Pair, mut room: usize, bytes: &[u8]) {
    for &byte in bytes {
        room = room.saturating_sub(1);
        pair.expect(Line(byte), with_room(room, DONE));
    }
}

/// This line byte is asked for and taken.
fn goes_out(pair: &mut Pair, out: u8) {
    pair.expect(Ask, byte(out));
    pair.expect(Take(out), DONE);
}

#[test]
fn receive_store_fills_in_the_call_that_drains_it() {
    let mut pair = talker(4, 1);
    lines(&mut pair, 4, b"0123");
    goes_out(&mut pair, 19);
    pair.expect(SEND, out(0, 48));
    // Three times round: the meter's next byte takes the place that the sending has just left.
    for number in 0..12 {
        lines(&mut pair, 1, &[52 + number]);
        pair.expect(
            frame(0, 48 + u32::from(number)),
            out(0, 49 + u64::from(number)),
        );
    }
    let state = pair.state().expect("a state");
    assert_eq!((state.stored, state.lost, state.sent), (16, 0, 13));
    // One byte fills it again, the next is lost and told.
    lines(&mut pair, 1, b"@A");
    let state = pair.state().expect("a state");
    assert_eq!(
        (state.stored, state.lost, state.overrun_seen),
        (17, 1, true)
    );
    println!(
        "the very call, receive store: {} answers as written",
        pair.asked()
    );
}

#[test]
fn an_end_byte_drains_three_and_a_send_without_a_frame_the_rest() {
    let mut pair = talker(4, 1);
    lines(&mut pair, 4, b"2\r\n\r");
    goes_out(&mut pair, 19);
    pair.expect(SEND, out(2, 50));
    goes_out(&mut pair, 17);
    // Full again while the frame is under way: held are CR LF 5 CR.
    lines(&mut pair, 3, b"\n5\r");
    goes_out(&mut pair, 19);
    // Its return removes the pair, has no frame yet, and holding off ends in that call.
    pair.expect(frame(2, 50), OVER);
    goes_out(&mut pair, 17);
    lines(&mut pair, 2, b"\n");
    pair.expect(SEND, out(2, 53));
    pair.expect(frame(2, 53), OVER);
    let state = pair.state().expect("a state");
    assert_eq!((state.receive.held, state.lost, state.sent), (0, 0, 2));
    println!(
        "the very call, end bytes: {} answers as written",
        pair.asked()
    );
}

#[test]
fn transmit_store_fills_in_the_call_that_follows_the_drain() {
    let mut pair = talker(4, 1);
    pair.expect(Register(10, 4), DONE);
    pair.expect(frame(4, 33), out(4, 33));
    pair.expect(frame(2, 50), with_room(0, framed(2, 50)));
    // Held are 2 CR LF: full, so busy, until a line byte is taken. Asking for it frees no place.
    for (data, next) in [(51, 50), (52, 13), (53, 10)] {
        pair.expect(frame(0, data), refused(4));
        pair.expect(Ask, byte(next));
        pair.expect(frame(0, data), refused(4));
        goes_out(&mut pair, next);
        pair.expect(frame(0, data), with_room(0, framed(0, data.into())));
    }
    for next in [51, 52, 53] {
        goes_out(&mut pair, next);
    }
    pair.expect(Ask, NONE);
    println!(
        "the very call, transmit store: {} answers as written",
        pair.asked()
    );
}

#[test]
fn end_of_line_cut_between_its_two_characters() {
    let mut pair = talker(8, 3);
    lines(&mut pair, 8, b"2.5\r");
    pair.expect(SEND, out(0, 50));
    pair.expect(frame(0, 50), out(0, 46));
    // The 5 and its CR are undecided, however often one asks.
    pair.expect(frame(0, 46), OVER);
    pair.expect(SEND, OVER);
    pair.expect(SEND, OVER);
    lines(&mut pair, 6, b"\n");
    pair.expect(SEND, out(2, 53));
    pair.expect(frame(2, 53), OVER);
    // A CR that no LF follows is data.
    lines(&mut pair, 8, b"7\r");
    pair.expect(SEND, OVER);
    lines(&mut pair, 6, b"8");
    pair.expect(SEND, out(0, 55));
    pair.expect(frame(0, 55), out(0, 13));
    pair.expect(frame(0, 13), OVER);
    println!("cut end of line: {} answers as written", pair.asked());
}

#[test]
fn end_of_line_cut_by_a_full_store() {
    let mut pair = talker(4, 1);
    // The LF is lost, so the 5 is no end byte any more; the status byte tells of it.
    lines(&mut pair, 4, b"2.5\r\n");
    pair.expect(SEND_STATUS, out(0, 0b0010_1111));
    pair.expect(frame(0, 0b0010_1111), OVER);
    pair.expect(SEND, out(0, 50));
    pair.expect(frame(0, 50), out(0, 46));
    pair.expect(frame(0, 46), OVER);
    lines(&mut pair, 2, b"9");
    pair.expect(SEND, out(0, 53));
    pair.expect(frame(0, 53), out(0, 13));
    println!(
        "end of line cut by a full store: {} answers as written",
        pair.asked()
    );
}

/// A talker with a full receive store that has lost one byte.
fn lost_one() -> Pair {
    let mut pair = talker(4, 1);
    lines(&mut pair, 4, b"01234");
    pair
}

/// Its status byte: overrun, receive full and not empty, transmit not full and empty.
const LOST_ONE: u32 = 0b0010_1111;

#[test]
fn every_damage_while_the_status_byte_is_under_way() {
    let (mut damaged, mut unchanged) = (0, 0);
    for back in 0..1024 {
        let mut pair = lost_one();
        pair.expect(SEND_STATUS, out(0, LOST_ONE.into()));
        // Control 1 is the same with another device's service request.
        if back == LOST_ONE || back == 256 + LOST_ONE {
            pair.expect(Call::Frame(back), OVER);
            pair.expect(SEND_STATUS, out(0, 0b0000_1111));
            unchanged += 1;
        } else {
            pair.expect(Call::Frame(back), DAMAGED);
            pair.expect(SEND_STATUS, out(0, LOST_ONE.into()));
            damaged += 1;
        }
    }
    assert_eq!((damaged, unchanged), (1022, 2));
    println!("status under way: {damaged} damages kept the bit, {unchanged} returns cleared it");
}

#[test]
fn loss_and_commands_while_the_status_byte_is_under_way() {
    // A byte lost in between: the return is unchanged, the bit stays.
    let mut pair = lost_one();
    pair.expect(SEND_STATUS, out(0, LOST_ONE.into()));
    lines(&mut pair, 0, b"5");
    pair.expect(frame(0, LOST_ONE), OVER);
    pair.expect(SEND_STATUS, out(0, LOST_ONE.into()));
    pair.expect(frame(0, LOST_ONE), OVER);
    pair.expect(SEND_STATUS, out(0, 0b0000_1111));
    // Any command: the status byte is forgotten, passes when it comes round, and the bit stays.
    let mut forgotten = 0;
    for command in (0..256).filter(|&command| command != 20) {
        let mut pair = lost_one();
        pair.expect(SEND_STATUS, out(0, LOST_ONE.into()));
        pair.expect(frame(4, command), out(4, command.into()));
        // One of them makes the bridge listener, which also stores what passes.
        let room = [3, 2][usize::from(command == 33)];
        let passed = with_room(room, framed(0, LOST_ONE.into()));
        pair.expect(frame(0, LOST_ONE), passed);
        assert!(pair.state().expect("a state").overrun_seen);
        forgotten += 1;
    }
    println!("status under way: 1 loss in between, {forgotten} times forgotten by a command");
}

/// The moves of three parties, each of which keeps its own order.
#[derive(Clone, Copy)]
enum Move {
    Meter,
    Loop,
    Key,
}

/// Calls `each` with every order of so many moves of each party.
fn every_order(left: [usize; 3], order: &mut Vec<Move>, each: &mut dyn FnMut(&[Move])) {
    if left == [0; 3] {
        return each(order);
    }
    for (party, next) in [Move::Meter, Move::Loop, Move::Key].into_iter().enumerate() {
        if left[party] > 0 {
            let mut less = left;
            less[party] -= 1;
            order.push(next);
            every_order(less, order, each);
            order.pop();
        }
    }
}

/// One move of the loop: asks for data, or returns the frame under way. Data frames are heard.
fn turn(pair: &mut Pair, heard: &mut Vec<u64>) -> bool {
    let under_way = heard
        .last()
        .filter(|_| pair.state().map_or(0, |s| s.talker) == 2);
    let call = under_way.map_or(SEND, |&frame| Call::Frame(frame as u32 & 0x7ff));
    let answer = pair
        .call(call)
        .unwrap_or_else(|finding| panic!("{finding}"));
    if answer != OVER {
        heard.push(answer);
    }
    answer != OVER
}

#[test]
fn every_order_of_meter_bytes_loop_frames_and_key_presses() {
    let (mut orders, mut whole, mut told) = (0, 0, 0);
    for (rx_len, margin) in [(4, 1), (8, 3)] {
        every_order([5, 5, 1], &mut Vec::new(), &mut |order| {
            let mut pair = talker(rx_len, margin);
            let (mut meter, mut heard) = (b"2.5\r\n".iter(), Vec::new());
            for next in order {
                match next {
                    Move::Meter => {
                        let held = pair.state().expect("a state").receive.held;
                        lines(&mut pair, rx_len - held, &[*meter.next().expect("5 bytes")]);
                    }
                    Move::Loop => drop(turn(&mut pair, &mut heard)),
                    Move::Key => pair.expect(Key, DONE),
                }
            }
            while turn(&mut pair, &mut heard) {}
            // Only five bytes into four places can lose one, the last; then the bit is set.
            let all = [out(0, 50), out(0, 46), out(2, 53)];
            let state = pair.state().expect("a state");
            assert!(state.key_seen && state.overrun_seen == (state.lost > 0));
            assert_eq!(heard == all, state.lost == 0, "{}", pair.script());
            orders += 1;
            whole += usize::from(heard == all);
            told += usize::from(state.overrun_seen);
        });
    }
    assert!(whole + told == orders && told > 0);
    println!("every order: {orders} orders, {whole} whole readings, {told} losses told");
}
