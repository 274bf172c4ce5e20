//! Which byte is next, what a take leaves, and which refusal comes first, written from the request.

use raftershim_checks::answer::{byte, framed, refused, with_room, DONE, NONE};
use raftershim_checks::bridge::call::{frame, Call};
use raftershim_checks::bridge::frames::*;
use raftershim_checks::bridge::Pair;
use Call::{Ask, Line, Register, Reset, ShowTransmit, Take};

/// A listener on a receive store of 4 and a transmit store of 3 that these calls were made on.
fn listener(calls: &[Call]) -> Pair {
    let mut bridge = Pair::create(4, 3, 1);
    for &call in [ASSIGN, LISTEN].iter().chain(calls) {
        bridge.ask(call);
    }
    bridge
}

/// The same buffers, to be tried by themselves.
fn copy(bridge: &Pair) -> Pair {
    let (rx, tx) = bridge.buffers().stores();
    Pair::holding(bridge.buffers().block(), rx, tx)
}

/// Three bytes from the line make a stop due.
const FILLED: [Call; 3] = [Line(50), Line(50), Line(50)];
/// Two bytes from the loop wait for the line.
const DATA: [Call; 2] = [frame(0, 65), frame(0, 66)];

/// Every byte is named: this one is taken, and every other is refused with 12. Gives how many were
/// named.
fn only(bridge: &mut Pair, next: Option<u8>) -> usize {
    bridge.expect(Ask, next.map_or(NONE, byte));
    for named in 0..=255 {
        let due = [refused(12), DONE][usize::from(next == Some(named))];
        copy(bridge).expect(Take(named), due);
    }
    bridge.expect(Ask, next.map_or(NONE, byte));
    256
}

#[test]
fn the_byte_that_is_next_is_taken_and_no_other() {
    let stop_taken = [&FILLED[..], &[Take(19)]].concat();
    let rows: [(&[Call], Option<u8>); 11] = [
        (&[], None),
        (&DATA, Some(65)),
        // The other end forbids our sending, and permits it again.
        (&[DATA[0], DATA[1], Line(19)], None),
        (&[DATA[0], DATA[1], Line(19), Line(17)], Some(65)),
        // Our stop comes first, also while our sending is forbidden.
        (&FILLED, Some(19)),
        (&[&DATA[..], &FILLED, &[Line(19)]].concat(), Some(19)),
        (&[&DATA[..], &stop_taken].concat(), Some(65)),
        // Our go comes first too, after a device clear and with the protocol off.
        (&[&stop_taken[..], &[CLEAR]].concat(), Some(17)),
        (
            &[&stop_taken[..], &[Register(11, 0)], &DATA].concat(),
            Some(17),
        ),
        // The characters are those that the registers have now.
        (&[&FILLED[..], &[Register(21, 83)]].concat(), Some(83)),
        // After a reset nothing was sent.
        (&[&stop_taken[..], &[Reset]].concat(), None),
    ];
    let mut named = 0;
    for (calls, next) in rows {
        named += only(&mut listener(calls), next);
    }
    println!(
        "ask and take by hand: {} rows, {named} bytes named",
        rows.len()
    );
}

#[test]
fn what_is_owed_is_taken_before_an_equal_byte_that_waits() {
    let start = [&FILLED[..], &[frame(0, 19), frame(0, 17)]].concat();
    let mut bridge = listener(&start);
    only(&mut bridge, Some(19));
    bridge.expect(Take(19), DONE);
    bridge.expect(ShowTransmit, 2);
    only(&mut bridge, Some(19));
    bridge.expect(Take(19), DONE);
    bridge.expect(ShowTransmit, 1 << 32 | 1);
    // The go becomes due while an equal byte waits.
    bridge.expect(Register(11, 0), DONE);
    only(&mut bridge, Some(17));
    bridge.expect(Take(17), DONE);
    bridge.expect(ShowTransmit, 1 << 32 | 1);
    only(&mut bridge, Some(17));
    bridge.expect(Take(17), DONE);
    bridge.expect(ShowTransmit, 0);
    only(&mut bridge, None);
    println!(
        "ask and take by hand, equal bytes: {} answers",
        bridge.asked()
    );
}

#[test]
fn a_port_that_fails_loses_nothing_though_a_stop_becomes_due() {
    let mut bridge = listener(&DATA);
    for _ in 0..3 {
        bridge.expect(Ask, byte(65));
        bridge.expect(ShowTransmit, 2);
    }
    for (room, call) in [3, 2, 1].into_iter().zip(FILLED) {
        bridge.expect(call, with_room(room, DONE));
    }
    bridge.expect(Take(65), refused(12));
    bridge.expect(Ask, byte(19));
    bridge.expect(ShowTransmit, 2);
    for next in [19, 65, 66] {
        bridge.expect(Ask, byte(next));
        bridge.expect(Take(next), DONE);
    }
    bridge.expect(Ask, NONE);
    bridge.expect(Take(66), refused(12));
    println!("ask and take by hand, the port: {} answers", bridge.asked());
}

/// What a caller must not do: other calls come between an ask and its take.
#[test]
fn a_late_take_is_refused_and_nothing_is_recorded() {
    // The stop is on the line, and a clear ends holding off: no go will follow.
    let mut bridge = listener(&FILLED);
    bridge.expect(Ask, byte(19));
    bridge.expect(CLEAR, with_room(3, framed(4, 20)));
    bridge.expect(Take(19), refused(12));
    bridge.expect(Ask, NONE);
    // The go is on the line, and holding off begins again: no stop will follow.
    let stop_taken = [&FILLED[..], &[Take(19), CLEAR]].concat();
    let mut bridge = listener(&stop_taken);
    bridge.expect(Ask, byte(17));
    for call in FILLED {
        bridge.ask(call);
    }
    bridge.expect(Take(17), refused(12));
    bridge.expect(Ask, NONE);
    // The byte is on the line, and a stop becomes due: the byte goes out again.
    let mut bridge = listener(&DATA);
    bridge.expect(Ask, byte(65));
    for call in FILLED {
        bridge.ask(call);
    }
    bridge.expect(Take(65), refused(12));
    bridge.expect(Take(19), DONE);
    bridge.expect(Ask, byte(65));
    // The byte is on the line, and is thrown away.
    for call in [CLEAR, Reset] {
        let mut bridge = listener(&DATA);
        bridge.expect(Ask, byte(65));
        bridge.ask(call);
        bridge.expect(Take(65), refused(12));
        bridge.expect(Ask, NONE);
    }
}

#[test]
fn a_take_begins_a_request_and_an_ask_does_not() {
    // Transmit empty, and transmit not full, are enabled while they do not hold.
    for (held, enabled) in [(1, 1), (3, 2)] {
        let mut bridge = listener(&[DATA[0]].repeat(held));
        bridge.expect(Register(0, 8), DONE);
        bridge.expect(Register(1, enabled), DONE);
        let room = 3 - held;
        bridge.expect(Ask, byte(65));
        bridge.expect(Take(66), refused(12));
        bridge.expect(IDENTIFY, with_room(room, framed(6, 0)));
        bridge.expect(Take(65), DONE);
        bridge.expect(IDENTIFY, with_room(room + 1, framed(7, 0)));
    }
}

/// A block that does not fit is refused by 2, whether the byte named would be the next one or not.
#[test]
fn a_misfit_is_refused_first() {
    let good = listener(&DATA);
    let (rx, tx) = good.buffers().stores();
    let mut block = good.buffers().block().to_vec();
    let mut misfits = 0;
    // The version, the margin, a length, how many are held, the address, a flag, and go equal to
    // stop.
    for (place, value) in [(0, 2), (1, 2), (9, 4), (13, 4), (27, 32), (44, 2), (42, 19)] {
        let kept = std::mem::replace(&mut block[place], value);
        for call in [Ask, Take(65), Take(66), Take(19), Take(0)] {
            Pair::holding(&block, rx, tx).expect(call, refused(2));
            misfits += 1;
        }
        block[place] = kept;
    }
    only(&mut Pair::holding(&block, rx, tx), Some(65));
    println!("ask and take by hand: {misfits} refused 2");
}
