//! What goes out on the line: asking changes nothing, a byte is gone when it is taken, and a port
//! that fails loses nothing.

use raftershim::{
    raw, Address, Answer, Bridge, Frame, LineByte, Meter, NextLineByte, Notes, Reading, Refusal,
    Register, Stores, BLOCK_LEN,
};
use std::cell::Cell;
use std::rc::Rc;

type Small = Bridge<[u16; 4], [u8; 3]>;

/// A bridge that holds these bytes for the line.
fn waiting(bytes: &[u8]) -> Small {
    let stores = Stores {
        receive: [0; 4],
        transmit: [0; 3],
    };
    let mut bridge = Bridge::create(stores, 1).unwrap();
    let address = Address::FIRST;
    for frame in [Frame::auto_address(address), Frame::listen_address(address)] {
        bridge.loop_frame(frame).unwrap();
    }
    for &byte in bytes {
        bridge.loop_frame(Frame::data_byte(byte)).unwrap();
    }
    bridge
}

/// Bytes from the line, until a stop is due.
fn filled(mut bridge: Small) -> Small {
    for byte in *b"123" {
        assert_eq!(bridge.line_byte(byte), Ok(LineByte::Stored));
    }
    bridge
}

/// The byte that is next, if there is one.
fn next(bridge: &mut Small) -> Option<u8> {
    let next = bridge.ask_line_byte().unwrap();
    next.map(|next| next.byte())
}

/// A port that fails as often as it is told to.
#[derive(Default)]
struct Port {
    fails: usize,
    sent: Vec<u8>,
}

impl Port {
    /// Sends a byte and takes it, or fails.
    fn send(&mut self, next: NextLineByte<[u16; 4], [u8; 3]>) -> Result<(), Refusal> {
        match self.fails.checked_sub(1) {
            Some(fails) => {
                self.fails = fails;
                Ok(())
            }
            None => {
                self.sent.push(next.byte());
                next.take()
            }
        }
    }
}

#[test]
fn asking_changes_nothing() {
    for mut bridge in [
        waiting(b""),
        waiting(b"AB"),
        filled(waiting(b"")),
        filled(waiting(b"AB")),
    ] {
        let was = bridge.clone();
        let first = next(&mut bridge);
        assert_eq!(next(&mut bridge), first);
        assert_eq!(bridge, was);
    }
}

#[test]
fn a_port_that_fails_loses_nothing_and_sends_nothing_twice() {
    for fails in 0..5 {
        let mut bridge = filled(waiting(b"ABC"));
        let mut port = Port {
            fails,
            ..Port::default()
        };
        while let Some(next) = bridge.ask_line_byte().unwrap() {
            port.send(next).unwrap();
        }
        assert_eq!(port.sent, b"\x13ABC", "{fails} failures");
        assert!(bridge.show_transmit().is_empty());
        assert!(bridge.state().unwrap().stop_sent_last);
    }
}

#[test]
fn a_stop_that_becomes_due_between_two_tries_goes_first() {
    let mut bridge = waiting(b"AB");
    assert_eq!(next(&mut bridge), Some(b'A'));
    let mut bridge = filled(bridge);
    let mut port = Port::default();
    while let Some(next) = bridge.ask_line_byte().unwrap() {
        port.send(next).unwrap();
    }
    assert_eq!(port.sent, b"\x13AB");
}

#[test]
fn what_is_owed_goes_before_an_equal_byte_that_is_held() {
    let mut bridge = filled(waiting(&[19, 65]));
    for held in [[19, 65].as_slice(), &[65], &[]] {
        let next = bridge.ask_line_byte().unwrap().unwrap();
        assert_eq!(next.byte(), if held.is_empty() { 65 } else { 19 });
        next.take().unwrap();
        assert_eq!(bridge.show_transmit(), held);
        assert!(bridge.state().unwrap().stop_sent_last);
    }
    assert_eq!(next(&mut bridge), None);
}

#[test]
fn a_dropped_byte_stays() {
    let mut bridge = waiting(b"A");
    let was = bridge.clone();
    drop(bridge.ask_line_byte());
    assert_eq!(bridge, was);
    assert_eq!(next(&mut bridge), Some(b'A'));
    let said = format!("{:?}", bridge.ask_line_byte());
    assert_eq!(said, "Ok(Some(NextLineByte(65)))");
}

#[test]
fn a_meter_that_is_held_off_gets_its_go_though_the_port_fails() {
    let stores = Stores {
        receive: [0; 8],
        transmit: [0; 3],
    };
    let notes = Notes {
        gaps: [0; 1],
        text: [0; 8],
    };
    let mut meter = Meter::create(stores, notes, 3).unwrap();
    assert_eq!(meter.line_bytes(b"2.5\r\n"), Ok(0));
    // The port fails at the stop, and then sends it.
    for taken in [false, true] {
        let next = meter.ask_line_byte().unwrap().unwrap();
        assert_eq!(next.byte(), 19);
        if taken {
            next.take().unwrap();
        }
    }
    assert!(matches!(meter.reading(), Ok(Reading::Whole(_))));
    for taken in [false, true] {
        let next = meter.ask_line_byte().unwrap().unwrap();
        assert_eq!(next.byte(), 17);
        if taken {
            next.take().unwrap();
        }
    }
    assert!(meter.ask_line_byte().unwrap().is_none());
}

/// A transmit store that lends as many of its bytes as its owner says at the moment.
struct Shrinking(Vec<u8>, Rc<Cell<usize>>);

impl AsRef<[u8]> for Shrinking {
    fn as_ref(&self) -> &[u8] {
        &self.0[..self.1.get()]
    }
}

impl AsMut<[u8]> for Shrinking {
    fn as_mut(&mut self) -> &mut [u8] {
        &mut self.0[..self.1.get()]
    }
}

#[test]
fn a_take_is_refused_only_where_a_store_lends_another_length() {
    let length = Rc::new(Cell::new(3));
    let stores = Stores {
        receive: [0; 4],
        transmit: Shrinking(vec![0; 4], Rc::clone(&length)),
    };
    let mut bridge = Bridge::create(stores, 1).unwrap();
    for byte in *b"123" {
        assert_eq!(bridge.line_byte(byte), Ok(LineByte::Stored));
    }
    for other in [0, 2, 4] {
        length.set(3);
        let next = bridge.ask_line_byte().unwrap().unwrap();
        length.set(other);
        assert_eq!(next.take(), Err(Refusal::MISFIT), "{other}");
        assert_eq!(bridge.ask_line_byte().err(), Some(Refusal::MISFIT));
    }
    // The stop was not taken, and is still owed.
    length.set(3);
    let next = bridge.ask_line_byte().unwrap().unwrap();
    assert_eq!((next.byte(), next.take()), (19, Ok(())));
}

#[test]
fn the_words_of_the_two_functions() {
    let (mut block, rx, mut tx) = ([0; BLOCK_LEN], [0; 4], [0; 3]);
    let (b, r, t) = (block.as_mut_ptr(), rx.as_ptr(), tx.as_mut_ptr());
    // SAFETY: the three are separate arrays of these lengths.
    let ask = || unsafe { raw::raftershim_ask_line_byte(b, 56, r, 4, t, 3) };
    // SAFETY: as above.
    let take = |byte| unsafe { raw::raftershim_take_line_byte(b, 56, r, 4, t, 3, byte) };
    assert_eq!([ask(), take(0)].map(Answer::of), [Err(Refusal::MISFIT); 2]);
    // SAFETY: as above.
    unsafe {
        raw::raftershim_create(b, 56, r, 4, t, 3, 1);
        for frame in [0x581, 0x421, 0x0FF] {
            raw::raftershim_loop_frame(b, 56, r, 4, t, 3, frame);
        }
    }
    assert_eq!(Answer::of(take(254)), Err(Refusal::NOT_NEXT));
    assert_eq!([ask(), ask()], [0x2_00FF; 2]);
    assert_eq!([take(255), ask(), take(255)], [0, 0x1_0000, 0x4_000C]);
}

/// A stop or go that was sent and taken is recorded, whatever characters they are.
#[test]
fn other_characters_for_go_and_stop() {
    let mut bridge = waiting(b"");
    bridge.write_register(Register::C05, b'S').unwrap();
    bridge.write_register(Register::C04, b'G').unwrap();
    let mut bridge = filled(bridge);
    let next = bridge.ask_line_byte().unwrap().unwrap();
    assert_eq!((next.byte(), next.take()), (b'S', Ok(())));
    bridge.loop_frame(Frame::DEVICE_CLEAR).unwrap();
    let next = bridge.ask_line_byte().unwrap().unwrap();
    assert_eq!((next.byte(), next.take()), (b'G', Ok(())));
    assert!(bridge.ask_line_byte().unwrap().is_none());
}
