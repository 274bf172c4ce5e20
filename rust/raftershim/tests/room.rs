//! The calls that tell the room say what those say that tell none, and the room that there is.

use raftershim::{
    raw, Address, Bridge, Frame, LineByte, Meter, Notes, Reading, Refusal, Register, Side, Stores,
    WithRoom, BLOCK_LEN,
};

type Small = Bridge<[u16; 6], [u8; 7]>;

fn small() -> Small {
    let stores = Stores {
        receive: [0; 6],
        transmit: [0; 7],
    };
    Bridge::create(stores, 2).unwrap()
}

/// The frame written "control,data".
fn frame(control: u8, data: u8) -> Frame {
    Frame::new(control, data).unwrap()
}

/// Offers a frame: what goes on, and the room that is told, which is the transmit store's.
fn offered(bridge: &mut Small, control: u8, data: u8) -> (String, u16) {
    let mut other = bridge.clone();
    let taken = bridge.loop_frame_and_room(frame(control, data)).unwrap();
    assert_eq!(other.loop_frame(frame(control, data)), Ok(taken.answer));
    assert_eq!(&other, bridge);
    assert_eq!(bridge.room(Side::Transmit), Ok(taken.room));
    (taken.answer.to_string(), taken.room)
}

#[test]
fn line_bytes_of_every_fate_tell_the_room() {
    let mut bridge = small();
    let fates = [
        (50, LineByte::Stored, 5),
        (17, LineByte::Go, 5),
        (19, LineByte::Stop, 5),
        (51, LineByte::Stored, 4),
        (52, LineByte::Stored, 3),
        (53, LineByte::Stored, 2),
        (54, LineByte::Stored, 1),
        (55, LineByte::Stored, 0),
        (56, LineByte::Lost, 0),
        (17, LineByte::Go, 0),
    ];
    for (byte, answer, room) in fates {
        let mut other = bridge.clone();
        let taken = bridge.line_byte_and_room(byte);
        assert_eq!(taken, Ok(WithRoom { answer, room }), "{byte}");
        assert_eq!(other.line_byte(byte), Ok(answer));
        assert_eq!(other, bridge);
        assert_eq!(bridge.room(Side::Receive), Ok(room));
    }
}

#[test]
fn frames_of_every_kind_tell_the_room() {
    let mut bridge = small();
    let add = Register::R10_ADD_LINE_END;
    bridge.write_register(Register::R10, add).unwrap();
    assert_eq!(bridge.line_byte(50), Ok(LineByte::Stored));
    // Control and data, what goes on, and the room.
    let steps = [
        (5, 129, "5,130", 7),
        (6, 0, "6,0", 7),
        (0, 65, "0,65", 7),
        (4, 33, "4,33", 7),
        (0, 65, "0,65", 6),
        (2, 66, "2,66", 3),
        (4, 65, "4,65", 3),
        (5, 96, "0,50", 3),
        (0, 50, "5,64", 3),
        (5, 97, "0,2", 3),
        (0, 3, "5,65", 3),
        (4, 20, "4,20", 7),
    ];
    for (control, data, out, room) in steps {
        let said = offered(&mut bridge, control, data);
        assert_eq!(said, (out.into(), room), "{control},{data}");
    }
}

#[test]
fn refusals_come_through_the_calls_with_room() {
    let mut bridge = small();
    bridge.loop_frame(frame(5, 129)).unwrap();
    bridge.loop_frame(frame(4, 33)).unwrap();
    for room in (0..7).rev() {
        assert_eq!(offered(&mut bridge, 0, 65).1, room);
    }
    let busy = bridge.loop_frame_and_room(frame(0, 65));
    assert_eq!(busy, Err(Refusal::BUSY));
    let stores = Stores {
        receive: vec![0; 6],
        transmit: Shrinking(vec![0; 7]),
    };
    let mut bridge = Bridge::create(stores, 2).unwrap();
    assert_eq!(bridge.line_byte_and_room(50).unwrap().room, 5);
    assert_eq!(bridge.line_byte_and_room(50), Err(Refusal::MISFIT));
}

#[test]
fn the_word_of_a_refused_call_is_its_number_alone() {
    let (mut block, mut rx, mut tx) = ([0; BLOCK_LEN], [0; 4], [0; 3]);
    let (b, r, t) = (block.as_mut_ptr(), rx.as_mut_ptr(), tx.as_mut_ptr());
    // SAFETY: the three are separate arrays, of these lengths or longer.
    let offer = |frame| unsafe { raw::raftershim_loop_frame(b, 56, r, 4, t, 3, frame) };
    // SAFETY: as above.
    let made = unsafe {
        let created = raw::raftershim_create(b, 56, r, 4, t, 3, 1);
        let added = raw::raftershim_write_register(b, 56, r, 4, t, 3, 10, 4);
        [created, added]
    };
    assert_eq!(made, [0, 0]);
    // An address, listen, and a byte that leaves room for two.
    let taken = [offer(0x581), offer(0x421), offer(0x041)];
    assert_eq!(taken.map(|word| word >> 32), [3, 3, 2]);
    // An end byte needs three places, no frame has this number, and the receive store is shorter.
    let refused = [offer(0x242), offer(0x800), unsafe {
        // SAFETY: the three are separate arrays, of these lengths or longer.
        raw::raftershim_line_byte(b, 56, r, 3, t, 3, 50)
    }];
    assert_eq!(refused, [4, 3, 2].map(|number| 4 * 65_536 + number));
}

/// A store that is a byte shorter from the third time on that it is lent for writing.
struct Shrinking(Vec<u8>);

impl AsRef<[u8]> for Shrinking {
    fn as_ref(&self) -> &[u8] {
        &self.0
    }
}

impl AsMut<[u8]> for Shrinking {
    fn as_mut(&mut self) -> &mut [u8] {
        let lent = self.0.len();
        // The first place counts how often it was lent: twice it is lent whole.
        if self.0[0] == 2 {
            self.0.truncate(lent - 1);
        }
        self.0[0] += 1;
        &mut self.0
    }
}

#[test]
fn no_bytes_ask_for_the_room_only_where_it_is_told() {
    let stores = Stores {
        receive: vec![0; 6],
        transmit: Shrinking(vec![0; 7]),
    };
    let notes = Notes {
        gaps: [0; 1],
        text: [0; 8],
    };
    let mut meter = Meter::create(stores, notes, 2).unwrap();
    assert_eq!(meter.line_bytes_and_room(b"").unwrap().room, 6);
    while meter.line_byte(17).is_ok() {}
    assert_eq!(meter.line_bytes_and_room(b""), Err(Refusal::MISFIT));
    assert_eq!(meter.line_bytes(b""), Ok(0));
}

#[test]
fn the_longest_stores_tell_their_whole_room() {
    let stores = Stores {
        receive: vec![0; 32_768],
        transmit: vec![0; 32_768],
    };
    let mut bridge = Bridge::create(stores, 1024).unwrap();
    assert_eq!(bridge.line_byte_and_room(17).unwrap().room, 32_768);
    assert_eq!(bridge.line_byte_and_room(50).unwrap().room, 32_767);
    let first = Frame::auto_address(Address::FIRST);
    assert_eq!(bridge.loop_frame_and_room(first).unwrap().room, 32_768);
}

#[test]
fn a_meter_tells_the_room_after_bytes_and_after_readings() {
    let stores = Stores {
        receive: [0; 8],
        transmit: [0; 4],
    };
    let notes = Notes {
        gaps: [0; 1],
        text: [0; 8],
    };
    let mut meter = Meter::create(stores, notes, 3).unwrap();
    let none = meter.line_bytes_and_room(b"").unwrap();
    assert_eq!((none.answer, none.room), (0, 8));
    let taken = meter.line_byte_and_room(b'7').unwrap();
    assert_eq!((taken.answer, taken.room), (LineByte::Stored, 7));
    let taken = meter.line_bytes_and_room(b"\r\n2.5\r\n9").unwrap();
    assert_eq!((taken.answer, taken.room), (1, 0));
    let mut heard = Vec::new();
    loop {
        let read = meter.reading_and_room().unwrap();
        let room = read.room;
        let text = match read.answer {
            Reading::Whole(text) => text.to_string(),
            Reading::Gap(text) => format!("{text} with a gap"),
            _ => break,
        };
        assert_eq!(meter.bridge().room(Side::Receive), Ok(room));
        heard.push((text, room));
    }
    assert_eq!(heard, [("7".into(), 3), ("2.5".into(), 8)]);
    // The lost 9 is missing in the reading that follows.
    assert_eq!(meter.line_bytes(b"5\r\n"), Ok(0));
    let read = meter.reading_and_room().unwrap();
    assert!(matches!(read.answer, Reading::Gap(_)) && read.room == 8);
    let listen = Frame::listen_address(Address::FIRST);
    assert_eq!(meter.loop_frame_and_room(listen).unwrap().room, 4);
    let byte = meter.loop_frame_and_room(Frame::data_byte(1)).unwrap();
    assert_eq!((byte.answer, byte.room), (Frame::data_byte(1), 3));
}
