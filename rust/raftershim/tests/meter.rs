//! A meter beside its readings: how it starts, what it notes, and what it says of itself.

use raftershim::{
    Address, Bridge, Frame, LineByte, Meter, Notes, Reading, Refusal, Register, Size, Stores,
    Talker,
};

type Small = Meter<[u16; 8], [u8; 3], [u8; 1], [u8; 16]>;

const STORES: Stores<[u16; 8], [u8; 3]> = Stores {
    receive: [0; 8],
    transmit: [0; 3],
};

/// Buffers that hold anything.
const NOTES: Notes<[u8; 1], [u8; 16]> = Notes {
    gaps: [255; 1],
    text: [255; 16],
};

fn meter() -> Small {
    Meter::create(STORES, NOTES, 3).unwrap()
}

/// The next reading as a word and its text.
fn read(meter: &mut Small) -> String {
    match meter.reading().unwrap() {
        Reading::Whole(text) => format!("whole {text}"),
        Reading::Gap(text) => format!("gap {text}"),
        Reading::NotEnded(text) => format!("not ended {text}"),
        other => panic!("{other:?}"),
    }
}

/// The line byte that is next is sent and taken: this is it.
fn goes_out(meter: &mut Small) -> Option<u8> {
    let next = meter.ask_line_byte().unwrap()?;
    let byte = next.byte();
    next.take().unwrap();
    Some(byte)
}

/// A meter whose reading has begun with a "2" that is told.
fn with_a_reading_under_way() -> Small {
    let mut meter = meter();
    // A byte that may be an end byte is kept back while ends of lines are found.
    meter.write_register(Register::R10, 0).unwrap();
    assert_eq!(meter.line_bytes(b"2"), Ok(0));
    assert_eq!(read(&mut meter), "not ended 2");
    let finding = Register::R10_FIND_LINE_END;
    meter.write_register(Register::R10, finding).unwrap();
    meter
}

#[test]
fn a_reading_leaves_an_addressed_talker_and_no_frame_under_way() {
    let mut meter = meter();
    assert_eq!(meter.line_bytes(b"2\r\n5\r\n"), Ok(0));
    assert_eq!(read(&mut meter), "whole 2");
    let state = meter.bridge().state().unwrap();
    assert_eq!(state.address, Some(Address::FIRST));
    assert_eq!((state.talker, state.under_way), (Talker::Addressed, None));
    assert_eq!((state.receive.held, state.sent), (3, 1));
}

#[test]
fn an_address_that_the_loop_gave_is_kept() {
    let mut meter = meter();
    let seven = Address::new(7).unwrap();
    assert!(meter.loop_frame(Frame::auto_address(seven)).is_ok());
    assert_eq!(meter.line_bytes(b"2\r\n"), Ok(0));
    assert_eq!(read(&mut meter), "whole 2");
    assert_eq!(meter.bridge().state().unwrap().address, Some(seven));
}

#[test]
fn stop_is_owed_before_a_byte_is_lost_and_go_after_the_reading() {
    let mut meter = meter();
    assert_eq!(meter.line_bytes(b"2.5\r\n"), Ok(0));
    assert_eq!(goes_out(&mut meter), Some(19));
    assert_eq!(meter.line_byte(b'7'), Ok(LineByte::Stored));
    assert_eq!(read(&mut meter), "whole 2.5");
    assert_eq!(goes_out(&mut meter), Some(17));
    assert_eq!(goes_out(&mut meter), None);
}

#[test]
fn a_reset_finds_ends_of_lines_again() {
    let mut meter = meter();
    meter.write_register(Register::R10, 0).unwrap();
    meter.reset().unwrap();
    assert_eq!(meter.line_bytes(b"2\r\n"), Ok(0));
    assert_eq!(read(&mut meter), "whole 2");
}

#[test]
fn a_reset_cuts_one_reading_and_no_other() {
    let mut meter = meter();
    assert_eq!(meter.line_bytes(b"1\r\n2."), Ok(0));
    meter.reset().unwrap();
    assert_eq!(meter.line_bytes(b"5\r\n3\r\n"), Ok(0));
    assert_eq!(read(&mut meter), "gap 5");
    assert_eq!(read(&mut meter), "whole 3");
    assert_eq!(meter.line_bytes(b"4\r\n"), Ok(0));
    meter.reset().unwrap();
    assert_eq!(meter.line_bytes(b"5\r\n"), Ok(0));
    assert_eq!(read(&mut meter), "whole 5");
}

#[test]
fn a_byte_that_the_port_lost_is_missing_after_the_newest_that_came() {
    let mut meter = meter();
    // Before the first byte; after an end of line that is held; and within a reading that is held.
    assert_eq!(meter.line_gap(), Ok(()));
    assert_eq!(meter.line_bytes(b"1\r\n"), Ok(0));
    assert_eq!(read(&mut meter), "gap 1");
    assert_eq!(meter.line_bytes(b"2\r\n"), Ok(0));
    assert_eq!(meter.line_gap(), Ok(()));
    assert_eq!(meter.line_bytes(b"3\r\n"), Ok(0));
    assert_eq!([read(&mut meter), read(&mut meter)], ["whole 2", "gap 3"]);
    assert_eq!(meter.line_bytes(b"2"), Ok(0));
    assert_eq!(meter.line_gap(), Ok(()));
    assert_eq!(meter.line_bytes(b"5\r\n4\r\n"), Ok(0));
    assert_eq!([read(&mut meter), read(&mut meter)], ["gap 25", "whole 4"]);
    assert_eq!(meter.bridge().state().unwrap().lost, 0);
}

#[test]
fn a_byte_that_the_port_lost_when_all_is_read_is_missing_in_what_is_under_way() {
    let mut meter = with_a_reading_under_way();
    assert_eq!(meter.line_gap(), Ok(()));
    assert_eq!(meter.line_bytes(b"5\r\n"), Ok(0));
    assert_eq!(read(&mut meter), "gap 25");
    // The reading has ended and is told, so the next one lacks it.
    assert_eq!(meter.line_gap(), Ok(()));
    assert_eq!(meter.line_bytes(b"3\r\n4\r\n"), Ok(0));
    assert_eq!([read(&mut meter), read(&mut meter)], ["gap 3", "whole 4"]);
}

#[test]
fn a_reading_that_a_break_cuts_off_is_not_joined_with_the_next() {
    let mut meter = meter();
    // Within the text, between the two characters of the end of line, and before them.
    for (before, cut) in [("12", "gap 12"), ("12\r", "gap 12\r"), ("1", "gap 1")] {
        assert_eq!(meter.line_bytes(before.as_bytes()), Ok(0));
        assert_eq!(meter.line_break(), Ok(()));
        assert_eq!(meter.line_bytes(b"3.5\r\n"), Ok(0));
        assert_eq!([read(&mut meter), read(&mut meter)], [cut, "whole 3.5"]);
    }
    // The late line feed is a byte of the reading that it comes in.
    assert_eq!(meter.line_bytes(b"2\r"), Ok(0));
    assert_eq!(meter.line_break(), Ok(()));
    assert_eq!(meter.line_bytes(b"\n3\r\n"), Ok(0));
    assert_eq!(
        [read(&mut meter), read(&mut meter)],
        ["gap 2\r", "whole \n3"]
    );
}

#[test]
fn a_break_when_all_is_read_cuts_off_what_is_under_way() {
    let mut meter = with_a_reading_under_way();
    assert_eq!(meter.line_break(), Ok(()));
    assert_eq!(meter.line_bytes(b"5\r\n"), Ok(0));
    assert_eq!([read(&mut meter), read(&mut meter)], ["gap 2", "whole 5"]);
}

#[test]
fn a_break_between_two_readings_changes_neither() {
    let mut meter = meter();
    assert_eq!(meter.line_break(), Ok(()));
    assert_eq!(meter.line_bytes(b"1\r\n"), Ok(0));
    assert_eq!(meter.line_break(), Ok(()));
    assert_eq!(meter.line_break(), Ok(()));
    assert_eq!(meter.line_bytes(b"2\r\n"), Ok(0));
    assert_eq!([read(&mut meter), read(&mut meter)], ["whole 1", "whole 2"]);
    assert_eq!(meter.line_break(), Ok(()));
    assert_eq!(meter.line_bytes(b"3\r\n"), Ok(0));
    assert_eq!(read(&mut meter), "whole 3");
}

#[test]
fn a_byte_lost_before_a_break_is_of_what_is_cut_off_and_one_lost_after_it_of_the_next() {
    let mut meter = meter();
    assert_eq!(meter.line_bytes(b"1"), Ok(0));
    assert_eq!(meter.line_gap(), Ok(()));
    assert_eq!(meter.line_break(), Ok(()));
    assert_eq!(meter.line_bytes(b"2\r\n"), Ok(0));
    assert_eq!([read(&mut meter), read(&mut meter)], ["gap 1", "whole 2"]);
    // Nothing came of what is cut off here, so it is not told.
    assert_eq!(meter.line_bytes(b"3\r\n"), Ok(0));
    assert_eq!(meter.line_gap(), Ok(()));
    assert_eq!(meter.line_break(), Ok(()));
    assert_eq!(meter.line_bytes(b"4\r\n"), Ok(0));
    assert_eq!([read(&mut meter), read(&mut meter)], ["whole 3", "whole 4"]);
    assert_eq!(meter.line_bytes(b"5\r\n"), Ok(0));
    assert_eq!(meter.line_break(), Ok(()));
    assert_eq!(meter.line_gap(), Ok(()));
    assert_eq!(meter.line_bytes(b"6\r\n"), Ok(0));
    assert_eq!([read(&mut meter), read(&mut meter)], ["whole 5", "gap 6"]);
}

#[test]
fn a_reset_throws_away_what_a_break_cut_off() {
    let mut meter = meter();
    assert_eq!(meter.line_bytes(b"12"), Ok(0));
    assert_eq!(meter.line_break(), Ok(()));
    meter.reset().unwrap();
    assert_eq!(meter.line_bytes(b"3\r\n"), Ok(0));
    assert_eq!(read(&mut meter), "whole 3");
    assert_eq!(meter.line_bytes(b"4"), Ok(0));
    assert_eq!(meter.line_break(), Ok(()));
    assert_eq!(meter.line_bytes(b"5"), Ok(0));
    meter.reset().unwrap();
    assert_eq!(meter.line_bytes(b"6\r\n"), Ok(0));
    assert_eq!(read(&mut meter), "gap 6");
}

#[test]
fn a_stop_character_that_is_the_point_swallows_it_unsaid() {
    // So the manual has it, and the page of the registers warns of it.
    let mut meter = meter();
    meter.write_register(Register::C05, b'.').unwrap();
    assert_eq!(meter.line_bytes(b"2.5\r\n"), Ok(0));
    assert_eq!(read(&mut meter), "whole 25");
    meter.write_register(Register::R11, 0).unwrap();
    assert_eq!(meter.line_bytes(b"2.5\r\n"), Ok(0));
    assert_eq!(read(&mut meter), "whole 2.5");
}

#[test]
fn the_pair_is_changed_when_all_is_read() {
    let mut meter = meter();
    let change = |meter: &mut Small| meter.write_register(Register::C01, b';');
    assert_eq!(meter.line_bytes(b"2.5"), Ok(0));
    assert_eq!(change(&mut meter), Err(Refusal::HELD_BYTES));
    // The 5 waits for the end of its line, so it is held.
    assert_eq!(read(&mut meter), "not ended 2.");
    assert_eq!(change(&mut meter), Err(Refusal::HELD_BYTES));
    // No end of line will come: the reading is cut off, told, and then nothing is held.
    assert_eq!(meter.line_break(), Ok(()));
    assert_eq!(change(&mut meter), Err(Refusal::HELD_BYTES));
    assert_eq!(read(&mut meter), "gap 2.5");
    assert_eq!(change(&mut meter), Ok(()));
    assert_eq!(meter.line_bytes(b"7\r;"), Ok(0));
    assert_eq!(read(&mut meter), "whole 7");
}

#[test]
fn what_a_used_bridge_holds_is_told_as_gaps() {
    let mut bridge = Bridge::create(STORES, 3).unwrap();
    let finding = Register::R10_FIND_LINE_END;
    bridge.write_register(Register::R10, finding).unwrap();
    for byte in *b"1\r\n2\r\n3" {
        assert_eq!(bridge.line_byte(byte), Ok(LineByte::Stored));
    }
    let (saved, stores) = bridge.into_parts();
    let mut meter = Meter::of(Bridge::restore(saved, stores).unwrap(), NOTES).unwrap();
    assert_eq!(read(&mut meter), "gap 1");
    assert_eq!(read(&mut meter), "gap 2");
    assert_eq!(meter.line_bytes(b".5\r\n4\r\n"), Ok(0));
    assert_eq!(read(&mut meter), "gap 3.5");
    assert_eq!(read(&mut meter), "whole 4");
    assert_eq!(meter.into_bridge().state().unwrap().stored, 14);
}

#[test]
fn too_few_marks_are_refused_with_what_is_needed() {
    for (receive, least) in [(8, 1), (9, 2), (16, 2), (17, 3), (32768, 4096)] {
        let create = |gaps: usize| {
            let stores = Stores {
                receive: vec![0; receive],
                transmit: [0; 3],
            };
            let notes = Notes {
                gaps: vec![0; gaps],
                text: [0; 4],
            };
            Meter::create(stores, notes, 3).map(|_| ())
        };
        assert_eq!(create(least), Ok(()));
        let bad = create(least - 1).unwrap_err();
        assert_eq!(
            (bad.which, bad.given, bad.least),
            (Size::Gaps, least - 1, least)
        );
        let said = format!("is {}, and it must be at least {least}", least - 1);
        assert_eq!(
            bad.to_string(),
            format!("refusal 1: the length of the gap marks {said}")
        );
        assert_eq!(Refusal::from(bad), Refusal::SIZES);
    }
}

#[test]
fn a_size_of_the_bridge_is_refused_first() {
    let stores = Stores {
        receive: [0; 7],
        transmit: [0; 3],
    };
    let notes = Notes {
        gaps: [0; 0],
        text: [0; 4],
    };
    assert_eq!(
        Meter::create(stores, notes, 3).unwrap_err().which,
        Size::Receive
    );
}

#[test]
fn a_text_is_shown_as_characters_and_told_apart_in_debug() {
    let mut meter = meter();
    assert_eq!(meter.line_bytes(b"2\xb5\"A\r\n"), Ok(0));
    let reading = meter.reading().unwrap();
    assert_eq!(format!("{reading:?}"), r#"Whole(Text("2\xb5\"A"))"#);
    assert!(matches!(reading, Reading::Whole(text) if text.to_string() == "2\u{b5}\"A"));
    let said = format!("{meter:?} {NOTES:?}");
    assert!(said.len() < 1500 && said.contains("text_len: 16"), "{said}");
}
