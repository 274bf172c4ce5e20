//! The fields of a state are where the archive keeps them: each call changes the fields it should.

use raftershim::{
    Address, Bridge, Frame, HeldByte, LineByte, Refusal, Register, Registers, Side, State, Stores,
    Talker,
};

type Fixed = Bridge<[u16; 600], [u8; 300]>;
type Field = fn(&mut Registers) -> &mut u8;

fn fresh() -> Fixed {
    let stores = Stores {
        receive: [0; 600],
        transmit: [0; 300],
    };
    Bridge::create(stores, 280).unwrap()
}

fn state(bridge: &Fixed) -> State {
    bridge.state().unwrap()
}

/// Takes a byte from the line, which becomes this.
fn line_byte(bridge: &mut Fixed, byte: u8, becomes: LineByte) {
    assert_eq!(bridge.line_byte(byte), Ok(becomes));
}

/// The loop offers this frame, and this one goes on.
fn frame_taken(bridge: &mut Fixed, taken: (u8, u8), out: (u8, u8)) {
    let answered = bridge.loop_frame(frame(taken));
    assert_eq!(answered, Ok(frame(out)));
}

/// This line byte is next, is sent and taken.
fn goes_out(bridge: &mut Fixed, byte: u8) {
    let next = bridge.ask_line_byte().unwrap().unwrap();
    assert_eq!(next.byte(), byte);
    assert_eq!(next.take(), Ok(()));
}

fn frame((control, data): (u8, u8)) -> Frame {
    Frame::new(control, data).unwrap()
}

#[test]
fn a_fresh_bridge_has_the_start_values() {
    let mut used = fresh();
    let start = state(&used);
    let sizes = (start.receive_len, start.transmit_len, start.margin);
    assert_eq!(sizes, (600, 300, 280));
    let values = Register::ALL.map(|register| start.registers.get(register));
    assert_eq!(values, [0, 0, 0, 0, 8, 13, 10, 13, 10, 17, 19]);
    assert_eq!((start.address, start.talker), (None, Talker::Not));
    assert_eq!((start.under_way, start.finishing), (None, false));
    let roles = [start.listener, start.remote_enabled, start.remote];
    let line = [start.holding, start.forbidden, start.stop_sent_last];
    let seen = [start.seen_break, start.seen_overrun, start.seen_key];
    let again = [start.again_break, start.again_overrun, start.again_key];
    assert_eq!([roles, line, seen, again], [[false; 3]; 4]);
    for ring in [start.receive, start.transmit] {
        assert_eq!((ring.oldest, ring.held), (0, 0));
    }
    assert_eq!((start.stored, start.lost, start.sent), (0, 0, 0));
    assert!(!start.request);
    used.key().unwrap();
    line_byte(&mut used, 50, LineByte::Stored);
    assert_ne!(state(&used), start);
    used.reset().unwrap();
    assert_eq!(state(&used), start);
}

#[test]
fn each_register_has_its_number_and_its_field() {
    let fields: [(Register, Field); 11] = [
        (Register::R00, |registers| &mut registers.r00),
        (Register::R01, |registers| &mut registers.r01),
        (Register::R02, |registers| &mut registers.r02),
        (Register::R10, |registers| &mut registers.r10),
        (Register::R11, |registers| &mut registers.r11),
        (Register::C00, |registers| &mut registers.c00),
        (Register::C01, |registers| &mut registers.c01),
        (Register::C02, |registers| &mut registers.c02),
        (Register::C03, |registers| &mut registers.c03),
        (Register::C04, |registers| &mut registers.c04),
        (Register::C05, |registers| &mut registers.c05),
    ];
    // Each value is another one, so that no register is mistaken for another.
    let values = [9, 15, 5, 12, 0, 100, 101, 102, 103, 104, 105];
    let mut bridge = fresh();
    let mut expected = state(&bridge).registers;
    for ((register, field), value) in fields.into_iter().zip(values) {
        bridge.write_register(register, value).unwrap();
        *field(&mut expected) = value;
        assert_eq!(state(&bridge).registers, expected, "{register}");
        assert_eq!(expected.get(register), value);
    }
}

#[test]
fn the_role_follows_the_loop() {
    let mut bridge = fresh();
    let mut expected = state(&bridge);
    frame_taken(&mut bridge, (5, 129), (5, 130));
    expected.address = Some(Address::FIRST);
    assert_eq!(state(&bridge), expected);
    frame_taken(&mut bridge, (4, 146), (4, 146));
    expected.remote_enabled = true;
    assert_eq!(state(&bridge), expected);
    frame_taken(&mut bridge, (4, 33), (4, 33));
    (expected.listener, expected.remote) = (true, true);
    assert_eq!(state(&bridge), expected);
    frame_taken(&mut bridge, (4, 65), (4, 65));
    (expected.listener, expected.talker) = (false, Talker::Addressed);
    assert_eq!(state(&bridge), expected);
}

#[test]
fn sending_moves_the_frame_under_way_the_ring_and_the_count() {
    let mut bridge = fresh();
    frame_taken(&mut bridge, (5, 129), (5, 130));
    frame_taken(&mut bridge, (4, 65), (4, 65));
    bridge.write_register(Register::R10, 8).unwrap();
    for byte in *b"2\r\n5\r\n" {
        line_byte(&mut bridge, byte, LineByte::Stored);
    }
    let mut expected = state(&bridge);
    assert_eq!((expected.stored, expected.receive.held), (6, 6));
    frame_taken(&mut bridge, (5, 96), (2, 50));
    (expected.talker, expected.sent) = (Talker::Data, 1);
    expected.under_way = Some(Frame::end_byte(50));
    (expected.receive.oldest, expected.receive.held) = (3, 3);
    assert_eq!(state(&bridge), expected);
    frame_taken(&mut bridge, (5, 66), (5, 66));
    expected.finishing = true;
    assert_eq!(state(&bridge), expected);
    frame_taken(&mut bridge, (2, 50), (5, 64));
    (expected.talker, expected.under_way) = (Talker::Addressed, None);
    expected.finishing = false;
    assert_eq!(state(&bridge), expected);
    // Status: transmit empty and not full, receive not empty.
    frame_taken(&mut bridge, (5, 97), (0, 7));
    (expected.talker, expected.under_way) = (Talker::Status, Some(Frame::data_byte(7)));
    assert_eq!(state(&bridge), expected);
}

#[test]
fn a_listener_fills_the_transmit_store_and_the_line_empties_it() {
    let mut bridge = fresh();
    frame_taken(&mut bridge, (5, 129), (5, 130));
    frame_taken(&mut bridge, (4, 33), (4, 33));
    for _ in 0..260 {
        frame_taken(&mut bridge, (0, 65), (0, 65));
    }
    let mut expected = state(&bridge);
    assert_eq!((expected.transmit.oldest, expected.transmit.held), (0, 260));
    assert_eq!(bridge.room(Side::Transmit), Ok(40));
    for _ in 0..258 {
        goes_out(&mut bridge, 65);
    }
    (expected.transmit.oldest, expected.transmit.held) = (258, 2);
    assert_eq!(state(&bridge), expected);
}

#[test]
fn the_line_is_held_off_and_losses_are_counted() {
    let mut bridge = fresh();
    for _ in 0..319 {
        line_byte(&mut bridge, 50, LineByte::Stored);
    }
    let mut expected = state(&bridge);
    assert_eq!((expected.stored, expected.holding), (319, false));
    line_byte(&mut bridge, 50, LineByte::Stored);
    (expected.stored, expected.receive.held, expected.holding) = (320, 320, true);
    assert_eq!(state(&bridge), expected);
    goes_out(&mut bridge, 19);
    expected.stop_sent_last = true;
    assert_eq!(state(&bridge), expected);
    line_byte(&mut bridge, 19, LineByte::Stop);
    expected.forbidden = true;
    assert_eq!(state(&bridge), expected);
    line_byte(&mut bridge, 17, LineByte::Go);
    expected.forbidden = false;
    assert_eq!(state(&bridge), expected);
    for _ in 320..600 {
        line_byte(&mut bridge, 50, LineByte::Stored);
    }
    for _ in 600..900 {
        line_byte(&mut bridge, 50, LineByte::Lost);
    }
    (expected.stored, expected.receive.held, expected.lost) = (600, 600, 300);
    (expected.seen_overrun, expected.again_overrun) = (true, true);
    assert_eq!(state(&bridge), expected);
}

#[test]
fn breaks_and_keys_are_noted_until_told() {
    let mut bridge = fresh();
    let mut expected = state(&bridge);
    bridge.line_break().unwrap();
    (expected.seen_break, expected.again_break) = (true, true);
    assert_eq!(state(&bridge), expected);
    bridge.write_register(Register::R02, 4).unwrap();
    bridge.key().unwrap();
    expected.registers.r02 = 4;
    (expected.seen_key, expected.again_key, expected.request) = (true, true, true);
    assert_eq!(state(&bridge), expected);
    frame_taken(&mut bridge, (5, 129), (5, 130));
    frame_taken(&mut bridge, (4, 65), (4, 65));
    // Status: transmit empty and not full, break, key. R00 hides the request.
    frame_taken(&mut bridge, (5, 97), (0, 147));
    (expected.address, expected.talker) = (Some(Address::FIRST), Talker::Status);
    expected.under_way = Some(Frame::data_byte(147));
    (expected.again_break, expected.again_key, expected.request) = (false, false, false);
    assert_eq!(state(&bridge), expected);
    frame_taken(&mut bridge, (0, 147), (5, 64));
    (expected.talker, expected.under_way) = (Talker::Addressed, None);
    (expected.seen_break, expected.seen_key) = (false, false);
    assert_eq!(state(&bridge), expected);
}

#[test]
fn every_byte_of_a_block_but_the_version_belongs_to_a_field() {
    // What fits with one byte changed is another state, field by field.
    let (saved, stores) = fresh().into_parts();
    let mut states = vec![state(&fresh())];
    for place in 1..saved.as_bytes().len() {
        for value in 0..=u8::MAX {
            let mut block = *saved.as_bytes();
            if std::mem::replace(&mut block[place], value) == value {
                continue;
            }
            let changed = block.as_slice().try_into().unwrap();
            match Bridge::restore(changed, stores) {
                Err(refusal) => assert_eq!(refusal, Refusal::MISFIT),
                Ok(bridge) => states.push(state(&bridge)),
            }
        }
    }
    // The frame under way is none while nobody talks, so its bytes, up to 3,255, say nothing here.
    let idle = states.iter().filter(|&&other| other == states[0]).count();
    let different: std::collections::HashSet<_> = states.iter().collect();
    assert_eq!((idle, states.len() - different.len()), (259, 258));
}

#[test]
fn counts_are_read_low_byte_first() {
    let (saved, stores) = fresh().into_parts();
    let mut block = *saved.as_bytes();
    for (place, byte) in block.iter_mut().enumerate().take(27).skip(15) {
        *byte = place as u8;
    }
    let counted = Bridge::restore(block.as_slice().try_into().unwrap(), stores);
    let counts = state(&counted.unwrap());
    let expected = (0x1211_100F, 0x1615_1413, 0x1A19_1817);
    assert_eq!((counts.stored, counts.lost, counts.sent), expected);
}

#[test]
fn a_byte_is_told_as_stored_or_lost_where_the_counts_come_round() {
    let (saved, stores) = fresh().into_parts();
    let mut block = *saved.as_bytes();
    block[15..27].fill(255);
    let counted = Bridge::restore(block.as_slice().try_into().unwrap(), stores);
    let mut bridge = counted.unwrap();
    line_byte(&mut bridge, 50, LineByte::Stored);
    assert_eq!(state(&bridge).stored, 0);
    for _ in 1..600 {
        line_byte(&mut bridge, 50, LineByte::Stored);
    }
    line_byte(&mut bridge, 50, LineByte::Lost);
    assert_eq!((state(&bridge).stored, state(&bridge).lost), (599, 0));
}

#[test]
fn a_saved_bridge_goes_on_where_it_was() {
    let mut bridge = fresh();
    line_byte(&mut bridge, 50, LineByte::Stored);
    let (saved, stores) = bridge.clone().into_parts();
    let mut restored = Bridge::restore(saved, stores).unwrap();
    assert_eq!(restored, bridge);
    line_byte(&mut restored, 46, LineByte::Stored);
    assert!(restored.show_receive().eq([50, 46].map(HeldByte::from)));
    assert!(bridge.show_receive().eq([50].map(HeldByte::from)));
}

#[test]
fn long_stores_are_not_printed() {
    let bridge = fresh();
    let said = format!(
        "{bridge:?} {:?} {:?}",
        bridge.saved(),
        bridge.clone().into_parts().1
    );
    assert!(said.len() < 1500, "{} characters", said.len());
    assert!(said.contains("receive_len: 600"));
}
