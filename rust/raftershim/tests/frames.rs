//! Frames, addresses, registers and the status byte have the numbers and the words of the rules.

use raftershim::{Address, Frame, Refusal, Register, StatusByte};

#[test]
fn frames_come_apart_as_they_were_put_together() {
    let mut frames = 0;
    for control in 0..=u8::MAX {
        for data in 0..=u8::MAX {
            let number = u16::from(control) * 256 + u16::from(data);
            let frame = Frame::new(control, data);
            assert_eq!(Frame::try_from(number), frame);
            assert_eq!(Frame::try_from(u32::from(number)), frame);
            match frame {
                Ok(frame) => {
                    frames += 1;
                    assert_eq!((frame.control(), frame.data()), (control, data));
                    assert_eq!(u16::from(frame), number);
                    assert_eq!(u32::from(frame), u32::from(number));
                    assert_eq!(frame.to_string(), format!("{control},{data}"));
                }
                Err(refusal) => {
                    assert!(control > 7);
                    assert_eq!(refusal, Refusal::FRAME_TOO_LARGE);
                }
            }
        }
    }
    assert_eq!(frames, 2048);
    for number in [65536, u32::MAX] {
        assert_eq!(Frame::try_from(number), Err(Refusal::FRAME_TOO_LARGE));
    }
}

#[test]
fn frames_have_the_kinds_of_their_control() {
    for control in 0..8 {
        let frame = Frame::new(control, 50).unwrap();
        assert_eq!(frame.is_data(), control < 4, "{frame}");
        assert_eq!(frame.is_end(), [2, 3].contains(&control), "{frame}");
        assert_eq!(frame.is_command(), control == 4, "{frame}");
        assert_eq!(
            frame.asks_service(),
            [1, 3, 7].contains(&control),
            "{frame}"
        );
    }
}

#[test]
fn named_frames_have_their_numbers() {
    let last = Address::new(30).unwrap();
    let named = [
        (Frame::SEND_DATA, "5,96"),
        (Frame::SEND_STATUS, "5,97"),
        (Frame::NOT_READY, "5,66"),
        (Frame::END_OF_TRANSMISSION, "5,64"),
        (Frame::TRANSMISSION_ERROR, "5,65"),
        (Frame::ENABLE_NOT_READY, "4,15"),
        (Frame::DEVICE_CLEAR, "4,20"),
        (Frame::INTERFACE_CLEAR, "4,144"),
        (Frame::UNTALK, "4,95"),
        (Frame::UNLISTEN, "4,63"),
        (Frame::talk_address(last), "4,94"),
        (Frame::listen_address(last), "4,62"),
        (Frame::auto_address(last), "5,158"),
        (Frame::data_byte(255), "0,255"),
        (Frame::end_byte(0), "2,0"),
    ];
    for (frame, text) in named {
        assert_eq!(frame.to_string(), text);
        assert_eq!(format!("{frame:?}"), format!("Frame({text})"));
    }
}

#[test]
fn addresses_are_0_to_30() {
    for number in 0..=u8::MAX {
        let address = Address::new(number).map(Address::number);
        assert_eq!(address, (number <= 30).then_some(number));
    }
}

#[test]
fn registers_have_their_numbers_and_names() {
    let carried = [0, 1, 2, 10, 11, 16, 17, 18, 19, 20, 21];
    assert_eq!(Register::ALL.map(Register::number), carried);
    for number in (0..300).chain([u32::MAX]) {
        let found = Register::try_from(number).map(Register::number);
        let expected = carried.contains(&number).then_some(number);
        assert_eq!(found, expected.ok_or(Refusal::NOT_CARRIED));
    }
    let names = Register::ALL.map(|register| register.to_string());
    let expected = "R00 R01 R02 R10 R11 C00 C01 C02 C03 C04 C05";
    assert_eq!(names.join(" "), expected);
}

#[test]
fn the_status_byte_says_each_bit_by_itself() {
    let words = [
        "transmit store empty",
        "transmit store not full",
        "receive store not empty",
        "receive store full",
        "break",
        "overrun",
        "service requested",
        "MSRQ key pressed",
    ];
    for (bit, words) in words.into_iter().enumerate() {
        let status = StatusByte::from(1 << bit);
        assert_eq!(status.to_string(), words);
        assert!(status.has(1 << bit) && !status.has(255));
    }
    assert_eq!(StatusByte::from(255).to_string(), words.join(", "));
    assert_eq!(StatusByte::default().to_string(), "no bit set");
    for byte in 0..=u8::MAX {
        assert_eq!(u8::from(StatusByte::from(byte)), byte);
    }
}
