//! Words are read as the header describes them, and answers, refusals and frames say what they are.

use raftershim::{Answer, BusByte, Frame, LineByte, MailByte, Refusal};
use std::collections::HashSet;

fn frame(number: u16) -> Frame {
    Frame::try_from(number).unwrap()
}

/// The eleven refusals with their numbers and the sentences that a person hears.
const REFUSALS: [(u16, Refusal, &str); 11] = [
    (
        1,
        Refusal::SIZES,
        "refusal 1: a size or the address on the bus is broken, or the block has the wrong length",
    ),
    (
        2,
        Refusal::MISFIT,
        "refusal 2: the block is not a state that fits the stores",
    ),
    (
        3,
        Refusal::FRAME_TOO_LARGE,
        "refusal 3: the loop frame is above 2047",
    ),
    (
        4,
        Refusal::BUSY,
        "refusal 4: busy, the store lacks room for what the frame or the byte adds",
    ),
    (
        5,
        Refusal::NOT_CARRIED,
        "refusal 5: the register number is not carried",
    ),
    (
        6,
        Refusal::VALUE_TOO_LARGE,
        "refusal 6: the control value is above 15, or the character above 255",
    ),
    (
        7,
        Refusal::BIT_NOT_CARRIED,
        "refusal 7: the value has a control bit that is not carried",
    ),
    (
        8,
        Refusal::GO_IS_STOP,
        "refusal 8: the go and stop characters would be equal",
    ),
    (
        10,
        Refusal::HELD_BYTES,
        "refusal 10: held bytes, R10, C00 and C01 are written only while the receive store holds none",
    ),
    (
        12,
        Refusal::NOT_NEXT,
        "refusal 12: not next, another byte is next for the line, or none is",
    ),
    (
        13,
        Refusal::COMMAND_TOO_LARGE,
        "refusal 13: the command of the bus is above 127",
    ),
];

#[test]
fn words_of_the_header_are_read() {
    assert_eq!(Answer::of(0), Ok(Answer::Done));
    assert_eq!(Answer::of(1 << 16), Ok(Answer::None));
    assert_eq!(Answer::of(2 << 16), Ok(Answer::Byte(0)));
    assert_eq!(Answer::of(2 << 16 | 255), Ok(Answer::Byte(255)));
    assert_eq!(Answer::of(3 << 16), Ok(Answer::Frame(frame(0))));
    assert_eq!(Answer::of(3 << 16 | 2047), Ok(Answer::Frame(frame(2047))));
    for (number, refusal, _) in REFUSALS {
        let word = 4 << 16 | u64::from(number);
        assert_eq!(
            (Answer::of(word), Answer::of_mailbox(word)),
            (Err(refusal), Err(refusal))
        );
    }
}

#[test]
fn words_of_the_mailbox_are_read() {
    let byte = |byte, end| Ok(Answer::BusByte(MailByte { byte, end }));
    assert_eq!(Answer::of_mailbox(0), Ok(Answer::Done));
    assert_eq!(Answer::of_mailbox(1 << 16), Ok(Answer::NoBusByte));
    assert_eq!(Answer::of_mailbox(2 << 16 | 255), byte(255, false));
    assert_eq!(Answer::of_mailbox(2 << 16 | 256), byte(0, true));
    assert_eq!(Answer::of_mailbox(2 << 16 | 511), byte(255, true));
    assert_eq!(
        Answer::of_mailbox(3 << 16 | 2047),
        Ok(Answer::Frame(frame(2047)))
    );
    for (value, said) in [
        (0, "SRQ off, poll answer 0"),
        (4, "SRQ off, poll answer 4"),
        (256 | 128, "SRQ on, poll answer 128"),
    ] {
        let answer = Answer::of_mailbox(5 << 16 | value).unwrap();
        assert!(matches!(answer, Answer::Lines(lines) if lines.srq == (value > 255)));
        assert_eq!(answer.to_string(), said);
    }
}

#[test]
fn the_room_is_in_bits_32_to_47_and_nowhere_else() {
    let answers = [0, 3 << 16 | 2047, 4 << 16 | 4, 0xFFFF_FFFF];
    for answer in answers {
        for room in [0, 1, 255, 256, 32_768, 0xFFFF] {
            for reserved in [0, 1 << 48, 0xFFFF << 48] {
                let word = answer | u64::from(room) << 32 | reserved;
                assert_eq!(Answer::room_of(word), room, "word {word:#x}");
                assert_eq!(Answer::of(word), Answer::of(answer), "word {word:#x}");
            }
        }
    }
}

#[test]
fn reserved_bits_do_not_count() {
    let described = [0, 1 << 16, 2 << 16 | 50, 3 << 16 | 2047, 4 << 16 | 4];
    for word in described.into_iter().chain([1, 5 << 16]) {
        for reserved in [1 << 24, 1 << 32, 1 << 63, u64::MAX << 24] {
            for of in [Answer::of, Answer::of_mailbox] {
                assert_eq!(of(word | reserved), of(word), "word {word:#x}");
            }
        }
    }
}

#[test]
fn words_that_the_header_does_not_describe_are_no_answers() {
    let strange = [
        1,
        1 << 16 | 1,
        2 << 16 | 256,
        3 << 16 | 2048,
        5 << 16,
        u64::MAX,
    ];
    for word in strange {
        assert_eq!(Answer::of(word), Err(Refusal::of(0)), "word {word:#x}");
    }
    assert_eq!(Answer::of(4 << 16 | 9), Err(Refusal::of(9)));
    let strange = [
        1,
        1 << 16 | 1,
        2 << 16 | 512,
        3 << 16 | 2048,
        5 << 16 | 512,
        6 << 16,
    ];
    for word in strange {
        assert_eq!(
            Answer::of_mailbox(word),
            Err(Refusal::of(0)),
            "word {word:#x}"
        );
    }
}

#[test]
fn answers_display_what_they_hold() {
    let answers = [
        (Answer::from(()), Answer::Done, "done"),
        (Answer::from(LineByte::Lost), Answer::Done, "done"),
        (Answer::from(BusByte::NotKept), Answer::Done, "done"),
        (Answer::from(None::<u8>), Answer::None, "no line byte"),
        (
            Answer::from(None::<MailByte>),
            Answer::NoBusByte,
            "no byte for the bus",
        ),
        (
            Answer::from(Some(MailByte::from(50))),
            Answer::BusByte(MailByte::from(50)),
            "byte 50 for the bus",
        ),
        (
            Answer::from(Some(MailByte::from(309))),
            Answer::BusByte(MailByte::from(309)),
            "byte 53 for the bus, with EOI",
        ),
        (Answer::from(Some(50)), Answer::Byte(50), "line byte 50"),
        (
            Answer::from(Frame::SEND_DATA),
            Answer::Frame(Frame::SEND_DATA),
            "frame 5,96",
        ),
    ];
    for (made, answer, text) in answers {
        assert_eq!((made, made.to_string().as_str()), (answer, text));
    }
}

#[test]
fn what_became_of_a_byte_is_said() {
    let said = [
        LineByte::Stored,
        LineByte::Lost,
        LineByte::Go,
        LineByte::Stop,
    ];
    let said = said.map(|byte| byte.to_string()).join(", ");
    assert_eq!(said, "stored, lost, taken as go, taken as stop");
    let said = [BusByte::Kept, BusByte::NotKept].map(|byte| byte.to_string());
    assert_eq!(said.join(", "), "kept, not kept");
}

#[test]
fn refusals_display_their_number_and_a_sentence() {
    for (number, refusal, text) in REFUSALS {
        assert_eq!((refusal.number(), Refusal::of(number)), (number, refusal));
        assert_eq!(refusal.to_string(), text);
    }
    let other = "refusal 77: the reason is not known here";
    assert_eq!(Refusal::of(77).to_string(), other);
}

#[test]
fn every_refusal_number_is_kept_and_compared() {
    let all: HashSet<Refusal> = (0..=u16::MAX).map(Refusal::of).collect();
    assert_eq!(all.len(), 65536);
    for number in 0..=u16::MAX {
        assert_eq!(Refusal::of(number).number(), number);
    }
}

#[test]
fn a_failing_unwrap_says_the_sentence() {
    let said = format!("{:?}", Refusal::GO_IS_STOP);
    let expected = "Refusal(refusal 8: the go and stop characters would be equal)";
    assert_eq!(said, expected);
}

#[cfg(any(core_error, feature = "std"))]
#[test]
fn a_refusal_is_an_error() {
    let error: Box<dyn std::error::Error + Send + Sync> = Refusal::BUSY.into();
    assert_eq!(error.downcast_ref(), Some(&Refusal::BUSY));
    assert!(error.source().is_none());
    let stores = raftershim::Stores {
        receive: [0; 7],
        transmit: [0; 3],
    };
    let bad = raftershim::Bridge::create(stores, 3).unwrap_err();
    let error: Box<dyn std::error::Error + Send + Sync> = bad.into();
    assert_eq!(error.downcast_ref(), Some(&bad));
}
