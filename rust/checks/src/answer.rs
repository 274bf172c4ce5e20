//! Answers written by hand, and answers in words.

use mailbox_model::boundary::LINES;
use model::boundary::{self, kind, room, value};

pub const DONE: u64 = boundary::DONE << 16;
pub const NONE: u64 = boundary::NONE << 16;

/// A line byte, or a byte for the bus without the end mark.
pub const fn byte(byte: u8) -> u64 {
    boundary::BYTE << 16 | byte as u64
}

/// A byte for the bus with the end mark.
pub const fn end(end: u8) -> u64 {
    byte(end) | 256
}

/// A frame, written "control,data".
pub const fn framed(control: u64, data: u64) -> u64 {
    boundary::FRAME << 16 | control << 8 | data
}

/// A refusal by its number.
pub const fn refused(number: u64) -> u64 {
    boundary::REFUSED << 16 | number
}

/// The bus lines: whether SRQ is on, and the answer to a parallel poll.
pub const fn lines(srq: bool, poll: u8) -> u64 {
    LINES << 16 | (srq as u64) << 8 | poll as u64
}

/// An answer that tells this room.
pub const fn with_room(room: usize, answer: u64) -> u64 {
    answer | (room as u64) << 32
}

/// An answer in words, with the room where it tells any; with a reserved bit set the bare number,
/// because whole numbers are compared.
pub fn in_words(answer: u64) -> String {
    let reserved = 0xffff_0000_ff00_0000;
    let words = match answer & reserved {
        0 => kind_and_value(kind(answer), value(answer)),
        _ => None,
    };
    match (words, room(answer)) {
        (None, _) => format!("{answer:#x}"),
        (Some(words), 0) => words,
        (Some(words), room) => format!("{words}, room {room}"),
    }
}

fn kind_and_value(kind: u64, value: u64) -> Option<String> {
    Some(match kind {
        boundary::DONE if value == 0 => "done".into(),
        boundary::NONE if value == 0 => "none".into(),
        boundary::BYTE if value < 256 => format!("byte {value}"),
        boundary::BYTE if value < 512 => format!("byte {} with the end mark", value & 255),
        boundary::FRAME => format!("frame {}", script::FrameName(value as u32)),
        boundary::REFUSED => format!("refused {value}"),
        LINES if value < 256 => format!("poll lines {value}, no SRQ"),
        LINES if value < 512 => format!("poll lines {}, SRQ", value & 255),
        _ => return None,
    })
}

#[cfg(test)]
mod tests {
    use super::*;

    #[test]
    fn each_answer_has_its_own_words() {
        let answers = [
            DONE,
            NONE,
            byte(7),
            end(7),
            framed(5, 64),
            refused(13),
            lines(false, 4),
            lines(true, 4),
            byte(7) | 1 << 24,
            byte(7) | 1 << 31,
            byte(7) | 1 << 48,
            byte(7) | 1 << 63,
            with_room(3, framed(5, 64)),
            with_room(32_768, framed(5, 64)),
            with_room(32_768, DONE),
            byte(7) | 1 << 9,
            DONE | 1,
            6 << 16,
        ];
        let words = answers.map(in_words);
        for (i, one) in words.iter().enumerate() {
            assert!(words[..i].iter().all(|other| other != one), "{one}");
        }
        assert_eq!(words[3], "byte 7 with the end mark");
        assert_eq!(words[7], "poll lines 4, SRQ");
        assert_eq!(words[12], "frame 5,64, room 3");
        assert_eq!(words[14], "done, room 32768");
    }
}
