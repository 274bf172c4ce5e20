//! The two works: one for each way through the mailbox.

use super::Call;
use crate::machine::{data_frame, is_byte};

/// Our address on the bus.
pub const BUS: u32 = 7;
/// Our address on the loop, and the frame that assigns it.
const ADDRESS: u32 = 1;
pub const ASSIGN: Call = Call::LoopFrame(5 << 8 | 128 | ADDRESS);
/// The frame that makes us listener.
const LISTEN: Call = Call::LoopFrame(4 << 8 | (32 + ADDRESS));
/// The frame that makes us talker.
const TALK: Call = Call::LoopFrame(4 << 8 | (64 + ADDRESS));
/// Ready 96: send data.
const SEND_DATA: Call = Call::LoopFrame(5 << 8 | 96);
/// The control bits of an end byte.
const END: u32 = 2 << 8;
/// What is left and fetched: readings, each with the end mark at its last byte.
const READINGS: [&str; 2] = ["2.5", "-13.07"];

#[derive(Clone, Copy)]
pub enum Work {
    /// The loop leaves readings, and the bus fetches them.
    ToBus,
    /// The bus leaves readings, and the loop fetches them.
    ToLoop,
}

impl Work {
    /// Makes the calls of one round.
    pub fn round(self, make: &mut dyn FnMut(Call) -> u64) {
        for reading in READINGS {
            match self {
                Work::ToBus => to_bus(reading, make),
                Work::ToLoop => to_loop(reading, make),
            }
        }
    }

    /// Whether an answer hands a byte on to the other side.
    pub fn crosses(self, call: Call, answer: u64) -> bool {
        match self {
            Work::ToBus => matches!(call, Call::Fetch()) && is_byte(answer),
            Work::ToLoop => data_frame(answer).is_some(),
        }
    }
}

/// The bytes of a reading, and whether each is the last.
fn marked(reading: &str) -> impl Iterator<Item = (u8, bool)> + '_ {
    let last = reading.len() - 1;
    reading
        .bytes()
        .enumerate()
        .map(move |(index, byte)| (byte, index == last))
}

fn to_bus(reading: &str, make: &mut dyn FnMut(Call) -> u64) {
    make(LISTEN);
    for (byte, last) in marked(reading) {
        make(Call::LoopFrame(
            u32::from(byte) | if last { END } else { 0 },
        ));
    }
    make(Call::Command(64 + BUS));
    while is_byte(make(Call::Fetch())) {}
}

fn to_loop(reading: &str, make: &mut dyn FnMut(Call) -> u64) {
    make(Call::Command(32 + BUS));
    for (byte, last) in marked(reading) {
        make(Call::Byte(byte, last.into()));
    }
    make(TALK);
    let mut answer = make(SEND_DATA);
    while let Some(frame) = data_frame(answer) {
        answer = make(Call::LoopFrame(frame));
    }
}
