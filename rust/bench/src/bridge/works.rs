//! The three works: what each sets up, and the calls of one round.

use super::Call;
use crate::machine::{byte_in, data_frame, DONE};

/// Our address on the loop.
const ADDRESS: u32 = 1;
/// The frame that makes us listener.
const LISTEN: Call = command(32 + ADDRESS);
/// The frame that makes us talker.
const TALK: Call = command(64 + ADDRESS);
/// Ready 96: send data.
const SEND_DATA: Call = ready(96);
/// Ready 97: send status.
const SEND_STATUS: Call = ready(97);
/// The control bits of an end byte.
const END: u32 = 2 << 8;

/// How many polls a round of status polling has, with one key press before the first.
const POLLS: usize = 8;

const fn command(data: u32) -> Call {
    Call::LoopFrame(4 << 8 | data)
}

const fn ready(data: u32) -> Call {
    Call::LoopFrame(5 << 8 | data)
}

#[derive(Clone, Copy)]
pub enum Work {
    /// Line to loop with end bytes.
    Meter,
    /// Loop to line, with what ends a line inserted.
    Print,
    /// Status bytes, one after the other.
    Status,
}

impl Work {
    /// The calls before the first round: create, registers, our address. The margin is an eighth of
    /// the store, and no more than is allowed.
    pub fn set_up(self, store: usize) -> Vec<Call> {
        let mut calls = vec![Call::Create((store / 8).clamp(1, 1024) as u32)];
        match self {
            Work::Meter => calls.push(Call::WriteRegister(10, 8)),
            Work::Print => calls.push(Call::WriteRegister(10, 4)),
            // Requests show, and the key begins one.
            Work::Status => {
                calls.extend([Call::WriteRegister(0, 8), Call::WriteRegister(2, 4)]);
            }
        }
        calls.push(ready(128 + ADDRESS));
        calls
    }

    /// Makes the calls of one round.
    pub fn round(self, make: &mut dyn FnMut(Call) -> u64) {
        match self {
            Work::Meter => meter(make),
            Work::Print => print(make),
            Work::Status => status(make),
        }
    }

    /// Whether an answer hands a byte on to the other side, or for status tells the status byte.
    pub fn crosses(self, call: Call, answer: u64) -> bool {
        match self {
            Work::Meter | Work::Status => data_frame(answer).is_some(),
            Work::Print => matches!(call, Call::TakeLineByte(_)) && answer == DONE,
        }
    }
}

/// Lines come from the meter, and the loop reads each out until 5,64.
fn meter(make: &mut dyn FnMut(Call) -> u64) {
    for line in ["2.5\r\n", "-13.07\r\n"] {
        for byte in line.bytes() {
            make(Call::LineByte(byte));
        }
        make(TALK);
        let mut answer = make(SEND_DATA);
        while let Some(frame) = data_frame(answer) {
            answer = make(Call::LoopFrame(frame));
        }
    }
}

/// The loop sends a line whose last byte is an end byte. The bytes for the line are asked for and
/// taken, one after the other, until none is next.
fn print(make: &mut dyn FnMut(Call) -> u64) {
    make(LISTEN);
    for frame in [b'V', b'O', b'L', b'T'].map(u32::from) {
        make(Call::LoopFrame(frame));
    }
    make(Call::LoopFrame(END | u32::from(b'S')));
    while let Some(byte) = byte_in(make(Call::AskLineByte())) {
        make(Call::TakeLineByte(byte));
    }
}

/// The loop asks for the status byte and returns it, over and over.
fn status(make: &mut dyn FnMut(Call) -> u64) {
    make(Call::Key());
    for _ in 0..POLLS {
        make(TALK);
        if let Some(frame) = data_frame(make(SEND_STATUS)) {
            make(Call::LoopFrame(frame));
        }
    }
}
