//! The calls that are made on damaged blocks.

use crate::bridge::call::{frame, Call};

/// Every call once, with numbers in and out of range.
pub fn every_call(number: u32) -> Vec<Call> {
    let low = number >> 8 & 0x1f;
    vec![
        Call::ShowReceive,
        Call::ShowTransmit,
        Call::Frame(number),
        Call::Frame(number & 0x7ff),
        Call::Register(low, number >> 16 & 0x1f),
        Call::Register(low, number),
        Call::Register(number, 8),
        Call::Register(20, 19),
        Call::Line(number as u8),
        Call::Break,
        Call::ShowReceive,
        Call::Key,
        Call::Ask,
        Call::Take(number as u8),
        Call::Take(19),
        frame(5, 96),
        frame(number & 3, 50),
        Call::Reset,
    ]
}

/// A margin for create, in and out of range.
pub fn margin(number: u32) -> u32 {
    [1, number & 0x7ff, number][number as usize % 3]
}
