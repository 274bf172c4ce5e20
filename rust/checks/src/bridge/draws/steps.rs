//! What steps do: calls, and calls that depend on the state of the moment.

use super::out::Out;
use crate::bridge::call::{frame, Call};
use crate::bridge::TheBridge;
use crate::drive;
use crate::machine::Stores;
use model::{Bridge, ADDRESSED, IDLE, SERVICE, UNASSIGNED};

/// What a step does.
#[derive(Clone, Copy, Debug)]
pub enum What {
    Make(Call),
    /// Line bytes that count on from this one.
    Counting(u8),
    /// A line byte that equals the present C00 to C05.
    Character(usize),
    /// A byte, the present C00, a break and the present C01, over and over, from one of these on.
    Walled(u8),
    /// The frame under way with these bits changed; where none is under way, what leads to one: an
    /// address for us, talk, send data. A listener gets a data frame.
    Back(u16),
    /// Command 32 or 64 with our address, or an address for us where we have none.
    ToUs(u32),
    /// Line bytes are asked for and taken.
    Out(Out),
    /// A write of a register of the reading rule, first and whenever nothing is held; in between a line
    /// that the rule finds walls and ends in, and what reads it out.
    Ruled(u32, u32),
}

impl drive::What<TheBridge> for What {
    fn call(self, state: &Bridge, done: u8) -> Call {
        match self {
            What::Make(call) => call,
            What::Counting(byte) => Call::Line(byte.wrapping_add(done)),
            What::Character(index) => Call::Line(state.registers.c[index]),
            What::Walled(from) => match from.wrapping_add(done) % 4 {
                0 => Call::Line(50),
                1 => Call::Line(state.registers.c[0]),
                2 => Call::Break,
                _ => Call::Line(state.registers.c[1]),
            },
            What::Back(_) if state.listener => frame(0, done.into()),
            What::Back(_) if state.talker == IDLE => What::ToUs(64).call(state, done),
            What::Back(_) if state.talker == ADDRESSED => frame(5, 96),
            What::Back(change) => Call::Frame((state.under_way ^ change).into()),
            What::ToUs(_) if state.address == UNASSIGNED => frame(5, 128 + u32::from(done)),
            What::ToUs(command) => frame(4, command + u32::from(state.address)),
            What::Out(_) => Call::Ask,
            What::Ruled(number, value) => match (done, state.receive.held) {
                (0, _) => Call::Register(number, value),
                (8.., 0) => Call::Register(number, value),
                (1..=4, _) => What::Walled(value as u8).call(state, done),
                (7, _) => Call::Break,
                _ if state.listener => What::ToUs(64).call(state, done),
                _ => What::Back(0).call(state, done),
            },
        }
    }

    /// Which line byte is next stands in a store.
    fn call_on(self, state: &Bridge, stores: Stores<TheBridge>, done: u8) -> Call {
        match self {
            What::Out(out) => out.call(state, stores, done),
            _ => self.call(state, done),
        }
    }
}

/// How many kinds of things are done.
pub const KINDS: usize = 87;

/// What is done, and how often at most: weighted so that stores fill, frames return, status is
/// under way and breaks come often, that the reading rule is written while something is held and
/// while nothing is, and that line bytes are taken by their own name and by others.
pub fn what(kind: usize, number: u32) -> (What, u8) {
    let of = |calls: &[Call]| What::Make(calls[number as usize % calls.len()]);
    match kind {
        0..=3 => (What::Out(Out::Next(number as u8)), 12),
        4..=9 => (What::Counting(number as u8), 16),
        10..=13 => (What::Character(number as usize % 2), 1),
        14..=15 => (What::Character(number as usize % 4 + 2), 1),
        16..=23 => (What::Back(0), 16),
        24..=26 => (What::Back(SERVICE), 1),
        27..=29 => (What::Back(1 << (number % 10)), 1),
        30..=35 => (What::Make(frame(5, 97)), 1),
        36..=41 => (What::ToUs(32 << (number & 1)), 2),
        42..=47 => (What::Make(Call::Frame(number & 0x3ff)), 6),
        48..=50 => (of(COMMANDS), 1),
        51..=53 => (of(READY), 1),
        54 => (What::Make(Call::Frame(number & 0x7ff)), 1),
        55 => (What::Make(Call::Frame(number | 0x800)), 1),
        56..=61 => (What::Make(register(number)), 1),
        62..=63 => (of(&[Call::Break, Call::Key]), 1),
        64..=65 => (of(&[Call::ShowReceive, Call::ShowTransmit, Call::Reset]), 1),
        66..=68 => (What::Make(Call::Break), 2),
        69..=73 => (What::Walled(number as u8), 8),
        74..=75 => (What::Make(Call::Register(10, 8 | number & 4)), 1),
        76 => (What::Out(Out::Waiting), 2),
        77 => (What::Out(Out::Own(4 + number as usize % 2)), 2),
        78 => (What::Make(Call::Take(number as u8)), 2),
        79..=80 => (What::Out(Out::Late), 8),
        81..=82 => (What::Out(Out::Alike), 16),
        _ => {
            let (register, value) = of_the_rule(number);
            (What::Ruled(register, value), 20)
        }
    }
}

/// A write of the reading rule: mostly ends of lines are found then, by one of a few pairs.
fn of_the_rule(number: u32) -> (u32, u32) {
    let [kind, low, ..] = number.to_le_bytes().map(u32::from);
    match kind % 4 {
        0 => (10, 12 & low),
        1 => (10, 8 | 4 & low),
        of => (14 + of, [13, 10, 50][low as usize % 3]),
    }
}

/// The commands that do something, and one that does not.
const COMMANDS: &[Call] = &[
    frame(4, 0),
    frame(4, 1),
    frame(4, 4),
    frame(4, 20),
    frame(4, 63),
    frame(4, 95),
    frame(4, 144),
    frame(4, 146),
    frame(4, 147),
    frame(4, 154),
];

/// Ready and identify frames.
const READY: &[Call] = &[
    frame(5, 66),
    frame(5, 96),
    frame(5, 97),
    frame(5, 158),
    frame(5, 159),
    frame(6, 0),
    frame(7, 1),
];

/// A write: mostly one that is taken, sometimes one at or beyond an edge.
fn register(number: u32) -> Call {
    let [kind, place, low, _] = number.to_le_bytes().map(u32::from);
    let (control, bits) = [(0, 9), (1, 15), (2, 5), (10, 12), (11, 8)][place as usize % 5];
    match kind % 16 {
        0..=7 => Call::Register(control, low & bits),
        8..=11 => Call::Register(16 + place % 6, [13, 10, 17, 19, 0][low as usize % 5]),
        12 => Call::Register(place % 24, low % 20),
        13 => Call::Register(place % 24, 200 + low),
        14 => Call::Register(control, low % 16),
        _ => Call::Register(number, low),
    }
}
