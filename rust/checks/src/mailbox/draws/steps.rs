//! What steps do: calls, and calls that depend on the state of the moment.

use crate::drive;
use crate::mailbox::call::{frame, Call};
use crate::mailbox::TheMailbox;
use mailbox_model::{Mailbox, ADDRESSED, HOME, IDLE, SERVICE, UNASSIGNED};

/// What a step does.
#[derive(Clone, Copy, Debug)]
pub enum What {
    Make(Call),
    /// Data frames of the loop with these control bits, that count on from this byte. Before them,
    /// if the byte is odd, we are made listener.
    Counting(u32, u8),
    /// Bytes of the bus that count on from this one; every fourth has the end mark. Before them, if
    /// the byte is odd, we are made listener.
    BusCounting(u8),
    /// Fetches. Before them we are made talker or not.
    Fetching(bool),
    /// The frame under way with these bits changed; where none is under way, what leads to one:
    /// talk, send data. A listener gets a data frame, or 5,66 while it holds one back.
    Back(u16),
    /// Command 32 or 64 of the loop with our address.
    ToUs(u32),
    /// Command 32 or 64 of the bus with our address.
    BusToUs(u32),
    /// A configure, and then this command of the bus.
    Configure(u32),
}

impl drive::What<TheMailbox> for What {
    fn call(self, state: &Mailbox, done: u8) -> Call {
        let side = &state.loop_side;
        match self {
            What::Make(call) => call,
            What::Counting(_, byte) if done == 0 && byte & 1 == 1 => {
                What::ToUs(32).call(state, done)
            }
            What::BusCounting(byte) if done == 0 && byte & 1 == 1 => {
                What::BusToUs(32).call(state, done)
            }
            What::Fetching(true) if done == 0 => What::BusToUs(64).call(state, done),
            What::Fetching(_) => Call::Fetch,
            What::Counting(control, byte) => frame(control, byte.wrapping_add(done).into()),
            What::BusCounting(byte) => {
                let byte = byte.wrapping_add(done);
                Call::Byte(byte, u32::from(byte & 3 == 3))
            }
            What::Back(_) if side.holds => frame(5, 66),
            What::Back(_) if side.listener => frame(2, done.into()),
            What::Back(_) if side.talker == IDLE => What::ToUs(64).call(state, done),
            What::Back(_) if side.talker == ADDRESSED => frame(5, 96),
            What::Back(change) => Call::Frame((side.under_way ^ change).into()),
            What::ToUs(command) if side.address == UNASSIGNED => {
                frame(4, command + u32::from(HOME))
            }
            What::ToUs(command) => frame(4, command + u32::from(side.address)),
            What::BusToUs(command) => Call::Command(command + u32::from(state.bus_side.address)),
            What::Configure(_) if done == 0 => Call::Command(5),
            What::Configure(command) => Call::Command(command),
        }
    }
}

/// What is done, and how often at most: weighted so that stores fill and empty, frames return and
/// status is under way often.
pub fn what(kind: usize, number: u32) -> (What, u8) {
    let of = |calls: &[Call]| What::Make(calls[number as usize % calls.len()]);
    let make = What::Make;
    match kind {
        0..=4 => (What::Counting(number >> 8 & 3, number as u8), 16),
        5..=9 => (What::BusCounting(number as u8), 16),
        10..=14 => (What::Fetching(number & 1 == 1), 16),
        15..=22 => (What::Back(0), 16),
        23..=24 => (What::Back(SERVICE), 1),
        25..=27 => (What::Back(1 << (number % 10)), 1),
        28..=32 => (What::ToUs(32 << (number & 1)), 2),
        33..=37 => (What::BusToUs(32 << (number & 1)), 2),
        38..=40 => (make(frame(5, 97)), 1),
        41..=43 => (of(READY), 2),
        44..=46 => (of(COMMANDS), 1),
        47..=49 => (of(BUS_COMMANDS), 1),
        50 => (make(Call::Frame(number & 0x3ff)), 6),
        51 => (make(Call::Frame(number & 0x7ff)), 1),
        52 => (make(Call::Frame(number | 0x800)), 1),
        53 => (make(Call::Command(number & 127)), 1),
        54 => (make(Call::Command(number | 128)), 1),
        55 => (make(frame(4, 128 | number & 15)), 1),
        56 => (What::Configure(96 | number & 31), 2),
        57..=59 => (make(frame(4, 15)), 1),
        60 => (make(Call::Byte(number as u8, number >> 8)), 2),
        61 => (of(&[frame(5, 128 | number & 31), frame(4, 154)]), 1),
        62..=63 => (of(&[Call::Lines, Call::Clear]), 1),
        _ => (
            of(&[
                Call::Show(0),
                Call::Show(1),
                Call::Show(number),
                Call::Reset,
            ]),
            1,
        ),
    }
}

/// The commands of the loop that do something, and one that does not.
const COMMANDS: &[Call] = &[
    frame(4, 0),
    frame(4, 4),
    frame(4, 5),
    frame(4, 20),
    frame(4, 21),
    frame(4, 63),
    frame(4, 95),
    frame(4, 144),
];

/// The commands of the bus that do something, and one that does not.
const BUS_COMMANDS: &[Call] = &[
    Call::Command(0),
    Call::Command(4),
    Call::Command(20),
    Call::Command(21),
    Call::Command(24),
    Call::Command(24),
    Call::Command(25),
    Call::Command(63),
    Call::Command(95),
];

/// Ready and identify frames.
const READY: &[Call] = &[
    frame(5, 66),
    frame(5, 66),
    frame(5, 96),
    frame(5, 98),
    frame(5, 99),
    frame(5, 0),
    frame(6, 0),
    frame(7, 255),
];
