//! Line bytes that are asked for and taken: mostly the one that is next, and often another.

use super::steps::What;
use crate::bridge::call::{frame, Call};
use crate::bridge::TheBridge;
use crate::drive::What as _;
use crate::machine::Stores;
use model::{Answer, Bridge};

/// Which line bytes are named.
#[derive(Clone, Copy, Debug)]
pub enum Out {
    /// The one that is next is asked for and then taken. Where none is next, this one is named at
    /// times.
    Next(u8),
    /// The oldest one that waits, whatever is next.
    Waiting,
    /// The present C04 or C05, whatever is next.
    Own(usize),
    /// The oldest one that waits is asked for, bytes come from the line, and then it is named: a
    /// stop may have become due.
    Late,
    /// A byte waits that equals our stop or go, that character comes to be owed, and it is named.
    Alike,
}

/// The oldest byte that waits for the line.
fn waiting(state: &Bridge, tx: &[u8]) -> Option<u8> {
    (state.transmit.held > 0).then(|| tx[state.transmit.oldest])
}

impl Out {
    /// The call, if this is done this often already in a row.
    pub fn call(self, state: &Bridge, (rx, tx): Stores<TheBridge>, done: u8) -> Call {
        match (self, done % 4) {
            (Out::Next(other), turn @ (1 | 3)) => match state.ask_line_byte(rx, tx) {
                Answer::Byte(byte) => Call::Take(byte),
                _ if turn == 1 => Call::Take(other),
                _ => Call::Ask,
            },
            (Out::Next(_), _) | (Out::Late, 0) => Call::Ask,
            (Out::Late, 1 | 2) => Call::Line(50),
            (Out::Waiting | Out::Late, _) => Call::Take(waiting(state, tx).unwrap_or(done)),
            (Out::Own(index), _) => Call::Take(state.registers.c[index]),
            (Out::Alike, _) => alike(state, tx, done),
        }
    }
}

/// What leads to an owed character that is the oldest byte held, and then takes it: other bytes go
/// out, a listener gets that character as data, and the line is held off or let go.
fn alike(state: &Bridge, tx: &[u8], done: u8) -> Call {
    let [.., go, stop] = state.registers.c;
    let due = if state.stop_sent_last { go } else { stop };
    match waiting(state, tx) {
        None if !state.listener => What::ToUs(32).call(state, done),
        None => frame(0, due.into()),
        Some(_) if state.forbidden => Call::Register(11, 8),
        Some(byte) if byte != due => Call::Take([byte, due][usize::from(done % 2)]),
        _ if state.holding != state.stop_sent_last => Call::Take(due),
        _ if state.stop_sent_last => Call::Register(11, 0),
        _ if state.registers.r11 == 0 => Call::Register(11, 8),
        _ => Call::Line(50),
    }
}
