//! The beginning of a run, written as a script for replay.

use super::rule::BREAK;
use super::TheBridge;
use crate::written::Beginning;
use model::block;
use script::{Call as Line, Script};
use std::fmt;

/// Writes how a run begins.
pub fn begins(beginning: &Beginning<TheBridge>, f: &mut fmt::Formatter) -> fmt::Result {
    match beginning {
        Beginning::Created(lens, margin) => writeln!(f, "{}", create(*lens, *margin)),
        Beginning::Holding(block, rx, tx) => match made(block, rx, tx) {
            Some(script) => write!(f, "{script}"),
            // A script has no call that leads there.
            None => writeln!(f, "# stores of {}, {}; block {block:?}", rx.len(), tx.len()),
        },
    }
}

fn create(lens: [usize; 2], margin: u32) -> Line {
    let [receive, transmit] = lens.map(|len| len as u32);
    Line::Create {
        receive,
        transmit,
        margin,
    }
}

/// The script that makes these buffers, if the block is a state that fits the stores: it fills both
/// stores from their first place on, but for the bits of a cell that do not count, and restores the
/// block.
fn made(block: &[u8], rx: &[u16], tx: &[u8]) -> Option<Script> {
    let state = block::unpack(block).filter(|state| state.fits(rx.len(), tx.len()))?;
    let mut calls = vec![create([rx.len(), tx.len()], state.margin as u32)];
    // Without the protocol go and stop are stored too.
    let (number, value) = (11, 0);
    calls.push(Line::Register { number, value });
    for piece in rx.split_inclusive(|cell| cell & BREAK != 0) {
        let bytes: Vec<u8> = piece.iter().map(|cell| (cell & 255) as u8).collect();
        let lines = bytes.chunks(LINE_BYTES);
        calls.extend(lines.map(|bytes| Line::Line(bytes.to_vec())));
        let broken = piece.last().filter(|cell| **cell & BREAK != 0);
        calls.extend(broken.map(|_| Line::Break));
    }
    // Address 0, and listen: data frames are then added as they are.
    calls.extend([5 << 8 | 128, 4 << 8 | 32].map(Line::Frame));
    calls.extend(tx.iter().map(|&byte| Line::Frame(byte.into())));
    calls.push(Line::Restore(block.to_vec()));
    Some(calls.into_iter().collect())
}

/// How many bytes are written in one line.
const LINE_BYTES: usize = 64;
