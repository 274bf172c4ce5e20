//! Wrong bridges at breaks: where the mark goes, what it parts, which bits of a cell count, and what
//! is shown.

mod marks;
mod shows;
mod walls;

pub use marks::*;
pub use shows::*;
pub use walls::*;

use super::Implementation;
use crate::bridge::garbled::Within;
use model::Bridge;

/// Faults that show on stores that hold nothing but what calls wrote, so that the history alone finds
/// them.
pub const SEEN: [(&str, Implementation); 13] = [
    ("the oldest cell marked", OLDEST_MARKED),
    ("a mark that takes a place", MARK_TAKES_A_PLACE),
    (
        "a mark forgotten where the store came round",
        MARK_FORGOTTEN_ROUND,
    ),
    ("no mark without the rule", NO_MARK_WITHOUT_THE_RULE),
    ("marks added", MARKS_ADDED),
    ("a mark that outlives its byte", MARK_OUTLIVES_ITS_BYTE),
    ("no wall", NO_WALL),
    ("a wall only inside the pair", WALL_ONLY_INSIDE),
    ("undecided bytes held back for ever", HELD_BACK_FOR_EVER),
    ("undecided bytes thrown away", THROWN_AWAY),
    ("the stores exchanged when they are shown", STORES_EXCHANGED),
    ("the receive store shown in bytes", SHOWN_IN_BYTES),
    ("a mark for a byte that is lost", LOST_BYTE_MARKS),
];

/// The fault by which bits above the mark count, within a garbled bridge.
pub struct UpperBitsCount;

impl Within for UpperBitsCount {
    const WITHIN: Implementation = UPPER_BITS_COUNT;
}

/// The fault by which bits above the mark stay, within a garbled bridge.
pub struct UpperBitsStay;

impl Within for UpperBitsStay {
    const WITHIN: Implementation = UPPER_BITS_STAY;
}

/// The place of the held cell with this index.
fn place(state: &Bridge, index: usize) -> usize {
    (state.receive.oldest + index) % state.receive_len
}

/// The cells that are held, oldest first.
fn held(state: &Bridge, store: &[u16]) -> Vec<u16> {
    let cell = |index| store[place(state, index)];
    (0..state.receive.held).map(cell).collect()
}
