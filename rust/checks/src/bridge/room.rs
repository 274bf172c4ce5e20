//! The room that an answer tells, held to what is free by history.

use super::call::Call;
use crate::answer::in_words;
use model::boundary::{kind, REFUSED};

/// Holds what stands above the kind of an answer to the room that is due there, and to zeros: a
/// line byte tells what is free in the receive store after it, a frame what is free in the transmit
/// store, and a refusal and every other call nothing. A part that is shown has no kind.
pub fn told(call: Call, answer: u64, free: [usize; 2]) -> Result<(), String> {
    let due = match call {
        Call::ShowReceive | Call::ShowTransmit => return Ok(()),
        _ if kind(answer) == REFUSED => 0,
        Call::Line(_) => free[0],
        Call::Frame(_) => free[1],
        _ => 0,
    };
    // Eight reserved bits, the room, and sixteen reserved bits.
    if answer >> 24 == (due as u64) << 8 {
        Ok(())
    } else {
        let told = in_words(answer);
        Err(format!("by history the room {due} is due, not {told}"))
    }
}
