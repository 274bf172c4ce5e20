//! What goes out on the line, by the takes of a run: a byte is handed out when it is taken, and
//! asking for it changes nothing.

use super::call::Call;
use super::TheBridge;
use crate::answer::{byte, in_words, refused, DONE, NONE};
use crate::machine::Made;
use model::Bridge;

/// The bits of an answer that say its kind and value.
const KIND_AND_VALUE: u64 = 0xff_ffff;

/// What is known of our go and stop from the takes so far.
#[derive(Clone, Copy, Debug, PartialEq, Eq, Hash)]
pub struct LineOut {
    /// Whether stop was the last of them that was taken.
    stop_last: bool,
}

impl LineOut {
    /// By the state's own flag, since a run may start anywhere.
    pub fn starting(state: &Bridge) -> LineOut {
        LineOut {
            stop_last: state.stop_sent_last,
        }
    }

    /// Our go or stop, if it is owed: what holds is not what was taken last.
    fn owed(self, state: &Bridge) -> Option<u8> {
        let [.., go, stop] = state.registers.c;
        match (state.holding, self.stop_last) {
            (true, false) => Some(stop),
            (false, true) => Some(go),
            _ => None,
        }
    }

    /// Takes note of a call, where this is the oldest byte that waits for the line. An ask has to
    /// say the byte that is next, and a take is refused exactly if it names another. Gives a bit
    /// for each row that counts a take beside those of what was seen.
    pub fn note(&mut self, made: &Made<TheBridge>, oldest: Option<u8>) -> Result<u32, String> {
        let owed = self.owed(made.before);
        let next = owed.or(oldest.filter(|_| !made.before.forbidden));
        let (due, rows) = match made.call {
            Call::Ask => (next.map_or(NONE, byte), 0),
            Call::Take(named) if next == Some(named) => (DONE, taken(owed, oldest)),
            Call::Take(named) => (refused(12), not_next(named, owed, next, oldest)),
            _ => (made.answer & KIND_AND_VALUE, 0),
        };
        if made.answer & KIND_AND_VALUE != due {
            let (due, answer) = (in_words(due), in_words(made.answer));
            return Err(format!("by history {due} is due, not {answer}"));
        }
        match made.call {
            Call::Take(_) if due == DONE => self.stop_last = made.before.holding,
            Call::Reset if due == DONE => self.stop_last = false,
            _ => {}
        }
        if made.after.stop_sent_last != self.stop_last {
            let last = if self.stop_last { "stop" } else { "go" };
            return Err(format!("by history {last} was taken last of go and stop"));
        }
        Ok(rows)
    }
}

/// The rows of a take that is due: our own character, and one that waits is equal.
fn taken(owed: Option<u8>, oldest: Option<u8>) -> u32 {
    match owed {
        None => 0,
        Some(_) => 1 << 11 | u32::from(oldest == owed) << 15,
    }
}

/// The rows of a take that is refused: another byte is next, nothing is, or the byte named waits
/// while our own character is owed.
fn not_next(named: u8, owed: Option<u8>, next: Option<u8>, oldest: Option<u8>) -> u32 {
    match next {
        None => 1 << 13,
        Some(_) => 1 << 12 | u32::from(owed.is_some() && oldest == Some(named)) << 14,
    }
}
