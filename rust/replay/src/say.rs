//! The sentences of the answers, in words that a screen reader reads well.

use crate::counts::number_of;
use raftershim::{Answer, Refusal};
use script::Expected;
use std::fmt;

/// What there is to say to a call.
#[derive(Clone, Debug, PartialEq, Eq)]
pub enum Said {
    /// What was answered.
    Answered(Answer),
    /// What became of bytes.
    Became(String),
    /// What was answered or became of bytes, and the room that is left after it.
    WithRoom {
        /// The first of these in words.
        said: String,
        /// How many bytes more the store can hold.
        room: u16,
    },
    /// The bytes that a store showed, each in words: its number, and a mark behind it if it has one.
    Shown(Vec<String>),
    /// The facts of the state.
    Facts(Vec<String>),
    /// The call was refused.
    Refused {
        /// What became of the bytes before the one that was refused, with the word that joins it
        /// to the refusal; empty if there were none.
        before: String,
        /// The refusal by its number.
        refusal: Refusal,
        /// The refusal in a sentence that starts with its number.
        sentence: String,
    },
    /// There is nothing to play on.
    NotPlayed {
        /// The line of the create or mailbox that was refused.
        refused: u64,
    },
}

impl Said {
    /// The bytes that a store showed.
    pub fn shown<T: fmt::Display>(bytes: impl Iterator<Item = T>) -> Said {
        Said::Shown(bytes.map(|byte| byte.to_string()).collect())
    }

    /// A refusal, by its number and its sentence.
    pub fn refused(refusal: Refusal, sentence: &dyn fmt::Display) -> Said {
        Said::Refused {
            before: String::new(),
            refusal,
            sentence: sentence.to_string(),
        }
    }

    /// What became of bytes that were taken one after the other, up to the first that was refused.
    pub fn became<T, I>(taken: I) -> Said
    where
        T: fmt::Display + PartialEq,
        I: Iterator<Item = Result<T, Refusal>>,
    {
        let mut bytes = Vec::new();
        for byte in taken {
            match byte {
                Ok(byte) => bytes.push(byte),
                Err(refusal) => {
                    let joined = |before| format!("{before}, then ");
                    return Said::Refused {
                        before: counted(&bytes).map_or_else(String::new, joined),
                        refusal,
                        sentence: refusal.to_string(),
                    };
                }
            }
        }
        Said::Became(counted(&bytes).unwrap_or_default())
    }

    /// The same with the room that is left; a refusal has none.
    pub fn with_room(self, room: u16) -> Said {
        match self {
            Said::Refused { .. } => self,
            _ => Said::WithRoom {
                said: self.to_string(),
                room,
            },
        }
    }

    /// The sentence that is as expected, if there is one.
    pub fn meeting(&self, expected: &Expected) -> Option<String> {
        let heard = self.to_string();
        match self {
            Said::NotPlayed { .. } => None,
            Said::Facts(facts) => facts.iter().find(|fact| expected.is(fact)).cloned(),
            Said::Refused {
                before, refusal, ..
            } => {
                let number = format!("{before}refusal {}", refusal.number());
                let met = expected.is(&number) || expected.is(&heard);
                met.then_some(heard)
            }
            _ => expected.is(&heard).then_some(heard),
        }
    }

    /// The sentence about an answer that is not the expected one.
    pub fn different(&self, expected: &Expected) -> String {
        match self {
            Said::Facts(_) | Said::NotPlayed { .. } => format!("expected {expected}, but {self}"),
            _ => format!("expected {expected}, the answer was {self}"),
        }
    }
}

impl fmt::Display for Said {
    fn fmt(&self, f: &mut fmt::Formatter<'_>) -> fmt::Result {
        match self {
            Said::Answered(answer) => write!(f, "{answer}"),
            Said::Became(bytes) => f.write_str(bytes),
            Said::WithRoom { said, room } => write!(f, "{said}, room {room}"),
            Said::Shown(bytes) if bytes.is_empty() => f.write_str("nothing"),
            Said::Shown(bytes) => {
                f.write_str(&number_of(bytes.len() as u64, "byte", "bytes"))?;
                f.write_str(":")?;
                bytes.iter().try_for_each(|byte| write!(f, " {byte}"))
            }
            Said::Facts(facts) => {
                f.write_str("the state is this")?;
                facts.iter().try_for_each(|fact| write!(f, "\n{fact}"))
            }
            Said::Refused {
                before, sentence, ..
            } => write!(f, "{before}{sentence}"),
            Said::NotPlayed { refused } => write!(
                f,
                "this is not played, since the create in line {refused} was refused"
            ),
        }
    }
}

/// What became of bytes, by how many of them, in the order in which it first happened; none if there
/// are none.
fn counted<T: fmt::Display + PartialEq>(bytes: &[T]) -> Option<String> {
    let mut kinds: Vec<(&T, usize)> = Vec::new();
    for byte in bytes {
        match kinds.iter_mut().find(|(kind, _)| *kind == byte) {
            Some((_, count)) => *count += 1,
            None => kinds.push((byte, 1)),
        }
    }
    let said = |(kind, n): &(&T, usize)| format!("{n} {kind}");
    let parts: Vec<String> = kinds.iter().map(said).collect();
    Some(parts.join(", ")).filter(|said| !said.is_empty())
}

/// What is said before the first call if no create came before it.
pub fn default_bridge(store: u32, margin: u32) -> String {
    format!("no create so far, so both stores have {store} bytes and the margin is {margin}")
}
