//! What can be wrong in a line of a script.

use crate::{Product, LONGEST_LINE, LONGEST_STORE};
use std::error::Error;
use std::fmt;

/// The names of the calls of a bridge.
const BRIDGE_CALLS: &str =
    "create, mailbox, reset, restore, register, line, break, key, ask, take, \
                            frame, show or state";

/// The names of the calls of a mailbox.
const MAILBOX_CALLS: &str = "create, mailbox, reset, restore, frame, command, byte, fetch, clear, \
                             lines, show or state";

impl Product {
    /// The names of its calls, as a sentence has them.
    fn calls(self) -> &'static str {
        match self {
            Product::Bridge => BRIDGE_CALLS,
            Product::Mailbox => MAILBOX_CALLS,
        }
    }

    /// What is said of a word that is the name of a call of the other product, and of none here.
    fn elsewhere(self, word: &str) -> &'static str {
        let (other, said) = match self {
            Product::Bridge => (Product::Mailbox, ", a call of the mailbox"),
            Product::Mailbox => (Product::Bridge, ", a call of the bridge"),
        };
        let mut names = other.calls().split([',', ' ']).filter(|&name| name != "or");
        if names.any(|name| name == word) {
            said
        } else {
            ""
        }
    }
}

/// What is wrong in a line: its sentence says what was expected there and what was found.
#[derive(Clone, Debug, PartialEq, Eq)]
#[non_exhaustive]
pub enum Mistake {
    /// The first word is the name of no call of what the line speaks of.
    UnknownCall {
        /// What the line speaks of.
        product: Product,
        /// The word, cut short.
        found: String,
    },
    /// A word after the call's name is not what the call takes there.
    Word {
        /// The call's name.
        after: &'static str,
        /// What the call takes there.
        wanted: Wanted,
        /// The word, cut short, or `None` at the end of the line.
        found: Option<String>,
    },
    /// There is no call before the sign =>.
    NoCall,
    /// There is no answer after the sign =>.
    NoAnswer,
    /// A text has no closing quotation mark.
    OpenText,
    /// There is nothing between two quotation marks.
    EmptyText,
    /// A text has a character that is not one byte.
    WideCharacter(char),
    /// The line has more bytes than [`LONGEST_LINE`].
    TooLong,
    /// The line is not UTF-8.
    NotText,
}

/// What a call takes after its name.
#[derive(Clone, Copy, Debug, PartialEq, Eq)]
#[non_exhaustive]
pub enum Wanted {
    /// The length of the receive store.
    ReceiveLength,
    /// The length of the transmit store.
    TransmitLength,
    /// A margin.
    Margin,
    /// The length of the store to the bus.
    ToBusLength,
    /// The length of the store to the loop.
    ToLoopLength,
    /// An address on the bus.
    BusAddress,
    /// A register.
    Register,
    /// A register's value.
    Value,
    /// A byte.
    Byte,
    /// A loop frame.
    Frame,
    /// One of the two stores.
    Side,
    /// One of the two ways of a mailbox.
    Way,
    /// A command of the bus.
    Command,
    /// A number up to this one, which a command's name takes.
    UpTo(u32),
    /// The word that asks for the room that is left, or the end of the line.
    RoomOrNothing,
    /// The end of the line.
    NothingMore,
}

impl Wanted {
    /// The largest number that is taken, where it is a plain number.
    pub(crate) fn largest(self) -> u32 {
        match self {
            Wanted::ReceiveLength | Wanted::TransmitLength => LONGEST_STORE,
            Wanted::ToBusLength | Wanted::ToLoopLength => LONGEST_STORE,
            Wanted::Byte => 255,
            Wanted::UpTo(largest) => largest,
            _ => u32::MAX,
        }
    }

    fn words(self) -> &'static str {
        match self {
            Wanted::ReceiveLength => "a receive length",
            Wanted::TransmitLength => "a transmit length",
            Wanted::Margin => "a margin",
            Wanted::ToBusLength => "a length of the store to the bus",
            Wanted::ToLoopLength => "a length of the store to the loop",
            Wanted::BusAddress => "an address on the bus",
            Wanted::Register => "a register R00 to R12, C00 to C05 or a number",
            Wanted::Value => "a value",
            Wanted::Byte => "a byte",
            Wanted::Frame => "a frame as control,data with data up to 255, or as one number,",
            Wanted::Side => "receive or transmit",
            Wanted::Way => "bus or loop",
            Wanted::Command => {
                "UNL, UNT, MLA, MTA, LAD, TAD, SPE, SPD, DCL, SDC, PPC, PPE, PPD, PPU or a number"
            }
            Wanted::UpTo(_) => "a number",
            Wanted::RoomOrNothing => "the word room or nothing more",
            Wanted::NothingMore => "nothing more",
        }
    }
}

impl fmt::Display for Wanted {
    fn fmt(&self, f: &mut fmt::Formatter<'_>) -> fmt::Result {
        f.write_str(self.words())?;
        match self {
            Wanted::Register | Wanted::Frame | Wanted::Command => Ok(()),
            Wanted::Side | Wanted::Way => Ok(()),
            Wanted::RoomOrNothing | Wanted::NothingMore => Ok(()),
            _ => write!(f, " from 0 to {}", self.largest()),
        }
    }
}

impl fmt::Display for Mistake {
    fn fmt(&self, f: &mut fmt::Formatter<'_>) -> fmt::Result {
        match self {
            Mistake::UnknownCall { product, found } => {
                let (calls, elsewhere) = (product.calls(), product.elsewhere(found));
                write!(f, "expected {calls}, found {found}{elsewhere}")
            }
            Mistake::Word {
                after,
                wanted,
                found,
            } => {
                let found = found.as_deref().unwrap_or("nothing");
                write!(f, "expected {wanted} after {after}, found {found}")
            }
            Mistake::NoCall => f.write_str("expected a call before =>, found nothing"),
            Mistake::NoAnswer => f.write_str("expected an answer after =>, found nothing"),
            Mistake::OpenText => f.write_str("expected a closing quotation mark, found none"),
            Mistake::EmptyText => {
                f.write_str("expected characters between the quotation marks, found nothing")
            }
            Mistake::WideCharacter(c) => write!(
                f,
                "expected characters of one byte between the quotation marks, found {c}"
            ),
            Mistake::TooLong => write!(
                f,
                "expected a line of at most {LONGEST_LINE} bytes, found a longer one"
            ),
            Mistake::NotText => f.write_str("expected text in UTF-8, found other bytes"),
        }
    }
}

impl Error for Mistake {}
