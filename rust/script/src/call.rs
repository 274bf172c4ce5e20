//! The calls of a script, and how each is printed.

use crate::{FrameName, MailboxCall, RegisterName};
use std::fmt;

/// The word after bytes of the line or a frame that asks for the room that is left.
pub(crate) const ROOM: &str = "room";

/// What a line speaks of.
#[derive(Clone, Copy, Debug, PartialEq, Eq, Hash)]
pub enum Product {
    /// The bridge, also where a script has made nothing yet.
    Bridge,
    /// The mailbox.
    Mailbox,
}

/// The store that is shown.
#[derive(Clone, Copy, Debug, PartialEq, Eq, Hash)]
pub enum Side {
    /// The receive store, line to loop.
    Receive,
    /// The transmit store, loop to line.
    Transmit,
}

/// One call of a script.
#[derive(Clone, Debug, PartialEq, Eq, Hash)]
pub enum Call {
    /// Create a bridge.
    Create {
        /// The length of the receive store.
        receive: u32,
        /// The length of the transmit store.
        transmit: u32,
        /// The margin.
        margin: u32,
    },
    /// Reset the bridge.
    Reset,
    /// Put the bridge together again from this saved block, on its stores as they are; there is at
    /// least one byte.
    Restore(Vec<u8>),
    /// Write a register.
    Register {
        /// The register's number.
        number: u32,
        /// The value written.
        value: u32,
    },
    /// Take these line bytes, one after the other; there is at least one.
    Line(Vec<u8>),
    /// Take these line bytes in the same way, and say the room that is left.
    LineAndRoom(Vec<u8>),
    /// Take a break.
    Break,
    /// Take a press of the MSRQ key.
    Key,
    /// Ask for the line byte that is next.
    Ask,
    /// Take the line byte of this name.
    Take(u8),
    /// Take a loop frame.
    Frame(u32),
    /// Take a loop frame, and say the room that is left.
    FrameAndRoom(u32),
    /// Show a store.
    Show(Side),
    /// Say the state.
    State,
    /// Create a mailbox, or make a call of one.
    Mailbox(MailboxCall),
}

impl Call {
    /// What the call speaks of, and with it the lines that follow.
    pub fn product(&self) -> Product {
        match self {
            Call::Mailbox(_) => Product::Mailbox,
            _ => Product::Bridge,
        }
    }
}

impl fmt::Display for Side {
    fn fmt(&self, f: &mut fmt::Formatter<'_>) -> fmt::Result {
        f.write_str(match self {
            Side::Receive => "receive",
            Side::Transmit => "transmit",
        })
    }
}

/// Prints the call as a script has it. Up to 1,000 bytes stay below the longest line.
impl fmt::Display for Call {
    fn fmt(&self, f: &mut fmt::Formatter<'_>) -> fmt::Result {
        match self {
            Call::Create {
                receive,
                transmit,
                margin,
            } => write!(f, "create {receive} {transmit} {margin}"),
            Call::Reset => f.write_str("reset"),
            Call::Register { number, value } => {
                write!(f, "register {} {value}", RegisterName(*number))
            }
            Call::Restore(bytes) => with_bytes(f, "restore", bytes),
            Call::Line(bytes) => with_bytes(f, "line", bytes),
            Call::LineAndRoom(bytes) => {
                with_bytes(f, "line", bytes)?;
                write!(f, " {ROOM}")
            }
            Call::Break => f.write_str("break"),
            Call::Key => f.write_str("key"),
            Call::Ask => f.write_str("ask"),
            Call::Take(byte) => write!(f, "take {byte}"),
            Call::Frame(frame) => write!(f, "frame {}", FrameName(*frame)),
            Call::FrameAndRoom(frame) => write!(f, "frame {} {ROOM}", FrameName(*frame)),
            Call::Show(side) => write!(f, "show {side}"),
            Call::State => f.write_str("state"),
            Call::Mailbox(call) => write!(f, "{call}"),
        }
    }
}

/// Prints a call's name and its bytes.
pub(crate) fn with_bytes(f: &mut fmt::Formatter<'_>, name: &str, bytes: &[u8]) -> fmt::Result {
    f.write_str(name)?;
    bytes.iter().try_for_each(|byte| write!(f, " {byte}"))
}
