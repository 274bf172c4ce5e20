//! The calls of a mailbox in a script, and how each is printed.

use crate::call::with_bytes;
use crate::{Command, FrameName};
use std::fmt;

/// The way that is shown.
#[derive(Clone, Copy, Debug, PartialEq, Eq, Hash)]
pub enum Way {
    /// What the loop leaves for the bus.
    Bus,
    /// What the bus leaves for the loop.
    Loop,
}

/// One call of a mailbox.
#[derive(Clone, Debug, PartialEq, Eq, Hash)]
pub enum MailboxCall {
    /// Create a mailbox.
    Create {
        /// The length of the store to the bus.
        to_bus: u32,
        /// The length of the store to the loop.
        to_loop: u32,
        /// The address on the bus.
        address: u32,
    },
    /// Reset the mailbox.
    Reset,
    /// Put the mailbox together again from this saved block, on its stores as they are; there is
    /// at least one byte.
    Restore(Vec<u8>),
    /// Take a loop frame.
    Frame(u32),
    /// Take a command of the bus.
    Command(Command),
    /// Take these data bytes of the bus, one after the other.
    Byte {
        /// The bytes, at least one.
        bytes: Vec<u8>,
        /// Whether the last has the end mark.
        end: bool,
    },
    /// Give the bus its next byte.
    Fetch,
    /// Take an interface clear of the bus.
    Clear,
    /// Show the bus lines.
    Lines,
    /// Show what waits in a way.
    Show(Way),
    /// Say the state.
    State,
}

impl fmt::Display for Way {
    fn fmt(&self, f: &mut fmt::Formatter<'_>) -> fmt::Result {
        f.write_str(match self {
            Way::Bus => "bus",
            Way::Loop => "loop",
        })
    }
}

/// Prints the call as a script has it. Up to 1,000 bytes stay below the longest line.
impl fmt::Display for MailboxCall {
    fn fmt(&self, f: &mut fmt::Formatter<'_>) -> fmt::Result {
        match self {
            MailboxCall::Create {
                to_bus,
                to_loop,
                address,
            } => write!(f, "mailbox {to_bus} {to_loop} {address}"),
            MailboxCall::Reset => f.write_str("reset"),
            MailboxCall::Restore(bytes) => with_bytes(f, "restore", bytes),
            MailboxCall::Frame(frame) => write!(f, "frame {}", FrameName(*frame)),
            MailboxCall::Command(command) => write!(f, "command {command}"),
            MailboxCall::Byte { bytes, end } => {
                with_bytes(f, "byte", bytes)?;
                f.write_str(if *end { " end" } else { "" })
            }
            MailboxCall::Fetch => f.write_str("fetch"),
            MailboxCall::Clear => f.write_str("clear"),
            MailboxCall::Lines => f.write_str("lines"),
            MailboxCall::Show(way) => write!(f, "show {way}"),
            MailboxCall::State => f.write_str("state"),
        }
    }
}
