//! The two ways through a mailbox, and the bytes that wait in them.

use crate::cell;
use core::fmt;

/// A way through the mailbox. The cases have the numbers of the C functions.
///
/// ```
/// use raftershim::{BusByte, BusCommand, Mailbox, Way, Ways};
///
/// let mut mailbox = Mailbox::create(Ways { to_bus: [0; 8], to_loop: [0; 8] }, 7)?;
/// mailbox.bus_command(BusCommand::mla(mailbox.bus_address()))?;
/// assert_eq!(mailbox.bus_byte(50, false)?, BusByte::Kept);
/// assert_eq!((mailbox.show(Way::ToBus).len(), mailbox.show(Way::ToLoop).len()), (0, 1));
/// # Ok::<(), raftershim::Refusal>(())
/// ```
#[derive(Clone, Copy, Debug, PartialEq, Eq, Hash)]
pub enum Way {
    /// What the loop leaves for the bus.
    ToBus = 0,
    /// What the bus leaves for the loop.
    ToLoop = 1,
}

/// The two stores of a mailbox, by name so that they cannot be exchanged unseen.
///
/// Each is an array, a vector, a borrowed slice, or anything else that lends its cells, the same
/// ones at every call. A cell is a [`MailByte`] as a number of 16 bits.
///
/// ```
/// use raftershim::{Mailbox, Ways};
///
/// let mut to_loop = vec![0; 100];
/// let ways = Ways { to_bus: [0; 8], to_loop: to_loop.as_mut_slice() };
/// assert!(Mailbox::create(ways, 7).is_ok());
/// ```
#[derive(Clone, Copy, Default, PartialEq, Eq, Hash)]
pub struct Ways<B, L> {
    /// The store of the way to the bus: 1 to 32768 cells.
    pub to_bus: B,
    /// The store of the way to the loop: 1 to 32768 cells.
    pub to_loop: L,
}

impl<B: AsRef<[u16]>, L: AsRef<[u16]>> fmt::Debug for Ways<B, L> {
    /// The lengths; the stores may be long.
    fn fmt(&self, f: &mut fmt::Formatter<'_>) -> fmt::Result {
        f.debug_struct("Ways")
            .field("to_bus_len", &self.to_bus.as_ref().len())
            .field("to_loop_len", &self.to_loop.as_ref().len())
            .finish()
    }
}

/// A byte in a mailbox, with or without the end mark: EOI on the bus, an end byte on the loop.
///
/// As a cell of a store it is a number: the byte, and 256 more with the end mark. The bits above do
/// not count.
///
/// ```
/// use raftershim::MailByte;
///
/// let last = MailByte { byte: b'5', end: true };
/// assert_eq!(u16::from(last), 256 + 53);
/// assert_eq!(MailByte::from(0xFF35), last);
/// assert_eq!(last.to_string(), "53 end");
/// ```
#[derive(Clone, Copy, Debug, PartialEq, Eq, Hash)]
pub struct MailByte {
    /// The byte.
    pub byte: u8,
    /// Whether it has the end mark.
    pub end: bool,
}

impl From<u16> for MailByte {
    fn from(number: u16) -> MailByte {
        let (byte, end) = cell::parts(number);
        MailByte { byte, end }
    }
}

impl From<MailByte> for u16 {
    fn from(MailByte { byte, end }: MailByte) -> u16 {
        cell::with_mark(byte, end)
    }
}

impl fmt::Display for MailByte {
    fn fmt(&self, f: &mut fmt::Formatter<'_>) -> fmt::Result {
        let mark = if self.end { " end" } else { "" };
        write!(f, "{}{mark}", self.byte)
    }
}
