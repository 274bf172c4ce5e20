//! The bytes that the receive store holds.

use crate::cell;
use core::fmt;

/// A byte that the receive store holds, and whether a break follows it on the line.
///
/// As a cell of the store it is a number: the byte, and 256 more with the mark of the break. The bits
/// above do not count.
///
/// ```
/// use raftershim::HeldByte;
///
/// let last = HeldByte { byte: b'5', then_break: true };
/// assert_eq!(u16::from(last), 256 + 53);
/// assert_eq!(HeldByte::from(0xFF35), last);
/// assert_eq!(last.to_string(), "53 break");
/// ```
#[derive(Clone, Copy, Debug, PartialEq, Eq, Hash)]
pub struct HeldByte {
    /// The byte.
    pub byte: u8,
    /// Whether a break follows it.
    pub then_break: bool,
}

impl From<u16> for HeldByte {
    fn from(number: u16) -> HeldByte {
        let (byte, then_break) = cell::parts(number);
        HeldByte { byte, then_break }
    }
}

impl From<HeldByte> for u16 {
    fn from(HeldByte { byte, then_break }: HeldByte) -> u16 {
        cell::with_mark(byte, then_break)
    }
}

impl fmt::Display for HeldByte {
    fn fmt(&self, f: &mut fmt::Formatter<'_>) -> fmt::Result {
        let mark = if self.then_break { " break" } else { "" };
        write!(f, "{}{mark}", self.byte)
    }
}
