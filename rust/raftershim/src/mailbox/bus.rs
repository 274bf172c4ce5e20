//! What the bus sends a mailbox, and what it sees of it.

use core::fmt;

use crate::{Address, Refusal};

/// A command of the bus, which is a byte from 0 to 127 while ATN is on.
///
/// The mailbox heeds those that have a name here, and listen and talk addresses. All others it
/// takes, and they do nothing.
///
/// ```
/// use raftershim::{Address, BusCommand, Refusal};
///
/// assert_eq!(u8::from(BusCommand::mla(Address::FIRST)), 33);
/// assert_eq!(BusCommand::try_from(63_u32), Ok(BusCommand::UNL));
/// assert_eq!(BusCommand::try_from(128_u32), Err(Refusal::COMMAND_TOO_LARGE));
/// ```
#[derive(Clone, Copy, Debug, PartialEq, Eq, PartialOrd, Ord, Hash)]
pub struct BusCommand(u8);

impl BusCommand {
    /// 4, SDC, selected device clear: if we are listener, what waits for the loop is thrown away.
    pub const SDC: BusCommand = BusCommand(4);
    /// 5, PPC, parallel poll configure: if we are listener, the next command may set our answer to
    /// a parallel poll by [`ppe`](BusCommand::ppe). Any other next command ends the answer.
    pub const PPC: BusCommand = BusCommand(5);
    /// 20, DCL, device clear: what waits for the loop is thrown away.
    pub const DCL: BusCommand = BusCommand(20);
    /// 21, PPU, parallel poll unconfigure: we answer no parallel poll.
    pub const PPU: BusCommand = BusCommand(21);
    /// 24, SPE, serial poll enable: a talker gives its status byte in the place of data.
    pub const SPE: BusCommand = BusCommand(24);
    /// 25, SPD, serial poll disable: a talker gives data again.
    pub const SPD: BusCommand = BusCommand(25);
    /// 63, UNL, unlisten: nobody is listener any more.
    pub const UNL: BusCommand = BusCommand(63);
    /// 95, UNT, untalk: nobody is talker any more.
    pub const UNT: BusCommand = BusCommand(95);
    /// 112, PPD, parallel poll disable: after [`PPC`](BusCommand::PPC) it ends our answer.
    pub const PPD: BusCommand = BusCommand(112);

    /// The command with this number.
    ///
    /// # Errors
    ///
    /// Refusal 13 if it is above 127: there is no such command.
    ///
    /// ```
    /// use raftershim::{BusCommand, Refusal};
    ///
    /// assert_eq!(BusCommand::new(20), Ok(BusCommand::DCL));
    /// assert_eq!(BusCommand::new(128), Err(Refusal::COMMAND_TOO_LARGE));
    /// ```
    pub const fn new(number: u8) -> Result<BusCommand, Refusal> {
        match number {
            0..=127 => Ok(BusCommand(number)),
            _ => Err(Refusal::COMMAND_TOO_LARGE),
        }
    }

    /// 32 plus the address, MLA to the device that has it: it becomes listener and is no talker.
    /// The others stay what they are.
    ///
    /// ```
    /// use raftershim::{Address, BusCommand};
    ///
    /// assert_eq!(BusCommand::mla(Address::FIRST).to_string(), "33");
    /// ```
    pub const fn mla(address: Address) -> BusCommand {
        BusCommand(32 + address.number())
    }

    /// 64 plus the address, MTA to the device that has it: it becomes talker and is no listener.
    /// All others are no talkers then.
    ///
    /// ```
    /// use raftershim::{Address, BusCommand};
    ///
    /// assert_eq!(BusCommand::mta(Address::FIRST).to_string(), "65");
    /// ```
    pub const fn mta(address: Address) -> BusCommand {
        BusCommand(64 + address.number())
    }

    /// 96 plus the line, PPE, parallel poll enable: after [`PPC`](BusCommand::PPC) we answer a
    /// parallel poll on this line while we request service. None for a line above 7.
    ///
    /// ```
    /// use raftershim::BusCommand;
    ///
    /// assert_eq!(BusCommand::ppe(2).map(u8::from), Some(98));
    /// assert_eq!(BusCommand::ppe(8), None);
    /// ```
    pub const fn ppe(line: u8) -> Option<BusCommand> {
        match line {
            0..=7 => Some(BusCommand(96 + line)),
            _ => None,
        }
    }
}

impl From<BusCommand> for u8 {
    fn from(command: BusCommand) -> u8 {
        command.0
    }
}

impl From<BusCommand> for u32 {
    fn from(command: BusCommand) -> u32 {
        command.0.into()
    }
}

impl TryFrom<u32> for BusCommand {
    type Error = Refusal;

    /// The command with this number; refusal 13 above 127.
    fn try_from(number: u32) -> Result<BusCommand, Refusal> {
        u8::try_from(number).map_or(Err(Refusal::COMMAND_TOO_LARGE), BusCommand::new)
    }
}

impl fmt::Display for BusCommand {
    /// The number.
    fn fmt(&self, f: &mut fmt::Formatter<'_>) -> fmt::Result {
        self.0.fmt(f)
    }
}

/// What the bus sees of a mailbox without asking it for a byte.
///
/// ```
/// use raftershim::{Mailbox, Ways};
///
/// let mailbox = Mailbox::create(Ways { to_bus: [0; 8], to_loop: [0; 8] }, 7)?;
/// let lines = mailbox.bus_lines()?;
/// assert_eq!((lines.srq, lines.poll), (false, 0));
/// assert_eq!(lines.to_string(), "SRQ off, poll answer 0");
/// # Ok::<(), raftershim::Refusal>(())
/// ```
#[derive(Clone, Copy, Debug, PartialEq, Eq, Hash)]
#[non_exhaustive]
pub struct BusLines {
    /// Whether the service request line is on.
    pub srq: bool,
    /// The answer to a parallel poll: the bit of our line, or 0.
    pub poll: u8,
}

impl BusLines {
    /// Reads the value of an answer: the poll answer, and 256 more while SRQ is on.
    pub(crate) const fn of(value: u16) -> BusLines {
        let [_, poll] = value.to_be_bytes();
        let srq = value & 256 != 0;
        BusLines { srq, poll }
    }
}

impl fmt::Display for BusLines {
    fn fmt(&self, f: &mut fmt::Formatter<'_>) -> fmt::Result {
        let srq = if self.srq { "on" } else { "off" };
        write!(f, "SRQ {srq}, poll answer {}", self.poll)
    }
}

/// What became of a data byte of the bus that was not refused.
///
/// ```
/// use raftershim::{BusByte, BusCommand, Mailbox, Ways};
///
/// let mut mailbox = Mailbox::create(Ways { to_bus: [0; 8], to_loop: [0; 8] }, 7)?;
/// assert_eq!(mailbox.bus_byte(b'2', false)?, BusByte::NotKept);
/// mailbox.bus_command(BusCommand::mla(mailbox.bus_address()))?;
/// assert_eq!(mailbox.bus_byte(b'2', false)?, BusByte::Kept);
/// # Ok::<(), raftershim::Refusal>(())
/// ```
///
/// The compiler warns a caller that does not look:
///
/// ```compile_fail
/// #![deny(unused_must_use)]
/// # use raftershim::{Mailbox, Ways};
/// # let mut mailbox = Mailbox::create(Ways { to_bus: [0; 8], to_loop: [0; 8] }, 7).unwrap();
/// mailbox.bus_byte(b'2', false).unwrap();
/// ```
#[derive(Clone, Copy, Debug, PartialEq, Eq, Hash)]
#[must_use = "a byte that is not kept may be the point of a number"]
#[non_exhaustive]
pub enum BusByte {
    /// It waits for the loop.
    Kept,
    /// The mailbox is not listener on the bus: it has no part in the byte, and nobody here keeps
    /// it.
    NotKept,
}

impl fmt::Display for BusByte {
    fn fmt(&self, f: &mut fmt::Formatter<'_>) -> fmt::Result {
        f.write_str(match self {
            BusByte::Kept => "kept",
            BusByte::NotKept => "not kept",
        })
    }
}
