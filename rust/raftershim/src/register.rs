//! The registers that the bridge carries.

use core::fmt;

use crate::Refusal;

/// A register that the bridge carries. A control register, R00 to R11, takes its carried bits only;
/// a character register, C00 to C05, takes any byte.
///
/// # Go and stop vanish from the data
///
/// While the receiver protocol is on, which it is at start, a line byte equal to the go character
/// C04 or the stop character C05 is taken as such. It is not stored, it is in no reading, and it is
/// not counted as lost: so the manual has it. So these two must be characters that the meter never
/// sends as data. With C05 set to 46, the point, every point is swallowed, and 2.5 is read as 25
/// without a warning. Where the meter's data may hold any byte, write 0 to R11 first.
///
/// # No rule changes under a held line
///
/// R10, C00 and C01 say how what comes on the line is read. Each byte is read as they were when it was
/// stored, so a write of one of them is refused with [`Refusal::HELD_BYTES`] while the receive store
/// holds anything. The value does not matter: one that the register has already is refused too. Read
/// all that is held, and then write. A byte that waits for the end of its line is held as well. Where
/// that end never comes, since the meter ends its lines otherwise, each line leaves a byte or two that
/// wait: a break lets them be read, and a device clear or a reset throws them away.
///
/// ```
/// use raftershim::{Bridge, Register, Stores};
///
/// let mut bridge = Bridge::create(Stores { receive: [0; 64], transmit: [0; 64] }, 8)?;
/// bridge.write_register(Register::R10, Register::R10_FIND_LINE_END)?;
/// bridge.write_register(Register::C00, b'\n')?;
/// let registers = bridge.state()?.registers;
/// assert_eq!((registers.r10, registers.c00), (8, 10));
/// # Ok::<(), raftershim::Refusal>(())
/// ```
#[derive(Clone, Copy, Debug, PartialEq, Eq, PartialOrd, Ord, Hash)]
#[non_exhaustive]
pub enum Register {
    /// R00: service requests and overrun. At start 0.
    R00 = 0,
    /// R01: the conditions of the stores. At start 0.
    R01 = 1,
    /// R02: the MSRQ key and the break. At start 0.
    R02 = 2,
    /// R10: line ends. At start 0. It is not written while bytes from the line are held.
    R10 = 10,
    /// R11: the receiver protocol. At start 8, so it is on. Writing R11 lets our sending start
    /// again at once.
    R11 = 11,
    /// C00: the first character of the pair that ends a line on the way to the loop. At start 13. It is
    /// not written while bytes from the line are held.
    C00 = 16,
    /// C01: the second character of the pair that ends a line on the way to the loop. At start 10. It is
    /// not written while bytes from the line are held.
    C01 = 17,
    /// C02: the first character of the pair put behind an end byte on the way to the line. At
    /// start 13.
    C02 = 18,
    /// C03: the second character of the pair put behind an end byte on the way to the line. At
    /// start 10.
    C03 = 19,
    /// C04: the go character, at start 17. It vanishes from the data while the protocol is on.
    C04 = 20,
    /// C05: the stop character, at start 19. It vanishes from the data while the protocol is on.
    C05 = 21,
}

impl Register {
    /// All carried registers, by number.
    pub const ALL: [Register; 11] = [
        Register::R00,
        Register::R01,
        Register::R02,
        Register::R10,
        Register::R11,
        Register::C00,
        Register::C01,
        Register::C02,
        Register::C03,
        Register::C04,
        Register::C05,
    ];

    /// R00 bit 0: an overrun begins a service request.
    pub const R00_OVERRUN: u8 = 1;
    /// R00 bit 3: service requests show.
    pub const R00_SHOW_REQUESTS: u8 = 8;
    /// R01 bit 0: an empty transmit store begins a service request.
    pub const R01_TRANSMIT_EMPTY: u8 = 1;
    /// R01 bit 1: a transmit store that is not full begins a service request.
    pub const R01_TRANSMIT_NOT_FULL: u8 = 2;
    /// R01 bit 2: a receive store that is not empty begins a service request.
    pub const R01_RECEIVE_NOT_EMPTY: u8 = 4;
    /// R01 bit 3: a full receive store begins a service request.
    pub const R01_RECEIVE_FULL: u8 = 8;
    /// R02 bit 0: a break begins a service request.
    pub const R02_BREAK: u8 = 1;
    /// R02 bit 2: a press of the MSRQ key begins a service request.
    pub const R02_KEY: u8 = 4;
    /// R10 bit 2: C02 and C03 are put behind an end byte on the way to the line.
    pub const R10_ADD_LINE_END: u8 = 4;
    /// R10 bit 3: C00 and C01 end a line on the way to the loop. Without it no reading ever ends.
    pub const R10_FIND_LINE_END: u8 = 8;
    /// R11 bit 3: the receiver protocol, in which go and stop hold the line off.
    pub const R11_PROTOCOL: u8 = 8;

    /// The number of the register: 0 to 12 are R00 to R12, 16 to 21 are C00 to C05.
    ///
    /// ```
    /// assert_eq!(raftershim::Register::C00.number(), 16);
    /// ```
    pub const fn number(self) -> u32 {
        self as u32
    }
}

impl TryFrom<u32> for Register {
    type Error = Refusal;

    /// The register with this number; refusal 5 if it is not carried.
    fn try_from(number: u32) -> Result<Register, Refusal> {
        let mut carried = Register::ALL.into_iter();
        carried
            .find(|register| register.number() == number)
            .ok_or(Refusal::NOT_CARRIED)
    }
}

impl fmt::Display for Register {
    /// The name, as in R10 and C00.
    fn fmt(&self, f: &mut fmt::Formatter<'_>) -> fmt::Result {
        fmt::Debug::fmt(self, f)
    }
}
