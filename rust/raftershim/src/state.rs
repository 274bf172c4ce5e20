//! What the block of a bridge says, field by field.

use crate::{Address, Frame, Register, BLOCK_LEN};

/// What the state of a bridge says, read from its block.
///
/// ```
/// use raftershim::{Bridge, LineByte, Stores};
///
/// let mut bridge = Bridge::create(Stores { receive: [0; 4], transmit: [0; 3] }, 1)?;
/// for byte in *b"1234" {
///     assert_eq!(bridge.line_byte(byte)?, LineByte::Stored);
/// }
/// assert_eq!(bridge.line_byte(b'5')?, LineByte::Lost);
/// let state = bridge.state()?;
/// assert_eq!((state.stored, state.lost, state.seen_overrun), (4, 1, true));
/// # Ok::<(), raftershim::Refusal>(())
/// ```
#[derive(Clone, Copy, Debug, PartialEq, Eq, Hash)]
#[non_exhaustive]
pub struct State {
    /// The recorded length of the receive store.
    pub receive_len: u16,
    /// The recorded length of the transmit store.
    pub transmit_len: u16,
    /// The margin: holding off begins when it or less is free, and ends at twice as much.
    pub margin: u16,
    /// The carried registers.
    pub registers: Registers,
    /// Our address, or none while it is unassigned.
    pub address: Option<Address>,
    /// How far we are talker.
    pub talker: Talker,
    /// Whether we are listener.
    pub listener: bool,
    /// Whether remote is enabled.
    pub remote_enabled: bool,
    /// Whether we are remote.
    pub remote: bool,
    /// The frame of ours under way, without its service bit.
    pub under_way: Option<Frame>,
    /// Whether sending ends after the frame under way.
    pub finishing: bool,
    /// What the receive store holds, line to loop.
    pub receive: Ring,
    /// What the transmit store holds, loop to line.
    pub transmit: Ring,
    /// Whether we hold the line off.
    pub holding: bool,
    /// Whether the other end forbids our sending.
    pub forbidden: bool,
    /// Whether stop was the last of go and stop that we sent.
    pub stop_sent_last: bool,
    /// Status bit 4: a break was seen.
    pub seen_break: bool,
    /// Status bit 5: a byte from the line was lost because the receive store was full.
    pub seen_overrun: bool,
    /// Status bit 7: a press of the MSRQ key was seen.
    pub seen_key: bool,
    /// Whether a break happened since the last status byte was sent.
    pub again_break: bool,
    /// Whether a byte was lost since the last status byte was sent.
    pub again_overrun: bool,
    /// Whether the MSRQ key was pressed since the last status byte was sent.
    pub again_key: bool,
    /// Whether a service request has begun and not ended, whether it shows or not.
    pub request: bool,
    /// Bytes stored in the receive store since create or reset, starting again at 0 after
    /// 4294967295, as all three counts do. A reset sets all three to 0.
    pub stored: u32,
    /// Bytes lost since create or reset. It does not say in which reading a byte is missing:
    /// [`Meter::reading`](crate::Meter::reading) does.
    pub lost: u32,
    /// Data frames sent from the receive store since create or reset.
    pub sent: u32,
}

/// How far we are talker.
#[derive(Clone, Copy, Debug, PartialEq, Eq, Hash)]
pub enum Talker {
    /// Not talker.
    Not,
    /// Addressed, and no frame of ours is under way.
    Addressed,
    /// Active: a data frame of ours is under way.
    Data,
    /// Active: a status byte of ours is under way.
    Status,
}

/// What the carried registers hold. [`Register`] says what each is for.
///
/// ```
/// use raftershim::{Bridge, Register, Stores};
///
/// let bridge = Bridge::create(Stores { receive: [0; 64], transmit: [0; 64] }, 8)?;
/// let registers = bridge.state()?.registers;
/// assert_eq!((registers.r11, registers.c04, registers.c05), (8, 17, 19));
/// assert_eq!(registers.get(Register::C05), 19);
/// # Ok::<(), raftershim::Refusal>(())
/// ```
#[derive(Clone, Copy, Debug, PartialEq, Eq, Hash)]
#[non_exhaustive]
pub struct Registers {
    /// R00: service requests and overrun.
    pub r00: u8,
    /// R01: the conditions of the stores.
    pub r01: u8,
    /// R02: the MSRQ key and the break.
    pub r02: u8,
    /// R10: line ends.
    pub r10: u8,
    /// R11: the receiver protocol.
    pub r11: u8,
    /// C00: the first character of a line end from the line.
    pub c00: u8,
    /// C01: the second character of a line end from the line.
    pub c01: u8,
    /// C02: the first character of a line end to the line.
    pub c02: u8,
    /// C03: the second character of a line end to the line.
    pub c03: u8,
    /// C04: the go character.
    pub c04: u8,
    /// C05: the stop character.
    pub c05: u8,
}

/// Which places of a store hold bytes, or cells with bytes. Places run from 0 and come round after
/// the last.
///
/// ```
/// use raftershim::{Bridge, LineByte, Stores};
///
/// let mut bridge = Bridge::create(Stores { receive: [0; 64], transmit: [0; 64] }, 8)?;
/// assert_eq!(bridge.line_byte(50)?, LineByte::Stored);
/// let receive = bridge.state()?.receive;
/// assert_eq!((receive.oldest, receive.held), (0, 1));
/// # Ok::<(), raftershim::Refusal>(())
/// ```
#[derive(Clone, Copy, Debug, PartialEq, Eq, Hash)]
#[non_exhaustive]
pub struct Ring {
    /// The place of the oldest byte held, or of the next byte if none is.
    pub oldest: u16,
    /// How many bytes are held.
    pub held: u16,
}

impl State {
    /// Reads every field of a block that is a state. The first byte is the version, which is no
    /// field of the state.
    pub(crate) fn of(block: &[u8; BLOCK_LEN]) -> State {
        let talker = Talker::of(block[28]);
        let under_way = Frame::new(block[31], block[30]).ok();
        State {
            margin: two(block[1], block[2]),
            receive_len: two(block[3], block[4]),
            receive: Ring::of([block[5], block[6], block[7], block[8]]),
            transmit_len: two(block[9], block[10]),
            transmit: Ring::of([block[11], block[12], block[13], block[14]]),
            stored: u32::from_le_bytes([block[15], block[16], block[17], block[18]]),
            lost: u32::from_le_bytes([block[19], block[20], block[21], block[22]]),
            sent: u32::from_le_bytes([block[23], block[24], block[25], block[26]]),
            address: Address::new(block[27]),
            talker,
            listener: flag(block[29]),
            under_way: under_way.filter(|_| talker.is_active()),
            finishing: flag(block[32]),
            registers: Registers::of(block),
            holding: flag(block[44]),
            forbidden: flag(block[45]),
            stop_sent_last: flag(block[46]),
            seen_break: flag(block[47]),
            seen_overrun: flag(block[48]),
            seen_key: flag(block[49]),
            again_break: flag(block[50]),
            again_overrun: flag(block[51]),
            again_key: flag(block[52]),
            request: flag(block[53]),
            remote_enabled: flag(block[54]),
            remote: flag(block[55]),
        }
    }
}

impl Talker {
    /// Whether a frame of ours is under way.
    pub(crate) const fn is_active(self) -> bool {
        matches!(self, Talker::Data | Talker::Status)
    }

    pub(crate) const fn of(phase: u8) -> Talker {
        match phase {
            0 => Talker::Not,
            1 => Talker::Addressed,
            2 => Talker::Data,
            _ => Talker::Status,
        }
    }
}

impl Registers {
    /// What a register holds.
    ///
    /// ```
    /// use raftershim::{Bridge, Register, Stores};
    ///
    /// let bridge = Bridge::create(Stores { receive: [0; 64], transmit: [0; 64] }, 8)?;
    /// assert_eq!(bridge.state()?.registers.get(Register::R11), Register::R11_PROTOCOL);
    /// # Ok::<(), raftershim::Refusal>(())
    /// ```
    pub const fn get(&self, register: Register) -> u8 {
        match register {
            Register::R00 => self.r00,
            Register::R01 => self.r01,
            Register::R02 => self.r02,
            Register::R10 => self.r10,
            Register::R11 => self.r11,
            Register::C00 => self.c00,
            Register::C01 => self.c01,
            Register::C02 => self.c02,
            Register::C03 => self.c03,
            Register::C04 => self.c04,
            Register::C05 => self.c05,
        }
    }

    const fn of(block: &[u8; BLOCK_LEN]) -> Registers {
        Registers {
            r00: block[33],
            r01: block[34],
            r02: block[35],
            r10: block[36],
            r11: block[37],
            c00: block[38],
            c01: block[39],
            c02: block[40],
            c03: block[41],
            c04: block[42],
            c05: block[43],
        }
    }
}

impl Ring {
    pub(crate) const fn of([oldest, oldest_high, held, held_high]: [u8; 4]) -> Ring {
        Ring {
            oldest: two(oldest, oldest_high),
            held: two(held, held_high),
        }
    }
}

/// A number of two bytes.
pub(crate) const fn two(low: u8, high: u8) -> u16 {
    u16::from_le_bytes([low, high])
}

/// A flag, which a fitting block has as 1 or 0.
pub(crate) const fn flag(byte: u8) -> bool {
    byte == 1
}
