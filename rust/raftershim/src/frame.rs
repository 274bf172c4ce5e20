//! The frames of the loop, and the addresses of its devices.

use core::fmt;

use crate::Refusal;

/// A frame of the loop: 11 bits, three control bits above eight data bits.
///
/// Control 0 is data and 2 an end byte, 1 and 3 the same with a service request. Control 4 is a
/// command, 5 a ready frame, 6 identify and 7 identify with a service request. A frame displays as
/// control and data with a comma between them.
///
/// ```
/// use raftershim::{Frame, Refusal};
///
/// assert_eq!(Frame::SEND_DATA.to_string(), "5,96");
/// assert_eq!((Frame::SEND_DATA.control(), Frame::SEND_DATA.data()), (5, 96));
/// assert_eq!(Frame::try_from(1376_u16), Ok(Frame::SEND_DATA));
/// assert_eq!(Frame::try_from(2048_u16), Err(Refusal::FRAME_TOO_LARGE));
/// ```
#[derive(Clone, Copy, PartialEq, Eq, PartialOrd, Ord, Hash)]
pub struct Frame(u16);

impl Frame {
    /// 5,96, send data: the addressed talker answers with its first data frame, or with
    /// [`END_OF_TRANSMISSION`](Frame::END_OF_TRANSMISSION) if it has none.
    pub const SEND_DATA: Frame = Frame::joined(5, 96);
    /// 5,97, send status: the addressed talker answers with its status byte, which is a
    /// [`StatusByte`](crate::StatusByte) of a bridge and a [`MailboxStatus`](crate::MailboxStatus)
    /// of a mailbox. One that is not talker passes 5,97 on, so take the answer as a status only if
    /// it [is data](Frame::is_data).
    pub const SEND_STATUS: Frame = Frame::joined(5, 97);
    /// 5,66, not ready: the talker finishes after the frame under way. A controller that has seen
    /// the end byte of a reading sends it before it passes that frame on, and so stops there.
    pub const NOT_READY: Frame = Frame::joined(5, 66);
    /// 5,64, end of transmission: the talker has sent all, or was told to finish.
    pub const END_OF_TRANSMISSION: Frame = Frame::joined(5, 64);
    /// 5,65, end of transmission with an error: the talker's frame came back changed.
    pub const TRANSMISSION_ERROR: Frame = Frame::joined(5, 65);
    /// 4,15, enable listener not ready: a mailbox that is listener says 5,66 when one place is
    /// left for the loop's data, until the next command.
    pub const ENABLE_NOT_READY: Frame = Frame::joined(4, 15);
    /// 4,20, device clear: a bridge empties both stores, a mailbox that to the bus.
    pub const DEVICE_CLEAR: Frame = Frame::joined(4, 20);
    /// 4,144, interface clear: nobody is talker or listener any more.
    pub const INTERFACE_CLEAR: Frame = Frame::joined(4, 144);
    /// 4,95, untalk: nobody is talker any more.
    pub const UNTALK: Frame = Frame::joined(4, 95);
    /// 4,63, unlisten: nobody is listener any more.
    pub const UNLISTEN: Frame = Frame::joined(4, 63);

    const fn joined(control: u8, data: u8) -> Frame {
        Frame(u16::from_be_bytes([control, data]))
    }

    /// The frame with this control and this data.
    ///
    /// # Errors
    ///
    /// Refusal 3 if the control is above 7: there is no such frame.
    ///
    /// ```
    /// use raftershim::{Frame, Refusal};
    ///
    /// assert_eq!(Frame::new(5, 96), Ok(Frame::SEND_DATA));
    /// assert_eq!(Frame::new(8, 0), Err(Refusal::FRAME_TOO_LARGE));
    /// ```
    pub const fn new(control: u8, data: u8) -> Result<Frame, Refusal> {
        match control {
            0..=7 => Ok(Frame::joined(control, data)),
            _ => Err(Refusal::FRAME_TOO_LARGE),
        }
    }

    /// 0 and the byte: a data frame.
    ///
    /// ```
    /// use raftershim::Frame;
    ///
    /// assert_eq!(Frame::data_byte(b'2').to_string(), "0,50");
    /// ```
    pub const fn data_byte(byte: u8) -> Frame {
        Frame::joined(0, byte)
    }

    /// 2 and the byte: an end byte, the last of a line.
    ///
    /// ```
    /// use raftershim::Frame;
    ///
    /// assert_eq!(Frame::end_byte(b'5').to_string(), "2,53");
    /// ```
    pub const fn end_byte(byte: u8) -> Frame {
        Frame::joined(2, byte)
    }

    /// 4 and 64 plus the address: makes that device talker, and ends all other talking.
    ///
    /// ```
    /// use raftershim::{Address, Frame};
    ///
    /// assert_eq!(Frame::talk_address(Address::FIRST).to_string(), "4,65");
    /// ```
    pub const fn talk_address(address: Address) -> Frame {
        Frame::joined(4, 64 + address.0)
    }

    /// 4 and 32 plus the address: makes that device listener.
    ///
    /// ```
    /// use raftershim::{Address, Frame};
    ///
    /// assert_eq!(Frame::listen_address(Address::FIRST).to_string(), "4,33");
    /// ```
    pub const fn listen_address(address: Address) -> Frame {
        Frame::joined(4, 32 + address.0)
    }

    /// 5 and 128 plus the address: the first device without an address takes it.
    ///
    /// ```
    /// use raftershim::{Address, Frame};
    ///
    /// assert_eq!(Frame::auto_address(Address::FIRST).to_string(), "5,129");
    /// ```
    pub const fn auto_address(address: Address) -> Frame {
        Frame::joined(5, 128 + address.0)
    }

    /// The control bits, 0 to 7.
    ///
    /// ```
    /// assert_eq!(raftershim::Frame::NOT_READY.control(), 5);
    /// ```
    pub const fn control(self) -> u8 {
        let [control, _] = self.0.to_be_bytes();
        control
    }

    /// The data bits.
    ///
    /// ```
    /// assert_eq!(raftershim::Frame::NOT_READY.data(), 66);
    /// ```
    pub const fn data(self) -> u8 {
        let [_, data] = self.0.to_be_bytes();
        data
    }

    /// Whether it carries a byte: control 0 to 3, so data or an end byte, with or without a service
    /// request.
    ///
    /// ```
    /// use raftershim::Frame;
    ///
    /// assert!(Frame::data_byte(50).is_data() && Frame::end_byte(53).is_data());
    /// assert!(!Frame::END_OF_TRANSMISSION.is_data());
    /// ```
    pub const fn is_data(self) -> bool {
        self.control() < 4
    }

    /// Whether it is an end byte: control 2, or 3 with a service request.
    ///
    /// ```
    /// use raftershim::Frame;
    ///
    /// assert!(Frame::end_byte(53).is_end() && !Frame::data_byte(50).is_end());
    /// ```
    pub const fn is_end(self) -> bool {
        matches!(self.control(), 2 | 3)
    }

    /// Whether it is a command: control 4.
    ///
    /// ```
    /// use raftershim::Frame;
    ///
    /// assert!(Frame::DEVICE_CLEAR.is_command() && !Frame::SEND_DATA.is_command());
    /// ```
    pub const fn is_command(self) -> bool {
        self.control() == 4
    }

    /// Whether a device asks for service in it: the lowest control bit of data and identify frames.
    ///
    /// ```
    /// use raftershim::Frame;
    ///
    /// assert!(Frame::new(1, 50)?.asks_service() && !Frame::SEND_DATA.asks_service());
    /// # Ok::<(), raftershim::Refusal>(())
    /// ```
    pub const fn asks_service(self) -> bool {
        matches!(self.control(), 1 | 3 | 7)
    }
}

impl From<Frame> for u16 {
    fn from(frame: Frame) -> u16 {
        frame.0
    }
}

impl From<Frame> for u32 {
    fn from(frame: Frame) -> u32 {
        frame.0.into()
    }
}

impl TryFrom<u16> for Frame {
    type Error = Refusal;

    /// The frame with this number, which is control times 256 plus data; refusal 3 above 2047.
    fn try_from(number: u16) -> Result<Frame, Refusal> {
        let [control, data] = number.to_be_bytes();
        Frame::new(control, data)
    }
}

impl TryFrom<u32> for Frame {
    type Error = Refusal;

    /// The frame with this number; refusal 3 above 2047.
    fn try_from(number: u32) -> Result<Frame, Refusal> {
        u16::try_from(number).map_or(Err(Refusal::FRAME_TOO_LARGE), Frame::try_from)
    }
}

impl fmt::Display for Frame {
    fn fmt(&self, f: &mut fmt::Formatter<'_>) -> fmt::Result {
        write!(f, "{},{}", self.control(), self.data())
    }
}

impl fmt::Debug for Frame {
    fn fmt(&self, f: &mut fmt::Formatter<'_>) -> fmt::Result {
        write!(f, "Frame({self})")
    }
}

/// The address of a device on the loop or on the bus, 0 to 30.
///
/// ```
/// use raftershim::Address;
///
/// assert_eq!(Address::new(1), Some(Address::FIRST));
/// assert_eq!(Address::new(31), None);
/// assert_eq!(Address::FIRST.to_string(), "1");
/// ```
#[derive(Clone, Copy, Debug, PartialEq, Eq, PartialOrd, Ord, Hash)]
pub struct Address(u8);

impl Address {
    /// Address 1, which a controller gives to the first device of its loop.
    pub const FIRST: Address = Address(1);

    /// The address with this number, or none above 30.
    ///
    /// ```
    /// assert_eq!(raftershim::Address::new(30).map(|address| address.number()), Some(30));
    /// ```
    pub const fn new(number: u8) -> Option<Address> {
        match number {
            0..=30 => Some(Address(number)),
            _ => None,
        }
    }

    /// The address with a number that is known to be one.
    pub(crate) const fn known(number: u8) -> Address {
        Address(number)
    }

    /// The number of the address.
    ///
    /// ```
    /// assert_eq!(raftershim::Address::FIRST.number(), 1);
    /// ```
    pub const fn number(self) -> u8 {
        self.0
    }
}

impl fmt::Display for Address {
    fn fmt(&self, f: &mut fmt::Formatter<'_>) -> fmt::Result {
        self.0.fmt(f)
    }
}
