//! What a call answers, and how it is read from the word of a C function.

use core::fmt;

use crate::{BusByte, BusLines, Frame, MailByte, Refusal};

/// What a call answers when it is not refused, whichever call it is. It displays as a short plain
/// text.
///
/// The calls of a [`Bridge`](crate::Bridge) and of a [`Mailbox`](crate::Mailbox) say more by their
/// types: a frame, a byte or none, what became of a byte, the bus lines, or nothing. Each of these
/// becomes an answer where calls of all kinds are told in one way.
///
/// ```
/// use raftershim::{Answer, Frame, MailByte};
///
/// assert_eq!(Answer::Done.to_string(), "done");
/// assert_eq!(Answer::None.to_string(), "no line byte");
/// assert_eq!(Answer::from(Some(50)).to_string(), "line byte 50");
/// assert_eq!(Answer::from(Frame::SEND_DATA).to_string(), "frame 5,96");
/// let last = MailByte { byte: 53, end: true };
/// assert_eq!(Answer::from(Some(last)).to_string(), "byte 53 for the bus, with EOI");
/// ```
#[derive(Clone, Copy, Debug, PartialEq, Eq, Hash)]
#[non_exhaustive]
pub enum Answer {
    /// The call is done, and answers no more.
    Done,
    /// No line byte is next.
    None,
    /// The line byte that is next.
    Byte(u8),
    /// The frame that goes on along the loop.
    Frame(Frame),
    /// There is no byte for the bus to fetch.
    NoBusByte,
    /// The byte that the bus fetches.
    BusByte(MailByte),
    /// What the bus lines show.
    Lines(BusLines),
}

/// An answer, or the refusal in its place.
///
/// ```
/// use raftershim::{Answer, Answered, Refusal};
///
/// fn spoken(answered: Answered) -> String {
///     answered.map_or_else(|refusal| refusal.to_string(), |answer| answer.to_string())
/// }
/// assert_eq!(spoken(Ok(Answer::Done)), "done");
/// assert!(spoken(Err(Refusal::BUSY)).starts_with("refusal 4: busy"));
/// ```
pub type Answered = Result<Answer, Refusal>;

impl Answer {
    /// Reads the word of 64 bits that a C function of the bridge answered.
    ///
    /// This reads bits 0 to 23. The room in bits 32 to 47 is for [`room_of`](Answer::room_of), and the
    /// other bits are reserved: neither counts here. A word whose bits 0 to 23 the header does not
    /// describe is read as a refusal with the number 0, which no refusal has. The archive never
    /// gives such a word.
    ///
    /// ```
    /// use raftershim::{Answer, Refusal};
    ///
    /// assert_eq!(Answer::of(0x2_0032), Ok(Answer::Byte(50)));
    /// assert_eq!(Answer::of(0x4_0004), Err(Refusal::BUSY));
    /// assert_eq!(Answer::of(0x9_0000), Err(Refusal::of(0)));
    /// ```
    pub fn of(word: u64) -> Answered {
        match kind_and_value(word) {
            (1, 0) => Ok(Answer::None),
            (2, byte @ 0..=255) => Ok(Answer::Byte(byte as u8)),
            (kind, value) => of_both(kind, value),
        }
    }

    /// The room that is in the word of 64 bits that a C function of the bridge answered: how many
    /// bytes more a store can hold after the call. A byte takes a cell in the receive store.
    ///
    /// It is bits 32 to 47 of the word, whatever its other bits are. Of `raftershim_line_byte` it is
    /// that of the receive store, and of `raftershim_loop_frame` that of the transmit store. A refusal
    /// and all other functions tell none, and then it is 0. It is not for what the functions answer
    /// that show a store.
    ///
    /// ```
    /// use raftershim::Answer;
    ///
    /// let word = 0x7_0003_0582;
    /// assert_eq!(Answer::of(word).map(|answer| answer.to_string()), Ok("frame 5,130".into()));
    /// assert_eq!(Answer::room_of(word), 7);
    /// assert_eq!(Answer::room_of(0x4_0004), 0);
    /// ```
    pub fn room_of(word: u64) -> u16 {
        (word >> 32 & 0xFFFF) as u16
    }

    /// Reads the word of 64 bits that a C function of the mailbox answered, in the same way. None
    /// of them tells any room: bits 24 to 63 are reserved and do not count.
    ///
    /// ```
    /// use raftershim::{Answer, MailByte, Refusal};
    ///
    /// let last = MailByte { byte: 53, end: true };
    /// assert_eq!(Answer::of_mailbox(0x2_0135), Ok(Answer::BusByte(last)));
    /// assert_eq!(Answer::of_mailbox(0x4_0004), Err(Refusal::BUSY));
    /// assert_eq!(Answer::of_mailbox(0x9_0000), Err(Refusal::of(0)));
    /// ```
    pub fn of_mailbox(word: u64) -> Answered {
        match kind_and_value(word) {
            (1, 0) => Ok(Answer::NoBusByte),
            (2, cell @ 0..=511) => Ok(Answer::BusByte(MailByte::from(cell))),
            (5, lines @ 0..=511) => Ok(Answer::Lines(BusLines::of(lines))),
            (kind, value) => of_both(kind, value),
        }
    }
}

/// The kind and the value of a word. The bits above them are not looked at.
fn kind_and_value(word: u64) -> (u64, u16) {
    (word >> 16 & 0xFF, (word & 0xFFFF) as u16)
}

/// What the words of both products say alike.
fn of_both(kind: u64, value: u16) -> Answered {
    match (kind, value) {
        (0, 0) => Ok(Answer::Done),
        (3, frame @ 0..=2047) => Frame::try_from(frame).map(Answer::Frame),
        (4, number) => Err(Refusal::of(number)),
        _ => Err(Refusal::UNDESCRIBED),
    }
}

impl From<()> for Answer {
    fn from((): ()) -> Answer {
        Answer::Done
    }
}

impl From<LineByte> for Answer {
    fn from(_: LineByte) -> Answer {
        Answer::Done
    }
}

impl From<Option<u8>> for Answer {
    fn from(byte: Option<u8>) -> Answer {
        byte.map_or(Answer::None, Answer::Byte)
    }
}

impl From<Frame> for Answer {
    fn from(frame: Frame) -> Answer {
        Answer::Frame(frame)
    }
}

impl From<BusByte> for Answer {
    fn from(_: BusByte) -> Answer {
        Answer::Done
    }
}

impl From<Option<MailByte>> for Answer {
    fn from(byte: Option<MailByte>) -> Answer {
        byte.map_or(Answer::NoBusByte, Answer::BusByte)
    }
}

impl From<BusLines> for Answer {
    fn from(lines: BusLines) -> Answer {
        Answer::Lines(lines)
    }
}

impl fmt::Display for Answer {
    fn fmt(&self, f: &mut fmt::Formatter<'_>) -> fmt::Result {
        match self {
            Answer::Done => f.write_str("done"),
            Answer::None => f.write_str("no line byte"),
            Answer::Byte(byte) => write!(f, "line byte {byte}"),
            Answer::Frame(frame) => write!(f, "frame {frame}"),
            Answer::NoBusByte => f.write_str("no byte for the bus"),
            Answer::BusByte(MailByte { byte, end: false }) => write!(f, "byte {byte} for the bus"),
            Answer::BusByte(MailByte { byte, end: true }) => {
                write!(f, "byte {byte} for the bus, with EOI")
            }
            Answer::Lines(lines) => write!(f, "{lines}"),
        }
    }
}

/// What a call gives, and how much room is left after it. The calls of a [`Bridge`](crate::Bridge)
/// and of a [`Meter`](crate::Meter) that tell it end in `_and_room`, and each says whose room it is.
///
/// An app that shows the room, such as on a braille display, makes no call of its own for it.
///
/// ```
/// use raftershim::{Bridge, LineByte, Stores, WithRoom};
///
/// let mut bridge = Bridge::create(Stores { receive: [0; 4], transmit: [0; 3] }, 1)?;
/// let WithRoom { answer, room } = bridge.line_byte_and_room(50)?;
/// assert_eq!((answer, room), (LineByte::Stored, 3));
/// # Ok::<(), raftershim::Refusal>(())
/// ```
///
/// The compiler warns a caller that does not look:
///
/// ```compile_fail
/// #![deny(unused_must_use)]
/// # use raftershim::{Bridge, Stores};
/// # let mut bridge = Bridge::create(Stores { receive: [0; 4], transmit: [0; 3] }, 1).unwrap();
/// bridge.line_byte_and_room(b'5').unwrap();
/// ```
#[derive(Clone, Copy, Debug, PartialEq, Eq, Hash)]
#[must_use = "what the call gives is in it, such as that a byte is lost"]
pub struct WithRoom<T> {
    /// What the call gives.
    pub answer: T,
    /// How many bytes more the store can hold after the call, 0 to 32768.
    pub room: u16,
}

/// What became of a byte from the line.
///
/// ```
/// use raftershim::{Bridge, LineByte, Stores};
///
/// let mut bridge = Bridge::create(Stores { receive: [0; 4], transmit: [0; 3] }, 1)?;
/// for byte in *b"1234" {
///     assert_eq!(bridge.line_byte(byte)?, LineByte::Stored);
/// }
/// assert_eq!(bridge.line_byte(b'5')?, LineByte::Lost);
/// assert_eq!(bridge.line_byte(19)?, LineByte::Stop);
/// # Ok::<(), raftershim::Refusal>(())
/// ```
///
/// The compiler warns a caller that does not look:
///
/// ```compile_fail
/// #![deny(unused_must_use)]
/// # use raftershim::{Bridge, Stores};
/// # let mut bridge = Bridge::create(Stores { receive: [0; 4], transmit: [0; 3] }, 1).unwrap();
/// bridge.line_byte(b'5').unwrap();
/// ```
#[derive(Clone, Copy, Debug, PartialEq, Eq, Hash)]
#[must_use = "a lost byte may be the point of a number: a reading with a gap must not be spoken"]
#[non_exhaustive]
pub enum LineByte {
    /// It is in the receive store.
    Stored,
    /// It is lost, because the receive store is full. The overrun bit is set.
    Lost,
    /// It was the go character, and permits our sending.
    Go,
    /// It was the stop character, and forbids our sending.
    Stop,
}

impl fmt::Display for LineByte {
    fn fmt(&self, f: &mut fmt::Formatter<'_>) -> fmt::Result {
        f.write_str(match self {
            LineByte::Stored => "stored",
            LineByte::Lost => "lost",
            LineByte::Go => "taken as go",
            LineByte::Stop => "taken as stop",
        })
    }
}
