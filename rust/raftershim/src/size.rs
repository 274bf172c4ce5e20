//! The sizes that create asks for, and the refusal that says which one is broken.

use core::fmt;

use crate::refusal::error;
use crate::Refusal;

/// The longest store.
const MOST_STORE: usize = 32768;
/// The largest margin.
const MOST_MARGIN: usize = 1024;
/// The largest address on the bus.
const MOST_ADDRESS: usize = 30;

/// A size that create judges, or the address of a mailbox on the bus, which it judges too.
#[derive(Clone, Copy, Debug, PartialEq, Eq, Hash)]
#[non_exhaustive]
pub enum Size {
    /// The margin.
    Margin,
    /// The length of the receive store.
    Receive,
    /// The length of the transmit store.
    Transmit,
    /// The length of the gap marks of a [`Meter`](crate::Meter).
    Gaps,
    /// The length of a mailbox's store to the bus.
    ToBus,
    /// The length of a mailbox's store to the loop.
    ToLoop,
    /// The address of a mailbox on the bus.
    BusAddress,
}

/// Refusal 1: the first size that is broken, what was given, and its limits.
///
/// The margin is 1 to 1024. The receive store has twice the margin plus 2 to 32768 cells, the
/// transmit store 3 to 32768 bytes. Gap marks have at least a bit for each cell of the receive store.
/// A store of a mailbox has 1 to 32768 cells, and its address on the bus is 0 to 30. It becomes a
/// [`Refusal`] where one is asked for.
///
/// ```
/// use raftershim::{Bridge, Refusal, Size, Stores};
///
/// let bad = Bridge::create(Stores { receive: [0; 7], transmit: [0; 3] }, 3).unwrap_err();
/// assert_eq!((bad.which, bad.given, bad.least, bad.most), (Size::Receive, 7, 8, 32768));
/// let said = "refusal 1: the length of the receive store is 7, and it must be 8 to 32768";
/// assert_eq!(bad.to_string(), said);
/// assert_eq!(Refusal::from(bad), Refusal::SIZES);
/// ```
#[derive(Clone, Copy, Debug, PartialEq, Eq, Hash)]
#[non_exhaustive]
pub struct BadSize {
    /// Which size is broken.
    pub which: Size,
    /// What was given.
    pub given: usize,
    /// The least that is taken.
    pub least: usize,
    /// The most that is taken.
    pub most: usize,
}

impl BadSize {
    /// Which size made create refuse a bridge: the margin, else the receive store, else the
    /// transmit store.
    pub(crate) fn of(receive: usize, transmit: usize, margin: u32) -> BadSize {
        let margin = usize::try_from(margin).unwrap_or(usize::MAX);
        let margin = BadSize::new(Size::Margin, margin, 1, MOST_MARGIN);
        let least = margin.given.saturating_mul(2).saturating_add(2);
        let receive = BadSize::new(Size::Receive, receive, least, MOST_STORE);
        let transmit = BadSize::new(Size::Transmit, transmit, 3, MOST_STORE);
        BadSize::first([margin, receive], transmit)
    }

    /// What made create refuse a mailbox: the store to the bus, else that to the loop, else the
    /// address.
    pub(crate) fn of_mailbox(to_bus: usize, to_loop: usize, address: u32) -> BadSize {
        let to_bus = BadSize::new(Size::ToBus, to_bus, 1, MOST_STORE);
        let to_loop = BadSize::new(Size::ToLoop, to_loop, 1, MOST_STORE);
        let address = usize::try_from(address).unwrap_or(usize::MAX);
        let address = BadSize::new(Size::BusAddress, address, 0, MOST_ADDRESS);
        BadSize::first([to_bus, to_loop], address)
    }

    /// The first of these that is broken, else the last.
    fn first(judged: [BadSize; 2], last: BadSize) -> BadSize {
        let mut judged = judged.into_iter();
        judged.find(BadSize::is_broken).unwrap_or(last)
    }

    /// The gap marks, if they are too few for a receive store of this length.
    pub(crate) fn of_gaps(gaps: usize, receive: usize) -> Option<BadSize> {
        let least = (receive + 7) / 8;
        Some(BadSize::new(Size::Gaps, gaps, least, usize::MAX)).filter(BadSize::is_broken)
    }

    fn new(which: Size, given: usize, least: usize, most: usize) -> BadSize {
        BadSize {
            which,
            given,
            least,
            most,
        }
    }

    fn is_broken(&self) -> bool {
        self.given < self.least || self.given > self.most
    }
}

impl From<BadSize> for Refusal {
    fn from(_: BadSize) -> Refusal {
        Refusal::SIZES
    }
}

impl fmt::Display for Size {
    fn fmt(&self, f: &mut fmt::Formatter<'_>) -> fmt::Result {
        f.write_str(match self {
            Size::Margin => "the margin",
            Size::Receive => "the length of the receive store",
            Size::Transmit => "the length of the transmit store",
            Size::Gaps => "the length of the gap marks",
            Size::ToBus => "the length of the store to the bus",
            Size::ToLoop => "the length of the store to the loop",
            Size::BusAddress => "the address on the bus",
        })
    }
}

impl fmt::Display for BadSize {
    fn fmt(&self, f: &mut fmt::Formatter<'_>) -> fmt::Result {
        let number = Refusal::SIZES.number();
        write!(f, "refusal {number}: {} is {}, ", self.which, self.given)?;
        match self.most {
            usize::MAX => write!(f, "and it must be at least {}", self.least),
            most => write!(f, "and it must be {} to {most}", self.least),
        }
    }
}

error!(BadSize);
