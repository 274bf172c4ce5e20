//! What the block of a mailbox says, field by field.

use crate::state::{flag, two};
use crate::{Address, Frame, Ring, Talker, MAILBOX_BLOCK_LEN};

/// What the state of a mailbox says, read from its block.
///
/// ```
/// use raftershim::{BusByte, BusCommand, Mailbox, Ways};
///
/// let mut mailbox = Mailbox::create(Ways { to_bus: [0; 8], to_loop: [0; 8] }, 7)?;
/// mailbox.bus_command(BusCommand::mla(mailbox.bus_address()))?;
/// assert_eq!(mailbox.bus_byte(50, false)?, BusByte::Kept);
/// let state = mailbox.state()?;
/// assert!(state.bus_side.listener && state.to_loop.request);
/// assert_eq!((state.to_bus.ring.held, state.to_loop.ring.held), (0, 1));
/// # Ok::<(), raftershim::Refusal>(())
/// ```
#[derive(Clone, Copy, Debug, PartialEq, Eq, Hash)]
#[non_exhaustive]
pub struct MailboxState {
    /// What waits for the bus.
    pub to_bus: Waiting,
    /// What waits for the loop.
    pub to_loop: Waiting,
    /// What the mailbox is on the loop.
    pub loop_side: LoopSide,
    /// What the mailbox is on the bus.
    pub bus_side: BusSide,
}

/// What waits in one way of a mailbox, and what the side that fetches from it is told.
#[derive(Clone, Copy, Debug, PartialEq, Eq, Hash)]
#[non_exhaustive]
pub struct Waiting {
    /// The recorded length of the store.
    pub len: u16,
    /// Which places of the store hold what waits.
    pub ring: Ring,
    /// Status bit 6: service is requested.
    pub request: bool,
    /// Status bit 0: something has come into the empty way.
    pub available: bool,
    /// Whether that was after the last status byte was sent.
    pub again: bool,
}

/// What a mailbox is on the loop.
#[derive(Clone, Copy, Debug, PartialEq, Eq, Hash)]
#[non_exhaustive]
pub struct LoopSide {
    /// Our address. While none is assigned, the mailbox answers to 15.
    pub address: Option<Address>,
    /// How far we are talker. An ID under way is data.
    pub talker: Talker,
    /// Whether we are listener.
    pub listener: bool,
    /// The frame of ours under way, without its service bit.
    pub under_way: Option<Frame>,
    /// Whether sending ends after the frame under way.
    pub finishing: bool,
    /// How many bytes of an ID are sent, if our last data frame was of one, else 0. The device ID
    /// has 10 bytes, and the accessory ID counts as 10.
    pub id_sent: u8,
    /// Whether not ready is enabled.
    pub not_ready: bool,
    /// The data frame that is held back until 5,66 comes round.
    pub held_back: Option<Frame>,
    /// How we answer a parallel poll of the loop.
    pub poll: Option<LoopPoll>,
}

/// An answer to a parallel poll of the loop.
#[derive(Clone, Copy, Debug, PartialEq, Eq, Hash)]
#[non_exhaustive]
pub struct LoopPoll {
    /// The bit that is set, 0 to 7.
    pub line: u8,
    /// Whether it is set while service is requested, or else while it is not.
    pub when_requested: bool,
}

/// What a mailbox is on the bus.
#[derive(Clone, Copy, Debug, PartialEq, Eq, Hash)]
#[non_exhaustive]
pub struct BusSide {
    /// Our address.
    pub address: Address,
    /// Whether we are talker.
    pub talker: bool,
    /// Whether we are listener.
    pub listener: bool,
    /// Whether a serial poll is on, in which a talker gives its status byte.
    pub serial_poll: bool,
    /// Whether the status byte was given since the last command or interface clear.
    pub status_read: bool,
    /// Whether the next command may set our answer to a parallel poll.
    pub configuring: bool,
    /// The line on which we answer a parallel poll of the bus, 0 to 7.
    pub poll: Option<u8>,
}

impl MailboxState {
    /// Reads every field of a block that is a state. The first byte is the version, which is no
    /// field of the state.
    pub(crate) fn of(block: &[u8; MAILBOX_BLOCK_LEN]) -> MailboxState {
        MailboxState {
            to_bus: Waiting::of(block, 1, 27),
            to_loop: Waiting::of(block, 7, 30),
            loop_side: LoopSide::of(block),
            bus_side: BusSide::of(block),
        }
    }
}

impl Waiting {
    /// Reads a way: its store's numbers start at one place of the block, its flags at another.
    const fn of(block: &[u8; MAILBOX_BLOCK_LEN], store: usize, flags: usize) -> Waiting {
        Waiting {
            len: two(block[store], block[store + 1]),
            ring: Ring::of([
                block[store + 2],
                block[store + 3],
                block[store + 4],
                block[store + 5],
            ]),
            request: flag(block[flags]),
            available: flag(block[flags + 1]),
            again: flag(block[flags + 2]),
        }
    }
}

impl LoopSide {
    fn of(block: &[u8; MAILBOX_BLOCK_LEN]) -> LoopSide {
        let talker = Talker::of(block[18]);
        let under_way = Frame::new(block[14], block[13]).ok();
        let held_back = Frame::new(block[16], block[15]).ok();
        let poll = LoopPoll {
            line: block[22],
            when_requested: flag(block[36]),
        };
        LoopSide {
            address: Address::new(block[17]),
            talker,
            listener: flag(block[19]),
            under_way: under_way.filter(|_| talker.is_active()),
            finishing: flag(block[20]),
            id_sent: block[21],
            not_ready: flag(block[33]),
            held_back: held_back.filter(|_| flag(block[34])),
            poll: flag(block[35]).then_some(poll),
        }
    }
}

impl BusSide {
    fn of(block: &[u8; MAILBOX_BLOCK_LEN]) -> BusSide {
        BusSide {
            address: Address::known(block[23]),
            talker: flag(block[24]),
            listener: flag(block[26]),
            serial_poll: flag(block[37]),
            status_read: flag(block[38]),
            configuring: flag(block[39]),
            poll: flag(block[40]).then_some(block[25]),
        }
    }
}
