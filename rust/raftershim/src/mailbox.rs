//! The mailbox: its block, its two stores and its calls.

mod bus;
mod state;
mod way;

pub use bus::{BusByte, BusCommand, BusLines};
pub use state::{BusSide, LoopPoll, LoopSide, MailboxState, Waiting};
pub use way::{MailByte, Way, Ways};

use core::fmt;

use crate::lend::{self, done, lend, part};
use crate::{Address, Answer, BadSize, Frame, Refusal, SavedMailbox, MAILBOX_BLOCK_LEN};

/// A mailbox between an HP-IL loop and an HP-IB bus, with its state and its two stores. All calls
/// of the C functions are here, safe and by their types.
///
/// Each side leaves bytes for the other and fetches what waits. A side leaves bytes while it has
/// made the mailbox its listener, and fetches while it has made it its talker. The end mark goes
/// with its byte: it is EOI on the bus and an end byte on the loop.
///
/// # What is kept by nobody
///
/// A data byte of the bus that comes while the mailbox is not listener there is answered done and
/// kept by nobody, as on a real bus, where it is for others. So make the mailbox listener first,
/// and look at the [`BusByte`] that [`bus_byte`](Mailbox::bus_byte) gives. A data frame of the loop
/// passes on then, as every frame that is not for us.
///
/// A listener that has no room is not silent: it refuses by 4, has changed nothing, and the byte or
/// the frame is offered again when the other side has fetched. So nothing that was kept is lost,
/// but by a clear: the loop's device clear throws away what waits for the bus, and the bus's what
/// waits for the loop.
///
/// ```
/// use raftershim::{Address, BusByte, BusCommand, Frame, Mailbox, Ways};
///
/// let mut mailbox = Mailbox::create(Ways { to_bus: [0; 8], to_loop: [0; 8] }, 7)?;
/// mailbox.bus_command(BusCommand::mla(mailbox.bus_address()))?;
/// assert_eq!(mailbox.bus_byte(b'5', true)?, BusByte::Kept);
/// mailbox.loop_frame(Frame::auto_address(Address::FIRST))?;
/// mailbox.loop_frame(Frame::talk_address(Address::FIRST))?;
/// let frame = mailbox.loop_frame(Frame::SEND_DATA)?;
/// assert!(frame.is_end() && frame.data() == b'5');
/// # Ok::<(), raftershim::Refusal>(())
/// ```
#[derive(Clone, PartialEq, Eq, Hash)]
pub struct Mailbox<B, L> {
    block: [u8; MAILBOX_BLOCK_LEN],
    ways: Ways<B, L>,
}

/// Makes a call that may write, and reads its answer.
macro_rules! call {
    ($mailbox:expr, $function:ident $(, $argument:expr)*) => {
        Answer::of_mailbox(lend!(
            as_mut_ptr,
            &mut $mailbox.block,
            $mailbox.ways.to_bus.as_mut(),
            $mailbox.ways.to_loop.as_mut(),
            $function $(, $argument)*
        ))
    };
}

/// Makes a call that writes nothing, and gives its word.
macro_rules! look {
    ($mailbox:expr, $function:ident $(, $argument:expr)*) => {
        lend!(
            as_ptr,
            &$mailbox.block,
            $mailbox.ways.to_bus.as_ref(),
            $mailbox.ways.to_loop.as_ref(),
            $function $(, $argument)*
        )
    };
}

impl<B, L> Mailbox<B, L>
where
    B: AsRef<[u16]> + AsMut<[u16]>,
    L: AsRef<[u16]> + AsMut<[u16]>,
{
    /// Creates a mailbox on these stores, with this address on the bus, which is 0 to 30. It writes
    /// neither store.
    ///
    /// # Errors
    ///
    /// Refusal 1, with what is broken and its limits. Stores that were handed over by value are
    /// dropped then.
    ///
    /// ```
    /// use raftershim::{Mailbox, Size, Ways};
    ///
    /// assert!(Mailbox::create(Ways { to_bus: [0; 1], to_loop: [0; 110] }, 30).is_ok());
    /// let bad = Mailbox::create(Ways { to_bus: [0; 1], to_loop: [0; 110] }, 31).unwrap_err();
    /// assert_eq!(bad.which, Size::BusAddress);
    /// ```
    #[must_use = "the mailbox is in the answer, or what is broken"]
    pub fn create(ways: Ways<B, L>, address: u32) -> Result<Mailbox<B, L>, BadSize> {
        let block = [0; MAILBOX_BLOCK_LEN];
        let mut mailbox = Mailbox { block, ways };
        match call!(mailbox, raftershim_mailbox_create, address) {
            Ok(_) => Ok(mailbox),
            Err(_) => {
                let lengths = [Way::ToBus, Way::ToLoop].map(|way| mailbox.store(way).len());
                Err(BadSize::of_mailbox(lengths[0], lengths[1], address))
            }
        }
    }

    /// Puts a saved mailbox together again.
    ///
    /// # Errors
    ///
    /// Refusal 2 if what was saved is not a state that fits these stores.
    ///
    /// ```
    /// use raftershim::{Mailbox, Refusal, Ways};
    ///
    /// let mailbox = Mailbox::create(Ways { to_bus: [0; 8], to_loop: [0; 8] }, 7)?;
    /// let (saved, ways) = mailbox.clone().into_parts();
    /// assert_eq!(Mailbox::restore(saved, ways)?, mailbox);
    /// let other = Ways { to_bus: [0; 9], to_loop: [0; 8] };
    /// assert_eq!(Mailbox::restore(saved, other).unwrap_err(), Refusal::MISFIT);
    /// # Ok::<(), Refusal>(())
    /// ```
    #[must_use = "the mailbox is in the answer, or the refusal"]
    pub fn restore(saved: SavedMailbox, ways: Ways<B, L>) -> Result<Mailbox<B, L>, Refusal> {
        let block = saved.block();
        let mailbox = Mailbox { block, ways };
        // Showing the bus lines writes nothing, and asks whether the state fits.
        mailbox.bus_lines().map(|_| mailbox)
    }

    /// The state, to be saved together with both stores.
    ///
    /// ```
    /// use raftershim::{Mailbox, SavedMailbox, Ways};
    ///
    /// let mailbox = Mailbox::create(Ways { to_bus: [0; 8], to_loop: [0; 8] }, 7)?;
    /// assert_eq!(mailbox.saved().version(), SavedMailbox::VERSION);
    /// # Ok::<(), raftershim::Refusal>(())
    /// ```
    pub fn saved(&self) -> SavedMailbox {
        SavedMailbox::of(self.block)
    }

    /// Takes the mailbox apart into its saved state and its stores.
    ///
    /// ```
    /// use raftershim::{BusByte, BusCommand, Mailbox, Ways};
    ///
    /// let mut mailbox = Mailbox::create(Ways { to_bus: [0; 8], to_loop: [0; 8] }, 7)?;
    /// mailbox.bus_command(BusCommand::mla(mailbox.bus_address()))?;
    /// assert_eq!(mailbox.bus_byte(53, true)?, BusByte::Kept);
    /// let (_, ways) = mailbox.into_parts();
    /// assert_eq!(ways.to_loop[0], 256 + 53);
    /// # Ok::<(), raftershim::Refusal>(())
    /// ```
    pub fn into_parts(self) -> (SavedMailbox, Ways<B, L>) {
        (self.saved(), self.ways)
    }

    /// The whole store of a way, with all its places. What waits there is for
    /// [`show`](Mailbox::show) to say.
    ///
    /// ```
    /// use raftershim::{Mailbox, Way, Ways};
    ///
    /// let mailbox = Mailbox::create(Ways { to_bus: [7; 3], to_loop: [9; 2] }, 7)?;
    /// assert_eq!(mailbox.store(Way::ToBus), [7, 7, 7]);
    /// assert_eq!(mailbox.store(Way::ToLoop), [9, 9]);
    /// # Ok::<(), raftershim::Refusal>(())
    /// ```
    pub fn store(&self, way: Way) -> &[u16] {
        match way {
            Way::ToBus => self.ways.to_bus.as_ref(),
            Way::ToLoop => self.ways.to_loop.as_ref(),
        }
    }

    /// The address on the bus.
    ///
    /// ```
    /// use raftershim::{Address, Mailbox, Ways};
    ///
    /// let mailbox = Mailbox::create(Ways { to_bus: [0; 8], to_loop: [0; 8] }, 7)?;
    /// assert_eq!(Some(mailbox.bus_address()), Address::new(7));
    /// # Ok::<(), raftershim::Refusal>(())
    /// ```
    pub fn bus_address(&self) -> Address {
        MailboxState::of(&self.block).bus_side.address
    }

    /// What the state says, field by field.
    ///
    /// # Errors
    ///
    /// Refusal 2 if a store no longer lends the length that it had.
    ///
    /// ```
    /// use raftershim::{Mailbox, Ways};
    ///
    /// let mailbox = Mailbox::create(Ways { to_bus: [0; 8], to_loop: [0; 8] }, 7)?;
    /// let state = mailbox.state()?;
    /// assert_eq!((state.loop_side.address, state.bus_side.talker), (None, false));
    /// # Ok::<(), raftershim::Refusal>(())
    /// ```
    pub fn state(&self) -> Result<MailboxState, Refusal> {
        // Only create, restore and the calls write the block, so it is a state that fitted its
        // stores; what may have changed since is what these lend.
        let state = MailboxState::of(&self.block);
        let lent = |way, len: u16| self.store(way).len() == usize::from(len);
        match lent(Way::ToBus, state.to_bus.len) && lent(Way::ToLoop, state.to_loop.len) {
            true => Ok(state),
            false => Err(Refusal::MISFIT),
        }
    }

    /// How many bytes more can be left in a way.
    ///
    /// # Errors
    ///
    /// Refusal 2 if a store no longer lends the length that it had.
    ///
    /// ```
    /// use raftershim::{BusByte, BusCommand, Mailbox, Way, Ways};
    ///
    /// let mut mailbox = Mailbox::create(Ways { to_bus: [0; 8], to_loop: [0; 8] }, 7)?;
    /// mailbox.bus_command(BusCommand::mla(mailbox.bus_address()))?;
    /// assert_eq!(mailbox.bus_byte(50, false)?, BusByte::Kept);
    /// assert_eq!((mailbox.room(Way::ToBus)?, mailbox.room(Way::ToLoop)?), (8, 7));
    /// # Ok::<(), raftershim::Refusal>(())
    /// ```
    pub fn room(&self, way: Way) -> Result<u16, Refusal> {
        let state = self.state()?;
        let waiting = match way {
            Way::ToBus => state.to_bus,
            Way::ToLoop => state.to_loop,
        };
        Ok(waiting.len.saturating_sub(waiting.ring.held))
    }

    /// Resets the mailbox to what create gives for the same sizes and address. It writes neither
    /// store. What waited is gone.
    ///
    /// # Errors
    ///
    /// Refusal 2 if a store no longer lends the length that it had. The same holds for every call
    /// below but [`show`](Mailbox::show).
    ///
    /// ```
    /// use raftershim::{BusCommand, Mailbox, Ways};
    ///
    /// let mut mailbox = Mailbox::create(Ways { to_bus: [0; 8], to_loop: [0; 8] }, 7)?;
    /// let fresh = mailbox.clone();
    /// mailbox.bus_command(BusCommand::SPE)?;
    /// mailbox.reset()?;
    /// assert_eq!(mailbox, fresh);
    /// # Ok::<(), raftershim::Refusal>(())
    /// ```
    #[must_use = "a refused reset has changed nothing"]
    pub fn reset(&mut self) -> Result<(), Refusal> {
        done(call!(self, raftershim_mailbox_reset))
    }

    /// Takes a frame from the loop, and gives the one frame that goes on. A frame that is not for
    /// this mailbox goes on as it is.
    ///
    /// # Errors
    ///
    /// Refusal 4 if the mailbox is listener and the way to the bus is full: offer the frame again
    /// when the bus has fetched. And 2.
    ///
    /// ```
    /// use raftershim::{Address, Frame, Mailbox, Refusal, Way, Ways};
    ///
    /// let mut mailbox = Mailbox::create(Ways { to_bus: [0; 1], to_loop: [0; 8] }, 7)?;
    /// let out = mailbox.loop_frame(Frame::auto_address(Address::FIRST))?;
    /// assert_eq!(out.to_string(), "5,130");
    /// mailbox.loop_frame(Frame::listen_address(Address::FIRST))?;
    /// mailbox.loop_frame(Frame::end_byte(53))?;
    /// let waits: Vec<String> = mailbox.show(Way::ToBus).map(|byte| byte.to_string()).collect();
    /// assert_eq!(waits, ["53 end"]);
    /// assert_eq!(mailbox.loop_frame(Frame::data_byte(50)), Err(Refusal::BUSY));
    /// # Ok::<(), raftershim::Refusal>(())
    /// ```
    #[must_use = "the frame that goes on along the loop is in the answer"]
    pub fn loop_frame(&mut self, frame: Frame) -> Result<Frame, Refusal> {
        lend::frame(call!(self, raftershim_mailbox_loop_frame, frame.into()))
    }

    /// Takes a command of the bus. [`BusCommand`] says what each does.
    ///
    /// # Errors
    ///
    /// Refusal 2.
    ///
    /// ```
    /// use raftershim::{BusCommand, Mailbox, Ways};
    ///
    /// let mut mailbox = Mailbox::create(Ways { to_bus: [0; 8], to_loop: [0; 8] }, 7)?;
    /// mailbox.bus_command(BusCommand::mta(mailbox.bus_address()))?;
    /// assert!(mailbox.state()?.bus_side.talker);
    /// mailbox.bus_command(BusCommand::UNT)?;
    /// assert!(!mailbox.state()?.bus_side.talker);
    /// # Ok::<(), raftershim::Refusal>(())
    /// ```
    ///
    /// A number is no command, so none above 127 gets in:
    ///
    /// ```compile_fail
    /// # use raftershim::{Mailbox, Ways};
    /// # let mut mailbox = Mailbox::create(Ways { to_bus: [0; 8], to_loop: [0; 8] }, 7).unwrap();
    /// let done = mailbox.bus_command(95);
    /// ```
    #[must_use = "a refused command has changed nothing"]
    pub fn bus_command(&mut self, command: BusCommand) -> Result<(), Refusal> {
        done(call!(self, raftershim_mailbox_bus_command, command.into()))
    }

    /// Takes a data byte of the bus, with EOI if it has the end mark, and gives what became of it.
    /// A listener leaves it for the loop. Else it is answered done and kept by nobody.
    ///
    /// # Errors
    ///
    /// Refusal 4 if the mailbox is listener and the way to the loop is full: offer the byte again
    /// when the loop has fetched. And 2.
    ///
    /// ```
    /// use raftershim::{BusByte, BusCommand, Mailbox, Refusal, Ways};
    ///
    /// let mut mailbox = Mailbox::create(Ways { to_bus: [0; 8], to_loop: [0; 2] }, 7)?;
    /// assert_eq!(mailbox.bus_byte(b'2', false)?, BusByte::NotKept);
    /// mailbox.bus_command(BusCommand::mla(mailbox.bus_address()))?;
    /// assert_eq!(mailbox.bus_byte(b'2', false)?, BusByte::Kept);
    /// assert_eq!(mailbox.bus_byte(b'.', false)?, BusByte::Kept);
    /// assert_eq!(mailbox.bus_byte(b'5', true), Err(Refusal::BUSY));
    /// # Ok::<(), Refusal>(())
    /// ```
    #[must_use = "whether the byte is kept is in the answer"]
    pub fn bus_byte(&mut self, byte: u8, end: bool) -> Result<BusByte, Refusal> {
        let listener = MailboxState::of(&self.block).bus_side.listener;
        done(call!(self, raftershim_mailbox_bus_byte, byte, end.into()))?;
        Ok(match listener {
            true => BusByte::Kept,
            false => BusByte::NotKept,
        })
    }

    /// Gives the bus its next byte, if there is one: what the loop left, the oldest first. In a
    /// serial poll it is the [`MailboxStatus`](crate::MailboxStatus), once, and no data is touched.
    /// There is none if the mailbox is not talker on the bus.
    ///
    /// # Errors
    ///
    /// Refusal 2.
    ///
    /// ```
    /// use raftershim::{Address, BusCommand, Frame, Mailbox, MailByte, MailboxStatus, Ways};
    ///
    /// let mut mailbox = Mailbox::create(Ways { to_bus: [0; 8], to_loop: [0; 8] }, 7)?;
    /// mailbox.loop_frame(Frame::auto_address(Address::FIRST))?;
    /// mailbox.loop_frame(Frame::listen_address(Address::FIRST))?;
    /// mailbox.loop_frame(Frame::end_byte(53))?;
    /// assert_eq!(mailbox.bus_fetch()?, None);
    ///
    /// mailbox.bus_command(BusCommand::SPE)?;
    /// mailbox.bus_command(BusCommand::mta(mailbox.bus_address()))?;
    /// let status = mailbox.bus_fetch()?.map(|status| MailboxStatus::from(status.byte));
    /// assert_eq!(status.unwrap().to_string(), "data available, service requested");
    ///
    /// mailbox.bus_command(BusCommand::SPD)?;
    /// assert_eq!(mailbox.bus_fetch()?, Some(MailByte { byte: 53, end: true }));
    /// # Ok::<(), raftershim::Refusal>(())
    /// ```
    #[must_use = "the byte is taken off, and the bus must get it"]
    pub fn bus_fetch(&mut self) -> Result<Option<MailByte>, Refusal> {
        match call!(self, raftershim_mailbox_bus_fetch)? {
            Answer::NoBusByte => Ok(None),
            Answer::BusByte(byte) => Ok(Some(byte)),
            _ => Err(Refusal::UNDESCRIBED),
        }
    }

    /// Takes an interface clear of the bus, its IFC line: the mailbox is neither talker nor
    /// listener there, and a serial poll ends. What waits stays.
    ///
    /// # Errors
    ///
    /// Refusal 2.
    ///
    /// ```
    /// use raftershim::{BusCommand, Mailbox, Ways};
    ///
    /// let mut mailbox = Mailbox::create(Ways { to_bus: [0; 8], to_loop: [0; 8] }, 7)?;
    /// mailbox.bus_command(BusCommand::mla(mailbox.bus_address()))?;
    /// mailbox.bus_clear()?;
    /// assert!(!mailbox.state()?.bus_side.listener);
    /// # Ok::<(), raftershim::Refusal>(())
    /// ```
    #[must_use = "a refused clear has changed nothing"]
    pub fn bus_clear(&mut self) -> Result<(), Refusal> {
        done(call!(self, raftershim_mailbox_bus_clear))
    }

    /// Shows what the bus sees without asking for a byte: whether SRQ is on, and the answer to a
    /// parallel poll. It changes nothing.
    ///
    /// # Errors
    ///
    /// Refusal 2.
    ///
    /// ```
    /// use raftershim::{Address, Frame, Mailbox, Ways};
    ///
    /// let mut mailbox = Mailbox::create(Ways { to_bus: [0; 8], to_loop: [0; 8] }, 7)?;
    /// mailbox.loop_frame(Frame::auto_address(Address::FIRST))?;
    /// mailbox.loop_frame(Frame::listen_address(Address::FIRST))?;
    /// mailbox.loop_frame(Frame::data_byte(50))?;
    /// assert_eq!(mailbox.bus_lines()?.to_string(), "SRQ on, poll answer 0");
    /// # Ok::<(), raftershim::Refusal>(())
    /// ```
    pub fn bus_lines(&self) -> Result<BusLines, Refusal> {
        match Answer::of_mailbox(look!(self, raftershim_mailbox_bus_lines))? {
            Answer::Lines(lines) => Ok(lines),
            _ => Err(Refusal::UNDESCRIBED),
        }
    }

    /// Shows what waits in a way: the longest unbroken run of its store from the oldest byte on,
    /// the oldest first. It is empty if nothing waits, or if a store no longer lends the length
    /// that it had.
    ///
    /// ```
    /// use raftershim::{BusByte, BusCommand, Mailbox, MailByte, Way, Ways};
    ///
    /// let mut mailbox = Mailbox::create(Ways { to_bus: [0; 8], to_loop: [0; 8] }, 7)?;
    /// mailbox.bus_command(BusCommand::mla(mailbox.bus_address()))?;
    /// assert_eq!(mailbox.bus_byte(b'.', false)?, BusByte::Kept);
    /// assert_eq!(mailbox.bus_byte(b'5', true)?, BusByte::Kept);
    /// let waits: Vec<MailByte> = mailbox.show(Way::ToLoop).collect();
    /// let (point, five) = (MailByte { byte: 46, end: false }, MailByte { byte: 53, end: true });
    /// assert_eq!(waits, [point, five]);
    /// # Ok::<(), raftershim::Refusal>(())
    /// ```
    pub fn show(
        &self,
        way: Way,
    ) -> impl DoubleEndedIterator<Item = MailByte> + ExactSizeIterator + Clone + '_ {
        let word = look!(self, raftershim_mailbox_show, way as u32);
        part(self.store(way), word)
            .iter()
            .copied()
            .map(MailByte::from)
    }
}

impl<B, L> fmt::Debug for Mailbox<B, L> {
    /// What the state says; the stores may be long.
    fn fmt(&self, f: &mut fmt::Formatter<'_>) -> fmt::Result {
        f.debug_struct("Mailbox")
            .field("state", &MailboxState::of(&self.block))
            .finish_non_exhaustive()
    }
}
