//! The bridge: its block, its two stores and its calls.

use core::fmt;

use crate::lend::{self, done, lend, part};
use crate::WithRoom;
use crate::BLOCK_LEN;
use crate::{Answer, BadSize, Frame, HeldByte, LineByte, NextLineByte, Refusal, Register, Saved};
use crate::{Side, State};

/// The two stores of a bridge, by name so that they cannot be exchanged unseen.
///
/// Each is an array, a vector, a borrowed slice, or anything else that lends its places, the same
/// ones at every call. The receive store lends cells of 16 bits, each of which is a [`HeldByte`] as a
/// number, and the transmit store bytes.
///
/// ```
/// use raftershim::{Bridge, Stores};
///
/// let mut transmit = vec![0; 100];
/// let stores = Stores { receive: [0; 64], transmit: transmit.as_mut_slice() };
/// assert!(Bridge::create(stores, 8).is_ok());
/// ```
#[derive(Clone, Copy, Default, PartialEq, Eq, Hash)]
pub struct Stores<R, T> {
    /// The receive store, line to loop: twice the margin plus 2 to 32768 cells.
    pub receive: R,
    /// The transmit store, loop to line: 3 to 32768 bytes.
    pub transmit: T,
}

/// A bridge with its state and its two stores. All calls of the C functions are here, safe and by
/// their types. To read a meter, take a [`Meter`](crate::Meter), which also says whether a byte is
/// missing in a reading.
///
/// ```
/// use raftershim::{Bridge, LineByte, Stores};
///
/// let mut bridge = Bridge::create(Stores { receive: [0; 64], transmit: [0; 64] }, 8)?;
/// assert_eq!(bridge.line_byte(50)?, LineByte::Stored);
/// assert_eq!(bridge.state()?.stored, 1);
/// # Ok::<(), raftershim::Refusal>(())
/// ```
#[derive(Clone, PartialEq, Eq, Hash)]
pub struct Bridge<R, T> {
    block: [u8; BLOCK_LEN],
    stores: Stores<R, T>,
}

/// Makes a call that may write, and gives the word that it answers.
macro_rules! word {
    ($bridge:expr, $function:ident $(, $argument:expr)*) => {
        lend!(
            as_mut_ptr,
            &mut $bridge.block,
            $bridge.stores.receive.as_mut(),
            $bridge.stores.transmit.as_mut(),
            $function $(, $argument)*
        )
    };
}

/// Makes a call that may write, and reads its answer.
macro_rules! call {
    ($($call:tt)*) => {
        Answer::of(word!($($call)*))
    };
}

/// Makes a call that writes nothing, and gives its word.
macro_rules! look {
    ($bridge:expr, $function:ident) => {
        lend!(
            as_ptr,
            &$bridge.block,
            $bridge.receive_store(),
            $bridge.transmit_store(),
            $function
        )
    };
}

impl<R, T> Bridge<R, T>
where
    R: AsRef<[u16]> + AsMut<[u16]>,
    T: AsRef<[u8]> + AsMut<[u8]>,
{
    /// Creates a bridge on these stores, with this margin, which is 1 to 1024. It writes neither
    /// store.
    ///
    /// # Errors
    ///
    /// Refusal 1, with the size that is broken and its limits. Stores that were handed over by
    /// value are dropped then.
    ///
    /// ```
    /// use raftershim::{Bridge, Size, Stores};
    ///
    /// assert!(Bridge::create(Stores { receive: [0; 8], transmit: [0; 3] }, 3).is_ok());
    /// let bad = Bridge::create(Stores { receive: [0; 8], transmit: [0; 2] }, 3).unwrap_err();
    /// assert_eq!(bad.which, Size::Transmit);
    /// ```
    #[must_use = "the bridge is in the answer, or the size that is broken"]
    pub fn create(stores: Stores<R, T>, margin: u32) -> Result<Bridge<R, T>, BadSize> {
        let block = [0; BLOCK_LEN];
        let mut bridge = Bridge { block, stores };
        match call!(bridge, raftershim_create, margin) {
            Ok(_) => Ok(bridge),
            Err(_) => {
                let (receive, transmit) = (bridge.receive_store(), bridge.transmit_store());
                Err(BadSize::of(receive.len(), transmit.len(), margin))
            }
        }
    }

    /// Puts a saved bridge together again.
    ///
    /// # Errors
    ///
    /// Refusal 2 if what was saved is not a state that fits these stores.
    ///
    /// ```
    /// use raftershim::{Bridge, LineByte, Refusal, Stores};
    ///
    /// let bridge = Bridge::create(Stores { receive: [0; 64], transmit: [0; 64] }, 8)?;
    /// let (saved, stores) = bridge.into_parts();
    /// let mut again = Bridge::restore(saved, stores)?;
    /// assert_eq!(again.line_byte(50)?, LineByte::Stored);
    /// let other = Stores { receive: [0; 65], transmit: [0; 64] };
    /// assert_eq!(Bridge::restore(saved, other).unwrap_err(), Refusal::MISFIT);
    /// # Ok::<(), Refusal>(())
    /// ```
    #[must_use = "the bridge is in the answer, or the refusal"]
    pub fn restore(saved: Saved, stores: Stores<R, T>) -> Result<Bridge<R, T>, Refusal> {
        let block = saved.block();
        let mut bridge = Bridge { block, stores };
        // No register has this number, so nothing is written: a bridge that fits is refused by 5,
        // and one that does not by 2, which is asked first.
        match call!(bridge, raftershim_write_register, u32::MAX, 0) {
            Err(Refusal::NOT_CARRIED) => Ok(bridge),
            Err(refusal) => Err(refusal),
            Ok(_) => Err(Refusal::UNDESCRIBED),
        }
    }

    /// The state, to be saved together with both stores.
    ///
    /// ```
    /// use raftershim::{Bridge, Saved, Stores};
    ///
    /// let bridge = Bridge::create(Stores { receive: [0; 64], transmit: [0; 64] }, 8)?;
    /// assert_eq!(bridge.saved().version(), Saved::VERSION);
    /// # Ok::<(), raftershim::Refusal>(())
    /// ```
    pub fn saved(&self) -> Saved {
        Saved::of(self.block)
    }

    /// Takes the bridge apart into its saved state and its stores.
    ///
    /// ```
    /// use raftershim::{Bridge, LineByte, Stores};
    ///
    /// let mut bridge = Bridge::create(Stores { receive: [0; 64], transmit: [0; 64] }, 8)?;
    /// assert_eq!(bridge.line_byte(50)?, LineByte::Stored);
    /// let (_, stores) = bridge.into_parts();
    /// assert_eq!(stores.receive[0], 50);
    /// # Ok::<(), raftershim::Refusal>(())
    /// ```
    pub fn into_parts(self) -> (Saved, Stores<R, T>) {
        (self.saved(), self.stores)
    }

    /// The whole receive store, line to loop, with all its cells. What it holds is for
    /// [`show_receive`](Bridge::show_receive) to say.
    ///
    /// ```
    /// use raftershim::{Bridge, LineByte, Stores};
    ///
    /// let mut bridge = Bridge::create(Stores { receive: [7; 4], transmit: [0; 3] }, 1)?;
    /// assert_eq!(bridge.line_byte(50)?, LineByte::Stored);
    /// assert_eq!(bridge.receive_store(), [50, 7, 7, 7]);
    /// # Ok::<(), raftershim::Refusal>(())
    /// ```
    pub fn receive_store(&self) -> &[u16] {
        self.stores.receive.as_ref()
    }

    /// The whole transmit store, loop to line, with all its places. What it holds is for
    /// [`show_transmit`](Bridge::show_transmit) to say.
    ///
    /// ```
    /// use raftershim::{Bridge, Stores};
    ///
    /// let bridge = Bridge::create(Stores { receive: [7; 4], transmit: [9; 3] }, 1)?;
    /// assert_eq!(bridge.transmit_store(), [9, 9, 9]);
    /// # Ok::<(), raftershim::Refusal>(())
    /// ```
    pub fn transmit_store(&self) -> &[u8] {
        self.stores.transmit.as_ref()
    }

    /// What the state says, field by field.
    ///
    /// # Errors
    ///
    /// Refusal 2 if a store no longer lends the length that it had.
    ///
    /// ```
    /// use raftershim::{Bridge, Stores};
    ///
    /// let bridge = Bridge::create(Stores { receive: [0; 64], transmit: [0; 64] }, 8)?;
    /// let state = bridge.state()?;
    /// assert_eq!((state.address, state.seen_overrun), (None, false));
    /// # Ok::<(), raftershim::Refusal>(())
    /// ```
    pub fn state(&self) -> Result<State, Refusal> {
        // Only create, restore and the calls write the block, so it is a state that fitted its
        // stores; what may have changed since is what these lend.
        let state = State::of(&self.block);
        let recorded = (state.receive_len, state.transmit_len);
        let lent = (self.receive_store().len(), self.transmit_store().len());
        match (recorded.0.into(), recorded.1.into()) == lent {
            true => Ok(state),
            false => Err(Refusal::MISFIT),
        }
    }

    /// How many bytes more a store can hold; in the receive store each takes a cell. The answers of
    /// [`line_byte_and_room`](Bridge::line_byte_and_room) and
    /// [`loop_frame_and_room`](Bridge::loop_frame_and_room) tell it too, so that an app that shows it
    /// need not ask after each of them.
    ///
    /// # Errors
    ///
    /// Refusal 2 if a store no longer lends the length that it had.
    ///
    /// ```
    /// use raftershim::{Bridge, LineByte, Side, Stores};
    ///
    /// let mut bridge = Bridge::create(Stores { receive: [0; 64], transmit: [0; 64] }, 8)?;
    /// assert_eq!(bridge.line_byte(50)?, LineByte::Stored);
    /// assert_eq!((bridge.room(Side::Receive)?, bridge.room(Side::Transmit)?), (63, 64));
    /// # Ok::<(), raftershim::Refusal>(())
    /// ```
    pub fn room(&self, side: Side) -> Result<u16, Refusal> {
        let state = self.state()?;
        let (len, held) = match side {
            Side::Receive => (state.receive_len, state.receive.held),
            Side::Transmit => (state.transmit_len, state.transmit.held),
        };
        Ok(len.saturating_sub(held))
    }

    /// Resets the bridge to what create gives for the same sizes and margin. It writes neither
    /// store. What they held is gone, the registers have their start values, and the three counts
    /// are 0, also that of the bytes lost.
    ///
    /// # Errors
    ///
    /// Refusal 2 if a store no longer lends the length that it had. The same holds for every call
    /// below.
    ///
    /// ```
    /// use raftershim::{Bridge, Stores};
    ///
    /// let mut bridge = Bridge::create(Stores { receive: [0; 64], transmit: [0; 64] }, 8)?;
    /// bridge.key()?;
    /// bridge.reset()?;
    /// assert!(!bridge.state()?.seen_key);
    /// # Ok::<(), raftershim::Refusal>(())
    /// ```
    #[must_use = "a refused reset has changed nothing"]
    pub fn reset(&mut self) -> Result<(), Refusal> {
        done(call!(self, raftershim_reset))
    }

    /// Writes a register. Its page warns of characters that vanish from the data, and says when R10,
    /// C00 and C01 can be written.
    ///
    /// # Errors
    ///
    /// Refusal 6 if the value is too large, 7 if it has a control bit that is not carried, 8 if the
    /// go and stop characters would be equal, 10 if it is R10, C00 or C01 and the receive store holds
    /// anything, and 2.
    ///
    /// ```
    /// use raftershim::{Bridge, Refusal, Register, Stores};
    ///
    /// let mut bridge = Bridge::create(Stores { receive: [0; 64], transmit: [0; 64] }, 8)?;
    /// bridge.write_register(Register::R10, Register::R10_FIND_LINE_END)?;
    /// assert_eq!(bridge.write_register(Register::R10, 16), Err(Refusal::VALUE_TOO_LARGE));
    /// assert_eq!(bridge.write_register(Register::C05, 17), Err(Refusal::GO_IS_STOP));
    /// bridge.line_byte(50)?;
    /// assert_eq!(bridge.write_register(Register::C00, b';'), Err(Refusal::HELD_BYTES));
    /// # Ok::<(), Refusal>(())
    /// ```
    #[must_use = "a refused write has changed nothing"]
    pub fn write_register(&mut self, register: Register, value: u8) -> Result<(), Refusal> {
        let (number, value) = (register.number(), u32::from(value));
        done(call!(self, raftershim_write_register, number, value))
    }

    /// Takes a byte from the line, and gives what became of it. While the receiver protocol is on,
    /// go and stop permit and forbid our sending. Any other byte is stored in the receive store, or
    /// lost if that is full, which sets overrun.
    ///
    /// # Errors
    ///
    /// Refusal 2.
    ///
    /// ```
    /// use raftershim::{Bridge, LineByte, Stores};
    ///
    /// let mut bridge = Bridge::create(Stores { receive: [0; 64], transmit: [0; 64] }, 8)?;
    /// assert_eq!(bridge.line_byte(50)?, LineByte::Stored);
    /// assert_eq!(bridge.line_byte(17)?, LineByte::Go);
    /// assert_eq!(bridge.state()?.receive.held, 1);
    /// # Ok::<(), raftershim::Refusal>(())
    /// ```
    #[must_use = "whether the byte is lost is in the answer"]
    pub fn line_byte(&mut self, byte: u8) -> Result<LineByte, Refusal> {
        self.line_byte_and_room(byte).map(|taken| taken.answer)
    }

    /// Takes a byte from the line, as [`line_byte`](Bridge::line_byte) does, and gives how much room
    /// the receive store has after it. Go and stop leave the room as it is, and after a byte that is
    /// lost there is none.
    ///
    /// # Errors
    ///
    /// Refusal 2.
    ///
    /// ```
    /// use raftershim::{Bridge, LineByte, Stores};
    ///
    /// let mut bridge = Bridge::create(Stores { receive: [0; 4], transmit: [0; 3] }, 1)?;
    /// let mut rooms = Vec::new();
    /// for byte in *b"12\x1334" {
    ///     rooms.push(bridge.line_byte_and_room(byte)?.room);
    /// }
    /// assert_eq!(rooms, [3, 2, 2, 1, 0]);
    /// let fifth = bridge.line_byte_and_room(b'5')?;
    /// assert_eq!((fifth.answer, fifth.room), (LineByte::Lost, 0));
    /// # Ok::<(), raftershim::Refusal>(())
    /// ```
    #[must_use = "whether the byte is lost is in the answer"]
    pub fn line_byte_and_room(&mut self, byte: u8) -> Result<WithRoom<LineByte>, Refusal> {
        let before = State::of(&self.block);
        let word = word!(self, raftershim_line_byte, byte);
        done(Answer::of(word))?;
        let after = State::of(&self.block);
        let answer = match byte {
            _ if after.stored != before.stored => LineByte::Stored,
            _ if after.lost != before.lost => LineByte::Lost,
            _ if byte == after.registers.c04 => LineByte::Go,
            _ => LineByte::Stop,
        };
        let room = Answer::room_of(word);
        Ok(WithRoom { answer, room })
    }

    /// Takes a break on the line. The status byte tells it, and the newest byte held gets the mark
    /// that a break follows it. The mark takes no room, several breaks at one place are one mark, and
    /// with nothing held there is none.
    ///
    /// A break parts the ends of lines: CR before it and LF after it are no end of line, and a byte
    /// before it gets no end of line that comes after it. What waited to be decided waits no longer,
    /// and each such byte becomes a data frame. No frame says that there was a break: to the loop 1,
    /// break, 2 and an end of line are the data of one line. A [`Meter`](crate::Meter) tells the two
    /// apart.
    ///
    /// # Errors
    ///
    /// Refusal 2.
    ///
    /// ```
    /// use raftershim::{Address, Bridge, Frame, LineByte, Register, Stores};
    ///
    /// let mut bridge = Bridge::create(Stores { receive: [0; 64], transmit: [0; 64] }, 8)?;
    /// bridge.write_register(Register::R10, Register::R10_FIND_LINE_END)?;
    /// assert_eq!(bridge.line_byte(b'\r')?, LineByte::Stored);
    /// bridge.line_break()?;
    /// assert_eq!(bridge.line_byte(b'\n')?, LineByte::Stored);
    /// assert!(bridge.state()?.seen_break);
    ///
    /// bridge.loop_frame(Frame::auto_address(Address::FIRST))?;
    /// bridge.loop_frame(Frame::talk_address(Address::FIRST))?;
    /// assert_eq!(bridge.loop_frame(Frame::SEND_DATA)?, Frame::data_byte(b'\r'));
    /// # Ok::<(), raftershim::Refusal>(())
    /// ```
    #[must_use = "a refused break is not noted"]
    pub fn line_break(&mut self) -> Result<(), Refusal> {
        done(call!(self, raftershim_break))
    }

    /// Takes a press of the MSRQ key.
    ///
    /// # Errors
    ///
    /// Refusal 2.
    ///
    /// ```
    /// use raftershim::{Bridge, Stores};
    ///
    /// let mut bridge = Bridge::create(Stores { receive: [0; 64], transmit: [0; 64] }, 8)?;
    /// bridge.key()?;
    /// assert!(bridge.state()?.seen_key);
    /// # Ok::<(), raftershim::Refusal>(())
    /// ```
    #[must_use = "a refused press is not noted"]
    pub fn key(&mut self) -> Result<(), Refusal> {
        done(call!(self, raftershim_key))
    }

    /// Asks which byte is next for the line, if there is one: our own go or stop if one is owed,
    /// else the oldest byte of the transmit store, unless the other end forbids our sending. Asking
    /// changes nothing. The byte is gone when [`NextLineByte::take`] takes it, after the port has
    /// sent it.
    ///
    /// # Errors
    ///
    /// Refusal 2.
    ///
    /// ```
    /// use raftershim::{Bridge, LineByte, Stores};
    ///
    /// let mut bridge = Bridge::create(Stores { receive: [0; 4], transmit: [0; 3] }, 1)?;
    /// assert!(bridge.ask_line_byte()?.is_none());
    /// for byte in *b"123" {
    ///     assert_eq!(bridge.line_byte(byte)?, LineByte::Stored);
    /// }
    /// // One place is free, which is the margin, so the bridge owes the line its stop.
    /// let mut sent = Vec::new();
    /// while let Some(next) = bridge.ask_line_byte()? {
    ///     sent.push(next.byte());
    ///     next.take()?;
    /// }
    /// assert_eq!(sent, [19]);
    /// # Ok::<(), raftershim::Refusal>(())
    /// ```
    #[must_use = "the byte that is next must be sent to the line and taken"]
    pub fn ask_line_byte(&mut self) -> Result<Option<NextLineByte<'_, R, T>>, Refusal> {
        match Answer::of(look!(self, raftershim_ask_line_byte))? {
            Answer::None => Ok(None),
            Answer::Byte(byte) => Ok(Some(NextLineByte::of(self, byte))),
            _ => Err(Refusal::UNDESCRIBED),
        }
    }

    /// Takes the line byte of this name, which was asked for just before.
    pub(crate) fn take_line_byte(&mut self, byte: u8) -> Result<(), Refusal> {
        done(call!(self, raftershim_take_line_byte, byte))
    }

    /// Takes a frame from the loop, and gives the one frame that goes on. A frame that is not for
    /// this bridge goes on as it is: if it is not talker, so does [`Frame::SEND_STATUS`], and the
    /// answer is a status only if it [is data](Frame::is_data).
    ///
    /// # Errors
    ///
    /// Refusal 4 if the bridge is busy: offer the frame again when bytes for the line were taken. And 2.
    ///
    /// ```
    /// use raftershim::{Address, Bridge, Frame, Stores};
    ///
    /// let mut bridge = Bridge::create(Stores { receive: [0; 64], transmit: [0; 64] }, 8)?;
    /// let out = bridge.loop_frame(Frame::auto_address(Address::FIRST))?;
    /// assert_eq!(out.to_string(), "5,130");
    /// assert_eq!(bridge.state()?.address, Some(Address::FIRST));
    /// # Ok::<(), raftershim::Refusal>(())
    /// ```
    ///
    /// A number is no frame, so none that means another one gets in by mistake:
    ///
    /// ```compile_fail
    /// # use raftershim::{Bridge, Stores};
    /// # let mut bridge = Bridge::create(Stores { receive: [0; 64], transmit: [0; 64] }, 8).unwrap();
    /// let out = bridge.loop_frame(96);
    /// ```
    #[must_use = "the frame that goes on along the loop is in the answer"]
    pub fn loop_frame(&mut self, frame: Frame) -> Result<Frame, Refusal> {
        self.loop_frame_and_room(frame).map(|taken| taken.answer)
    }

    /// Takes a frame from the loop, as [`loop_frame`](Bridge::loop_frame) does, and gives how much
    /// room the transmit store has after it, whichever frame it is. A device clear empties the store,
    /// so then all of it is room. What a send frees in the receive store is not told here: the next
    /// byte that comes from the line tells it.
    ///
    /// # Errors
    ///
    /// Refusal 4 if the bridge is busy: offer the frame again when bytes for the line were taken. And 2.
    ///
    /// ```
    /// use raftershim::{Address, Bridge, Frame, Refusal, Stores};
    ///
    /// let mut bridge = Bridge::create(Stores { receive: [0; 64], transmit: [0; 3] }, 8)?;
    /// bridge.loop_frame(Frame::auto_address(Address::FIRST))?;
    /// let listen = Frame::listen_address(Address::FIRST);
    /// assert_eq!(bridge.loop_frame_and_room(listen)?.room, 3);
    /// let passed = bridge.loop_frame_and_room(Frame::data_byte(50))?;
    /// assert_eq!((passed.answer, passed.room), (Frame::data_byte(50), 2));
    /// assert_eq!(bridge.loop_frame_and_room(Frame::data_byte(46))?.room, 1);
    /// assert_eq!(bridge.loop_frame_and_room(Frame::data_byte(53))?.room, 0);
    /// assert_eq!(bridge.loop_frame_and_room(Frame::data_byte(13)), Err(Refusal::BUSY));
    /// # Ok::<(), raftershim::Refusal>(())
    /// ```
    #[must_use = "the frame that goes on along the loop is in the answer"]
    pub fn loop_frame_and_room(&mut self, frame: Frame) -> Result<WithRoom<Frame>, Refusal> {
        let word = word!(self, raftershim_loop_frame, frame.into());
        let answer = lend::frame(Answer::of(word))?;
        let room = Answer::room_of(word);
        Ok(WithRoom { answer, room })
    }

    /// Shows what the receive store holds: the longest unbroken run of its cells from the oldest one
    /// on, the oldest first. It is empty if nothing is held, or if a store no longer lends the length
    /// that it had.
    ///
    /// ```
    /// use raftershim::{Bridge, HeldByte, LineByte, Stores};
    ///
    /// let mut bridge = Bridge::create(Stores { receive: [0; 64], transmit: [0; 64] }, 8)?;
    /// assert_eq!(bridge.line_byte(50)?, LineByte::Stored);
    /// bridge.line_break()?;
    /// assert_eq!(bridge.line_byte(46)?, LineByte::Stored);
    /// let held: Vec<HeldByte> = bridge.show_receive().collect();
    /// let two = HeldByte { byte: 50, then_break: true };
    /// assert_eq!(held, [two, HeldByte { byte: 46, then_break: false }]);
    /// # Ok::<(), raftershim::Refusal>(())
    /// ```
    pub fn show_receive(
        &self,
    ) -> impl DoubleEndedIterator<Item = HeldByte> + ExactSizeIterator + Clone + '_ {
        let word = look!(self, raftershim_show_receive);
        let shown = part(self.receive_store(), word);
        shown.iter().copied().map(HeldByte::from)
    }

    /// Shows what the transmit store holds: the longest unbroken run of bytes from the oldest one, as
    /// a part of the store. The part is empty if nothing is held, or if a store no longer lends the
    /// length that it had.
    ///
    /// ```
    /// use raftershim::{Address, Bridge, Frame, Stores};
    ///
    /// let mut bridge = Bridge::create(Stores { receive: [0; 64], transmit: [0; 64] }, 8)?;
    /// bridge.loop_frame(Frame::auto_address(Address::FIRST))?;
    /// bridge.loop_frame(Frame::listen_address(Address::FIRST))?;
    /// bridge.loop_frame(Frame::data_byte(50))?;
    /// bridge.loop_frame(Frame::end_byte(46))?;
    /// assert_eq!(bridge.show_transmit(), [50, 46]);
    /// # Ok::<(), raftershim::Refusal>(())
    /// ```
    pub fn show_transmit(&self) -> &[u8] {
        let word = look!(self, raftershim_show_transmit);
        part(self.transmit_store(), word)
    }
}

impl<R, T> fmt::Debug for Bridge<R, T> {
    /// What the state says; the stores may be long.
    fn fmt(&self, f: &mut fmt::Formatter<'_>) -> fmt::Result {
        f.debug_struct("Bridge")
            .field("state", &State::of(&self.block))
            .finish_non_exhaustive()
    }
}

impl<R: AsRef<[u16]>, T: AsRef<[u8]>> fmt::Debug for Stores<R, T> {
    /// The lengths; the stores may be long.
    fn fmt(&self, f: &mut fmt::Formatter<'_>) -> fmt::Result {
        f.debug_struct("Stores")
            .field("receive_len", &self.receive.as_ref().len())
            .field("transmit_len", &self.transmit.as_ref().len())
            .finish()
    }
}
