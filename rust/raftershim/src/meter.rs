//! A bridge whose loop side is played here, reading by reading.

use core::fmt;

use crate::gaps::{place, Gaps};
use crate::line::Line;
use crate::{Address, BadSize, Bridge, Frame, HeldByte, LineByte, NextLineByte, Reading, Refusal};
use crate::{Register, Side, State, Stores, WithRoom};

/// The two buffers in which a [`Meter`] notes what it needs. What they hold at first does not
/// matter.
#[derive(Clone, Copy, Default, PartialEq, Eq, Hash)]
pub struct Notes<G, X> {
    /// Where bytes are missing: at least a bit for each cell of the receive store, so 8 bytes for a
    /// store of 64.
    pub gaps: G,
    /// The text of the reading under way. A reading that is longer is told as
    /// [`Reading::Gap`].
    pub text: X,
}

/// A bridge with a meter on its line, which gives the meter's readings one by one and says of each
/// whether a byte is missing in it.
///
/// It finds the ends of lines from the start. A reading ends with the pair C00 and C01, which is at
/// first CR LF. A meter that ends its lines with one character gives no reading.
///
/// All calls of a [`Bridge`] are here too, so that the meter sees them; none of them makes a reading
/// wrong unsaid.
///
/// # Which reading has a gap
///
/// The line is cut after each end of line, which is C00 followed by C01, that came through to the
/// bridge, and at each break. A reading is what came on the line between two cuts. It is
/// [`Reading::Whole`] exactly if it has its end of line and every other byte of it is in its text,
/// and otherwise [`Reading::Gap`]. Go and stop are no bytes of a reading. This comes to the
/// following.
///
/// - A break cuts off the reading that it falls into, as when the meter is restarted. That is told as
///   a gap with the text that came, and what comes after the break is a reading of its own. If none of
///   its text came, it is not given. A break between two readings changes neither.
/// - A byte lost within a reading is missing in that reading and in no other.
/// - A byte lost right after an end of line is missing in the reading that follows.
/// - If a byte of the end of line is lost, two readings run into one, which has a gap.
/// - If all text of a reading is lost but its end of line came, it is given without text, as a gap.
///   An empty line of which nothing is lost is not given.
/// - A reset or a device clear throws away what the bridge holds. Readings that ended in it are
///   gone. The one that it cuts in two has a gap; the one after that has none.
/// - Data frames that the app takes by [`loop_frame`](Meter::loop_frame) are missing in the reading
///   that they belong to. A reading whose end, or whose last byte before a break, the app has so taken
///   is not given.
/// - A reading that is longer than the text has a gap.
/// - A byte that the serial port lost was never seen here, so the app says where it is missing, by
///   [`line_gap`](Meter::line_gap).
///
/// Neither status polls nor keys change any of this. Nor does a write of R10, C00 or C01: it is refused
/// while anything is held, so each byte is read by those that were in force when it came.
///
/// ```
/// use raftershim::{Meter, Notes, Reading, Stores};
///
/// let stores = Stores { receive: [0; 6], transmit: [0; 3] };
/// let mut meter = Meter::create(stores, Notes { gaps: [0; 1], text: [0; 32] }, 2)?;
/// // The 2 fills the store, and the point is lost. Then the app reads, and there is room again.
/// assert_eq!(meter.line_bytes(b"1.5\r\n2.")?, 1);
/// assert!(matches!(meter.reading()?, Reading::Whole(text) if text.as_bytes() == b"1.5"));
/// assert_eq!(meter.line_bytes(b"5\r\n")?, 0);
/// assert!(matches!(meter.reading()?, Reading::Gap(text) if text.as_bytes() == b"25"));
/// assert!(matches!(meter.reading()?, Reading::NotEnded(_)));
/// # Ok::<(), raftershim::Refusal>(())
/// ```
#[derive(Clone, PartialEq, Eq, Hash)]
pub struct Meter<R, T, G, X> {
    bridge: Bridge<R, T>,
    gaps: Gaps<G>,
    line: Line<X>,
}

impl<R, T, G, X> Meter<R, T, G, X>
where
    R: AsRef<[u16]> + AsMut<[u16]>,
    T: AsRef<[u8]> + AsMut<[u8]>,
    G: AsRef<[u8]> + AsMut<[u8]>,
    X: AsRef<[u8]> + AsMut<[u8]>,
{
    /// Creates a bridge on these stores with this margin, as [`Bridge::create`] does, and lets it
    /// find the ends of lines: R10 has [`Register::R10_FIND_LINE_END`].
    ///
    /// # Errors
    ///
    /// Refusal 1, with the size that is broken and its limits.
    ///
    /// ```
    /// use raftershim::{Meter, Notes, Size, Stores};
    ///
    /// let stores = Stores { receive: [0; 64], transmit: [0; 64] };
    /// let bad = Meter::create(stores, Notes { gaps: [0; 7], text: [0; 32] }, 8).unwrap_err();
    /// assert_eq!((bad.which, bad.given, bad.least), (Size::Gaps, 7, 8));
    /// ```
    #[must_use = "the meter is in the answer, or the size that is broken"]
    pub fn create(
        stores: Stores<R, T>,
        notes: Notes<G, X>,
        margin: u32,
    ) -> Result<Meter<R, T, G, X>, BadSize> {
        let mut meter = Meter::of(Bridge::create(stores, margin)?, notes)?;
        match meter.find_line_ends() {
            Ok(()) => Ok(meter),
            // A bridge that was created fits its stores, and then this write is never refused.
            Err(_) => Err(BadSize::of(0, 0, margin)),
        }
    }

    /// Takes a bridge as it is, such as one that was put together again. Its registers stay. If it
    /// was used before, nobody knows where bytes are missing in what it holds: each reading of
    /// which a part came before is told as a gap.
    ///
    /// # Errors
    ///
    /// Refusal 1 if there are too few gap marks for its receive store.
    ///
    /// ```
    /// use raftershim::{Bridge, Meter, Notes, Reading, Register, Stores};
    ///
    /// let mut bridge = Bridge::create(Stores { receive: [0; 64], transmit: [0; 64] }, 8)?;
    /// bridge.write_register(Register::R10, Register::R10_FIND_LINE_END)?;
    /// let mut meter = Meter::of(bridge, Notes { gaps: [0; 8], text: [0; 32] })?;
    /// meter.line_bytes(b"2.5\r\n")?;
    /// assert!(matches!(meter.reading()?, Reading::Whole(_)));
    /// # Ok::<(), raftershim::Refusal>(())
    /// ```
    #[must_use = "the meter is in the answer, or the size that is broken"]
    pub fn of(bridge: Bridge<R, T>, notes: Notes<G, X>) -> Result<Meter<R, T, G, X>, BadSize> {
        let receive = bridge.receive_store().len();
        if let Some(bad) = BadSize::of_gaps(notes.gaps.as_ref().len(), receive) {
            return Err(bad);
        }
        let counts = bridge
            .state()
            .map(|state| [state.stored, state.lost, state.sent]);
        let fresh = counts == Ok([0; 3]);
        let mut gaps = Gaps::none(notes.gaps);
        if !fresh {
            (0..receive).for_each(|place| gaps.note(place));
        }
        let line = Line::new(notes.text, !fresh);
        Ok(Meter { bridge, gaps, line })
    }

    /// Reads one reading: plays the controller of the loop until an end byte, or until the bridge
    /// has no more to send.
    ///
    /// The bridge is given [`Address::FIRST`] if it has no address, is made talker, so it listens no
    /// more, and is asked to send data. Each data frame is given back to it and brings the next one.
    /// After an end byte it is told 5,66, not ready, so it stops there and keeps what comes after
    /// for the next call.
    ///
    /// Each reading that has ended is told once. [`Reading::NotEnded`] means that the bridge has
    /// nothing more for now; its text stays, and the next call goes on with it.
    ///
    /// # Errors
    ///
    /// Refusal 2 if a store no longer lends the length that it had.
    ///
    /// ```
    /// use raftershim::{Meter, Notes, Reading, Stores};
    ///
    /// let stores = Stores { receive: [0; 64], transmit: [0; 64] };
    /// let mut meter = Meter::create(stores, Notes { gaps: [0; 8], text: [0; 32] }, 8)?;
    /// meter.line_bytes(b"7\r\n2.")?;
    /// assert!(matches!(meter.reading()?, Reading::Whole(text) if text.as_bytes() == b"7"));
    /// assert!(matches!(meter.reading()?, Reading::NotEnded(_)));
    /// meter.line_bytes(b"5\r\n")?;
    /// assert!(matches!(meter.reading()?, Reading::Whole(text) if text.as_bytes() == b"2.5"));
    /// # Ok::<(), raftershim::Refusal>(())
    /// ```
    #[must_use = "the reading is told only once"]
    pub fn reading(&mut self) -> Result<Reading<'_>, Refusal> {
        self.go_on()?;
        Ok(self.line.tell())
    }

    /// Reads one reading, as [`reading`](Meter::reading) does, and gives how much room the receive
    /// store has after it. What was read off has left the store. A reading is many frames, whose
    /// answers tell the other store. So the meter reads this room off the state that they left.
    ///
    /// With this and [`line_bytes_and_room`](Meter::line_bytes_and_room) an app always knows that room:
    /// nothing else changes it but a reset, a device clear and frames of the app's own that make the
    /// bridge send.
    ///
    /// # Errors
    ///
    /// Refusal 2 if a store no longer lends the length that it had.
    ///
    /// ```
    /// use raftershim::{Meter, Notes, Reading, Stores};
    ///
    /// let stores = Stores { receive: [0; 8], transmit: [0; 3] };
    /// let mut meter = Meter::create(stores, Notes { gaps: [0; 1], text: [0; 32] }, 3)?;
    /// assert_eq!(meter.line_bytes_and_room(b"2.5\r\n7")?.room, 2);
    /// let first = meter.reading_and_room()?;
    /// assert!(matches!(first.answer, Reading::Whole(text) if text.as_bytes() == b"2.5"));
    /// assert_eq!(first.room, 7);
    /// # Ok::<(), raftershim::Refusal>(())
    /// ```
    #[must_use = "the reading is told only once"]
    pub fn reading_and_room(&mut self) -> Result<WithRoom<Reading<'_>>, Refusal> {
        self.go_on()?;
        let room = self.bridge.room(Side::Receive)?;
        let answer = self.line.tell();
        Ok(WithRoom { answer, room })
    }

    /// Goes on from what was told last to what is to be told next.
    fn go_on(&mut self) -> Result<(), Refusal> {
        self.line.go_on();
        match self.line.has_news() {
            true => Ok(()),
            false => self.read(),
        }
    }

    /// Plays the controller until there is something to tell, or nothing more to read.
    fn read(&mut self) -> Result<(), Refusal> {
        let address = match self.bridge.state()?.address {
            Some(address) => address,
            None => {
                self.ask(Frame::auto_address(Address::FIRST))?;
                Address::FIRST
            }
        };
        self.ask(Frame::talk_address(address))?;
        let mut out = self.ask(Frame::SEND_DATA)?;
        while out.is_data() {
            if self.line.has_news() {
                self.ask(Frame::NOT_READY)?;
            }
            out = self.ask(out)?;
        }
        Ok(())
    }

    /// Offers a frame of the controller that is played here.
    fn ask(&mut self, frame: Frame) -> Result<Frame, Refusal> {
        self.offer(frame, Reader::Meter).map(|taken| taken.answer)
    }

    /// Takes bytes from the line, as a serial port hands them over, and gives how many of them were
    /// lost. In which reading they are missing is for [`reading`](Meter::reading) to say.
    ///
    /// # Errors
    ///
    /// Refusal 2 if a store no longer lends the length that it had. The same holds for every call
    /// below.
    ///
    /// ```
    /// use raftershim::{Meter, Notes, Stores};
    ///
    /// let stores = Stores { receive: [0; 4], transmit: [0; 3] };
    /// let mut meter = Meter::create(stores, Notes { gaps: [0; 1], text: [0; 32] }, 1)?;
    /// assert_eq!(meter.line_bytes(b"2.5\r\n")?, 1);
    /// # Ok::<(), raftershim::Refusal>(())
    /// ```
    #[must_use = "refused bytes are not taken"]
    pub fn line_bytes(&mut self, bytes: &[u8]) -> Result<usize, Refusal> {
        self.take(bytes).map(|(lost, _)| lost)
    }

    /// Takes bytes from the line, as [`line_bytes`](Meter::line_bytes) does, and gives how much room
    /// the receive store has after the last of them. Without a byte it is the room that there is.
    ///
    /// # Errors
    ///
    /// Refusal 2.
    ///
    /// ```
    /// use raftershim::{Meter, Notes, Stores, WithRoom};
    ///
    /// let stores = Stores { receive: [0; 8], transmit: [0; 3] };
    /// let mut meter = Meter::create(stores, Notes { gaps: [0; 1], text: [0; 32] }, 3)?;
    /// assert_eq!(meter.line_bytes_and_room(b"2.5\r\n")?, WithRoom { answer: 0, room: 3 });
    /// assert_eq!(meter.line_bytes_and_room(b"12.7")?, WithRoom { answer: 1, room: 0 });
    /// # Ok::<(), raftershim::Refusal>(())
    /// ```
    #[must_use = "refused bytes are not taken"]
    pub fn line_bytes_and_room(&mut self, bytes: &[u8]) -> Result<WithRoom<usize>, Refusal> {
        let (answer, told) = self.take(bytes)?;
        let room = match told {
            Some(room) => room,
            None => self.bridge.room(Side::Receive)?,
        };
        Ok(WithRoom { answer, room })
    }

    /// Takes bytes from the line. Gives how many were lost, and the room that the last one told.
    fn take(&mut self, bytes: &[u8]) -> Result<(usize, Option<u16>), Refusal> {
        let (mut lost, mut room) = (0, None);
        for &byte in bytes {
            let taken = self.line_byte_and_room(byte)?;
            lost += usize::from(taken.answer == LineByte::Lost);
            room = Some(taken.room);
        }
        Ok((lost, room))
    }

    /// Takes a byte from the line, as [`Bridge::line_byte`] does.
    ///
    /// # Errors
    ///
    /// Refusal 2.
    #[must_use = "whether the byte is lost is in the answer"]
    pub fn line_byte(&mut self, byte: u8) -> Result<LineByte, Refusal> {
        self.line_byte_and_room(byte).map(|taken| taken.answer)
    }

    /// Takes a byte from the line and gives how much room the receive store has after it, as
    /// [`Bridge::line_byte_and_room`] does.
    ///
    /// # Errors
    ///
    /// Refusal 2.
    #[must_use = "whether the byte is lost is in the answer"]
    pub fn line_byte_and_room(&mut self, byte: u8) -> Result<WithRoom<LineByte>, Refusal> {
        let state = self.bridge.state()?;
        let taken = self.bridge.line_byte_and_room(byte)?;
        if taken.answer == LineByte::Lost {
            self.missing_after_newest(&state);
        }
        Ok(taken)
    }

    /// Notes that a byte was lost before it came to the bridge, such as by an overrun of the serial
    /// port, after all bytes given so far and before the next one. One call does for several bytes
    /// lost there.
    ///
    /// The byte is missing right after the newest one that came, and counts as any other byte lost
    /// there. If that one was an end of line, it is missing in the next reading. The bridge is not
    /// told, so neither its count of bytes lost nor its status byte has it.
    ///
    /// A port with a FIFO loses the byte that comes after those still in it. So call this when they
    /// were taken and given. If the port does not say when it lost the byte, call it both before and
    /// after they are given: that may warn of a reading too many, and of none too few.
    ///
    /// # Errors
    ///
    /// Refusal 2.
    ///
    /// ```
    /// use raftershim::{Meter, Notes, Reading, Stores};
    ///
    /// let stores = Stores { receive: [0; 64], transmit: [0; 64] };
    /// let mut meter = Meter::create(stores, Notes { gaps: [0; 8], text: [0; 32] }, 8)?;
    /// // The port hands over the 2 and says that it lost what came after.
    /// meter.line_bytes(b"1.5\r\n2")?;
    /// meter.line_gap()?;
    /// meter.line_bytes(b"5\r\n")?;
    /// assert!(matches!(meter.reading()?, Reading::Whole(text) if text.as_bytes() == b"1.5"));
    /// assert!(matches!(meter.reading()?, Reading::Gap(text) if text.as_bytes() == b"25"));
    /// # Ok::<(), raftershim::Refusal>(())
    /// ```
    #[must_use = "a refused gap is not noted"]
    pub fn line_gap(&mut self) -> Result<(), Refusal> {
        let state = self.bridge.state()?;
        self.missing_after_newest(&state);
        Ok(())
    }

    /// Takes a break on the line, as [`Bridge::line_break`] does. It cuts off the reading that it falls
    /// into, which is told as a gap and not joined with the next one.
    ///
    /// # Errors
    ///
    /// Refusal 2.
    ///
    /// ```
    /// use raftershim::{Meter, Notes, Reading, Stores};
    ///
    /// let stores = Stores { receive: [0; 64], transmit: [0; 64] };
    /// let mut meter = Meter::create(stores, Notes { gaps: [0; 8], text: [0; 32] }, 8)?;
    /// // The meter is restarted between the two characters of an end of line.
    /// meter.line_bytes(b"12\r")?;
    /// meter.line_break()?;
    /// meter.line_bytes(b"3.5\r\n")?;
    /// assert!(matches!(meter.reading()?, Reading::Gap(text) if text.as_bytes() == b"12\r"));
    /// assert!(matches!(meter.reading()?, Reading::Whole(text) if text.as_bytes() == b"3.5"));
    /// # Ok::<(), raftershim::Refusal>(())
    /// ```
    #[must_use = "a refused break is not noted"]
    pub fn line_break(&mut self) -> Result<(), Refusal> {
        let before = self.bridge.state()?;
        self.bridge.line_break()?;
        match before.receive.held {
            0 => self.line.cut(false),
            // A byte lost before the break is missing in what the break cuts off, which is no reading
            // in any case. So the bit of a marked cell is about what is lost after the break.
            _ => {
                self.gaps.take(newest(&before));
            }
        }
        Ok(())
    }

    /// Takes a press of the MSRQ key, as [`Bridge::key`] does.
    ///
    /// # Errors
    ///
    /// Refusal 2.
    #[must_use = "a refused press is not noted"]
    pub fn key(&mut self) -> Result<(), Refusal> {
        self.bridge.key()
    }

    /// Asks which byte is next for the line, as [`Bridge::ask_line_byte`] does. It may be the stop
    /// or the go that the meter waits for, so ask after every call that takes line bytes or reads.
    /// Send the byte, and take it when the port has it.
    ///
    /// # Errors
    ///
    /// Refusal 2.
    ///
    /// ```
    /// use raftershim::{Meter, Notes, Stores};
    ///
    /// let stores = Stores { receive: [0; 8], transmit: [0; 3] };
    /// let mut meter = Meter::create(stores, Notes { gaps: [0; 1], text: [0; 32] }, 3)?;
    /// meter.line_bytes(b"2.5\r\n")?;
    /// let mut sent = Vec::new();
    /// while let Some(next) = meter.ask_line_byte()? {
    ///     sent.push(next.byte());
    ///     next.take()?;
    /// }
    /// assert_eq!(sent, [19]);
    /// # Ok::<(), raftershim::Refusal>(())
    /// ```
    #[must_use = "the byte that is next must be sent to the line and taken"]
    pub fn ask_line_byte(&mut self) -> Result<Option<NextLineByte<'_, R, T>>, Refusal> {
        self.bridge.ask_line_byte()
    }

    /// Writes a register, as [`Bridge::write_register`] does. Without
    /// [`Register::R10_FIND_LINE_END`] in R10 no reading ever ends.
    ///
    /// R10, C00 and C01 are written when all that came is read. Up to two bytes that wait for the end of
    /// their line are held after [`Reading::NotEnded`]: read again when the end has come. If it never
    /// will, [`line_break`](Meter::line_break) cuts the reading off, and it is then told as a gap.
    ///
    /// # Errors
    ///
    /// Refusal 6, 7, 8, 10 or 2.
    ///
    /// ```
    /// use raftershim::{Meter, Notes, Reading, Refusal, Register, Stores};
    ///
    /// let stores = Stores { receive: [0; 64], transmit: [0; 64] };
    /// let mut meter = Meter::create(stores, Notes { gaps: [0; 8], text: [0; 32] }, 8)?;
    /// // Half a reading is held, so its end of line stays what it is.
    /// meter.line_bytes(b"2.")?;
    /// assert_eq!(meter.write_register(Register::C00, b';'), Err(Refusal::HELD_BYTES));
    /// meter.line_bytes(b"5\r\n")?;
    /// assert!(matches!(meter.reading()?, Reading::Whole(text) if text.as_bytes() == b"2.5"));
    /// meter.write_register(Register::C00, b';')?;
    /// meter.write_register(Register::C01, b';')?;
    /// meter.line_bytes(b"7;;")?;
    /// assert!(matches!(meter.reading()?, Reading::Whole(text) if text.as_bytes() == b"7"));
    /// # Ok::<(), Refusal>(())
    /// ```
    #[must_use = "a refused write has changed nothing"]
    pub fn write_register(&mut self, register: Register, value: u8) -> Result<(), Refusal> {
        self.bridge.write_register(register, value)
    }

    /// Takes a frame from the loop, as [`Bridge::loop_frame`] does, for instance to ask for the
    /// status. Data frames that it gives are not in the readings.
    ///
    /// A fresh bridge is no talker, and passes [`Frame::SEND_STATUS`] on: take the answer as a status
    /// only if it [is data](Frame::is_data).
    ///
    /// # Errors
    ///
    /// Refusal 4 if the bridge is busy, and 2.
    ///
    /// ```
    /// use raftershim::{Frame, Meter, Notes, Reading, StatusByte, Stores};
    ///
    /// let stores = Stores { receive: [0; 64], transmit: [0; 64] };
    /// let mut meter = Meter::create(stores, Notes { gaps: [0; 8], text: [0; 32] }, 8)?;
    /// // After a reading the bridge is talker, so it can be asked for its status.
    /// assert!(matches!(meter.reading()?, Reading::NotEnded(_)));
    /// let status = meter.loop_frame(Frame::SEND_STATUS)?;
    /// assert!(status.is_data());
    /// assert!(!StatusByte::from(status.data()).has(StatusByte::OVERRUN));
    /// assert_eq!(meter.loop_frame(status)?, Frame::END_OF_TRANSMISSION);
    /// # Ok::<(), raftershim::Refusal>(())
    /// ```
    #[must_use = "the frame that goes on along the loop is in the answer"]
    pub fn loop_frame(&mut self, frame: Frame) -> Result<Frame, Refusal> {
        self.loop_frame_and_room(frame).map(|taken| taken.answer)
    }

    /// Takes a frame from the loop, as [`loop_frame`](Meter::loop_frame) does, and gives how much room
    /// the transmit store has after it, as [`Bridge::loop_frame_and_room`] does.
    ///
    /// # Errors
    ///
    /// Refusal 4 if the bridge is busy, and 2.
    ///
    /// ```
    /// use raftershim::{Address, Frame, Meter, Notes, Stores};
    ///
    /// let stores = Stores { receive: [0; 64], transmit: [0; 64] };
    /// let mut meter = Meter::create(stores, Notes { gaps: [0; 8], text: [0; 32] }, 8)?;
    /// // A byte that sets the meter's range.
    /// meter.loop_frame(Frame::auto_address(Address::FIRST))?;
    /// meter.loop_frame(Frame::listen_address(Address::FIRST))?;
    /// assert_eq!(meter.loop_frame_and_room(Frame::data_byte(b'R'))?.room, 63);
    /// # Ok::<(), raftershim::Refusal>(())
    /// ```
    #[must_use = "the frame that goes on along the loop is in the answer"]
    pub fn loop_frame_and_room(&mut self, frame: Frame) -> Result<WithRoom<Frame>, Refusal> {
        self.offer(frame, Reader::App)
    }

    /// Resets the bridge, as [`Bridge::reset`] does, and lets it find the ends of lines again. All
    /// other registers have their start values.
    ///
    /// # Errors
    ///
    /// Refusal 2.
    ///
    /// ```
    /// use raftershim::{Meter, Notes, Reading, Stores};
    ///
    /// let stores = Stores { receive: [0; 64], transmit: [0; 64] };
    /// let mut meter = Meter::create(stores, Notes { gaps: [0; 8], text: [0; 32] }, 8)?;
    /// meter.line_bytes(b"2.")?;
    /// meter.reset()?;
    /// meter.line_bytes(b"5\r\n7\r\n")?;
    /// assert!(matches!(meter.reading()?, Reading::Gap(_)));
    /// assert!(matches!(meter.reading()?, Reading::Whole(text) if text.as_bytes() == b"7"));
    /// # Ok::<(), raftershim::Refusal>(())
    /// ```
    #[must_use = "a refused reset has changed nothing"]
    pub fn reset(&mut self) -> Result<(), Refusal> {
        let before = self.bridge.state()?;
        self.bridge.reset()?;
        self.thrown_away(&before);
        self.find_line_ends()
    }

    /// The bridge, to look at its state and its stores.
    ///
    /// ```
    /// use raftershim::{Meter, Notes, Stores};
    ///
    /// let stores = Stores { receive: [0; 64], transmit: [0; 64] };
    /// let mut meter = Meter::create(stores, Notes { gaps: [0; 8], text: [0; 32] }, 8)?;
    /// meter.line_break()?;
    /// assert!(meter.bridge().state()?.seen_break);
    /// # Ok::<(), raftershim::Refusal>(())
    /// ```
    pub fn bridge(&self) -> &Bridge<R, T> {
        &self.bridge
    }

    /// The bridge, to be used without the meter, or to be saved.
    ///
    /// ```
    /// use raftershim::{Meter, Notes, Saved, Stores};
    ///
    /// let stores = Stores { receive: [0; 64], transmit: [0; 64] };
    /// let meter = Meter::create(stores, Notes { gaps: [0; 8], text: [0; 32] }, 8)?;
    /// let (saved, stores) = meter.into_bridge().into_parts();
    /// assert_eq!((saved.version(), stores.receive.len()), (Saved::VERSION, 64));
    /// # Ok::<(), raftershim::Refusal>(())
    /// ```
    pub fn into_bridge(self) -> Bridge<R, T> {
        self.bridge
    }

    fn find_line_ends(&mut self) -> Result<(), Refusal> {
        self.bridge
            .write_register(Register::R10, Register::R10_FIND_LINE_END)
    }

    /// Offers a frame to the bridge and notes what it did to the bytes held for the loop.
    fn offer(&mut self, frame: Frame, reader: Reader) -> Result<WithRoom<Frame>, Refusal> {
        let before = self.bridge.state()?;
        let taken = self.bridge.loop_frame_and_room(frame)?;
        let after = self.bridge.state()?;
        let gone = usize::from(before.receive.held.saturating_sub(after.receive.held));
        match (frame.is_command(), after.sent == before.sent) {
            (true, _) if gone > 0 => self.thrown_away(&before),
            (true, _) => {}
            (false, true) => self.read_off(&before, gone, None, reader),
            (false, false) => self.read_off(&before, gone, Some(taken.answer), reader),
        }
        Ok(taken)
    }

    /// A send has taken bytes off: first the ends of lines that came by themselves, then what
    /// became the frame that was sent. That is a byte, and for an end byte its end of line too. A
    /// break after the last byte of an end of line has nothing to cut off.
    fn read_off(&mut self, before: &State, gone: usize, sent: Option<Frame>, reader: Reader) {
        let alone = match sent {
            None => gone,
            Some(frame) if frame.is_end() => gone.saturating_sub(3),
            Some(_) => gone.saturating_sub(1),
        };
        for index in 0..gone {
            let missing = self.gaps.take(place(before, index));
            let cut = self.held(before, index).then_break;
            let ends = match sent {
                Some(frame) if index >= alone => frame.is_end() && index + 1 == gone,
                _ => index % 2 == 1,
            };
            match (sent.filter(|_| index == alone), reader) {
                (None, _) => {}
                (Some(frame), Reader::Meter) => self.line.put(frame.data()),
                (Some(_), Reader::App) => self.line.lacks(true),
            }
            match (ends, reader) {
                (false, _) if !cut => self.line.lacks(missing),
                (_, Reader::App) => self.line.drop(missing),
                (false, Reader::Meter) => self.line.cut(missing),
                (true, Reader::Meter) if index < alone => self.line.end_alone(missing),
                (true, Reader::Meter) => self.line.end(missing),
            }
        }
    }

    /// What was held at this index, 0 being the oldest: a byte that is gone is still in the store.
    fn held(&self, before: &State, index: usize) -> HeldByte {
        let cell = self.bridge.receive_store().get(place(before, index));
        HeldByte::from(cell.copied().unwrap_or_default())
    }

    /// A byte is missing after the newest one that came: after the newest held, or if none is held,
    /// in the line under way.
    fn missing_after_newest(&mut self, state: &State) {
        match state.receive.held {
            0 => self.line.lacks(true),
            _ => self.gaps.note(newest(state)),
        }
    }

    /// What the bridge held for the loop was thrown away; its bytes are still in the store.
    fn thrown_away(&mut self, before: &State) {
        let held = usize::from(before.receive.held);
        if held == 0 {
            return;
        }
        let after_last = self.gaps.take(newest(before));
        (0..held).for_each(|index| {
            self.gaps.take(place(before, index));
        });
        match self.after_last_cut(before) {
            None => self.line.lacks(true),
            Some(bytes) => self.line.drop(bytes > 0 || after_last),
        }
    }

    /// How many of the bytes held stand after the last end of line or break among them, if there is
    /// one.
    fn after_last_cut(&self, state: &State) -> Option<usize> {
        let finds = state.registers.r10 & Register::R10_FIND_LINE_END != 0;
        let (c00, c01) = (state.registers.c00, state.registers.c01);
        let (mut after, mut first_seen) = (None, false);
        for index in 0..usize::from(state.receive.held) {
            let HeldByte { byte, then_break } = self.held(state, index);
            if then_break || first_seen && byte == c01 {
                (after, first_seen) = (Some(0), false);
            } else {
                (after, first_seen) = (after.map(|bytes| bytes + 1), finds && byte == c00);
            }
        }
        after
    }
}

/// Who plays the controller.
#[derive(Clone, Copy)]
enum Reader {
    /// The call that gives a reading.
    Meter,
    /// The app, by frames of its own.
    App,
}

/// The place of the newest byte held.
fn newest(state: &State) -> usize {
    place(state, usize::from(state.receive.held).saturating_sub(1))
}

impl<R, T, G, X> fmt::Debug for Meter<R, T, G, X> {
    fn fmt(&self, f: &mut fmt::Formatter<'_>) -> fmt::Result {
        f.debug_struct("Meter")
            .field("bridge", &self.bridge)
            .finish_non_exhaustive()
    }
}

impl<G: AsRef<[u8]>, X: AsRef<[u8]>> fmt::Debug for Notes<G, X> {
    /// The lengths; the buffers may be long.
    fn fmt(&self, f: &mut fmt::Formatter<'_>) -> fmt::Result {
        f.debug_struct("Notes")
            .field("gaps_len", &self.gaps.as_ref().len())
            .field("text_len", &self.text.as_ref().len())
            .finish()
    }
}
