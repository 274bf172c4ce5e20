//! The line byte that is next, between the ask and the take.

use core::fmt;

use crate::{Bridge, Refusal};

/// The byte that is next for the line, as [`Bridge::ask_line_byte`] and
/// [`Meter::ask_line_byte`](crate::Meter::ask_line_byte) say it.
///
/// Send [`byte`](NextLineByte::byte) to the line, and [`take`](NextLineByte::take) it when the port
/// has it. If the port fails, drop this: nothing has changed, and the next ask says the byte again.
/// If nobody knows whether the byte went out, dropping this sends it twice at worst, and taking it
/// may lose it.
///
/// ```
/// use raftershim::{Address, Bridge, Frame, Stores};
///
/// /// A port that fails at every other byte, as with a loose plug.
/// #[derive(Default)]
/// struct Port {
///     tries: usize,
///     sent: Vec<u8>,
/// }
///
/// impl Port {
///     fn send(&mut self, byte: u8) -> Result<(), &'static str> {
///         self.tries += 1;
///         if self.tries % 2 == 1 {
///             return Err("the plug is loose");
///         }
///         self.sent.push(byte);
///         Ok(())
///     }
/// }
///
/// let mut bridge = Bridge::create(Stores { receive: [0; 64], transmit: [0; 64] }, 8)?;
/// bridge.loop_frame(Frame::auto_address(Address::FIRST))?;
/// bridge.loop_frame(Frame::listen_address(Address::FIRST))?;
/// for byte in *b"R1" {
///     bridge.loop_frame(Frame::data_byte(byte))?;
/// }
///
/// let mut port = Port::default();
/// while let Some(next) = bridge.ask_line_byte()? {
///     match port.send(next.byte()) {
///         Ok(()) => next.take()?,
///         // It is not taken, so it is not lost. The next turn asks for it again.
///         Err(said) => println!("{said}"),
///     }
/// }
/// assert_eq!((port.sent.as_slice(), port.tries), (&b"R1"[..], 4));
/// # Ok::<(), raftershim::Refusal>(())
/// ```
///
/// # No call between the ask and the take
///
/// Another call could make a stop due, or throw away what is held. The byte would then be on the
/// line, and its take refused: it would go out twice, or no go would ever follow a stop, and the
/// meter would stay silent for good. So this borrows the bridge for as long as it can still be
/// taken, and no other call compiles between an ask and its take. Send the byte of this very ask: a
/// byte that was kept from an earlier one may no longer be next. Here a break comes after the take:
///
/// ```
/// # use raftershim::{Bridge, Refusal};
/// # fn turn(bridge: &mut Bridge<[u16; 4], [u8; 3]>, port: &mut Vec<u8>) -> Result<(), Refusal> {
/// if let Some(next) = bridge.ask_line_byte()? {
///     port.push(next.byte());
///     next.take()?;
///     bridge.line_break()?;
/// }
/// # Ok(())
/// # }
/// ```
///
/// With the break before the take it does not compile:
///
/// ```compile_fail,E0499
/// # use raftershim::{Bridge, Refusal};
/// # fn turn(bridge: &mut Bridge<[u16; 4], [u8; 3]>, port: &mut Vec<u8>) -> Result<(), Refusal> {
/// if let Some(next) = bridge.ask_line_byte()? {
///     port.push(next.byte());
///     bridge.line_break()?;
///     next.take()?;
/// }
/// # Ok(())
/// # }
/// ```
///
/// Nor does a second take:
///
/// ```compile_fail,E0382
/// # use raftershim::{Bridge, Refusal};
/// # fn turn(bridge: &mut Bridge<[u16; 4], [u8; 3]>, port: &mut Vec<u8>) -> Result<(), Refusal> {
/// if let Some(next) = bridge.ask_line_byte()? {
///     port.push(next.byte());
///     next.take()?;
///     next.take()?;
/// }
/// # Ok(())
/// # }
/// ```
#[must_use = "a byte that was sent and is not taken goes out once more"]
pub struct NextLineByte<'a, R, T> {
    bridge: &'a mut Bridge<R, T>,
    byte: u8,
}

impl<'a, R, T> NextLineByte<'a, R, T>
where
    R: AsRef<[u16]> + AsMut<[u16]>,
    T: AsRef<[u8]> + AsMut<[u8]>,
{
    /// This byte of this bridge, which said that it is next.
    pub(crate) fn of(bridge: &'a mut Bridge<R, T>, byte: u8) -> NextLineByte<'a, R, T> {
        NextLineByte { bridge, byte }
    }

    /// The byte, to be sent to the line.
    ///
    /// ```
    /// use raftershim::{Bridge, Stores};
    ///
    /// let mut bridge = Bridge::create(Stores { receive: [0; 4], transmit: [0; 3] }, 1)?;
    /// for byte in *b"123" {
    ///     bridge.line_byte(byte)?;
    /// }
    /// // It says the stop that is owed, as often as one likes.
    /// assert_eq!(bridge.ask_line_byte()?.map(|next| next.byte()), Some(19));
    /// assert_eq!(bridge.ask_line_byte()?.map(|next| next.byte()), Some(19));
    /// # Ok::<(), raftershim::Refusal>(())
    /// ```
    #[must_use = "the byte must be sent to the line"]
    pub fn byte(&self) -> u8 {
        self.byte
    }

    /// Takes the byte: it has been sent, and is gone from the bridge. Our own go or stop counts as
    /// sent from now on, and a byte of the transmit store leaves that store.
    ///
    /// # Errors
    ///
    /// Refusal 2 if a store no longer lends the length that it had. The byte is then not taken.
    /// There is no other refusal while the transmit store keeps what it holds.
    ///
    /// ```
    /// use raftershim::{Bridge, Stores};
    ///
    /// let mut bridge = Bridge::create(Stores { receive: [0; 4], transmit: [0; 3] }, 1)?;
    /// for byte in *b"123" {
    ///     bridge.line_byte(byte)?;
    /// }
    /// if let Some(next) = bridge.ask_line_byte()? {
    ///     next.take()?;
    /// }
    /// assert!(bridge.state()?.stop_sent_last);
    /// assert!(bridge.ask_line_byte()?.is_none());
    /// # Ok::<(), raftershim::Refusal>(())
    /// ```
    #[must_use = "a refused take has not taken the byte"]
    pub fn take(self) -> Result<(), Refusal> {
        self.bridge.take_line_byte(self.byte)
    }
}

impl<R, T> fmt::Debug for NextLineByte<'_, R, T> {
    fn fmt(&self, f: &mut fmt::Formatter<'_>) -> fmt::Result {
        f.debug_tuple("NextLineByte").field(&self.byte).finish()
    }
}
