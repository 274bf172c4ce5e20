//! The two sides of the bridge.

/// A side of the bridge, by its store.
///
/// ```
/// use raftershim::{Bridge, LineByte, Side, Stores};
///
/// let mut bridge = Bridge::create(Stores { receive: [0; 64], transmit: [0; 64] }, 8)?;
/// assert_eq!(bridge.line_byte(50)?, LineByte::Stored);
/// assert_eq!((bridge.room(Side::Receive)?, bridge.room(Side::Transmit)?), (63, 64));
/// # Ok::<(), raftershim::Refusal>(())
/// ```
#[derive(Clone, Copy, Debug, PartialEq, Eq, Hash)]
pub enum Side {
    /// The receive store, line to loop.
    Receive,
    /// The transmit store, loop to line.
    Transmit,
}
