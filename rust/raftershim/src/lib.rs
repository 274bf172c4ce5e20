//! A safe wrapper of the proved bridge between an HP-IL loop and an RS-232 line, and of the proved
//! mailbox between an HP-IL loop and an HP-IB bus.
//!
//! A [`Bridge`] is one device on the loop. It has a receive store, which takes bytes from the line
//! to the loop, and a transmit store, which takes bytes from the loop to the line. The receive store
//! has a cell of 16 bits for each byte, with a mark where a break follows it. A [`Mailbox`] is one
//! device on the loop and one on the bus, and has a store for each way between them. What every
//! call answers is proved; the proved code comes as a static archive of C functions, and this crate
//! calls them. No call is unsafe, and none panics. The C functions themselves are in [`raw`].
//!
//! # Ten readings, and a point that is swallowed
//!
//! A [`Meter`] takes what the meter sends and gives its readings one by one. Here the app is late
//! once: when the point of 2.5 comes, the receive store is full, and the point is lost. That
//! reading is told as a gap, and the nine others are whole.
//!
//! ```
#![doc = include_str!("../examples/meter.rs")]
//! ```
//!
//! The third line that this prints is `a byte is missing, measure again`. [`Meter`] says exactly
//! which reading is told as a gap, however readings, losses, status polls, breaks and resets come
//! about. An app that speaks what is [`Reading::Whole`] and nothing else speaks no wrong number
//! unwarned, as long as the go and stop characters are none that the meter sends as data: see
//! [`Register`].
//!
//! A meter that heeds stop and go is held off before the store is full: send it the byte that
//! [`Meter::ask_line_byte`] says is next, and take that byte when the port has it. A byte that the
//! port could not send is not taken, and so it is not lost: see [`NextLineByte`].
//!
//! # The same by frames
//!
//! This is what [`Meter::reading`] does, and what a controller on a real loop does. The loop gives
//! the bridge an address, makes it talker and asks for data. Each data frame comes back round the
//! loop and brings the next one. When the end byte of the reading has come, the controller sends
//! 5,66, not ready, before it gives the end byte back: so the bridge stops, and says 5,64. Without
//! 5,66 it would go on with the next reading, and 7 and 2.5 would be read as 72.5.
//!
//! ```
//! use raftershim::{Address, Bridge, Frame, LineByte, Register, Stores};
//!
//! let mut bridge = Bridge::create(Stores { receive: [0; 64], transmit: [0; 64] }, 8)?;
//! bridge.write_register(Register::R10, Register::R10_FIND_LINE_END)?;
//! for byte in *b"7\r\n2.5\r\n" {
//!     assert_eq!(bridge.line_byte(byte)?, LineByte::Stored);
//! }
//!
//! bridge.loop_frame(Frame::auto_address(Address::FIRST))?;
//! bridge.loop_frame(Frame::talk_address(Address::FIRST))?;
//! for reading in ["7", "2.5"] {
//!     let mut text = String::new();
//!     let mut frame = bridge.loop_frame(Frame::SEND_DATA)?;
//!     while frame.is_data() {
//!         text.push(frame.data().into());
//!         if frame.is_end() {
//!             bridge.loop_frame(Frame::NOT_READY)?;
//!         }
//!         frame = bridge.loop_frame(frame)?;
//!     }
//!     assert_eq!((text.as_str(), frame), (reading, Frame::END_OF_TRANSMISSION));
//! }
//! # Ok::<(), raftershim::Refusal>(())
//! ```
//!
//! # A meter with an HP-IB plug
//!
//! Such a meter leaves its readings in a [`Mailbox`], and the loop fetches them there. The end of a
//! reading needs no characters: the meter sends its last byte with EOI, and the loop gets that byte
//! as an end byte. When the way is full the meter is told busy, and offers the byte again.
//!
//! ```
#![doc = include_str!("../examples/mailbox.rs")]
//! ```
//!
//! Data that the bus sends while it has not made the mailbox its listener is answered done and kept
//! by nobody: it is for others. The [`BusByte`] that [`Mailbox::bus_byte`] gives tells the two
//! apart.
//!
//! # Answers and refusals
//!
//! Each call says by its type what it gives: what became of a byte, the byte that is next or none,
//! a [`Frame`], a [`Reading`], the [`BusLines`], or nothing. A call that is refused gives a
//! [`Refusal`] with its number, and leaves the state and both stores as they were.
//!
//! The answers to line bytes also tell how much room is left in the receive store, and the answers to
//! frames how much is left in the transmit store. A caller that wants it makes the calls that end in
//! `_and_room`, which give an answer [`WithRoom`]. Here a braille line is kept up to date without a
//! call of its own:
//!
//! ```
#![doc = include_str!("../examples/braille.rs")]
//! ```
//!
//! Types that may get more cases or fields are marked so that a match needs a last arm for what is
//! new.
//!
//! # The archive
//!
//! The build takes the archive for the target that is built from the folder of the repository's
//! archives, and has it made there if it is missing, which needs the Rattle toolchain. If the
//! environment variable `RAFTERSHIM_ARCHIVE_DIR` is set, it names the archive's folder by its full
//! path, and none is made.
//!
//! # Without the standard library
//!
//! The crate needs neither the standard library nor memory from a heap. From Rust 1.81 on,
//! [`Refusal`] and [`BadSize`] are a `core::error::Error`. Older compilers have that trait in the
//! standard library only: there the feature `std`, off by default, makes them a `std::error::Error`.
//! On a newer compiler the feature changes nothing, since both names are the same trait.

#![no_std]
#![deny(unsafe_op_in_unsafe_fn, missing_docs)]

#[cfg(all(feature = "std", not(core_error)))]
extern crate std;

mod answer;
mod bridge;
mod cell;
mod frame;
mod gaps;
mod held;
mod lend;
mod line;
mod mailbox;
mod meter;
mod next_line_byte;
pub mod raw;
mod reading;
mod refusal;
mod register;
mod saved;
mod side;
mod size;
mod state;
mod status;

pub use answer::{Answer, Answered, LineByte, WithRoom};
pub use bridge::{Bridge, Stores};
pub use frame::{Address, Frame};
pub use held::HeldByte;
pub use mailbox::{
    BusByte, BusCommand, BusLines, BusSide, LoopPoll, LoopSide, MailByte, Mailbox, MailboxState,
    Waiting, Way, Ways,
};
pub use meter::{Meter, Notes};
pub use next_line_byte::NextLineByte;
pub use reading::{Reading, Text};
pub use refusal::Refusal;
pub use register::Register;
pub use saved::{Saved, SavedBlock, SavedMailbox};
pub use side::Side;
pub use size::{BadSize, Size};
pub use state::{Registers, Ring, State, Talker};
pub use status::{MailboxStatus, StatusByte};

/// The length in bytes of every block of a bridge, and so of what is [`Saved`].
///
/// ```
/// use raftershim::{Bridge, Saved, Stores, BLOCK_LEN};
///
/// let bridge = Bridge::create(Stores { receive: [0; 64], transmit: [0; 64] }, 8)?;
/// let file: [u8; BLOCK_LEN] = *bridge.saved().as_bytes();
/// assert_eq!((file.len(), file[0]), (56, Saved::VERSION));
/// # Ok::<(), raftershim::Refusal>(())
/// ```
pub const BLOCK_LEN: usize = 56;

/// The length in bytes of every block of a mailbox, and so of what is [`SavedMailbox`].
///
/// ```
/// use raftershim::{Mailbox, SavedMailbox, Ways, MAILBOX_BLOCK_LEN};
///
/// let mailbox = Mailbox::create(Ways { to_bus: [0; 8], to_loop: [0; 8] }, 7)?;
/// let file: [u8; MAILBOX_BLOCK_LEN] = *mailbox.saved().as_bytes();
/// assert_eq!((file.len(), file[0]), (41, SavedMailbox::VERSION));
/// # Ok::<(), raftershim::Refusal>(())
/// ```
pub const MAILBOX_BLOCK_LEN: usize = 41;
