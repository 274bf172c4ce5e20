//! The language of scripts: a call of the bridge or of the mailbox in each line, and the answer that
//! is expected.
//!
//! - [`Step`] is a line of a script: a [`Call`], and the answer that it expects, if it does.
//! - [`MailboxCall`] is a call of a mailbox. A line speaks of the [`Product`] that was made last.
//! - [`Script`] is a whole one. It is read with `parse` and printed with `to_string`.
//! - [`Steps`] reads one line after the other, so that each can be played before the next is there.
//! - [`Mistake`] and [`Unread`] say what is wrong, in a sentence.
//!
//! ```
//! use raftershim_script::{Call, Script};
//!
//! let script: Script = "create 64 64 8\nline \"2.5\" 13 10 => 5 stored # a reading\n".parse()?;
//! assert_eq!(script.steps[1].call, Call::Line(vec![50, 46, 53, 13, 10]));
//! assert_eq!(script.to_string(), "create 64 64 8\nline 50 46 53 13 10 => 5 stored\n");
//! let script: Script = "line \"2.5\" room => 3 stored, room 61\n".parse()?;
//! assert_eq!(script.steps[0].call, Call::LineAndRoom(vec![50, 46, 53]));
//! let script: Script = "mailbox 4 4 7\nbyte \"2.5\" end => 3 kept\n".parse()?;
//! assert_eq!(script.to_string(), "mailbox 4 4 7\nbyte 50 46 53 end => 3 kept\n");
//! # Ok::<(), raftershim_script::Unread>(())
//! ```

#![forbid(unsafe_code)]
#![deny(missing_docs)]

mod call;
mod command;
mod expected;
mod line;
mod mailbox_call;
mod mistake;
mod names;
mod read;
mod script;
mod word;

pub use call::{Call, Product, Side};
pub use command::Command;
pub use expected::Expected;
pub use line::{parse, Step};
pub use mailbox_call::{MailboxCall, Way};
pub use mistake::{Mistake, Wanted};
pub use names::{FrameName, RegisterName};
pub use read::{Steps, Unread, LONGEST_LINE};
pub use script::Script;

/// The longest store that a script may ask for; the bridge or the mailbox judges every length up to
/// it.
pub const LONGEST_STORE: u32 = 1_000_000;

/// The length of both stores where a script does not begin with create.
pub const DEFAULT_STORE: u32 = 64;

/// The margin where a script does not begin with create.
pub const DEFAULT_MARGIN: u32 = 8;
