//! The calls by the numbers that the C functions take, and what a script has for them.

use script::{Command, MailboxCall, Way};
use std::fmt;

/// One call of the mailbox, its three buffers aside.
#[derive(Clone, Copy, Debug, PartialEq, Eq)]
pub enum Call {
    Frame(u32),
    /// A command of the bus.
    Command(u32),
    /// A data byte of the bus, and its end mark unless that is 0.
    Byte(u8, u32),
    Fetch,
    /// Interface clear.
    Clear,
    Lines,
    Reset,
    /// Side 0 is the way to the bus, side 1 the way to the loop.
    Show(u32),
}

/// The frame written "control,data".
pub const fn frame(control: u32, data: u32) -> Call {
    Call::Frame(control << 8 | data)
}

impl Call {
    /// The call of a script; a script has none for a side that is neither.
    pub fn in_script(self) -> Option<MailboxCall> {
        Some(match self {
            Call::Frame(frame) => MailboxCall::Frame(frame),
            Call::Command(command) => MailboxCall::Command(Command::Number(command)),
            Call::Byte(byte, end) => MailboxCall::Byte {
                bytes: vec![byte],
                end: end != 0,
            },
            Call::Fetch => MailboxCall::Fetch,
            Call::Clear => MailboxCall::Clear,
            Call::Lines => MailboxCall::Lines,
            Call::Reset => MailboxCall::Reset,
            Call::Show(0) => MailboxCall::Show(Way::Bus),
            Call::Show(1) => MailboxCall::Show(Way::Loop),
            Call::Show(_) => return None,
        })
    }
}

impl fmt::Display for Call {
    fn fmt(&self, f: &mut fmt::Formatter) -> fmt::Result {
        match self.in_script() {
            Some(call) => write!(f, "{call}"),
            None => write!(f, "# no script has the call {self:?}"),
        }
    }
}
