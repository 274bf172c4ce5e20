//! The calls by the numbers that the C functions take, and what a script has for them.

use std::fmt;

/// One call of the bridge, its three buffers aside.
#[derive(Clone, Copy, Debug, PartialEq, Eq)]
pub enum Call {
    /// Asks for the line byte that is next.
    Ask,
    /// Takes the line byte of this name.
    Take(u8),
    Line(u8),
    Frame(u32),
    Break,
    Key,
    /// Number and value.
    Register(u32, u32),
    Reset,
    ShowReceive,
    ShowTransmit,
}

/// The frame written "control,data".
pub const fn frame(control: u32, data: u32) -> Call {
    Call::Frame(control << 8 | data)
}

impl Call {
    /// The call of a script.
    pub fn in_script(self) -> script::Call {
        match self {
            Call::Ask => script::Call::Ask,
            Call::Take(byte) => script::Call::Take(byte),
            Call::Line(byte) => script::Call::Line(vec![byte]),
            Call::Frame(frame) => script::Call::Frame(frame),
            Call::Break => script::Call::Break,
            Call::Key => script::Call::Key,
            Call::Register(number, value) => script::Call::Register { number, value },
            Call::Reset => script::Call::Reset,
            Call::ShowReceive => script::Call::Show(script::Side::Receive),
            Call::ShowTransmit => script::Call::Show(script::Side::Transmit),
        }
    }
}

impl fmt::Display for Call {
    fn fmt(&self, f: &mut fmt::Formatter) -> fmt::Result {
        write!(f, "{}", self.in_script())
    }
}
