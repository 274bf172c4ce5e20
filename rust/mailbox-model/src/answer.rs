//! What calls answer.

/// What every call but showing a store answers.
#[derive(Clone, Copy, Debug, PartialEq, Eq)]
pub enum Answer {
    /// Done, and nothing to hand out.
    Done,
    /// There is no byte for the bus.
    None,
    /// The next byte for the bus, and whether it carries the end mark.
    Byte { byte: u8, end: bool },
    /// The frame that goes out for the frame taken.
    Frame(u16),
    /// The bus lines: service request, and the data lines that answer a parallel poll.
    Lines { srq: bool, poll: u8 },
    /// A refusal with its number; nothing has changed.
    Refused(u8),
}

/// A part of a store, in cells.
#[derive(Clone, Copy, Debug, PartialEq, Eq)]
pub struct Part {
    pub start: usize,
    pub length: usize,
}

impl Part {
    pub const EMPTY: Part = Part {
        start: 0,
        length: 0,
    };
}
