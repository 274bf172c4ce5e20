//! How each side answers a parallel poll.

/// The answer that the loop's controller has asked for.
#[derive(Clone, Copy, Debug, PartialEq, Eq, Hash)]
pub struct LoopResponse {
    pub on: bool,
    /// The bit or data line, 0 to 7.
    pub line: u8,
    /// Whether the bit says that service is requested (positive), or that it is not.
    pub sense: bool,
}

/// The answer that the controller of the bus has asked for; it is always in the positive sense.
#[derive(Clone, Copy, Debug, PartialEq, Eq, Hash)]
pub struct BusResponse {
    pub on: bool,
    /// The data line, 0 to 7.
    pub line: u8,
}

/// Whether a line is one of eight.
fn line_obeyed(line: u8) -> bool {
    line <= 7
}

impl LoopResponse {
    /// No answer at all.
    pub const OFF: LoopResponse = LoopResponse {
        on: false,
        line: 0,
        sense: false,
    };

    pub(crate) fn fits(&self) -> bool {
        line_obeyed(self.line)
    }

    /// Codes 0 to 7 answer while service is not requested, 8 to 15 while it is.
    pub(crate) fn of_code(code: u8) -> LoopResponse {
        LoopResponse {
            on: true,
            line: code & 7,
            sense: code & 8 != 0,
        }
    }

    /// The bits that we set in an identify frame.
    pub(crate) fn bits(&self, requested: bool) -> u16 {
        if self.on && requested == self.sense {
            1 << self.line
        } else {
            0
        }
    }
}

impl BusResponse {
    /// No answer at all.
    pub const OFF: BusResponse = BusResponse { on: false, line: 0 };

    pub(crate) fn fits(&self) -> bool {
        line_obeyed(self.line)
    }

    /// Bit 3 of the code does not count.
    pub(crate) fn of_code(code: u8) -> BusResponse {
        BusResponse {
            on: true,
            line: code & 7,
        }
    }

    /// The data lines that we pull.
    pub(crate) fn lines(&self, requested: bool) -> u8 {
        if self.on && requested {
            1 << self.line
        } else {
            0
        }
    }
}
