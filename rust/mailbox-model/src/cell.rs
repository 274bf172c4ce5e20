//! What one cell of a store says.

use crate::frame::END;

/// Bit 8 of a cell.
const MARK: u16 = 1 << 8;

/// A byte, and whether it carries the end mark: an end byte on the loop, EOI on the bus.
#[derive(Clone, Copy, Debug, PartialEq, Eq)]
pub(crate) struct Cell {
    pub byte: u8,
    pub mark: bool,
}

impl Cell {
    /// The bits above the mark do not count.
    pub fn read(cell: u16) -> Cell {
        Cell {
            byte: (cell & 255) as u8,
            mark: cell & MARK != 0,
        }
    }

    /// The bits above the mark are written 0.
    pub fn written(self) -> u16 {
        u16::from(self.byte) | if self.mark { MARK } else { 0 }
    }

    /// What a listener keeps of a data frame; the service bit is not of it.
    pub fn of_frame(frame: u16) -> Cell {
        Cell {
            byte: (frame & 255) as u8,
            mark: frame & END != 0,
        }
    }

    /// The data frame that carries this, without a service bit.
    pub fn frame(self) -> u16 {
        u16::from(self.byte) | if self.mark { END } else { 0 }
    }
}
