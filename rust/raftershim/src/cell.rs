//! A cell of a store whose bytes can have a mark: the byte, and the mark above it. The bits above the
//! mark do not count.

const MARK: u16 = 1 << 8;

/// The byte of a cell, and whether it has the mark.
pub(crate) fn parts(cell: u16) -> (u8, bool) {
    let [_, byte] = cell.to_be_bytes();
    (byte, cell & MARK != 0)
}

/// The cell of a byte, with or without the mark.
pub(crate) fn with_mark(byte: u8, mark: bool) -> u16 {
    u16::from(byte) | if mark { MARK } else { 0 }
}
