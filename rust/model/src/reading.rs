//! The cells of the receive store, and the reading rule over the bytes and breaks that they are.

use crate::{Registers, Ring};

/// The mark of a cell: a break follows its byte.
const MARK: u16 = 1 << 8;

/// What the line brought: a byte, or a break.
#[derive(Clone, Copy, Debug, PartialEq, Eq)]
enum Item {
    Byte(u8),
    Break,
}

/// The cell of a byte that just came: "we write the others as 0".
pub(crate) fn cell(byte: u8) -> u16 {
    u16::from(byte)
}

/// The byte of a cell, whatever is above it.
fn byte(cell: u16) -> u8 {
    (cell & 255) as u8
}

/// The same byte with a break behind it: "Only the low nine bits of a cell count".
pub(crate) fn marked(cell: u16) -> u16 {
    u16::from(byte(cell)) | MARK
}

/// What the reading rule says about what comes first.
pub(crate) enum Reading {
    Pair,
    Wait,
    Data(u8),
    EndByte(u8),
}

/// What follows the byte of the held cell with this index, 0 being the oldest: a break, or the byte of
/// the next cell.
fn follows(ring: Ring, store: &[u16], index: usize) -> Option<Item> {
    if ring.look(store, index)? & MARK != 0 {
        return Some(Item::Break);
    }
    let next = ring.look(store, index + 1)?;
    Some(Item::Byte(byte(next)))
}

/// The reading rule on what a ring holds, read over bytes and breaks: "An indicator never spans a
/// break", so a break is neither C00 nor C01, and it is something that follows, so no byte before it
/// waits.
pub(crate) fn reading(registers: &Registers, ring: Ring, store: &[u16]) -> Reading {
    let (c00, c01) = (Item::Byte(registers.c[0]), Item::Byte(registers.c[1]));
    let first = match ring.look(store, 0) {
        Some(cell) => byte(cell),
        None => return Reading::Wait,
    };
    // "R10 bit 3 off: each byte is one data frame."
    if registers.r10 & 8 == 0 {
        return Reading::Data(first);
    }
    // The third is looked at only where the second is a byte.
    let (second, third) = (follows(ring, store, 0), follows(ring, store, 1));
    // "1. The next two bytes are C00, C01: removed, nothing sent. One byte left and it is C00:
    // undecided, wait." (The second half is part of step 3.)
    if Item::Byte(first) == c00 && second == Some(c01) {
        return Reading::Pair;
    }
    // "2. Else, C00, C01 follow the byte: an end byte; all three go."
    if second == Some(c00) && third == Some(c01) {
        return Reading::EndByte(first);
    }
    // "3. Else, nothing follows, or only C00: undecided, wait."
    if second.is_none() || (second == Some(c00) && third.is_none()) {
        return Reading::Wait;
    }
    // "4. Else a data frame; the byte goes."
    Reading::Data(first)
}
