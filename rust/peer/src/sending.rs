//! One send from the receive store by the reading rule.

use crate::block::*;
use crate::ring::{round, RECEIVE};
use crate::BIT_3;

/// The end bit of a data frame.
pub const END: u16 = 2 << 8;
/// The mark of a cell: a break follows its byte.
pub const MARK: u16 = 1 << 8;
/// What counts of a cell, the byte and the mark.
const CELL: u16 = 0x1ff;

/// Takes the next frame off the receive store, its service bit aside. Pairs at the front go even
/// if no frame follows, and holding off ends where there is room again.
#[inline]
pub fn send(block: &mut Block, rx: &[u16]) -> Option<u16> {
    let held = RECEIVE.held(block);
    let (frame, oldest, left) = if block[R10] & BIT_3 != 0 {
        read(block, rx)
    } else if held == 0 {
        (None, RECEIVE.oldest(block), 0)
    } else {
        let oldest = RECEIVE.oldest(block);
        let frame = Some(rx[oldest] & 255);
        (frame, round(oldest + 1, rx.len()), held - 1)
    };
    RECEIVE.keep(block, oldest, left);
    if RECEIVE.free(block) >= 2 * word(block, MARGIN) {
        block[HOLDING] = 0;
    }
    frame
}

/// The frame, and the oldest place and the number of cells that are left, with ends of line
/// detected. A cell with a mark is equal to no byte, so it begins no pair and comes before none; in the
/// last place of a pair its mark does not count.
#[inline(always)]
fn read(block: &Block, rx: &[u16]) -> (Option<u16>, usize, u16) {
    let (first, second) = (u16::from(block[C00]), block[C01]);
    let mut held = RECEIVE.held(block);
    let mut place = RECEIVE.oldest(block);
    loop {
        if held == 0 {
            return (None, place, 0);
        }
        let (cell, after) = (rx[place] & CELL, round(place + 1, rx.len()));
        let data = (Some(cell & 255), after, held - 1);
        if cell & MARK != 0 {
            return data;
        }
        if held == 1 {
            return (None, place, held);
        }
        let next = rx[after] & CELL;
        if cell == first && next as u8 == second {
            place = round(after + 1, rx.len());
            held -= 2;
            continue;
        }
        if next == first {
            let last = round(after + 1, rx.len());
            if held == 2 {
                return (None, place, held);
            }
            if rx[last] as u8 == second {
                return (Some(END | cell), round(last + 1, rx.len()), held - 3);
            }
        }
        return data;
    }
}
