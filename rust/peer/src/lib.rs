//! The bridge in plain Rust written for speed, to measure the proved one by.
//!
//! It is what a good programmer would write who has no proof to make: every call works in place on
//! the block, tests the block a few words at a time, and looks at what enables a request before it
//! looks for one. It answers as the C functions do, with the same checks, and nothing is promised.
//!
//! - `block` has the places of the fields, and tells whether a block is a state that fits;
//! - `ring` puts, removes and shows what a store holds, and `sending` reads frames off it;
//! - `requests` has the status byte, and `frames` takes the frames of the loop.

#![forbid(unsafe_code)]

mod block;
mod frames;
mod requests;
mod ring;
mod sending;

pub use frames::loop_frame;

use block::*;
use requests::Watch;
use ring::{Ring, RECEIVE, TRANSMIT};
use sending::MARK;

/// The answers: a kind in bits 16 to 23 above its value. Where a call tells the room that is left, it
/// is in bits 32 to 47.
const DONE: u64 = 0;
const NONE: u64 = 1 << 16;
const BYTE: u64 = 2 << 16;
const FRAME: u64 = 3 << 16;
const REFUSED: u64 = 4 << 16;

/// The refusal of a block that is not a state that fits the stores.
const MISFIT: u64 = REFUSED | 2;

/// Bit 3 of a control register.
const BIT_3: u8 = 8;

/// An answer that tells this room.
#[inline(always)]
fn with_room(answer: u64, room: u16) -> u64 {
    answer | u64::from(room) << 32
}

/// Makes a state in the block.
pub fn create(block: &mut [u8], rx: &[u16], tx: &[u8], margin: u32) -> u64 {
    match <&mut Block>::try_from(block) {
        Ok(block) if sizes_obeyed(rx.len(), tx.len(), margin) => {
            start(block, rx.len(), tx.len(), margin as u16);
            DONE
        }
        _ => REFUSED | 1,
    }
}

/// Gives the block what create gives for the same sizes and margin.
pub fn reset(block: &mut [u8], rx: &[u16], tx: &[u8]) -> u64 {
    on_fitting(block, rx, tx, |block| {
        let margin = word(block, MARGIN);
        start(block, rx.len(), tx.len(), margin);
        DONE
    })
}

/// Writes a register.
pub fn write_register(block: &mut [u8], rx: &[u16], tx: &[u8], number: u32, value: u32) -> u64 {
    on_fitting(block, rx, tx, |block| written(block, number, value))
}

#[inline(always)]
fn written(block: &mut Block, number: u32, value: u32) -> u64 {
    let (place, bits) = match number {
        0 => (R00, 9),
        1 => (R01, 15),
        2 => (R02, 5),
        10 => (R10, 12),
        11 => (R11, 8),
        16..=21 => (C00 + (number as usize - 16), 255),
        _ => return REFUSED | 5,
    };
    if value > if number < 16 { 15 } else { 255 } {
        return REFUSED | 6;
    }
    let value = value as u8;
    if value & !bits != 0 {
        return REFUSED | 7;
    }
    if (place == GO && value == block[STOP]) || (place == STOP && value == block[GO]) {
        return REFUSED | 8;
    }
    if matches!(place, R10 | C00 | C01) && RECEIVE.held(block) != 0 {
        return REFUSED | 10;
    }
    let watch = Watch::every_condition(block);
    block[place] = value;
    if place == R11 {
        block[FORBIDDEN] = 0;
        let held_off = value == BIT_3 && RECEIVE.free(block) <= word(block, MARGIN);
        block[HOLDING] = held_off.into();
    }
    watch.settle(block);
    DONE
}

/// Takes a byte from the line.
pub fn line_byte(block: &mut [u8], rx: &mut [u16], tx: &[u8], byte: u8) -> u64 {
    match fitting(block, rx.len(), tx.len()) {
        Some(block) => taken(block, rx, byte),
        None => MISFIT,
    }
}

#[inline(always)]
fn taken(block: &mut Block, rx: &mut [u16], byte: u8) -> u64 {
    let protocol = block[R11] == BIT_3;
    if protocol && (byte == block[GO] || byte == block[STOP]) {
        block[FORBIDDEN] = (byte == block[STOP]).into();
        return with_room(DONE, RECEIVE.free(block));
    }
    let watch = Watch::enabled(block);
    let mut free = RECEIVE.free(block);
    if free == 0 {
        block[OVERRUN_SEEN] = 1;
        block[OVERRUN_AGAIN] = 1;
        count(block, LOST);
    } else {
        RECEIVE.put(block, rx, byte.into());
        free -= 1;
        count(block, STORED);
        if protocol && free <= word(block, MARGIN) {
            block[HOLDING] = 1;
        }
    }
    watch.settle(block);
    with_room(DONE, free)
}

/// Takes a break, and marks the newest cell held.
pub fn line_break(block: &mut [u8], rx: &mut [u16], tx: &[u8]) -> u64 {
    match fitting(block, rx.len(), tx.len()) {
        Some(block) => {
            if let Some(cell) = RECEIVE.newest(block, rx) {
                *cell = *cell & 255 | MARK;
            }
            noted(block, BREAK_SEEN, BREAK_AGAIN)
        }
        None => MISFIT,
    }
}

/// Takes a press of the MSRQ key.
pub fn key(block: &mut [u8], rx: &[u16], tx: &[u8]) -> u64 {
    on_fitting(block, rx, tx, |block| noted(block, KEY_SEEN, KEY_AGAIN))
}

/// Notes a break or a key press.
#[inline(always)]
fn noted(block: &mut Block, seen: usize, again: usize) -> u64 {
    let watch = Watch::enabled(block);
    block[seen] = 1;
    block[again] = 1;
    watch.settle(block);
    DONE
}

/// Says which line byte is next, or none.
pub fn ask_line_byte(block: &[u8], rx: &[u16], tx: &[u8]) -> u64 {
    match <&Block>::try_from(block) {
        Ok(block) if fits(block, rx.len(), tx.len()) => {
            next(block, tx).map_or(NONE, |byte| BYTE | u64::from(byte))
        }
        _ => MISFIT,
    }
}

/// Takes the line byte that is next, by its name.
pub fn take_line_byte(block: &mut [u8], rx: &[u16], tx: &[u8], byte: u8) -> u64 {
    on_fitting(block, rx, tx, |block| {
        if next(block, tx) != Some(byte) {
            return REFUSED | 12;
        }
        if block[HOLDING] != block[STOP_SENT_LAST] {
            block[STOP_SENT_LAST] = block[HOLDING];
        } else {
            let watch = Watch::enabled(block);
            TRANSMIT.remove_oldest(block);
            watch.settle(block);
        }
        DONE
    })
}

/// The line byte that is next: our own go or stop if one is owed, else the oldest that waits,
/// unless our sending is forbidden.
#[inline(always)]
fn next(block: &Block, tx: &[u8]) -> Option<u8> {
    if block[HOLDING] != block[STOP_SENT_LAST] {
        Some(block[if block[HOLDING] == 1 { STOP } else { GO }])
    } else if block[FORBIDDEN] == 1 || TRANSMIT.held(block) == 0 {
        None
    } else {
        Some(tx[TRANSMIT.oldest(block)])
    }
}

/// Makes a call that writes neither store, on a block that is a state that fits them.
#[inline(always)]
fn on_fitting(
    block: &mut [u8],
    rx: &[u16],
    tx: &[u8],
    call: impl FnOnce(&mut Block) -> u64,
) -> u64 {
    match fitting(block, rx.len(), tx.len()) {
        Some(block) => call(block),
        None => MISFIT,
    }
}

/// Shows the receive store: where its part starts above how long it is, and 0 for an empty part.
pub fn show_receive(block: &[u8], rx: &[u16], tx: &[u8]) -> u64 {
    shown(block, rx, tx, RECEIVE)
}

/// Shows the transmit store in the same way.
pub fn show_transmit(block: &[u8], rx: &[u16], tx: &[u8]) -> u64 {
    shown(block, rx, tx, TRANSMIT)
}

#[inline(always)]
fn shown(block: &[u8], rx: &[u16], tx: &[u8], ring: Ring) -> u64 {
    match <&Block>::try_from(block) {
        Ok(block) if fits(block, rx.len(), tx.len()) => ring.shown(block),
        _ => 0,
    }
}
