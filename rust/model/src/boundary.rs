//! The model behind the boundary of the C functions: the state as a lent block, the answer as one
//! number of 64 bits.
//!
//! Bits 0 to 15 of an answer are its value, bits 16 to 23 its kind, and bits 32 to 47 the room that
//! is left where the call tells it; the other bits are reserved and 0 for now. What a call refuses
//! leaves the block and both stores as they were. Nothing is allocated.

use crate::{block, Answer, Bridge, Ring, WithRoom};

/// Kind: done, and no more is answered.
pub const DONE: u64 = 0;
/// Kind: no line byte is next.
pub const NONE: u64 = 1;
/// Kind: the value is a line byte.
pub const BYTE: u64 = 2;
/// Kind: the value is a frame.
pub const FRAME: u64 = 3;
/// Kind: the value is the number of a refusal.
pub const REFUSED: u64 = 4;

/// The kind of an answer, whatever its reserved bits are.
#[inline]
pub fn kind(answer: u64) -> u64 {
    answer >> 16 & 0xff
}

/// The value of an answer.
#[inline]
pub fn value(answer: u64) -> u64 {
    answer & 0xffff
}

/// The room that an answer tells, and 0 where it tells none.
#[inline]
pub fn room(answer: u64) -> u64 {
    answer >> 32 & 0xffff
}

/// The one number that stands for an answer with its room.
#[inline]
fn with_room(told: WithRoom) -> u64 {
    word(told.answer) | (told.room.unwrap_or(0) as u64) << 32
}

/// The one number that stands for an answer that tells no room.
#[inline]
pub fn word(answer: Answer) -> u64 {
    match answer {
        Answer::Done => DONE << 16,
        Answer::NoByte => NONE << 16,
        Answer::Byte(byte) => BYTE << 16 | u64::from(byte),
        Answer::Frame(frame) => FRAME << 16 | u64::from(frame),
        Answer::Refused(number) => REFUSED << 16 | u64::from(number),
    }
}

/// Makes a state in the block. Refusal 1 also for a block of another length than its own.
pub fn create(block: &mut [u8], rx: &[u16], tx: &[u8], margin: u32) -> u64 {
    if block.len() != block::LEN {
        return word(Answer::Refused(1));
    }
    match Bridge::create(rx, tx, margin) {
        Ok(bridge) => {
            block.copy_from_slice(&block::pack(&bridge));
            word(Answer::Done)
        }
        Err(refusal) => word(refusal),
    }
}

/// Makes a call on the state in the block: "a block that is not a fitting state gets refusal 2".
/// The model's call itself asks whether the state fits.
#[inline]
fn on_state<T: Into<WithRoom>>(block: &mut [u8], call: impl FnOnce(&mut Bridge) -> T) -> u64 {
    let mut bridge = match block::unpack(block) {
        Some(bridge) => bridge,
        None => return word(Answer::Refused(2)),
    };
    let told = call(&mut bridge).into();
    if !matches!(told.answer, Answer::Refused(_)) {
        block.copy_from_slice(&block::pack(&bridge));
    }
    with_room(told)
}

/// Gives the block what create gives for the same sizes and margin.
pub fn reset(block: &mut [u8], rx: &[u16], tx: &[u8]) -> u64 {
    on_state(block, |bridge| bridge.reset(rx, tx))
}

/// Writes a register.
pub fn write_register(block: &mut [u8], rx: &[u16], tx: &[u8], number: u32, value: u32) -> u64 {
    on_state(block, |bridge| bridge.write_register(rx, tx, number, value))
}

/// Takes a byte from the line, and tells the room of the receive store.
pub fn line_byte(block: &mut [u8], rx: &mut [u16], tx: &[u8], byte: u8) -> u64 {
    on_state(block, |bridge| bridge.line_byte(rx, tx, byte))
}

/// Takes a break.
pub fn line_break(block: &mut [u8], rx: &mut [u16], tx: &[u8]) -> u64 {
    on_state(block, |bridge| bridge.take_break(rx, tx))
}

/// Takes a press of the MSRQ key.
pub fn key(block: &mut [u8], rx: &[u16], tx: &[u8]) -> u64 {
    on_state(block, |bridge| bridge.take_key(rx, tx))
}

/// Says which line byte is next, or none. The block is lent for reading alone.
pub fn ask_line_byte(block: &[u8], rx: &[u16], tx: &[u8]) -> u64 {
    word(match block::unpack(block) {
        Some(bridge) => bridge.ask_line_byte(rx, tx),
        None => Answer::Refused(2),
    })
}

/// Takes the line byte that is next, by its name.
pub fn take_line_byte(block: &mut [u8], rx: &[u16], tx: &[u8], byte: u8) -> u64 {
    on_state(block, |bridge| bridge.take_line_byte(rx, tx, byte))
}

/// Takes a loop frame and gives the one that goes on, and tells the room of the transmit store.
pub fn loop_frame(block: &mut [u8], rx: &[u16], tx: &mut [u8], frame: u32) -> u64 {
    on_state(block, |bridge| bridge.loop_frame(rx, tx, frame))
}

/// Shows the receive store: where its part starts in bits 32 to 63, how long it is in bits 0 to 31,
/// both in cells, and 0 for an empty part.
pub fn show_receive(block: &[u8], rx: &[u16], tx: &[u8]) -> u64 {
    match block::unpack(block) {
        Some(bridge) => part(bridge.receive, bridge.show_receive(rx, tx).len()),
        None => 0,
    }
}

/// Shows the transmit store in the same way, in bytes.
pub fn show_transmit(block: &[u8], rx: &[u16], tx: &[u8]) -> u64 {
    match block::unpack(block) {
        Some(bridge) => part(bridge.transmit, bridge.show_transmit(rx, tx).len()),
        None => 0,
    }
}

/// The number that stands for a part of this length from the oldest place on.
fn part(ring: Ring, len: usize) -> u64 {
    match len {
        0 => 0,
        len => (ring.oldest as u64) << 32 | len as u64,
    }
}
