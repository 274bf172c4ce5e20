//! The model behind the boundary of the C functions: the state as a lent block, the answer as one
//! number of 64 bits.
//!
//! Bits 0 to 15 of an answer are its value, bits 16 to 23 its kind; bits 24 to 63 are reserved and 0
//! for now. What a call refuses leaves the block and both stores as they were. Nothing is allocated.

use crate::{block, Answer, Mailbox};

/// Kind: done, and nothing to hand out.
pub const DONE: u64 = 0;
/// Kind: no byte for the bus.
pub const NONE: u64 = 1;
/// Kind: the value is a byte for the bus, with 256 added for the end mark.
pub const BYTE: u64 = 2;
/// Kind: the value is a frame.
pub const FRAME: u64 = 3;
/// Kind: the value is the number of a refusal.
pub const REFUSED: u64 = 4;
/// Kind: the value is the data lines of the parallel poll, with 256 added while SRQ is on.
pub const LINES: u64 = 5;

/// The one number that stands for an answer.
#[inline]
pub fn word(answer: Answer) -> u64 {
    let ninth = |byte: u8, bit: bool| u64::from(byte) | u64::from(bit) << 8;
    match answer {
        Answer::Done => DONE << 16,
        Answer::None => NONE << 16,
        Answer::Byte { byte, end } => BYTE << 16 | ninth(byte, end),
        Answer::Frame(frame) => FRAME << 16 | u64::from(frame),
        Answer::Refused(number) => REFUSED << 16 | u64::from(number),
        Answer::Lines { srq, poll } => LINES << 16 | ninth(poll, srq),
    }
}

/// Makes a state in the block. Refusal 1 also for a block of another length than its own.
pub fn create(block: &mut [u8], to_bus: &[u16], to_loop: &[u16], address: u32) -> u64 {
    if block.len() != block::LEN {
        return word(Answer::Refused(1));
    }
    match Mailbox::create(to_bus, to_loop, address) {
        Ok(mailbox) => {
            block.copy_from_slice(&block::pack(&mailbox));
            word(Answer::Done)
        }
        Err(refusal) => word(refusal),
    }
}

/// Makes a call on the state in the block: one that is no state gets refusal 2. The model's call
/// itself asks whether the state fits.
#[inline]
fn on_state(block: &mut [u8], call: impl FnOnce(&mut Mailbox) -> Answer) -> u64 {
    let mut mailbox = match block::unpack(block) {
        Some(mailbox) => mailbox,
        None => return word(Answer::Refused(2)),
    };
    let answer = call(&mut mailbox);
    if !matches!(answer, Answer::Refused(_)) {
        block.copy_from_slice(&block::pack(&mailbox));
    }
    word(answer)
}

/// Gives the block what create gives for the same sizes and bus address.
pub fn reset(block: &mut [u8], to_bus: &[u16], to_loop: &[u16]) -> u64 {
    on_state(block, |mailbox| mailbox.reset(to_bus, to_loop))
}

/// Takes a loop frame and gives the one that goes on.
pub fn loop_frame(block: &mut [u8], to_bus: &mut [u16], to_loop: &[u16], frame: u32) -> u64 {
    on_state(block, |mailbox| mailbox.loop_frame(to_bus, to_loop, frame))
}

/// Takes a command of the bus.
pub fn bus_command(block: &mut [u8], to_bus: &[u16], to_loop: &[u16], command: u32) -> u64 {
    on_state(block, |mailbox| {
        mailbox.bus_command(to_bus, to_loop, command)
    })
}

/// Takes a data byte of the bus; an `end` other than 0 is its end mark.
pub fn bus_byte(block: &mut [u8], to_bus: &[u16], to_loop: &mut [u16], byte: u8, end: u32) -> u64 {
    on_state(block, |mailbox| {
        mailbox.bus_byte(to_bus, to_loop, byte, end != 0)
    })
}

/// Gives the bus its next byte, or none.
pub fn bus_fetch(block: &mut [u8], to_bus: &[u16], to_loop: &[u16]) -> u64 {
    on_state(block, |mailbox| mailbox.bus_fetch(to_bus, to_loop))
}

/// Takes an interface clear of the bus.
pub fn bus_clear(block: &mut [u8], to_bus: &[u16], to_loop: &[u16]) -> u64 {
    on_state(block, |mailbox| mailbox.bus_clear(to_bus, to_loop))
}

/// Shows the bus lines.
pub fn bus_lines(block: &[u8], to_bus: &[u16], to_loop: &[u16]) -> u64 {
    match block::unpack(block) {
        Some(mailbox) => word(mailbox.bus_lines(to_bus, to_loop)),
        None => word(Answer::Refused(2)),
    }
}

/// Shows a store: where its part starts in bits 32 to 63, how long it is in bits 0 to 31, and 0 for
/// an empty part.
pub fn show(block: &[u8], to_bus: &[u16], to_loop: &[u16], side: u32) -> u64 {
    match block::unpack(block) {
        Some(mailbox) => {
            let part = mailbox.show(to_bus, to_loop, side);
            (part.start as u64) << 32 | part.length as u64
        }
        None => 0,
    }
}
