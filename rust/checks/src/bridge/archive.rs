//! The archive's C functions over slices.

use super::call::Call;
use super::Lent;
use raftershim::raw;

/// The length of a block as the archive tells it.
pub fn block_len() -> usize {
    // Safety: takes nothing.
    unsafe { raw::raftershim_block_len() as usize }
}

/// Creates a state in the block.
pub fn create(lent: Lent, margin: u32) -> u64 {
    let Lent {
        block,
        one: rx,
        other: tx,
    } = lent;
    let (b, bl) = (block.as_mut_ptr(), block.len() as u64);
    let (r, rl, t, tl) = (rx.as_ptr(), rx.len() as u64, tx.as_ptr(), tx.len() as u64);
    // Safety: three slices, so no pointer is null, each is good for its length, none overlap.
    unsafe { raw::raftershim_create(b, bl, r, rl, t, tl, margin) }
}

/// Makes a call.
pub fn call(lent: Lent, call: Call) -> u64 {
    let Lent {
        block,
        one: rx,
        other: tx,
    } = lent;
    let (b, bl) = (block.as_mut_ptr(), block.len() as u64);
    let (r, rl) = (rx.as_mut_ptr(), rx.len() as u64);
    let (t, tl) = (tx.as_mut_ptr(), tx.len() as u64);
    // Safety: three slices, so no pointer is null, each is good for its length, none overlap.
    unsafe {
        match call {
            Call::Ask => raw::raftershim_ask_line_byte(b, bl, r, rl, t, tl),
            Call::Take(byte) => raw::raftershim_take_line_byte(b, bl, r, rl, t, tl, byte),
            Call::Line(byte) => raw::raftershim_line_byte(b, bl, r, rl, t, tl, byte),
            Call::Frame(frame) => raw::raftershim_loop_frame(b, bl, r, rl, t, tl, frame),
            Call::Break => raw::raftershim_break(b, bl, r, rl, t, tl),
            Call::Key => raw::raftershim_key(b, bl, r, rl, t, tl),
            Call::Register(number, value) => {
                raw::raftershim_write_register(b, bl, r, rl, t, tl, number, value)
            }
            Call::Reset => raw::raftershim_reset(b, bl, r, rl, t, tl),
            Call::ShowReceive => raw::raftershim_show_receive(b, bl, r, rl, t, tl),
            Call::ShowTransmit => raw::raftershim_show_transmit(b, bl, r, rl, t, tl),
        }
    }
}
