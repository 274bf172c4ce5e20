//! The archive's C functions over slices.

use super::call::Call;
use super::Lent;
use raftershim::raw::*;

/// The length of a block as the archive tells it.
pub fn block_len() -> usize {
    // Safety: takes nothing.
    unsafe { raftershim_mailbox_block_len() as usize }
}

/// Creates a state in the block.
pub fn create(lent: Lent, address: u32) -> u64 {
    let (to_bus, to_loop) = (lent.one, lent.other);
    let (b, bl) = (lent.block.as_mut_ptr(), lent.block.len() as u64);
    let (o, ol) = (to_bus.as_ptr(), to_bus.len() as u64);
    let (i, il) = (to_loop.as_ptr(), to_loop.len() as u64);
    // Safety: three slices, so no pointer is null, each is good for its length, none overlap.
    unsafe { raftershim_mailbox_create(b, bl, o, ol, i, il, address) }
}

/// Makes a call.
pub fn call(lent: Lent, call: Call) -> u64 {
    let (to_bus, to_loop) = (lent.one, lent.other);
    let (b, bl) = (lent.block.as_mut_ptr(), lent.block.len() as u64);
    let (o, ol) = (to_bus.as_mut_ptr(), to_bus.len() as u64);
    let (i, il) = (to_loop.as_mut_ptr(), to_loop.len() as u64);
    // Safety: three slices, so no pointer is null, each is good for its length, none overlap.
    unsafe {
        match call {
            Call::Frame(frame) => raftershim_mailbox_loop_frame(b, bl, o, ol, i, il, frame),
            Call::Command(command) => raftershim_mailbox_bus_command(b, bl, o, ol, i, il, command),
            Call::Byte(byte, end) => raftershim_mailbox_bus_byte(b, bl, o, ol, i, il, byte, end),
            Call::Fetch => raftershim_mailbox_bus_fetch(b, bl, o, ol, i, il),
            Call::Clear => raftershim_mailbox_bus_clear(b, bl, o, ol, i, il),
            Call::Lines => raftershim_mailbox_bus_lines(b, bl, o, ol, i, il),
            Call::Reset => raftershim_mailbox_reset(b, bl, o, ol, i, il),
            Call::Show(side) => raftershim_mailbox_show(b, bl, o, ol, i, il, side),
        }
    }
}
