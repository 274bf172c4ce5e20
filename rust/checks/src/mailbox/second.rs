//! The model behind the same boundary: the second opinion.

use super::call::Call;
use super::Lent;
use mailbox_model::boundary;

/// Creates a state in the block.
pub fn create(lent: Lent, address: u32) -> u64 {
    boundary::create(lent.block, lent.one, lent.other, address)
}

/// Makes a call.
pub fn call(lent: Lent, call: Call) -> u64 {
    let Lent {
        block,
        one: to_bus,
        other: to_loop,
    } = lent;
    match call {
        Call::Frame(frame) => boundary::loop_frame(block, to_bus, to_loop, frame),
        Call::Command(command) => boundary::bus_command(block, to_bus, to_loop, command),
        Call::Byte(byte, end) => boundary::bus_byte(block, to_bus, to_loop, byte, end),
        Call::Fetch => boundary::bus_fetch(block, to_bus, to_loop),
        Call::Clear => boundary::bus_clear(block, to_bus, to_loop),
        Call::Lines => boundary::bus_lines(block, to_bus, to_loop),
        Call::Reset => boundary::reset(block, to_bus, to_loop),
        Call::Show(side) => boundary::show(block, to_bus, to_loop, side),
    }
}
