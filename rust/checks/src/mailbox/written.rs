//! The beginning of a run, written as a script for replay.

use super::call::Call;
use super::TheMailbox;
use crate::written::Beginning;
use mailbox_model::{block, HOME};
use script::{MailboxCall, Script};
use std::fmt;

/// Writes how a run begins.
pub fn begins(beginning: &Beginning<TheMailbox>, f: &mut fmt::Formatter) -> fmt::Result {
    match beginning {
        Beginning::Created(lens, address) => writeln!(f, "{}", create(*lens, *address)),
        Beginning::Holding(block, to_bus, to_loop) => match made(block, to_bus, to_loop) {
            Some(script) => write!(f, "{script}"),
            // A script has no call that leads there.
            None => {
                let (one, other) = (to_bus.len(), to_loop.len());
                writeln!(f, "# stores of {one}, {other}; block {block:?}")
            }
        },
    }
}

fn create(lens: [usize; 2], address: u32) -> MailboxCall {
    let [to_bus, to_loop] = lens.map(|len| len as u32);
    MailboxCall::Create {
        to_bus,
        to_loop,
        address,
    }
}

/// The script that makes these buffers, if the block is a state that fits the stores: it fills both
/// stores from their first place on, but for the bits of a cell that do not count, and restores the
/// block.
fn made(block: &[u8], to_bus: &[u16], to_loop: &[u16]) -> Option<Script> {
    let state = block::unpack(block).filter(|state| state.fits(to_bus, to_loop))?;
    let address = u32::from(state.bus_side.address);
    let frame = |cell: &u16| Call::Frame(u32::from(cell & 255 | (cell & 256) << 1));
    let byte = |cell: &u16| Call::Byte((cell & 255) as u8, u32::from(cell & 256));
    let listen = Call::Frame(4 << 8 | 32 | u32::from(HOME));
    let bus_listen = Call::Command(32 + address);
    let calls = std::iter::once(listen).chain(to_bus.iter().map(frame));
    let calls = calls.chain([bus_listen]).chain(to_loop.iter().map(byte));
    let first = create([to_bus.len(), to_loop.len()], address);
    let script = std::iter::once(first).chain(calls.filter_map(Call::in_script));
    let script = script.chain([MailboxCall::Restore(block.to_vec())]);
    Some(script.map(script::Call::Mailbox).collect())
}
