//! The bridge: its calls, its implementations, and the histories that hold it to demand 3.

#[macro_use]
mod behind;

pub mod archive;
pub mod call;
mod draws;
pub mod frames;
pub mod garbled;
pub mod history;
mod line_out;
pub mod orders;
pub mod planted;
pub mod promises;
mod room;
pub mod rule;
pub mod run;
mod scripted;
pub mod second;
pub mod seen;
pub mod third;
pub mod told;
pub mod watch;
mod written;

use crate::implementation::{Both, Implementation};
use crate::machine::Machine;
use crate::written::Beginning;
use call::Call;
use model::{block, Bridge};
use std::fmt;

/// The machine that is the bridge.
#[derive(Clone, Copy, Debug, PartialEq, Eq, Hash)]
pub struct TheBridge;

/// Two implementations of the bridge side by side.
pub type Pair = crate::pair::Pair<TheBridge>;

/// The three buffers of one call of the bridge.
pub type Lent<'a> = crate::lent::Lent<'a, TheBridge>;

/// The archive's C functions, which are proved.
pub const ARCHIVE: Implementation<TheBridge> = Implementation {
    name: "archive",
    create: archive::create,
    call: archive::call,
};

/// The model, which is written to be read.
pub const MODEL: Implementation<TheBridge> = Implementation {
    name: "model",
    create: second::create,
    call: second::call,
};

/// The peer, which is written for speed.
pub const PEER: Implementation<TheBridge> = Implementation {
    name: "peer",
    create: third::create,
    call: third::call,
};

impl Machine for TheBridge {
    type One = u16;
    type Other = u8;
    type Call = Call;
    type State = Bridge;
    type Watch = watch::Watch;
    type Run = run::Run;
    const BLOCK_LEN: usize = block::LEN;
    const VERSION: u8 = block::VERSION;
    const STORES: [&'static str; 2] = ["receive store", "transmit store"];
    const ROWS: &'static [&'static str] = seen::ROWS;
    const BOTH: Both<TheBridge> = [ARCHIVE, MODEL];

    fn state(block: &[u8]) -> Option<Bridge> {
        block::unpack(block)
    }

    fn pack(state: &Bridge, block: &mut [u8]) {
        block.copy_from_slice(&block::pack(state));
    }

    fn shows(call: Call) -> bool {
        matches!(call, Call::ShowReceive | Call::ShowTransmit)
    }

    fn looks(call: Call) -> bool {
        call == Call::Ask || Self::shows(call)
    }

    /// Where none is under way it is a frame of another talker.
    fn back(state: &Bridge, change: u16) -> Option<Call> {
        Some(Call::Frame((state.under_way ^ change).into()))
    }

    /// The three counts would make every state new, so they are 0 in all states that are taken up;
    /// each transition is held to what it adds to them.
    fn forget_counts(block: &mut [u8]) {
        block[15..27].fill(0);
    }

    fn begins(beginning: &Beginning<TheBridge>, f: &mut fmt::Formatter) -> fmt::Result {
        written::begins(beginning, f)
    }
}
