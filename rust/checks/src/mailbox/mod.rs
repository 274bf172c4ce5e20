//! The mailbox: its calls, its implementations, and the history that holds it to its laws.

pub mod archive;
pub mod call;
mod draws;
pub mod history;
pub mod left;
mod news;
pub mod planted;
mod scripted;
pub mod second;
mod written;

use crate::few::Few;
use crate::implementation::{Both, Implementation};
use crate::machine::Machine;
use crate::written::Beginning;
use call::Call;
use mailbox_model::{block, Mailbox, ACTIVE_DATA};
use std::fmt;

/// The machine that is the mailbox.
#[derive(Clone, Copy, Debug, PartialEq, Eq, Hash)]
pub struct TheMailbox;

/// Two implementations of the mailbox side by side.
pub type Pair = crate::pair::Pair<TheMailbox>;

/// The three buffers of one call of the mailbox.
pub type Lent<'a> = crate::lent::Lent<'a, TheMailbox>;

/// The archive's C functions, which are proved.
pub const ARCHIVE: Implementation<TheMailbox> = Implementation {
    name: "archive",
    create: archive::create,
    call: archive::call,
};

/// The model, which is written to be read.
pub const MODEL: Implementation<TheMailbox> = Implementation {
    name: "model",
    create: second::create,
    call: second::call,
};

impl Machine for TheMailbox {
    type One = u16;
    type Other = u16;
    type Call = Call;
    type State = Mailbox;
    type Watch = history::History<Few<u16>>;
    type Run = history::History<left::All>;
    const BLOCK_LEN: usize = block::LEN;
    const VERSION: u8 = block::VERSION;
    const STORES: [&'static str; 2] = ["store to the bus", "store to the loop"];
    const ROWS: &'static [&'static str] = history::ROWS;
    const BOTH: Both<TheMailbox> = [ARCHIVE, MODEL];

    fn state(block: &[u8]) -> Option<Mailbox> {
        block::unpack(block)
    }

    fn pack(state: &Mailbox, block: &mut [u8]) {
        block.copy_from_slice(&block::pack(state));
    }

    fn shows(call: Call) -> bool {
        matches!(call, Call::Show(_) | Call::Lines)
    }

    fn back(state: &Mailbox, change: u16) -> Option<Call> {
        let active = state.loop_side.talker >= ACTIVE_DATA;
        active.then(|| Call::Frame((state.loop_side.under_way ^ change).into()))
    }

    fn begins(beginning: &Beginning<TheMailbox>, f: &mut fmt::Formatter) -> fmt::Result {
        written::begins(beginning, f)
    }
}
