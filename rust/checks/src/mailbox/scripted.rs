//! What the calls of a script are to the mailbox.

use super::call::Call;
use super::TheMailbox;
use crate::played::{Line, Scripted};
use mailbox_model::Mailbox;
use script::{Command, MailboxCall};

impl Scripted for TheMailbox {
    /// A script of a mailbox begins with one; until then its calls are none of ours.
    const DEFAULT: ([usize; 2], u32) = ([1, 1], 0);

    /// A call for each byte, the last with its mark, and none for saying the state and for the
    /// calls of a bridge.
    fn line(call: &script::Call, state: Option<&Mailbox>) -> Line<TheMailbox> {
        let call = match call {
            script::Call::Mailbox(call) => call,
            _ => return Line::Calls(Vec::new()),
        };
        let own = state.map_or(0, |state| state.bus_side.address.into());
        let call = match *call {
            MailboxCall::Create {
                to_bus,
                to_loop,
                address,
            } => return Line::Create([to_bus, to_loop].map(|len| len as usize), address),
            MailboxCall::Restore(ref block) => return Line::Restore(block.clone()),
            MailboxCall::State => return Line::Calls(Vec::new()),
            MailboxCall::Byte { ref bytes, end } => return Line::Calls(marked(bytes, end)),
            MailboxCall::Reset => Call::Reset,
            MailboxCall::Frame(frame) => Call::Frame(frame),
            MailboxCall::Command(Command::Number(number)) => Call::Command(number),
            MailboxCall::Command(Command::OwnListen) => Call::Command(32 + own),
            MailboxCall::Command(Command::OwnTalk) => Call::Command(64 + own),
            MailboxCall::Fetch => Call::Fetch,
            MailboxCall::Clear => Call::Clear,
            MailboxCall::Lines => Call::Lines,
            MailboxCall::Show(way) => Call::Show(way as u32),
        };
        Line::Calls(vec![call])
    }
}

/// A call for each byte.
fn marked(bytes: &[u8], end: bool) -> Vec<Call> {
    let last = |index| end && index + 1 == bytes.len();
    let bytes = bytes.iter().enumerate();
    bytes
        .map(|(index, &byte)| Call::Byte(byte, last(index).into()))
        .collect()
}
