//! What a script asks of a mailbox, by the types of the mailbox.

use crate::mailbox_facts::facts;
use crate::say::Said;
use raftershim::{BadSize, BusCommand, Frame, Refusal, SavedMailbox, Way, Ways};
use script::Command;

/// A mailbox with its stores.
pub type Mailbox = raftershim::Mailbox<Vec<u16>, Vec<u16>>;

/// Creates a mailbox on stores of these lengths, with this address on the bus.
pub fn create(to_bus: u32, to_loop: u32, address: u32) -> Result<Mailbox, BadSize> {
    let ways = Ways {
        to_bus: vec![0; to_bus as usize],
        to_loop: vec![0; to_loop as usize],
    };
    Mailbox::create(ways, address)
}

/// Gives the mailbox a saved block; one that does not fit leaves the mailbox as it was.
pub fn restore(mailbox: &mut Mailbox, block: &[u8]) -> Result<(), Refusal> {
    let (_, ways) = mailbox.clone().into_parts();
    *mailbox = Mailbox::restore(SavedMailbox::try_from(block)?, ways)?;
    Ok(())
}

/// Takes a loop frame.
pub fn pass(mailbox: &mut Mailbox, frame: u32) -> Result<Frame, Refusal> {
    mailbox.loop_frame(Frame::try_from(frame)?)
}

/// Takes a command of the bus.
pub fn order(mailbox: &mut Mailbox, command: Command) -> Result<(), Refusal> {
    let command = match command {
        Command::Number(number) => BusCommand::try_from(number)?,
        Command::OwnListen => BusCommand::mla(mailbox.bus_address()),
        Command::OwnTalk => BusCommand::mta(mailbox.bus_address()),
    };
    mailbox.bus_command(command)
}

/// Takes data bytes of the bus up to the first that is refused; the last may have the end mark.
pub fn take_all(mailbox: &mut Mailbox, bytes: &[u8], end: bool) -> Said {
    let last = bytes.len() - 1;
    let marked = bytes.iter().enumerate();
    Said::became(marked.map(|(place, &byte)| mailbox.bus_byte(byte, end && place == last)))
}

/// Shows what waits in a way.
pub fn show(mailbox: &Mailbox, way: script::Way) -> Said {
    let way = match way {
        script::Way::Bus => Way::ToBus,
        script::Way::Loop => Way::ToLoop,
    };
    Said::shown(mailbox.show(way))
}

/// Says the state.
pub fn state(mailbox: &Mailbox) -> Said {
    match mailbox.state() {
        Ok(state) => Said::Facts(facts(&state)),
        Err(refusal) => Said::refused(refusal, &refusal),
    }
}
