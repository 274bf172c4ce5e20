//! The facts of a bridge's state, and the words that those of a mailbox share.

use raftershim::{Address, Frame, Register, State, Talker};

/// The facts of a state, each always said, in one of its forms.
pub fn facts(state: &State) -> Vec<String> {
    let mut facts = role_facts(state);
    facts.extend(store_facts(state));
    facts.extend(status_facts(state));
    facts.extend(register_facts(state));
    facts
}

fn role_facts(state: &State) -> Vec<String> {
    vec![
        address(state.address),
        talker(state.talker).into(),
        frame(state.under_way, "under way"),
        either(state.finishing, "finishing", "not finishing"),
        either(state.listener, "listener", "not listener"),
        either(state.remote, "remote", "local"),
        either(state.remote_enabled, "remote enabled", "remote not enabled"),
    ]
}

fn store_facts(state: &State) -> Vec<String> {
    let store = |name, held, length| format!("{name} store: {held} of {length} bytes held");
    let owed = match (state.holding, state.stop_sent_last) {
        (true, false) => "stop owed",
        (false, true) => "go owed",
        _ => "neither go nor stop owed",
    };
    vec![
        store("receive", state.receive.held, state.receive_len),
        store("transmit", state.transmit.held, state.transmit_len),
        format!("margin {}", state.margin),
        either(
            state.holding,
            "holding the line off",
            "not holding the line off",
        ),
        either(
            state.forbidden,
            "our sending is forbidden",
            "our sending is permitted",
        ),
        owed.into(),
    ]
}

fn status_facts(state: &State) -> Vec<String> {
    let request = match (
        state.request,
        state.registers.r00 & Register::R00_SHOW_REQUESTS,
    ) {
        (false, _) => "no service request",
        (true, 0) => "service request, hidden",
        (true, _) => "service request, shown",
    };
    let noted = |name, noted| {
        let no = if noted { "" } else { "no " };
        format!("{no}{name} noted since the last status byte")
    };
    vec![
        either(state.seen_overrun, "overrun seen", "no overrun seen"),
        either(state.seen_break, "break seen", "no break seen"),
        either(state.seen_key, "key seen", "no key seen"),
        noted("overrun", state.again_overrun),
        noted("break", state.again_break),
        noted("key", state.again_key),
        request.into(),
        format!("bytes stored: {}", state.stored),
        format!("bytes lost: {}", state.lost),
        format!("frames sent: {}", state.sent),
    ]
}

/// The registers with their values, in two facts.
fn register_facts(state: &State) -> Vec<String> {
    let values = |registers: &[Register]| {
        let value = |register: &Register| format!("{register} {}", state.registers.get(*register));
        registers.iter().map(value).collect::<Vec<_>>().join(", ")
    };
    let (control, characters) = Register::ALL.split_at(5);
    vec![
        format!("control registers: {}", values(control)),
        format!("character registers: {}", values(characters)),
    ]
}

/// An address on the loop.
pub(crate) fn address(address: Option<Address>) -> String {
    match address {
        Some(address) => format!("address {address}"),
        None => "no address".into(),
    }
}

pub(crate) fn talker(talker: Talker) -> &'static str {
    match talker {
        Talker::Not => "not talker",
        Talker::Addressed => "talker, addressed",
        Talker::Data => "talker, active with data",
        Talker::Status => "talker, active with status",
    }
}

/// Which frame is under way or the like.
pub(crate) fn frame(frame: Option<Frame>, how: &str) -> String {
    match frame {
        Some(frame) => format!("frame {frame} {how}"),
        None => format!("no frame {how}"),
    }
}

pub(crate) fn either(is: bool, yes: &str, no: &str) -> String {
    String::from(if is { yes } else { no })
}
