//! The facts of a mailbox's state.

use crate::facts::{address, either, frame, talker};
use raftershim::{BusSide, LoopSide, MailboxState, Waiting};

/// The facts of a state, each always said, in one of its forms.
pub fn facts(state: &MailboxState) -> Vec<String> {
    let named = |name, facts: Vec<String>| {
        let named = move |fact| format!("{name}: {fact}");
        facts.into_iter().map(named)
    };
    let mut facts: Vec<String> = named("loop", loop_facts(&state.loop_side)).collect();
    facts.extend(named("bus", bus_facts(&state.bus_side)));
    facts.extend(named("to the bus", way_facts(&state.to_bus)));
    facts.extend(named("to the loop", way_facts(&state.to_loop)));
    facts
}

fn loop_facts(side: &LoopSide) -> Vec<String> {
    let poll = match side.poll {
        Some(poll) => {
            let not = if poll.when_requested { "" } else { "not " };
            let line = poll.line;
            format!("poll answer on line {line} while service is {not}requested")
        }
        None => "no poll answer".into(),
    };
    vec![
        address(side.address),
        talker(side.talker).into(),
        frame(side.under_way, "under way"),
        either(side.finishing, "finishing", "not finishing"),
        format!("bytes of an ID sent: {}", side.id_sent),
        either(side.listener, "listener", "not listener"),
        either(
            side.not_ready,
            "not ready is enabled",
            "not ready is not enabled",
        ),
        frame(side.held_back, "held back"),
        poll,
    ]
}

fn bus_facts(side: &BusSide) -> Vec<String> {
    let poll = match side.poll {
        Some(line) => format!("poll answer on line {line}"),
        None => "no poll answer".into(),
    };
    vec![
        address(Some(side.address)),
        either(side.talker, "talker", "not talker"),
        either(side.listener, "listener", "not listener"),
        either(side.serial_poll, "serial poll", "no serial poll"),
        either(
            side.status_read,
            "status byte given since the last command",
            "no status byte given since the last command",
        ),
        either(
            side.configuring,
            "the next command may set the poll answer",
            "the next command may not set the poll answer",
        ),
        poll,
    ]
}

fn way_facts(way: &Waiting) -> Vec<String> {
    vec![
        format!("{} of {} bytes wait", way.ring.held, way.len),
        either(way.request, "service requested", "no service requested"),
        either(way.available, "data available", "no data available"),
        either(
            way.again,
            "news since the last status byte",
            "no news since the last status byte",
        ),
    ]
}
