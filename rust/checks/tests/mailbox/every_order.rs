//! Every order of calls on stores of one and two cells, the archive beside the model at every
//! transition.
//!
//! Each test takes an alphabet of calls and goes through all states that it can reach, however
//! long the way there, the nearest first; the widest stops at a limit, which is wide with
//! `EVERY_ORDER=long` in the environment. At every transition answer, block and both stores are
//! compared, and what was left and fetched is held to a history of calls and answers.

use crate::alphabets::*;
use raftershim_checks::explore::{first_states, EVERY_STATE};
use raftershim_checks::machine::Machine;
use raftershim_checks::mailbox::call::{frame, Call};
use raftershim_checks::mailbox::TheMailbox;
use raftershim_checks::tally::Tally;
use Call::{Byte, Clear, Command, Fetch, Frame, Lines, Reset};

/// Explores archive beside model on stores of these lengths, and prints what was found.
fn run(name: &str, lens: [usize; 2], calls: &[Call], limit: usize) -> Tally<TheMailbox> {
    let alphabet = Alphabet { lens, calls, limit };
    let found = alphabet.explored(TheMailbox::BOTH);
    let found = found.unwrap_or_else(|told| panic!("{name}: {told}"));
    let (one, other) = (lens[0], lens[1]);
    println!("every order of the mailbox, {name}, stores {one} and {other}: {found}");
    assert!(found.complete || limit < EVERY_STATE);
    found.tally
}

#[test]
fn both_ways() {
    for lens in [[1, 1], [2, 1], [1, 2], [2, 2]] {
        let found = run("both ways", lens, &BOTH_WAYS, EVERY_STATE);
        found.assert_refusals(&[4]);
        found.assert_met(&["bytes fetched by the loop", "bytes fetched by the bus"]);
        found.assert_met(&["sendings damaged", "sendings cut off by a command"]);
        found.assert_met(&["ways to the bus cleared", "ways to the loop cleared"]);
    }
}

#[test]
fn a_listener_of_the_loop() {
    for lens in [[1, 1], [2, 1]] {
        let found = run("listening", lens, &LISTENING, EVERY_STATE);
        found.assert_refusals(&[4]);
        found.assert_met(&["bytes left by the loop", "ways to the bus cleared"]);
    }
    let found = run(
        "listening, one place more",
        [3, 1],
        &LISTENING,
        first_states(2_000_000, 40_000_000),
    );
    found.assert_met(&["frames held back", "held frames released"]);
}

#[test]
fn a_talker_of_the_loop_with_status_under_way() {
    for lens in [[1, 1], [1, 2]] {
        let found = run("talking", lens, &TALKING, EVERY_STATE);
        found.assert_refusals(&[4]);
        found.assert_met(&["status bytes sent", "status bytes back", "sendings damaged"]);
        found.assert_met(&["bytes of an ID sent", "bytes of the bus not kept"]);
    }
}

#[test]
fn serial_polls() {
    for lens in [[1, 1], [2, 1]] {
        let found = run("serial polls", lens, &SERIAL_POLLS, EVERY_STATE);
        found.assert_met(&["status bytes read by the bus", "bytes fetched by the bus"]);
    }
}

#[test]
fn parallel_polls() {
    let on_loop = [
        LISTEN,
        UNLISTEN,
        frame(4, 128),
        frame(4, 141),
        frame(4, 5),
        frame(4, 21),
        IDENTIFY,
        frame(7, 255),
        frame(0, 1),
    ];
    let on_bus = [
        BUS_LISTEN,
        BUS_UNLISTEN,
        CONFIGURE,
        Command(98),
        Command(111),
        Command(112),
        Command(21),
        Command(0),
        Clear,
        Lines,
        Byte(1, 0),
    ];
    let news = [BUS_TALK, Fetch, SERIAL_POLL, TALK, SEND_STATUS, SEND];
    let calls = [&on_loop[..], &on_bus, &news].concat();
    let found = run("parallel polls", [1, 1], &calls, EVERY_STATE);
    found.assert_met(&["status bytes read by the bus", "status bytes sent"]);
}

#[test]
fn roles_and_addresses() {
    let addresses = [frame(5, 131), frame(5, 158), frame(5, 159), frame(4, 154)];
    let on_loop = [
        LISTEN,
        TALK,
        frame(4, 35),
        frame(4, 67),
        frame(4, 62),
        UNLISTEN,
        UNTALK,
        INTERFACE_CLEAR,
        SEND,
        frame(2, 1),
        Frame(2048),
    ];
    let on_bus = [
        BUS_LISTEN,
        BUS_TALK,
        Command(40),
        Command(72),
        BUS_UNLISTEN,
        BUS_UNTALK,
        Clear,
        Byte(1, 1),
        Fetch,
        Command(128),
        Reset,
    ];
    let calls = [&addresses[..], &on_loop, &on_bus].concat();
    let found = run("roles and addresses", [1, 1], &calls, EVERY_STATE);
    found.assert_refusals(&[3, 4, 13]);
}

#[test]
fn identities() {
    let calls = [
        TALK,
        LISTEN,
        OTHER_COMMAND,
        SEND_ID,
        SEND_ACCESSORY,
        SEND,
        SEND_STATUS,
        NOT_READY,
        BUS_LISTEN,
        Byte(1, 0),
        BUS_DEVICE_CLEAR,
    ];
    let found = run("identities", [1, 1], &calls, EVERY_STATE);
    found.assert_met(&[
        "bytes of an ID sent",
        "sendings damaged",
        "status bytes back",
    ]);
}

/// All calls of these alphabets, each once.
fn together(alphabets: &[&[Call]]) -> Vec<Call> {
    let mut calls = Vec::new();
    for call in alphabets.concat() {
        if !calls.contains(&call) {
            calls.push(call);
        }
    }
    calls
}

#[test]
fn all_that_moves_bytes_and_news_together() {
    let calls = together(&[&BOTH_WAYS, &LISTENING, &TALKING, &SERIAL_POLLS]);
    for lens in [[1, 1], [2, 1], [1, 2]] {
        let found = run("bytes and news", lens, &calls, EVERY_STATE);
        found.assert_refusals(&[4]);
        found.assert_met(&["bytes fetched by the loop", "bytes fetched by the bus"]);
        found.assert_met(&["status bytes back", "status bytes read by the bus"]);
    }
    run(
        "bytes and news",
        [2, 2],
        &calls,
        first_states(2_000_000, 40_000_000),
    );
}

#[test]
fn all_together() {
    let more = [
        SEND_ID,
        frame(4, 136),
        CONFIGURE,
        Command(99),
        frame(5, 131),
        Frame(2048),
    ];
    let calls = together(&[&BOTH_WAYS, &LISTENING, &TALKING, &SERIAL_POLLS, &more]);
    run(
        "all together",
        [2, 2],
        &calls,
        first_states(2_000_000, 40_000_000),
    );
}
