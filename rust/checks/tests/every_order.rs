//! Every order of calls on the smallest stores, the archive beside the model at every transition.
//!
//! Each test takes an alphabet of calls and goes through all states that it can reach, however
//! long the way there, the nearest first; the two widest alphabets stop at a limit. With
//! `EVERY_ORDER=long` in the environment that limit is wide, and the run takes minutes. At every
//! transition answer, block and both stores are compared, and demand 3 is held by a history that
//! is carried beside the bridge.

use raftershim_checks::bridge::call::{frame, Call};
use raftershim_checks::bridge::frames::*;
use raftershim_checks::bridge::orders::Orders;
use raftershim_checks::bridge::{planted, TheBridge, MODEL};
use raftershim_checks::explore::{first_states, EVERY_STATE};
use raftershim_checks::implementation::Both;
use raftershim_checks::machine::Machine;
use raftershim_checks::played::play;
use raftershim_checks::tally::Tally;
use script::Script;
use Call::{Ask, Break, Frame, Key, Line, Register, Reset, ShowReceive, ShowTransmit, Take};

/// A correct return, one with another service bit, and two damaged ones.
const RETURNS: [u16; 4] = [0, 1 << 8, 1, 2 << 8];
/// What goes out on the line where nothing comes from the loop: our own go and stop.
const OUT: [Call; 3] = [Ask, Take(17), Take(19)];

/// A limit where all states are too many for every day.
fn nearest() -> usize {
    first_states(720_000, 24_000_000)
}

/// Goes through every order of these calls and all returns, the archive beside the model.
fn run(
    name: &str,
    receive: (usize, u32),
    start: &[Call],
    calls: &[Call],
    limit: usize,
) -> Tally<TheBridge> {
    let orders = Orders {
        name,
        receive,
        start,
        calls,
        limit,
    };
    orders.explored(TheBridge::BOTH, &RETURNS)
}

#[test]
fn reading_off() {
    let bytes = [Line(13), Line(10), Line(50)];
    let calls = [SEND, FINISH, OTHER_COMMAND, ShowReceive];
    let start = [Register(10, 8), ASSIGN, TALK];
    let found = run(
        "reading off",
        (4, 1),
        &start,
        &[&bytes[..], &calls, &OUT].concat(),
        EVERY_STATE,
    );
    found.assert_met(&["frames sent", "bytes lost"]);
}

#[test]
fn reading_off_a_pair_of_equal_bytes() {
    let start = [Register(10, 8), Register(16, 10), ASSIGN, TALK];
    let calls = [Line(10), Line(50), SEND, FINISH, ShowReceive];
    let found = run(
        "reading off, pair 10, 10, store 6",
        (6, 2),
        &start,
        &[&calls[..], &OUT].concat(),
        EVERY_STATE,
    );
    found.assert_met(&["frames sent", "bytes lost"]);
}

#[test]
fn status_under_way() {
    let start = [Register(0, 9), Register(2, 5), ASSIGN, TALK];
    let calls = [
        Line(50),
        Break,
        Key,
        SEND_STATUS,
        SEND,
        OTHER_COMMAND,
        CLEAR,
        IDENTIFY,
    ];
    let calls = [&calls[..], &OUT].concat();
    let found = run("status under way", (4, 1), &start, &calls, EVERY_STATE);
    found.assert_met(&[
        "bytes lost",
        "status bytes back",
        "status bytes damaged or forgotten",
    ]);
}

#[test]
fn listening() {
    let start = [Register(10, 4), ASSIGN];
    let roles = [LISTEN, UNLISTEN, TALK, CLEAR, frame(4, 4)];
    let calls = [
        frame(0, 65),
        frame(1, 65),
        frame(3, 66),
        Line(17),
        Line(19),
        SEND,
        ShowTransmit,
    ];
    // A return where no frame of ours is under way adds a 0 or a 1.
    let out = [0, 1, 65, 66, 13, 10].map(Take);
    let found = run(
        "listening",
        (4, 1),
        &start,
        &[&roles[..], &calls, &out, &[Ask]].concat(),
        EVERY_STATE,
    );
    found.assert_met(&["frames kept for the line", "line bytes taken"]);
    found.assert_refusals(&[4, 12]);
}

#[test]
fn roles() {
    let start = [Line(50), Line(51)];
    let addresses = [ASSIGN, frame(5, 158), frame(5, 159), frame(4, 154)];
    let talking = [TALK, frame(4, 66), UNTALK, SEND, SEND_STATUS, FINISH];
    let listening = [LISTEN, frame(4, 62), UNLISTEN, frame(2, 50), frame(4, 4)];
    let both = [
        frame(4, 144),
        frame(4, 146),
        frame(4, 147),
        frame(4, 1),
        Reset,
        Frame(2048),
    ];
    let calls = [&addresses[..], &talking, &listening, &both].concat();
    let found = run("roles", (4, 1), &start, &calls, EVERY_STATE);
    found.assert_refusals(&[3, 4]);
}

#[test]
fn requests_by_break_overrun_and_key() {
    let enable = [
        Register(0, 0),
        Register(0, 9),
        Register(2, 0),
        Register(2, 5),
    ];
    let refused = [
        Register(3, 0),
        Register(11, 16),
        Register(11, 4),
        Register(20, 19),
    ];
    let calls = [Line(50), Break, Key, SEND_STATUS, frame(7, 1), CLEAR];
    let calls = [&enable[..], &refused, &calls].concat();
    let name = "requests by break, overrun and key";
    let found = run(name, (4, 1), &[ASSIGN, TALK], &calls, EVERY_STATE);
    found.assert_refusals(&[5, 6, 7, 8]);
}

#[test]
fn requests_by_the_stores() {
    let start = [
        ASSIGN,
        LISTEN,
        frame(0, 19),
        frame(0, 65),
        frame(0, 17),
        TALK,
    ];
    let enable = [
        Register(0, 0),
        Register(0, 8),
        Register(1, 0),
        Register(1, 15),
    ];
    let calls = [Line(50), SEND, SEND_STATUS, IDENTIFY, Take(65)];
    let calls = [&enable[..], &calls, &OUT].concat();
    let found = run(
        "requests by the stores",
        (4, 1),
        &start,
        &calls,
        EVERY_STATE,
    );
    found.assert_met(&["frames sent", "status bytes back", "line bytes taken"]);
    found.assert_met(&["takes of go or stop where an equal byte waits"]);
}

#[test]
fn holding_off() {
    let line = [Line(50), Line(17), Line(19)];
    let calls = [SEND, Register(11, 0), Register(11, 8), CLEAR];
    let calls = [&line[..], &calls, &OUT].concat();
    let found = run("holding off", (4, 1), &[ASSIGN, TALK], &calls, EVERY_STATE);
    found.assert_met(&["frames sent", "bytes lost", "go and stop taken"]);
}

#[test]
fn holding_off_with_more_room() {
    let start = [ASSIGN, LISTEN, frame(0, 19), TALK];
    let line = [Line(50), Line(17), Line(19)];
    let calls = [
        SEND,
        FINISH,
        OTHER_COMMAND,
        Register(11, 8),
        Reset,
        ASSIGN,
        TALK,
    ];
    let calls = [&line[..], &calls, &OUT].concat();
    let found = run("holding off, store 6", (6, 2), &start, &calls, EVERY_STATE);
    found.assert_met(&["frames sent", "bytes lost"]);
}

#[test]
fn reading_off_with_more_room() {
    let bytes = [Line(13), Line(10), Line(50)];
    let calls = [SEND, SEND_STATUS, FINISH, OTHER_COMMAND, ShowReceive];
    let start = [Register(10, 8), ASSIGN, TALK];
    let calls = [&bytes[..], &calls, &OUT].concat();
    let name = "reading off and status, store 6";
    let found = run(name, (6, 2), &start, &calls, nearest());
    found.assert_met(&["frames sent", "status bytes back"]);
}

#[test]
fn all_together() {
    let line = [
        Line(13),
        Line(10),
        Line(50),
        Line(17),
        Line(19),
        Break,
        Key,
        Take(65),
    ];
    let roles = [ASSIGN, TALK, LISTEN, UNTALK, UNLISTEN, CLEAR];
    let frames = [
        SEND,
        SEND_STATUS,
        FINISH,
        IDENTIFY,
        frame(0, 65),
        frame(3, 66),
        Frame(2048),
    ];
    let writes = [
        Register(0, 9),
        Register(1, 15),
        Register(2, 5),
        Register(10, 12),
    ];
    let more = [
        Register(11, 0),
        Register(11, 8),
        Register(21, 17),
        Reset,
        ShowReceive,
        ShowTransmit,
    ];
    let calls = [&line[..], &OUT, &roles, &frames, &writes, &more].concat();
    let found = run("all together", (6, 2), &[], &calls, nearest());
    found.assert_met(&[
        "frames sent",
        "frames kept for the line",
        "status bytes back",
    ]);
}

/// The script of the first difference between these two, on a receive store of 4 and a transmit
/// store of 3.
fn shortest(both: Both<TheBridge>, start: &[Call], calls: &[Call]) -> Script {
    let orders = Orders {
        name: "planted",
        receive: (4, 1),
        start,
        calls,
        limit: EVERY_STATE,
    };
    orders.difference(both, &[]).expect("it is found").script
}

#[test]
fn a_wrong_room_is_found_by_the_shortest_way() {
    let calls = [Line(50), Line(17), ASSIGN, LISTEN, frame(0, 65), Ask, Key];
    let faults = [
        planted::ROOM_BEFORE,
        planted::OTHER_STORES_ROOM,
        planted::ROOM_ONLY_WHERE_STORED,
        planted::ROOM_IN_EVERY_ANSWER,
    ];
    for fault in faults {
        // The model says it, and without a second opinion the history. One call shows it.
        for both in [[fault, MODEL], [fault, fault]] {
            let script = shortest(both, &[], &calls);
            assert_eq!(script.steps.len(), 1 + 1, "{script}");
        }
    }
}

/// A room that is told with a refusal shows only where there is some, though not enough: at an end
/// byte that needs three places.
#[test]
fn a_room_that_is_told_with_a_refusal_is_found() {
    let fault = planted::ROOM_WITH_REFUSAL;
    let calls = [Register(10, 4), ASSIGN, LISTEN, frame(0, 65), frame(2, 66)];
    for both in [[fault, MODEL], [fault, fault]] {
        let script = shortest(both, &[], &calls);
        assert_eq!(script.steps.len(), 1 + 5, "{script}");
        assert!(play([fault, MODEL], &script).is_err());
        assert!(play(TheBridge::BOTH, &script).is_ok());
    }
}

#[test]
fn a_planted_fault_is_found_by_the_shortest_way() {
    let calls = [Line(50), Line(51), SEND, Take(19), Key];
    let both = [planted::SILENT_LOSS, MODEL];
    let script = shortest(both, &[ASSIGN, TALK], &calls);
    // Create, address, talk, the bytes that fill the store and the one that is lost.
    assert_eq!(script.steps.len(), 3 + 4 + 1, "{script}");
    assert!(play(both, &script).is_err());
    assert!(play(TheBridge::BOTH, &script).is_ok());
}
