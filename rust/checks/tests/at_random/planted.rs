//! Faults that are planted on purpose: the draws find each, and the script that is told is short,
//! is read as it was printed, and leads to the same difference again.

mod ask_take;

use crate::again::read_again;
use crate::Kind;
use raftershim_checks::bridge::{planted, TheBridge, MODEL};
use raftershim_checks::implementation;
use script::Call;

type Implementation = implementation::Implementation<TheBridge>;

/// Reads the script that was told again. Gives the lengths of its stores.
fn stores_of(fault: Implementation, told: &str) -> (usize, usize) {
    let script = read_again(fault, told);
    match script.steps[0].call {
        Call::Create {
            receive, transmit, ..
        } => (receive as usize, transmit as usize),
        ref other => panic!("{other} is first"),
    }
}

#[test]
fn a_byte_that_is_lost_silently() {
    let fault = planted::SILENT_LOSS;
    let found = Kind::FROM_CREATE
        .found([fault, MODEL])
        .expect("it is found");
    let (receive, _) = stores_of(fault, &found.told);
    // Nothing is left but the bytes that fill the store and the one that is lost.
    assert_eq!(found.steps, receive + 1, "{}", found.told);
    println!("planted: {}", found.told);
}

#[test]
fn a_place_that_is_not_written() {
    let fault = planted::LAST_PLACE_UNWRITTEN;
    let found = Kind::FROM_CREATE
        .found([fault, MODEL])
        .expect("it is found");
    let (receive, _) = stores_of(fault, &found.told);
    assert_eq!(found.steps, receive, "{}", found.told);
}

#[test]
fn a_refused_call_that_changes_the_state() {
    let fault = planted::REFUSED_YET_CHANGED;
    let found = Kind::FROM_CREATE
        .found([fault, MODEL])
        .expect("it is found");
    assert!(found
        .told
        .starts_with("refused or shown, yet block place 55"));
    let (_, transmit) = stores_of(fault, &found.told);
    // An address, listen, the frames that fill the store and one more.
    assert!(found.steps <= transmit + 3, "{}", found.told);
}

#[test]
fn a_count_that_stops_at_its_largest_number() {
    let fault = planted::STUCK_COUNT;
    assert!(Kind::FROM_CREATE.found([fault, MODEL]).is_none());
    let found = Kind::FROM_STATES
        .found([fault, MODEL])
        .expect("it is found");
    // Its script fills the stores and restores the block.
    stores_of(fault, &found.told);
    // Talk and send data, at most.
    assert!(found.steps <= 2, "{}", found.told);
    assert!(found.told.contains("block place 23"), "{}", found.told);
}

#[test]
fn a_block_of_another_version_that_is_taken() {
    for fault in [
        planted::ANOTHER_VERSION_TAKEN,
        planted::VERSION_BEFORE_TAKEN,
    ] {
        assert!(
            Kind::FROM_CREATE.found([fault, MODEL]).is_none()
                && Kind::FROM_STATES.found([fault, MODEL]).is_none()
        );
        let found = Kind::ON_DAMAGED.found([fault, MODEL]).expect("it is found");
        assert!(found.steps <= 1, "{}", found.told);
    }
}

/// An answer in words, and the room that it tells, which is 0 where it says none.
fn apart(answer: &str) -> (&str, u16) {
    match answer.split_once(", room ") {
        None => (answer, 0),
        Some((words, room)) => (words, room.parse().expect("a number")),
    }
}

/// What a finding says between these two texts, and what it says after them.
fn between<'a>(told: &'a str, [first, second]: [&str; 2]) -> (&'a str, &'a str) {
    let (finding, _) = told.split_once(", after this script:\n").expect("a script");
    let rest = finding.strip_prefix(first).expect(finding);
    rest.split_once(second).expect(finding)
}

/// Holds a finding to "planted ANSWER, model ANSWER", of which the rooms differ and nothing else.
fn only_rooms_differ(told: &str) {
    let (planted, model) = between(told, ["planted ", ", model "]);
    let (planted, model) = (apart(planted), apart(model));
    assert!(planted.0 == model.0 && planted.1 != model.1, "{told}");
}

/// Holds a finding to "by history the room NUMBER is due, not ANSWER", which tells another one.
fn another_room_is_due(told: &str) {
    let (due, answer) = between(told, ["by history the room ", " is due, not "]);
    assert_ne!(due.parse(), Ok(apart(answer).1), "{told}");
}

#[test]
fn a_wrong_room_is_found_by_every_kind_of_runs() {
    let faults = [
        planted::ROOM_BEFORE,
        planted::OTHER_STORES_ROOM,
        planted::ROOM_ONLY_WHERE_STORED,
        planted::ROOM_WITH_REFUSAL,
        planted::ROOM_IN_EVERY_ANSWER,
    ];
    for fault in faults {
        for kind in [Kind::FROM_CREATE, Kind::FROM_STATES, Kind::ON_DAMAGED] {
            let found = kind.found([fault, MODEL]).expect("it is found");
            only_rooms_differ(&found.told);
        }
        // Where both tell it wrong alike, the history of the run finds it.
        for kind in [Kind::FROM_CREATE, Kind::FROM_STATES] {
            let found = kind.found([fault, fault]).expect("it is found");
            another_room_is_due(&found.told);
        }
    }
}

/// What the block says of a store is not what the room is held to.
#[test]
fn a_room_that_only_the_block_bears_out_is_found() {
    let fault = planted::CLEARED_BUT_ONE;
    for kind in [Kind::FROM_CREATE, Kind::FROM_STATES] {
        let found = kind.found([fault, fault]).expect("it is found");
        another_room_is_due(&found.told);
    }
}
