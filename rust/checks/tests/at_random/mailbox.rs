//! The mailbox at random, and the faults that the draws must find in it.

use crate::again::read_again;
use mailbox_model::boundary::{BYTE, DONE, FRAME, LINES, NONE, REFUSED};
use raftershim_checks::draw::Draws;
use raftershim_checks::machine::Machine;
use raftershim_checks::mailbox::call::Call;
use raftershim_checks::mailbox::{planted, Pair, TheMailbox, MODEL};
use raftershim_checks::random::Random;
use raftershim_checks::runs::{self, Drawable};

type Kind = runs::Kind<TheMailbox>;

/// The kinds of answers that the mailbox has.
const KINDS: [u64; 6] = [DONE, NONE, BYTE, FRAME, REFUSED, LINES];

#[test]
fn runs_from_create() {
    let tally = Kind::FROM_CREATE.held("mailbox, runs from create", TheMailbox::BOTH);
    tally.assert_refusals(&[3, 4, 13]);
    tally.assert_answers_and_rows(&KINDS);
}

#[test]
fn runs_from_states_that_calls_never_reach() {
    let name = "mailbox, runs from states that calls never reach";
    let tally = Kind::FROM_STATES.held(name, TheMailbox::BOTH);
    tally.assert_refusals(&[3, 4, 13]);
    tally.assert_answers_and_rows(&KINDS);
}

#[test]
fn damaged_blocks_and_other_lengths() {
    let name = "mailbox, damaged blocks and other lengths";
    let tally = Kind::ON_DAMAGED.held(name, TheMailbox::BOTH);
    tally.assert_refusals(&[1, 2, 3, 4, 13]);
}

#[test]
fn every_call_on_states_that_calls_never_reach() {
    let draws = Draws::asked_for(300);
    let mut random = Random::seeded(draws.seed);
    let (mut states, mut calls) = (0, 0);
    let frames = (0..2048).map(Call::Frame);
    let commands = (0..128).map(Call::Command);
    let bytes = [0, 1].map(|end| Call::Byte(200, end));
    let others = [Call::Fetch, Call::Clear, Call::Lines, Call::Reset];
    let all: Vec<Call> = frames.chain(commands).chain(bytes).chain(others).collect();
    while states < draws.runs {
        let drawn = TheMailbox::drawn(&mut random);
        if drawn.one.len() > 64 || drawn.other.len() > 64 {
            continue;
        }
        for &call in &all {
            Pair::of(TheMailbox::BOTH, &drawn.block, drawn.stores()).ask(call);
        }
        states += 1;
        calls += all.len();
    }
    println!("at random, mailbox: every call on {states} states, {calls} calls compared");
}

#[test]
fn every_fault_that_is_seen_is_found_twice_and_made_short() {
    for (name, fault) in planted::SEEN {
        for both in [[fault, MODEL], [fault, fault]] {
            let found = Kind::FROM_CREATE.found(both).expect(name);
            assert!(found.steps <= 30, "{name}: {}", found.told);
        }
        let found = Kind::FROM_CREATE.found([fault, MODEL]).expect(name);
        read_again(fault, &found.told);
    }
}

#[test]
fn a_refused_call_that_changes_the_state() {
    let found = Kind::FROM_CREATE.found([planted::REFUSED_YET_CHANGED, MODEL]);
    let told = found.expect("it is found").told;
    let expected = "refused or shown, yet block place 33";
    assert!(told.starts_with(expected), "{told}");
}

#[test]
fn a_place_that_is_not_written() {
    let found = Kind::FROM_CREATE.found([planted::LAST_PLACE_UNWRITTEN, MODEL]);
    let told = found.expect("it is found").told;
    assert!(told.contains("store to the loop place"), "{told}");
}

#[test]
fn bits_above_the_mark_that_count() {
    let both = [planted::UPPER_BITS_COUNT, MODEL];
    assert!(Kind::FROM_CREATE.found(both).is_none());
    let found = Kind::FROM_STATES.found(both).expect("it is found");
    // The bus makes us talker, and fetches, maybe after the end of a serial poll.
    assert!(found.steps <= 3, "{}", found.told);
}

#[test]
fn a_number_that_no_run_from_create_shows() {
    let both = [planted::HELD_NUMBER_KEPT, MODEL];
    assert!(Kind::FROM_CREATE.found(both).is_none());
    let found = Kind::FROM_STATES.found(both).expect("it is found");
    assert_eq!(found.steps, 1, "{}", found.told);
    // Its script fills the stores and restores the block.
    read_again(both[0], &found.told);
}

#[test]
fn a_block_with_the_bridges_version_that_is_taken() {
    let both = [planted::BRIDGES_VERSION_TAKEN, MODEL];
    assert!(Kind::FROM_CREATE.found(both).is_none() && Kind::FROM_STATES.found(both).is_none());
    let found = Kind::ON_DAMAGED.found(both).expect("it is found");
    assert!(found.steps <= 1, "{}", found.told);
}
