//! Faults at asks and takes that the draws must find.

use crate::again::read_again;
use crate::Kind;
use raftershim_checks::bridge::planted::ask_take::{NO_REQUEST, SEEN, TWELVE_BEFORE_TWO};
use raftershim_checks::bridge::MODEL;

#[test]
fn every_fault_at_asks_and_takes_is_found_and_made_short() {
    for (name, fault) in SEEN.into_iter().chain([("no request", NO_REQUEST)]) {
        let found = Kind::FROM_CREATE.found([fault, MODEL]).expect(name);
        read_again(fault, &found.told);
        let steps = found.steps;
        println!("at random, planted, {name}: found, {steps} calls are left");
        // The bytes that make a stop due are almost as many as the store has places.
        assert!(steps <= 40, "{name}: {}", found.told);
        assert!(Kind::FROM_STATES.found([fault, MODEL]).is_some(), "{name}");
    }
}

/// The history knows which byte is next and what was taken.
#[test]
fn a_wrong_ask_or_take_is_found_by_the_history_alone() {
    for (name, fault) in SEEN {
        for kind in [Kind::FROM_CREATE, Kind::FROM_STATES] {
            assert!(kind.found([fault, fault]).is_some(), "{name}");
        }
    }
}

/// A block that does not fit is refused before it is asked which byte is next.
#[test]
fn twelve_before_two_is_found_on_damaged_blocks() {
    let both = [TWELVE_BEFORE_TWO, MODEL];
    assert!(Kind::FROM_STATES.found(both).is_none());
    let found = Kind::ON_DAMAGED.found(both).expect("it is found");
    assert!(found.steps <= 1, "{}", found.told);
}
