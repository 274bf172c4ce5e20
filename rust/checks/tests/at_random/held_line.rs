//! Faults at a held line that the draws must find.

use crate::again::read_again;
use crate::Kind;
use raftershim_checks::bridge::planted::held_line::{ANSWERED, SEEN, TEN_BEFORE_TWO};
use raftershim_checks::bridge::MODEL;

#[test]
fn every_fault_at_a_held_line_is_found_and_made_short() {
    for (name, fault) in SEEN.into_iter().chain(ANSWERED) {
        let found = Kind::FROM_CREATE.found([fault, MODEL]).expect(name);
        read_again(fault, &found.told);
        let steps = found.steps;
        println!("at random, planted, {name}: found, {steps} calls are left");
        assert!(steps <= 6, "{name}: {}", found.told);
        assert!(Kind::FROM_STATES.found([fault, MODEL]).is_some(), "{name}");
    }
}

/// The history knows by which rule each byte was accepted, so it finds what is read by another.
#[test]
fn a_rule_that_changes_under_a_held_line_is_found_by_the_history_alone() {
    for (name, fault) in SEEN {
        for kind in [Kind::FROM_CREATE, Kind::FROM_STATES] {
            assert!(kind.found([fault, fault]).is_some(), "{name}");
        }
    }
}

/// A block that does not fit is refused before anything else is asked.
#[test]
fn ten_before_two_is_found_on_damaged_blocks() {
    let both = [TEN_BEFORE_TWO, MODEL];
    assert!(Kind::FROM_CREATE.found(both).is_none() && Kind::FROM_STATES.found(both).is_none());
    let found = Kind::ON_DAMAGED.found(both).expect("it is found");
    assert!(found.steps <= 1, "{}", found.told);
}
