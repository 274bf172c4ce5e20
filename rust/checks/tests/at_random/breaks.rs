//! Runs with other bits above the marks before every call, and the faults at breaks that the draws
//! must find.

use crate::again::read_again;
use crate::{Kind, KINDS};
use raftershim_checks::bridge::garbled::{garbled, Archive};
use raftershim_checks::bridge::planted::breaks::{
    UpperBitsStay, GONE_MARKED, SEEN, UPPER_BITS_COUNT, UPPER_BITS_STAY,
};
use raftershim_checks::bridge::MODEL;

#[test]
fn bits_above_the_marks_do_not_count() {
    let both = [garbled::<Archive>(), MODEL];
    let tally = Kind::FROM_CREATE.held("garbled, from create", both);
    tally.assert_refusals(&[3, 4, 5, 6, 7, 8, 10, 12]);
    tally.assert_answers_and_rows(&KINDS);
    let tally = Kind::FROM_STATES.held("garbled, from states", both);
    tally.assert_answers_and_rows(&KINDS);
    let tally = Kind::ON_DAMAGED.held("garbled, damaged blocks", both);
    tally.assert_refusals(&[1, 2, 3, 4, 5, 6, 7, 8, 10, 12]);
}

#[test]
fn every_fault_at_breaks_is_found_and_made_short() {
    for (name, fault) in SEEN {
        let found = Kind::FROM_CREATE.found([fault, MODEL]).expect(name);
        read_again(fault, &found.told);
        let steps = found.steps;
        println!("at random, planted, {name}: found, {steps} calls are left");
        // The bytes that fill a store or bring it round are as many as it has places.
        assert!(steps <= 40, "{name}: {}", found.told);
    }
    assert!(Kind::FROM_CREATE.found([GONE_MARKED, MODEL]).is_some());
}

/// The history of a run knows its frames and not its cells, so it finds what changes frames.
#[test]
fn a_wrong_wall_is_found_by_the_history_alone() {
    let walls = SEEN
        .iter()
        .filter(|(name, _)| name.contains("wall") || name.contains("undecided"));
    let mut found = 0;
    for &(name, fault) in walls {
        assert!(Kind::FROM_CREATE.found([fault, fault]).is_some(), "{name}");
        found += 1;
    }
    assert_eq!(found, 4);
}

/// Calls write no such bit, so runs from create show nothing.
#[test]
fn bits_above_the_marks_that_count_or_stay_are_found_in_drawn_stores() {
    for fault in [UPPER_BITS_COUNT, UPPER_BITS_STAY] {
        assert!(Kind::FROM_CREATE.found([fault, MODEL]).is_none());
        let found = Kind::FROM_STATES
            .found([fault, MODEL])
            .expect("it is found");
        assert!(found.steps <= 20, "{}", found.told);
    }
    let found = Kind::FROM_CREATE.found([garbled::<UpperBitsStay>(), MODEL]);
    assert!(found.is_some());
}
