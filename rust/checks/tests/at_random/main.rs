//! Long runs of calls drawn at random, the archive beside the model at every call.
//!
//! The same runs every time, unless `AT_RANDOM_SEED` is set: to a number for the runs of that
//! number, to `fresh` for runs that nobody has seen. With `AT_RANDOM=long` there are thirty times
//! as many. A run that shows a difference is made short and printed as a script for replay.

mod again;
mod breaks;
mod held_line;
mod mailbox;
mod planted;

use model::boundary::{BYTE, DONE, FRAME, NONE, REFUSED};
use raftershim_checks::bridge::{TheBridge, ARCHIVE, PEER};
use raftershim_checks::machine::Machine;
use raftershim_checks::runs;

type Kind = runs::Kind<TheBridge>;

/// The kinds of answers that the bridge has.
const KINDS: [u64; 5] = [DONE, NONE, BYTE, FRAME, REFUSED];

/// The row of writes that refusal 10 is about and that were taken.
const RULE_WRITES: &str = "writes of R10, C00 and C01 taken";

/// The row of takes that were not refused with 12, our own go and stop aside.
const TAKES: &str = "line bytes taken";

#[test]
fn runs_from_create() {
    let tally = Kind::FROM_CREATE.held("runs from create", TheBridge::BOTH);
    tally.assert_refusals(&[3, 4, 5, 6, 7, 8, 10, 12]);
    tally.assert_answers_and_rows(&KINDS);
    tally.assert_often(10, RULE_WRITES, 8000);
    tally.assert_often(12, TAKES, 15_000);
}

#[test]
fn runs_from_states_that_calls_never_reach() {
    let name = "runs from states that calls never reach";
    let tally = Kind::FROM_STATES.held(name, TheBridge::BOTH);
    tally.assert_refusals(&[3, 4, 5, 6, 7, 8, 10, 12]);
    tally.assert_answers_and_rows(&KINDS);
    tally.assert_often(10, RULE_WRITES, 1500);
    tally.assert_often(12, TAKES, 3000);
}

#[test]
fn damaged_blocks_and_other_lengths() {
    let name = "damaged blocks and other lengths";
    let tally = Kind::ON_DAMAGED.held(name, TheBridge::BOTH);
    tally.assert_refusals(&[1, 2, 3, 4, 5, 6, 7, 8, 10, 12]);
}

/// The peer of the benchmarks answers as the archive does.
#[test]
fn the_peer_beside_the_archive() {
    let both = [PEER, ARCHIVE];
    let tally = Kind::FROM_CREATE.held("peer, from create", both);
    tally.assert_refusals(&[3, 4, 5, 6, 7, 8, 10, 12]);
    tally.assert_answers_and_rows(&KINDS);
    Kind::FROM_STATES.held("peer, from states", both);
    let tally = Kind::ON_DAMAGED.held("peer, damaged blocks", both);
    tally.assert_refusals(&[1, 2, 3, 4, 5, 6, 7, 8, 10, 12]);
}
