//! Wrong bridges at a held line: going through every order finds each by a short way. The history alone
//! finds those that read a byte by another rule than the one in force when it was accepted.

use raftershim_checks::bridge::call::{frame, Call};
use raftershim_checks::bridge::frames::*;
use raftershim_checks::bridge::orders::Orders;
use raftershim_checks::bridge::planted::held_line::{ANSWERED, SEEN};
use raftershim_checks::bridge::{Pair, TheBridge, MODEL};
use raftershim_checks::drive::run;
use raftershim_checks::implementation::Implementation;
use raftershim_checks::tally::Tally;
use Call::{Line, Register};

/// From a talker that holds nothing.
const ORDERS: Orders = Orders {
    name: "held line, planted",
    receive: (4, 1),
    start: &[ASSIGN, TALK],
    calls: &[
        Line(13),
        Line(10),
        Line(50),
        SEND,
        LISTEN,
        frame(0, 65),
        Register(10, 0),
        Register(10, 8),
        Register(10, 16),
        Register(16, 10),
        Register(0, 9),
    ],
    limit: 400_000,
};

#[test]
fn each_fault_is_found_beside_the_model_by_a_short_way() {
    for (name, fault) in SEEN.into_iter().chain(ANSWERED) {
        let found = ORDERS.found_beside_the_model(fault).expect(name);
        let calls = found.calls;
        println!("held line, planted, {name}: found in {calls} calls");
        assert!(calls <= 3, "{name}: {}", found.told);
    }
}

#[test]
fn a_byte_that_another_rule_reads_is_found_by_the_history_alone() {
    let another = "another frame is due";
    let by = [another, another, "by history [13] is held"];
    for ((name, fault), by) in SEEN.into_iter().zip(by) {
        let found = ORDERS.difference([fault, fault], &[0]).expect(name);
        let (calls, told) = (found.calls, found.told);
        println!("held line, planted, {name}: found by history in {calls} calls");
        assert!(told.starts_with(by) && calls <= 3, "{name}: {told}");
    }
    for (name, fault) in ANSWERED {
        let found = ORDERS.difference([fault, fault], &[0]);
        assert!(
            found.is_none(),
            "{name}: every byte is read as it should be"
        );
    }
}

/// Makes these calls on two of these, and holds the whole run to demand 3. Gives the finding, if there is
/// one, before its script.
fn finding(fault: Implementation<TheBridge>, calls: &[Call]) -> Option<String> {
    let pair = Pair::created([fault, fault], [8, 3], 3);
    let told = run(pair, calls, |call, _, _| *call, &mut Tally::default()).err()?;
    let (finding, _) = told.split_once(", after this script:").expect("a script");
    Some(finding.into())
}

/// A talker that finds ends of lines.
const FINDING: [Call; 3] = [Register(10, 8), ASSIGN, TALK];

/// What shows that a byte was read by another rule than its own, for each fault: a whole line is held
/// when R10 is switched off; half a line is held when C01 becomes what comes then; bytes are held that
/// nothing reads any more.
const SHOWN_BY: [&[Call]; 3] = [
    &[Line(50), Line(13), Line(10), Register(10, 0), SEND],
    &[Line(50), Line(13), Register(17, 11), Line(11), SEND],
    &[Line(50), Line(51), Line(52), Register(10, 0)],
];

#[test]
fn a_whole_run_is_held_to_its_first_statement_across_writes() {
    let due = "frames sent and held are not those of the bytes accepted";
    for ((name, fault), calls) in SEEN.into_iter().zip(SHOWN_BY) {
        let calls = [&FINDING[..], calls].concat();
        assert_eq!(finding(MODEL, &calls), None, "{name}");
        assert_eq!(finding(fault, &calls).as_deref(), Some(due), "{name}");
    }
}

/// Where nothing is held the rule changes, and one run has bytes of several rules.
#[test]
fn a_run_in_which_the_rule_changes_is_as_it_should_be() {
    let calls = [
        &FINDING[..],
        &[50, 13, 10].map(Line),
        &[SEND, Register(17, 11)],
        &[51, 13, 10, 13, 11].map(Line),
        &[frame(2, 50), Register(10, 0)],
        &[frame(0, 51), frame(0, 13), Register(10, 0)],
        &[52, 13, 11].map(Line),
        &[frame(2, 10)],
    ]
    .concat();
    assert_eq!(finding(MODEL, &calls), None);
}
