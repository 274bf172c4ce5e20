//! Wrong mailboxes: the very explorations find each, by a difference to the model, and by the
//! history alone where two equal ones are compared.

use crate::alphabets::{Alphabet, BOTH_WAYS, LISTENING, SERIAL_POLLS, TALKING};
use raftershim_checks::mailbox::{planted, MODEL};
use raftershim_checks::written::script_in;

/// The alphabets in which faults are looked for.
fn alphabets() -> [Alphabet<'static>; 4] {
    let alphabet = |lens, calls| Alphabet {
        lens,
        calls,
        limit: 300_000,
    };
    [
        alphabet([2, 2], &BOTH_WAYS[..]),
        alphabet([2, 1], &LISTENING[..]),
        alphabet([1, 2], &TALKING[..]),
        alphabet([2, 1], &SERIAL_POLLS[..]),
    ]
}

#[test]
fn every_fault_that_is_seen_is_found_twice() {
    for (name, fault) in planted::SEEN {
        let found = |both| alphabets().iter().find_map(|a| a.explored(both).err());
        let by_difference = found([fault, MODEL]).expect(name);
        let by_history = found([fault, fault]).expect(name);
        let finding = by_history.lines().next().expect("a finding");
        println!("planted in the mailbox, {name}: {finding}");
        for told in [by_difference, by_history] {
            // Create, and the few calls of the shortest way.
            let calls = script_in(&told).expect("a script").lines().count();
            assert!(calls <= 9, "{name}: {told}");
        }
    }
}

#[test]
fn nothing_is_found_where_nothing_is_planted() {
    for alphabet in alphabets() {
        assert!(alphabet.explored([MODEL, MODEL]).is_ok());
    }
}
