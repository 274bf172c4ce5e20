//! Rings that go round otherwise: the very runs find each, by a difference to the model, and by the
//! history alone where two equal ones are compared.

use crate::bridge::{Receive, Transmit};
use crate::mailbox::{ToBus, ToLoop};
use crate::plan::go_round;
use crate::rings::{rings, PUTS_BY_A_MASK, RINGS};
use crate::store::{lengths, Store};
use raftershim_checks::machine::Machine;

/// Tries a ring in a store of this length. Where it is wrong it is found both ways, and what the
/// history found is given; elsewhere all is met and nothing is found.
fn tried<S: Store>(ring: usize, len: usize) -> Option<String> {
    let (wrong, fault, [_, model]) = (&RINGS[ring], rings::<S>()[ring], S::Of::BOTH);
    let by_difference = go_round::<S>([fault, model], len);
    if !wrong.differs::<S>(len) {
        let met = by_difference.unwrap_or_else(|finding| panic!("{finding}"));
        met.assert_all::<S>();
        return None;
    }
    let by_difference = by_difference.err().expect(wrong.name);
    assert!(by_difference.starts_with("planted "), "{by_difference}");
    let by_history = go_round::<S>([fault, fault], len).err();
    let by_history = by_history.expect(wrong.name);
    assert!(by_history.starts_with("by history "), "{by_history}");
    by_history.split_once(", after").map(|told| told.0.into())
}

/// Tries a ring at those of these lengths that the store can have. Says at which it was found, and
/// gives what the history found there.
fn tried_at<S: Store>(ring: usize, lens: fn(&usize) -> bool) -> (String, Vec<String>) {
    let found = |len| Some((len, tried::<S>(ring, len)?));
    let found: Vec<(usize, String)> = lengths::<S>().filter(lens).filter_map(found).collect();
    let (lens, findings): (Vec<usize>, Vec<String>) = found.into_iter().unzip();
    (format!("{} {lens:?}", S::Of::STORES[S::SIDE]), findings)
}

/// Tries a ring in each store, and says where it was found and what the history found first.
fn tried_in_each(ring: usize, lens: fn(&usize) -> bool) {
    let tried = [
        tried_at::<Receive>(ring, lens),
        tried_at::<Transmit>(ring, lens),
        tried_at::<ToBus>(ring, lens),
        tried_at::<ToLoop>(ring, lens),
    ];
    let (stores, findings): (Vec<String>, Vec<Vec<String>>) = tried.into_iter().unzip();
    let (name, stores, findings) = (RINGS[ring].name, stores.join(", "), findings.concat());
    let first = findings.first().expect("it is found somewhere");
    println!("round, planted, {name}: found in {stores}; {first}");
}

#[test]
fn rings_that_go_round_otherwise_are_found() {
    for ring in 0..RINGS.len() {
        tried_in_each(ring, |&len| len <= 64);
    }
}

#[test]
fn a_mask_is_found_at_one_cell_less_than_the_largest_length() {
    tried_in_each(PUTS_BY_A_MASK, |&len| len > 64);
}
