//! Stores that go round, of many lengths: the archive, whose places go round by a comparison,
//! beside the model, which takes the remainder, and beside a history that knows no ring.
//!
//! Each of the four stores is filled, drained and shown where its places pass the last one. What
//! was met there is read off the states before and after the calls, counted, and asked for.

mod bridge;
mod course;
mod history;
mod mailbox;
mod met;
mod missing;
mod plan;
mod planted;
mod rings;
mod store;

use bridge::{Receive, Transmit};
use mailbox::{ToBus, ToLoop};
use plan::go_round;
use raftershim_checks::machine::Machine;
use store::{lengths, Store};

/// Holds the archive to the model and to the history at every length that the store can have.
fn as_by_both<S: Store>() {
    for len in lengths::<S>() {
        let met = go_round::<S>(S::Of::BOTH, len).unwrap_or_else(|finding| panic!("{finding}"));
        println!("round, {} of {len}: {met}", S::Of::STORES[S::SIDE]);
        met.assert_all::<S>();
    }
}

#[test]
fn the_receive_store_goes_round() {
    as_by_both::<Receive>();
}

#[test]
fn the_transmit_store_goes_round() {
    as_by_both::<Transmit>();
}

#[test]
fn the_store_to_the_bus_goes_round() {
    as_by_both::<ToBus>();
}

#[test]
fn the_store_to_the_loop_goes_round() {
    as_by_both::<ToLoop>();
}
