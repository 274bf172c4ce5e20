//! The part that is counted: rounds of one work on one side.

use crate::desk::Desk;
use crate::machine::Machine;
use crate::round::{Round, Step};
use std::collections::hash_map::DefaultHasher;
use std::hash::{Hash, Hasher};

/// Makes the calls of one round and takes their answers into a checksum, in few instructions. No
/// copy of it knows which side it calls.
#[inline(never)]
fn one_round<M: Machine>(desk: &mut Desk<M>, steps: &[Step<M::Call>], sum: u64) -> u64 {
    steps.iter().fold(sum, |sum, step| {
        (sum.rotate_left(5) ^ desk.call(step.call)).wrapping_mul(0x9E37_79B9_7F4A_7C15)
    })
}

/// Sets a side up, makes the rounds, and gives the checksum of all answers and of what the block
/// and both stores hold at the end.
pub fn checksum<M: Machine>(
    side: M::Side,
    store: usize,
    round: &Round<M::Call>,
    rounds: usize,
) -> u64 {
    let mut desk = Desk::<M>::new(side, store);
    let mut sum = one_round(&mut desk, &round.set_up, 0);
    for _ in 0..rounds {
        sum = one_round(&mut desk, &round.steps, sum);
    }
    let mut hasher = DefaultHasher::new();
    hasher.write_u64(sum);
    desk.hash(&mut hasher);
    hasher.finish()
}
