//! Blocks at their edges, of any machine.

use crate::answer::refused;
use crate::machine::{Machine, Stores};
use crate::pair::Pair;

/// Whether these buffers hold a state that fits: then none of these calls is refused 2, and else
/// every one is. Archive and model are compared at each, and when both stores are shown.
pub fn fits<M: Machine>(block: &[u8], (one, other): Stores<M>, calls: &[M::Call]) -> bool {
    let mut pair = Pair::<M>::holding(block, one, other);
    let misfits = calls.iter().map(|&call| pair.ask(call) == refused(2));
    let misfits: Vec<bool> = misfits.collect();
    let alike = misfits.iter().all(|&misfit| misfit == misfits[0]);
    assert!(alike, "{misfits:?}: {}", pair.script());
    !misfits[0]
}

/// How many blocks are states that fit, and how many are not, of those that differ from a good one
/// in at most one byte.
pub fn every_byte_at_every_value<M: Machine>(good: &Pair<M>, calls: &[M::Call]) -> [usize; 2] {
    let buffers = good.buffers();
    let mut block = buffers.block().to_vec();
    let mut counts = [0; 2];
    for place in 0..block.len() {
        for byte in 0..=255 {
            block[place] = byte;
            let fits = fits::<M>(&block, buffers.stores(), calls);
            counts[usize::from(!fits)] += 1;
        }
        block[place] = buffers.block()[place];
    }
    counts
}
