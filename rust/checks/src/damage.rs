//! Blocks that are damaged or of another length, and stores of other lengths than recorded.

use crate::implementation::Both;
use crate::machine::{Cell, Machine, Stores};
use crate::pair::Pair;
use crate::random::Random;

/// What is done to a good block and its stores.
#[derive(Clone, Debug)]
pub enum Damage {
    /// These places hold other bytes.
    Places(Vec<(usize, u8)>),
    /// The block holds these bytes.
    Whole(Vec<u8>),
    /// The block has this length.
    Length(usize),
    /// The stores have these lengths more, or less where it is negative.
    Stores([isize; 2]),
}

/// Damage to the block of a machine and its stores.
pub fn damage<M: Machine>(random: &mut Random) -> Damage {
    let len = M::BLOCK_LEN;
    match random.below(8) {
        0..=3 => {
            let count = random.within(1..=3);
            Damage::Places((0..count).map(|_| place(random, len)).collect())
        }
        4 => Damage::Whole((0..len).map(|_| random.byte()).collect()),
        5 => {
            let any = random.within(0..=2 * len);
            Damage::Length(random.one_of(&[0, len - 1, len + 1, any]))
        }
        _ => Damage::Stores([more(random), more(random)]),
    }
}

/// A place of the block with another byte, mostly a small one.
fn place(random: &mut Random, len: usize) -> (usize, u8) {
    let place = random.below(len);
    let any = random.byte();
    (place, random.one_of(&[any % 6, any % 6, any]))
}

/// How much longer a store is, or shorter: mostly a little.
fn more(random: &mut Random) -> isize {
    match random.below(6) {
        0..=3 => random.below(7) as isize - 3,
        4 => 1 << 16,
        _ => -40_000,
    }
}

impl Damage {
    /// These two implementations on what is left of these buffers.
    pub fn pair<M: Machine>(&self, both: Both<M>, block: &[u8], stores: Stores<M>) -> Pair<M> {
        let mut block = block.to_vec();
        let (mut one, mut other) = (stores.0.to_vec(), stores.1.to_vec());
        match self {
            Damage::Places(places) => places.iter().for_each(|&(i, byte)| block[i] = byte),
            Damage::Whole(bytes) => block.copy_from_slice(bytes),
            Damage::Length(len) => block.resize(*len, 0),
            Damage::Stores(more) => {
                resize(&mut one, more[0]);
                resize(&mut other, more[1]);
            }
        }
        Pair::of(both, &block, (&one, &other))
    }
}

/// Makes a store so much longer, or shorter where it is negative.
fn resize<C: Cell>(store: &mut Vec<C>, more: isize) {
    let len = (store.len() as isize + more).max(0) as usize;
    store.resize(len, C::GUARD);
}
