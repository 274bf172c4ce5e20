//! The caller's place: the block, the two stores and the side whose functions they are lent to.

use crate::machine::{Lent, Machine};
use std::hash::{Hash, Hasher};

/// One side with its three buffers. All start as zero, and only calls write them.
pub struct Desk<M: Machine> {
    side: M::Side,
    block: Vec<u8>,
    one: Vec<M::One>,
    other: Vec<M::Other>,
}

impl<M: Machine> Desk<M> {
    /// A desk with two stores of this size, nothing created yet.
    pub fn new(side: M::Side, store: usize) -> Desk<M> {
        Desk {
            side,
            block: vec![0; M::BLOCK],
            one: vec![M::One::default(); store],
            other: vec![M::Other::default(); store],
        }
    }

    #[inline(always)]
    fn lent(&mut self) -> Lent<M::One, M::Other> {
        Lent {
            block: (self.block.as_mut_ptr(), self.block.len() as u64),
            stores: (
                (self.one.as_mut_ptr(), self.one.len() as u64),
                (self.other.as_mut_ptr(), self.other.len() as u64),
            ),
        }
    }

    /// Makes one call and gives its answer.
    #[inline(always)]
    pub fn call(&mut self, call: M::Call) -> u64 {
        let lent = self.lent();
        // SAFETY: the three pointers are good for their lengths and the buffers are apart.
        unsafe { M::call(&self.side, lent, call) }
    }

    /// The address of a call's function, and the numbers it takes as C passes them.
    pub fn passed(&mut self, call: M::Call) -> (usize, [u64; 8]) {
        let (function, behind) = M::passed(&self.side, call);
        let lent = self.lent();
        let ((block, len), (one, other)) = (lent.block, lent.stores);
        let (one, other) = ((one.0 as u64, one.1), (other.0 as u64, other.1));
        let mut numbers = [block as u64, len, one.0, one.1, other.0, other.1, 0, 0];
        numbers[6..6 + behind.len()].copy_from_slice(&behind);
        (function, numbers)
    }

    /// Whether the block and both stores are those of another.
    pub fn same(&self, other: &Desk<M>) -> bool {
        self.block == other.block && self.one == other.one && self.other == other.other
    }
}

/// The block and both stores, in few instructions: a buffer of numbers is hashed as a whole.
impl<M: Machine> Hash for Desk<M> {
    fn hash<H: Hasher>(&self, hasher: &mut H) {
        self.block.hash(hasher);
        self.one.hash(hasher);
        self.other.hash(hasher);
    }
}
