//! The three buffers that a caller lends, with guards around each.

use crate::machine::{Cell, Machine, Stores};

/// The three buffers of one call.
pub struct Lent<'a, M: Machine> {
    pub block: &'a mut [u8],
    pub one: &'a mut [M::One],
    pub other: &'a mut [M::Other],
}

impl<M: Machine> Lent<'_, M> {
    /// The same buffers once more.
    pub fn again(&mut self) -> Lent<'_, M> {
        Lent {
            block: self.block,
            one: self.one,
            other: self.other,
        }
    }
}

/// Cells before and after each buffer, which no call may write.
const GUARD: usize = 16;

/// A buffer between its guards.
#[derive(Clone, Debug, PartialEq, Eq)]
struct Guarded<C>(Vec<C>);

impl<C: Cell> Guarded<C> {
    fn holding(cells: &[C]) -> Guarded<C> {
        let guard = [C::GUARD; GUARD];
        Guarded([&guard, cells, &guard].concat())
    }

    fn cells(&self) -> &[C] {
        &self.0[GUARD..self.0.len() - GUARD]
    }

    fn lend(&mut self) -> &mut [C] {
        let end = self.0.len() - GUARD;
        &mut self.0[GUARD..end]
    }

    /// Names the first place that differs from another of the same length, if there is one.
    fn first_difference(&self, name: &str, other: &Guarded<C>) -> Option<String> {
        let (ours, theirs) = (self.cells(), other.cells());
        match (0..ours.len()).find(|&i| ours[i] != theirs[i]) {
            Some(place) => {
                let (one, other) = (ours[place], theirs[place]);
                Some(format!("{name} place {place}: {one} and {other}"))
            }
            None => (self != other).then(|| format!("a place outside of the {name}")),
        }
    }
}

/// Owns three buffers; two are equal if all places are, the guards too.
#[derive(Clone, Debug, PartialEq, Eq)]
pub struct Buffers<M: Machine> {
    block: Guarded<u8>,
    one: Guarded<M::One>,
    other: Guarded<M::Other>,
}

impl<M: Machine> Buffers<M> {
    /// Buffers that hold these.
    pub fn holding(block: &[u8], (one, other): Stores<M>) -> Buffers<M> {
        Buffers {
            block: Guarded::holding(block),
            one: Guarded::holding(one),
            other: Guarded::holding(other),
        }
    }

    /// The buffers as a call takes them.
    pub fn lend(&mut self) -> Lent<'_, M> {
        Lent {
            block: self.block.lend(),
            one: self.one.lend(),
            other: self.other.lend(),
        }
    }

    pub fn block(&self) -> &[u8] {
        self.block.cells()
    }

    pub fn stores(&self) -> Stores<'_, M> {
        (self.one.cells(), self.other.cells())
    }

    /// Names the first place that differs from others with the same lengths.
    pub fn first_difference(&self, others: &Buffers<M>) -> Option<String> {
        if self == others {
            return None;
        }
        let [one, other] = M::STORES;
        let block = self.block.first_difference("block", &others.block);
        block
            .or_else(|| self.one.first_difference(one, &others.one))
            .or_else(|| self.other.first_difference(other, &others.other))
    }
}
