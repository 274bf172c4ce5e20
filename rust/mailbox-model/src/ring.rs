//! Which places of a store are held.

use crate::answer::Part;
use crate::cell::Cell;

/// The most cells that a store has.
pub const LARGEST: usize = 32_768;

/// Which places of a store hold cells: `held` of them, from `oldest` on, round after the last.
#[derive(Clone, Copy, Debug, PartialEq, Eq, Hash)]
pub struct Ring {
    /// Recorded length of the store.
    pub capacity: usize,
    pub oldest: usize,
    pub held: usize,
}

impl Ring {
    /// Nothing held, and the next cell goes to place 0.
    pub(crate) fn empty(capacity: usize) -> Ring {
        Ring {
            capacity,
            oldest: 0,
            held: 0,
        }
    }

    /// Whether a store may have so many cells.
    pub(crate) fn size_obeyed(cells: usize) -> bool {
        (1..=LARGEST).contains(&cells)
    }

    pub(crate) fn fits(&self, store: &[u16]) -> bool {
        self.capacity == store.len()
            && Ring::size_obeyed(self.capacity)
            && self.oldest < self.capacity
            && self.held <= self.capacity
    }

    /// How many places are free.
    pub(crate) fn room(&self) -> usize {
        self.capacity - self.held
    }

    /// Writes the place after the newest, and nothing else.
    pub(crate) fn put(&mut self, store: &mut [u16], cell: Cell) {
        store[(self.oldest + self.held) % self.capacity] = cell.written();
        self.held += 1;
    }

    /// Takes the oldest. Nothing is written, and an emptied ring keeps its next place.
    pub(crate) fn take(&mut self, store: &[u16]) -> Option<Cell> {
        if self.held == 0 {
            return None;
        }
        let cell = Cell::read(store[self.oldest]);
        self.oldest = (self.oldest + 1) % self.capacity;
        self.held -= 1;
        Some(cell)
    }

    /// The longest unbroken run of held cells from the oldest on.
    pub(crate) fn run(&self) -> Part {
        if self.held == 0 {
            return Part::EMPTY;
        }
        Part {
            start: self.oldest,
            length: self.held.min(self.capacity - self.oldest),
        }
    }
}
