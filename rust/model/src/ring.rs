//! Which places of a lent store hold something; places come round by the remainder.

/// Which places of a store hold something: `held` of them, from `oldest` on, round after the last.
#[derive(Clone, Copy, Debug, PartialEq, Eq)]
pub struct Ring {
    pub oldest: usize,
    pub held: usize,
}

impl Ring {
    pub(crate) const EMPTY: Ring = Ring { oldest: 0, held: 0 };

    pub(crate) fn fits(&self, len: usize) -> bool {
        self.oldest < len && self.held <= len
    }

    /// What is held at this index, 0 being the oldest.
    pub(crate) fn look<T: Copy>(&self, store: &[T], index: usize) -> Option<T> {
        if index < self.held {
            Some(store[(self.oldest + index) % store.len()])
        } else {
            None
        }
    }

    /// How much more a store of this length can take.
    pub(crate) fn room(&self, len: usize) -> usize {
        len - self.held
    }

    /// "each later one to the place after the one before, and nothing else in a store is written"
    pub(crate) fn put<T>(&mut self, store: &mut [T], value: T) {
        let place = (self.oldest + self.held) % store.len();
        store[place] = value;
        self.held += 1;
    }

    /// What is held and came last, to be changed.
    pub(crate) fn newest<'a, T>(&self, store: &'a mut [T]) -> Option<&'a mut T> {
        let len = store.len();
        let index = self.held.checked_sub(1)?;
        Some(&mut store[(self.oldest + index) % len])
    }

    /// Removing writes nothing, and an emptied store keeps its next place.
    pub(crate) fn remove(&mut self, len: usize, count: usize) {
        self.oldest = (self.oldest + count) % len;
        self.held -= count;
    }

    /// "the longest unbroken run of bytes from the oldest one"
    pub(crate) fn run<'a, T>(&self, store: &'a [T]) -> &'a [T] {
        let end = usize::min(self.oldest + self.held, store.len());
        &store[self.oldest..end]
    }
}
