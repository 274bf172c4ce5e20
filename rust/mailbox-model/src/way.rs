//! One way through the mailbox: what waits in it, and the news of it.

use crate::cell::Cell;
use crate::news::News;
use crate::ring::Ring;

/// A way, and what the side that fetches from it is told.
#[derive(Clone, Copy, Debug, PartialEq, Eq, Hash)]
pub struct Way {
    pub ring: Ring,
    pub news: News,
}

impl Way {
    /// A way as it starts, and after a clear: nothing waits, so there is nothing to tell.
    pub(crate) fn empty(capacity: usize) -> Way {
        Way {
            ring: Ring::empty(capacity),
            news: News::NONE,
        }
    }

    pub(crate) fn is_empty(&self) -> bool {
        self.ring.held == 0
    }

    /// Leaves a cell, for which there is room. News begin in the call that ends the emptiness.
    pub(crate) fn leave(&mut self, store: &mut [u16], cell: Cell) {
        if self.is_empty() {
            self.news = News::FRESH;
        }
        self.ring.put(store, cell);
    }

    /// Fetches the oldest cell. The last one ends the news.
    pub(crate) fn fetch(&mut self, store: &[u16]) -> Option<Cell> {
        let cell = self.ring.take(store)?;
        if self.is_empty() {
            self.news = News::NONE;
        }
        Some(cell)
    }

    pub(crate) fn clear(&mut self) {
        *self = Way::empty(self.ring.capacity);
    }
}
