//! Cells that were left and are not fetched, oldest first.

use crate::few::Few;

/// A queue of cells.
pub trait Left: Clone + Default {
    fn cells(&self) -> &[u16];

    fn push(&mut self, cell: u16);

    /// Removes the oldest.
    fn pop(&mut self);
}

impl Left for Few<u16> {
    fn cells(&self) -> &[u16] {
        Few::cells(self)
    }

    fn push(&mut self, cell: u16) {
        Few::push(self, cell);
    }

    fn pop(&mut self) {
        self.remove(1);
    }
}

/// As many cells as there are, with those that are gone.
#[derive(Clone, Debug, Default)]
pub struct All {
    cells: Vec<u16>,
    gone: usize,
}

impl Left for All {
    fn cells(&self) -> &[u16] {
        &self.cells[self.gone..]
    }

    fn push(&mut self, cell: u16) {
        self.cells.push(cell);
    }

    fn pop(&mut self) {
        self.gone += 1;
    }
}
