//! A few cells in their order, small enough to be part of a state that is explored.

/// At most eight cells in their order.
#[derive(Clone, Copy, Debug, Default, PartialEq, Eq, Hash)]
pub struct Few<C> {
    cells: [C; 8],
    len: u8,
}

impl<C: Copy + Default> Few<C> {
    pub fn cells(&self) -> &[C] {
        &self.cells[..usize::from(self.len)]
    }

    pub fn push(&mut self, cell: C) {
        self.cells[usize::from(self.len)] = cell;
        self.len += 1;
    }

    /// The same cells, each made into something else.
    pub fn map<D: Copy + Default>(&self, change: impl Fn(C) -> D) -> Few<D> {
        let mut changed = Few::default();
        self.cells().iter().for_each(|&c| changed.push(change(c)));
        changed
    }

    /// The last cell, to be changed.
    pub fn last_mut(&mut self) -> Option<&mut C> {
        self.cells[..usize::from(self.len)].last_mut()
    }

    /// Removes the first cells; places behind the last cell are as they start.
    pub fn remove(&mut self, count: usize) {
        let left = self.cells().len() - count;
        self.cells.rotate_left(count);
        self.cells[left..].fill(C::default());
        self.len = left as u8;
    }
}
