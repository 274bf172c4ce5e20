//! All that went into a store since create. It knows no ring: the n-th cell that was accepted, from
//! 0, stands at place n % len, and no other place was ever written.

use model::Ring;
use raftershim_checks::machine::Cell;

/// What a store was given, and how much of it is gone.
#[derive(Clone)]
pub struct History<C> {
    /// All cells that were accepted since create.
    accepted: Vec<C>,
    /// How many of them are gone.
    gone: usize,
    /// What the places of the store have to hold.
    places: Vec<C>,
}

impl<C: Cell> History<C> {
    /// A store of so many cells that was just created.
    pub fn created(len: usize) -> History<C> {
        History {
            accepted: Vec::new(),
            gone: 0,
            places: vec![C::default(); len],
        }
    }

    pub fn len(&self) -> usize {
        self.places.len()
    }

    pub fn accept(&mut self, cells: &[C]) {
        for &cell in cells {
            let place = self.accepted.len() % self.len();
            self.places[place] = cell;
            self.accepted.push(cell);
        }
    }

    /// The newest of those that wait becomes this, if any waits. Gives its place.
    pub fn change_newest(&mut self, change: fn(C) -> C) -> Option<usize> {
        let newest = self.accepted.len() - usize::from(!self.waiting().is_empty());
        let cell = self.accepted.get_mut(newest)?;
        *cell = change(*cell);
        let place = newest % self.places.len();
        self.places[place] = *cell;
        Some(place)
    }

    pub fn remove(&mut self, cells: usize) {
        self.gone += cells;
    }

    /// What is accepted and not gone, oldest first.
    pub fn waiting(&self) -> &[C] {
        &self.accepted[self.gone..]
    }

    pub fn free(&self) -> usize {
        self.len() - self.waiting().len()
    }

    /// What the state has to say.
    pub fn ring(&self) -> Ring {
        Ring {
            oldest: self.gone % self.len(),
            held: self.waiting().len(),
        }
    }

    /// What has to be shown: from the oldest cell on what waits, up to the last place; 0 if nothing
    /// waits.
    pub fn part(&self) -> u64 {
        let Ring { oldest, held } = self.ring();
        match held.min(self.len() - oldest) {
            0 => 0,
            len => (oldest as u64) << 32 | len as u64,
        }
    }

    /// The first place that does not hold what it has to.
    pub fn wrong_place(&self, store: &[C]) -> Option<usize> {
        if self.places == store {
            return None;
        }
        (0..self.len()).find(|&place| store[place] != self.places[place])
    }
}
