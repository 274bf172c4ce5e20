//! One way by its history: what was left in it, what was fetched, and what the other side knows.

use super::left::Left;
use crate::part;
use mailbox_model as model;

/// The byte and the end mark of a cell; the bits above do not count.
const COUNTS: u16 = 511;

/// A law that is broken, in words.
pub type Law = Result<(), String>;

/// The law holds, or it is the one that is broken.
pub fn law(holds: bool, sentence: &str) -> Law {
    if holds {
        Ok(())
    } else {
        Err(sentence.into())
    }
}

/// A way since its last clear. What was fetched, then what waits, is what was left: so each fetch
/// gives the oldest that was left and not fetched, and these are what waits.
#[derive(Clone, Copy, Debug, PartialEq, Eq, Hash)]
pub struct Way<L> {
    left: L,
    /// Whether the side that fetches is asked for service.
    pub request: bool,
    /// Whether it is told that something is there.
    pub available: bool,
    /// Whether something came into the empty way since status was sent last.
    since_status: bool,
}

impl<L: Left> Way<L> {
    /// A way that starts with what waits in it, and with the news of the state.
    pub fn starting(way: &model::Way, store: &[u16]) -> Way<L> {
        let mut left = L::default();
        let place = |index| (way.ring.oldest + index) % store.len();
        (0..way.ring.held).for_each(|index| left.push(store[place(index)] & COUNTS));
        Way {
            left,
            request: way.news.request,
            available: way.news.available,
            since_status: way.news.again,
        }
    }

    pub fn waits(&self) -> usize {
        self.left.cells().len()
    }

    /// A cell is left.
    pub fn leave(&mut self, cell: u16) {
        if self.waits() == 0 {
            self.tell(true);
        }
        self.left.push(cell);
    }

    /// This cell is fetched.
    pub fn fetch(&mut self, cell: u16) -> Law {
        let oldest = self.left.cells().first();
        law(
            oldest == Some(&cell),
            "what is fetched is not the oldest that was left",
        )?;
        self.left.pop();
        if self.waits() == 0 {
            self.tell(false);
        }
        Ok(())
    }

    pub fn clear(&mut self) {
        self.left = L::default();
        self.tell(false);
    }

    /// All that is told begins or ends.
    fn tell(&mut self, news: bool) {
        self.request = news;
        self.available = news;
        self.since_status = news;
    }

    /// The status byte of the side that fetches.
    pub fn status(&self) -> u16 {
        u16::from(self.request) << 6 | u16::from(self.available)
    }

    /// Status is sent on the loop: the request ends, and what is available waits for the return.
    pub fn status_sent(&mut self) {
        self.request = false;
        self.since_status = false;
    }

    /// A status byte that showed this has come back unchanged.
    pub fn status_back(&mut self, shown: bool) {
        self.available &= !shown || self.since_status;
    }

    /// The status byte is read on the bus.
    pub fn status_read(&mut self) {
        self.tell(false);
    }

    /// Holds a way after a call to this history.
    pub fn held_to(&self, way: &model::Way, store: &[u16]) -> Law {
        let (oldest, held) = (way.ring.oldest, way.ring.held);
        let first = usize::min(held, store.len() - oldest);
        let parts = [&store[oldest..oldest + first], &store[..held - first]];
        law(
            self.left_in(parts),
            "what waits is not what was left and not fetched",
        )?;
        let told = (way.news.request, way.news.available, way.news.again);
        let due = (self.request, self.available, self.since_status);
        law(told == due, "request, available, again: not so by history")
    }

    /// Whether these two parts of a store hold what was left and not fetched, and no more.
    fn left_in(&self, parts: [&[u16]; 2]) -> bool {
        let cells = self.left.cells();
        let same = |cells: &[u16], part: &[u16]| {
            let pairs = cells.iter().zip(part);
            pairs.fold(true, |same, (one, other)| same & (*one == other & COUNTS))
        };
        let first = parts[0].len();
        cells.len() == first + parts[1].len()
            && same(&cells[..first], parts[0])
            && same(&cells[first..], parts[1])
    }

    /// Holds a part that is shown to what waits.
    pub fn shown(&self, part: u64, store: &[u16]) -> Law {
        let cells = self.left.cells();
        part::due(part, store.len(), cells.len(), |place, index| {
            store[place] & COUNTS == cells[index]
        })
    }

    /// Whether what is told is told only while something waits.
    pub fn is_sound(&self) -> bool {
        self.waits() > 0 || !(self.request || self.available)
    }
}
