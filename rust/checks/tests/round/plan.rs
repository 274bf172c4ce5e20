//! What a run goes through in a store.

use crate::course::{Course, Told};
use crate::met::{full_at, Met};
use crate::store::Store;
use raftershim_checks::implementation::Both;

/// How far from the end a lot begins at most.
const FAR: usize = 8;
/// Behind how many cells a lot is put at most.
const AHEAD: usize = 2;
/// How near to the end the store is shown.
const NEAR: usize = 2;

/// Goes round in a store of this length: with lots at every distance from the end, and then full at
/// many places. Gives what was met, or a sentence on what differs.
pub fn go_round<S: Store>(both: Both<S::Of>, len: usize) -> Told<Met> {
    let mut met = Met::nothing(len);
    let mut course = Course::<S>::created(both, &mut met)?;
    course.bring_to(len.saturating_sub(FAR + AHEAD))?;
    course.lots_across_the_end()?;
    for place in full_at(len) {
        course.bring_to(place)?;
        course.fill_and_drain()?;
    }
    course.stores_as_by_history()?;
    Ok(met)
}

impl<S: Store> Course<'_, S> {
    /// Brings the empty store to this place.
    fn bring_to(&mut self, place: usize) -> Told {
        while self.ring()?.oldest != place {
            self.offer_next()?;
            self.take()?;
        }
        Ok(())
    }

    /// Lots at every distance from the end, behind a few cells and behind none.
    fn lots_across_the_end(&mut self) -> Told {
        let len = self.len();
        for lot in S::LOTS {
            for ahead in 0..=AHEAD {
                for far in 1..=FAR.min(len) {
                    let mut fork = self.fork();
                    fork.bring_to((2 * len - far - ahead) % len)?;
                    fork.put_and_remove(lot, ahead)?;
                    fork.stores_as_by_history()?;
                }
            }
        }
        Ok(())
    }

    /// Puts a lot behind so many cells, hands those out, and lets one call remove what it can of
    /// the lot. Pairs are found and added from before the first cell comes until the last is gone.
    fn put_and_remove(&mut self, lot: &[u16], ahead: usize) -> Told {
        let [pairs, no_pairs] = S::PAIRS;
        self.make(pairs)?;
        for _ in 0..ahead {
            self.offer_alone()?;
        }
        for &item in lot {
            self.offer(item)?;
        }
        self.show()?;
        for _ in 0..=ahead {
            self.take()?;
        }
        self.show()?;
        self.drain()?;
        self.let_nothing_wait()?;
        self.drain()?;
        self.make(no_pairs)
    }

    /// Fills the store, offers one item more, shows it full, and drains it.
    fn fill_and_drain(&mut self) -> Told {
        let mut taken = 0;
        while self.offer_next()? {
            taken += 1;
            let ring = self.ring()?;
            self.show_near(ring.oldest + ring.held)?;
        }
        let full = self.ring()?;
        self.show()?;
        let given = self.drain()?;
        if [full.held, taken, given] == [self.len(); 3] {
            self.note_full(full.oldest);
        }
        Ok(())
    }

    /// Hands out all that is held, and asks once more. Gives how many items came.
    fn drain(&mut self) -> Told<usize> {
        let mut given = 0;
        while self.take()? {
            given += 1;
            self.show_near(self.ring()?.oldest)?;
        }
        Ok(given)
    }

    /// Shows the store if this place is near the end or just past it.
    fn show_near(&mut self, place: usize) -> Told {
        let place = place % self.len();
        if place < NEAR || place + NEAR >= self.len() {
            self.show()?;
        }
        Ok(())
    }
}
