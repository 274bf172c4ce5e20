//! A run in one store from create on: two implementations and the history, compared at every call.

use crate::history::History;
use crate::met::Met;
use crate::store::{Call, State, Store, MARK};
use model::boundary::{kind, REFUSED};
use model::Ring;
use raftershim_checks::answer::{in_words, with_room, DONE};
use raftershim_checks::implementation::Both;
use raftershim_checks::pair::Pair;
use std::fmt;

/// Done, or a sentence on what differs.
pub type Told<T = ()> = Result<T, String>;

/// Up to this length every place is held to the history at every call.
const SMALL: usize = 64;
/// Beyond it every place is at every so many calls, and at the end.
const CALLS: usize = 100;

/// A run so far.
pub struct Course<'a, S: Store> {
    both: Both<S::Of>,
    pair: Pair<S::Of>,
    history: History<S::Cell>,
    /// How many items were offered.
    offered: usize,
    /// How often the oldest place came to the last one and went on.
    rounds: usize,
    met: &'a mut Met,
}

/// A call that was made.
struct Made<S: Store> {
    before: State<S>,
    answer: u64,
    after: State<S>,
}

impl<S: Store> Made<S> {
    fn rings(&self) -> [Ring; 2] {
        [S::ring(&self.before), S::ring(&self.after)]
    }
}

impl<'a, S: Store> Course<'a, S> {
    /// A store that was just created, of a machine that takes items into it and hands them out.
    pub fn created(both: Both<S::Of>, met: &'a mut Met) -> Told<Course<'a, S>> {
        let mut lens = [S::OTHER; 2];
        lens[S::SIDE] = met.len;
        let mut course = Course {
            both,
            pair: Pair::created(both, lens, S::NUMBER),
            history: History::created(met.len),
            offered: 0,
            rounds: 0,
            met,
        };
        course.make(S::READY)?;
        Ok(course)
    }

    /// A run that goes its own way from here.
    pub fn fork(&mut self) -> Course<'_, S> {
        let buffers = self.pair.buffers();
        Course {
            both: self.both,
            pair: Pair::of(self.both, buffers.block(), buffers.stores()),
            history: self.history.clone(),
            offered: self.offered,
            rounds: self.rounds,
            met: self.met,
        }
    }

    pub fn len(&self) -> usize {
        self.met.len
    }

    /// The ring by the state.
    pub fn ring(&self) -> Told<Ring> {
        Ok(S::ring(&self.state()?))
    }

    fn state(&self) -> Told<State<S>> {
        let state = self.pair.state();
        state.ok_or_else(|| self.pair.told("no state"))
    }

    /// Makes a call on both implementations.
    fn made(&mut self, call: Call<S>) -> Told<Made<S>> {
        let before = self.state()?;
        let answer = self.pair.call(call)?;
        let after = self.state()?;
        self.met.calls += 1;
        Ok(Made {
            before,
            answer,
            after,
        })
    }

    /// Makes calls that are taken and leave the store alone.
    pub fn make(&mut self, calls: &[Call<S>]) -> Told {
        for &call in calls {
            let taken = kind(self.made(call)?.answer) != REFUSED;
            self.law(taken, format_args!("{call} is taken"))?;
            self.as_by_history()?;
        }
        Ok(())
    }

    /// Offers an item unlike those around it and those of the round before. Gives whether there was
    /// room for it.
    pub fn offer_next(&mut self) -> Told<bool> {
        let mark = if self.offered % 3 == 1 { MARK } else { 0 };
        let byte = 1 + self.offered % 255;
        self.offer(byte as u16 | mark)
    }

    /// Offers an item unlike those around it that goes by itself, whatever comes behind it.
    pub fn offer_alone(&mut self) -> Told<bool> {
        let byte = 1 + self.offered % 255;
        self.offer(byte as u16 | S::ALONE)
    }

    /// Offers an item. Gives whether there was room for it.
    pub fn offer(&mut self, item: u16) -> Told<bool> {
        let offer = S::offer(&self.state()?, item);
        let made = self.made(offer.call)?;
        self.offered += 1;
        let room = self.history.free() >= offer.cells.len();
        if room {
            self.history.accept(&offer.cells);
            let free = self.history.free();
            let told = if S::TELLS_ROOM { free } else { 0 };
            self.answered(made.answer, with_room(told, offer.answer))?;
        } else {
            let away = S::turned_away(&made.before, made.answer, &made.after);
            self.law(away, format_args!("there is no room for it"))?;
        }
        self.as_by_history()?;
        self.met.put(made.rings());
        offer.mark.map_or(Ok(()), |call| self.mark(call))?;
        Ok(room)
    }

    /// Marks the newest cell that is held, so that it waits for no more, where that is a call of its own.
    pub fn let_nothing_wait(&mut self) -> Told {
        S::MARKS.map_or(Ok(()), |call| self.mark(call))
    }

    /// Marks the newest cell that is held, if there is one.
    fn mark(&mut self, call: Call<S>) -> Told {
        let made = self.made(call)?;
        self.answered(made.answer, DONE)?;
        let place = self.history.change_newest(S::marked);
        self.as_by_history()?;
        self.met.marks.extend(place);
        Ok(())
    }

    /// Asks for the next item. Gives whether there was one.
    pub fn take(&mut self) -> Told<bool> {
        let before = self.state()?;
        let (gone, item) = S::due(&before, self.history.waiting());
        let mut made = self.made(S::take(&before))?;
        self.answered(made.answer, S::handed_out(item))?;
        if let Some(call) = item.and_then(S::gone) {
            self.as_by_history()?;
            made = self.made(call)?;
            self.answered(made.answer, DONE)?;
        }
        self.history.remove(gone);
        self.as_by_history()?;
        let mark = item.map(|item| item & MARK != 0);
        self.rounds += usize::from(self.met.removal(made.rings(), mark));
        self.met.rounds = self.met.rounds.max(self.rounds);
        Ok(item.is_some())
    }

    /// Shows the store.
    pub fn show(&mut self) -> Told {
        let made = self.made(S::SHOW)?;
        let due = self.history.part();
        let (start, len) = (due >> 32, due as u32);
        let shown = made.answer == due;
        self.law(shown, format_args!("{len} from place {start} on are due"))?;
        self.as_by_history()?;
        self.met.part(S::ring(&made.after), made.answer);
        Ok(())
    }

    /// Notes that a full store came out whole, whose oldest cell was at this place.
    pub fn note_full(&mut self, place: usize) {
        self.met.full.insert(place);
    }

    /// A finding unless this holds, which says what is so by history.
    fn law(&self, holds: bool, so: fmt::Arguments) -> Told {
        match holds {
            true => Ok(()),
            false => Err(self.pair.told(&format!("by history {so}"))),
        }
    }

    /// Holds an answer to the one that is due.
    fn answered(&self, answer: u64, due: u64) -> Told {
        if answer == due {
            return Ok(());
        }
        let (answer, due) = (in_words(answer), in_words(due));
        self.law(false, format_args!("{due} is due, not {answer}"))
    }

    /// Holds the state to the history, and the stores where it is time for that.
    fn as_by_history(&self) -> Told {
        let (ring, due) = (self.ring()?, self.history.ring());
        self.law(ring == due, format_args!("{due:?} is due, not {ring:?}"))?;
        match self.len() <= SMALL || self.met.calls % CALLS == 0 {
            true => self.stores_as_by_history(),
            false => Ok(()),
        }
    }

    /// Holds every place of both stores to the history. In the other one nothing was ever written.
    pub fn stores_as_by_history(&self) -> Told {
        let (store, untouched) = S::of(self.pair.buffers().stores());
        if let Some(place) = self.history.wrong_place(store) {
            self.law(false, format_args!("place {place} holds another cell"))?;
        }
        self.law(untouched, format_args!("the other store is untouched"))
    }
}
