//! Rings that go round otherwise, each the model with one fault planted in one of its stores.

use crate::store::{Call, Store};
use model::Ring;
use raftershim_checks::implementation::Implementation;
use raftershim_checks::lent::Lent;
use raftershim_checks::machine::Machine;
use raftershim_checks::planted::{changed, planted, right};
use At::{Every, Marks, MarksAndNoPower, NoPower, PutsOfMore, RemovalsOfMore};
use Fault::{Mark, Put, PutInARow, Remove, Show};

/// Where a place is that was counted on past the last one, in a store of this length.
type Round = fn(len: usize, place: usize) -> usize;

/// By the low bits, as if the length were a power of two: that which is next below, if it is none.
const BY_A_MASK: Round = |len, place| place & ((len + 1).next_power_of_two() / 2 - 1);
/// As if only what is more than the length were past the end.
const ONE_LATE: Round = |len, place| past(len + 1, 1, place);
/// As if the last place were past the end.
const ONE_EARLY: Round = |len, place| past(len - 1, 0, place);
/// As if the second place came after the last one.
const TO_THE_SECOND: Round = |len, place| past(len, 1, place);
/// As if one came to the first place however far past the end one goes.
const TO_THE_FIRST: Round = |len, place| if place < len { place } else { 0 };
/// As if there were no end.
const PAST_THE_END: Round = |_, place| place;

/// The place, if what begins at this end is counted from that place on.
fn past(end: usize, from: usize, place: usize) -> usize {
    if place < end {
        place
    } else {
        place - end + from
    }
}

/// Where a ring goes round otherwise.
enum Fault {
    /// The place where a cell is put. Past the store it is lost.
    Put(Round),
    /// The places of a call's cells, which follow the first one past the end.
    PutInARow,
    /// The oldest place in the state after a removal.
    Remove(Round),
    /// The part that is shown: all that is held, past the end.
    Show,
    /// The place of the cell that is marked. Past the store the mark is lost.
    Mark(Round),
}

/// Where that is wrong.
enum At {
    /// In every store at every length.
    Every,
    /// At lengths that are not a power of two.
    NoPower,
    /// In stores where a call puts more than one cell.
    PutsOfMore,
    /// In stores where a call removes more than one cell.
    RemovalsOfMore,
    /// In stores with a call that marks the newest cell.
    Marks,
    /// In such stores at lengths that are not a power of two.
    MarksAndNoPower,
}

/// A ring that goes round otherwise.
pub struct Wrong {
    pub name: &'static str,
    fault: Fault,
    at: At,
}

const fn wrong(name: &'static str, fault: Fault, at: At) -> Wrong {
    Wrong { name, fault, at }
}

/// All of them.
pub const RINGS: [Wrong; 15] = [
    wrong("puts by a mask", Put(BY_A_MASK), NoPower),
    wrong("puts one late", Put(ONE_LATE), Every),
    wrong("puts one early", Put(ONE_EARLY), Every),
    wrong("puts to the second", Put(TO_THE_SECOND), Every),
    wrong("puts in a row", PutInARow, PutsOfMore),
    wrong("removes by a mask", Remove(BY_A_MASK), NoPower),
    wrong("removes one early", Remove(ONE_EARLY), Every),
    wrong("removes to the second", Remove(TO_THE_SECOND), Every),
    wrong("removes to the first", Remove(TO_THE_FIRST), RemovalsOfMore),
    wrong("removes past the end", Remove(PAST_THE_END), Every),
    wrong("shows past the end", Show, Every),
    wrong("marks by a mask", Mark(BY_A_MASK), MarksAndNoPower),
    wrong("marks one early", Mark(ONE_EARLY), Marks),
    wrong("marks to the second", Mark(TO_THE_SECOND), Marks),
    wrong("marks past the end", Mark(PAST_THE_END), Marks),
];

/// The place of the first one.
pub const PUTS_BY_A_MASK: usize = 0;

impl Wrong {
    /// Whether it is wrong in this store at this length.
    pub fn differs<S: Store>(&self, len: usize) -> bool {
        match self.at {
            Every => true,
            NoPower => !len.is_power_of_two(),
            PutsOfMore => S::PUTS.iter().any(|&cells| cells > 1),
            RemovalsOfMore => S::REMOVALS.iter().any(|&(cells, _)| cells > 1),
            Marks => S::MARKS.is_some(),
            MarksAndNoPower => S::MARKS.is_some() && !len.is_power_of_two(),
        }
    }
}

/// The model with each of the rings in the place of this store.
pub fn rings<S: Store>() -> [Implementation<S::Of>; RINGS.len()] {
    [
        planted(going_round::<S, 0>),
        planted(going_round::<S, 1>),
        planted(going_round::<S, 2>),
        planted(going_round::<S, 3>),
        planted(going_round::<S, 4>),
        planted(going_round::<S, 5>),
        planted(going_round::<S, 6>),
        planted(going_round::<S, 7>),
        planted(going_round::<S, 8>),
        planted(going_round::<S, 9>),
        planted(going_round::<S, 10>),
        planted(going_round::<S, 11>),
        planted(going_round::<S, 12>),
        planted(going_round::<S, 13>),
        planted(going_round::<S, 14>),
    ]
}

/// Makes a call as the ring at this place of the table does.
fn going_round<S: Store, const RING: usize>(lent: Lent<S::Of>, call: Call<S>) -> u64 {
    match RINGS[RING].fault {
        Put(round) => put::<S>(lent, call, |len, next, more| round(len, next + more)),
        PutInARow => put::<S>(lent, call, |len, next, more| next % len + more),
        Remove(round) => remove::<S>(lent, call, round),
        Show => show::<S>(lent, call),
        Mark(round) => mark::<S>(lent, call, round),
    }
}

/// The ring by the block.
fn ring<S: Store>(lent: &Lent<S::Of>) -> Ring {
    S::ring(&S::Of::state(lent.block).expect("a state"))
}

/// Makes a call as the model does, but puts its cells elsewhere, given the length, the next place
/// and how many of the cells were put before. A call puts three at most.
fn put<S: Store>(
    mut lent: Lent<S::Of>,
    call: Call<S>,
    elsewhere: impl Fn(usize, usize, usize) -> usize,
) -> u64 {
    let (len, before) = (S::lent(&mut lent).len(), ring::<S>(&lent));
    let next = before.oldest + before.held;
    let right_places = [0, 1, 2].map(|more| (next + more) % len);
    let old = right_places.map(|place| S::lent(&mut lent)[place]);
    let answer = right::<S::Of>(lent.again(), call);
    let count = ring::<S>(&lent).held.saturating_sub(before.held);
    let store = S::lent(&mut lent);
    let new = right_places.map(|place| store[place]);
    for (place, old) in right_places.into_iter().zip(old).take(count) {
        store[place] = old;
    }
    for (more, new) in new.into_iter().enumerate().take(count) {
        if let Some(place) = store.get_mut(elsewhere(len, next, more)) {
            *place = new;
        }
    }
    answer
}

/// Makes a call as the model does, but comes to another oldest place.
fn remove<S: Store>(mut lent: Lent<S::Of>, call: Call<S>, round: Round) -> u64 {
    let len = S::lent(&mut lent).len();
    changed::<S::Of>(lent, call, |before, after| {
        let (before, held) = (S::ring(before), S::ring(after).held);
        if held < before.held {
            *S::oldest(after) = round(len, before.oldest + before.held - held);
        }
    })
}

/// Makes a call as the model does, but shows all that is held as one part.
fn show<S: Store>(mut lent: Lent<S::Of>, call: Call<S>) -> u64 {
    let answer = right::<S::Of>(lent.again(), call);
    let Ring { oldest, held } = ring::<S>(&lent);
    match S::Of::shows(call) && held > 0 {
        true => (oldest as u64) << 32 | held as u64,
        false => answer,
    }
}

/// Makes a call as the model does, but marks a cell elsewhere. A call that changes one cell and leaves
/// the ring as it is marks it.
fn mark<S: Store>(mut lent: Lent<S::Of>, call: Call<S>, round: Round) -> u64 {
    let (kept, before) = (S::lent(&mut lent).to_vec(), ring::<S>(&lent));
    let answer = right::<S::Of>(lent.again(), call);
    let marked = ring::<S>(&lent) == before && S::lent(&mut lent) != &kept[..];
    if marked {
        let store = S::lent(&mut lent);
        store.copy_from_slice(&kept);
        if let Some(cell) = store.get_mut(round(kept.len(), before.oldest + before.held - 1)) {
            *cell = S::marked(*cell);
        }
    }
    answer
}
