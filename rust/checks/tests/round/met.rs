//! What was met where a store goes round, by the states before and after calls and by answers.

use crate::store::{Removal, Store};
use model::Ring;
use std::collections::{BTreeMap, BTreeSet};
use std::fmt;

/// How often a run has to go round.
const ROUNDS: usize = 3;
/// What is counted of puts and removals across the end.
const SIZES: [&str; 4] = ["one", "two", "three", "more"];
/// What is counted of parts at the end.
const PARTS: [&str; 4] = ["whole", "broken", "of the last place", "of a full store"];

/// How often each thing was met in a store of this length.
pub struct Met {
    pub len: usize,
    pub calls: usize,
    /// How often the oldest place came to the last one and went on, in one run.
    pub rounds: usize,
    /// Puts of so many cells across the end, by how far from it they began: 1 is the last place.
    puts: BTreeMap<(usize, usize), usize>,
    /// Removals across the end, by how far from it they began.
    removals: BTreeMap<(Removal, usize), usize>,
    /// The oldest places at which the store was full, turned something away and came out whole.
    pub full: BTreeSet<usize>,
    /// The places at which a cell was marked by a call of its own.
    pub marks: BTreeSet<usize>,
    /// Parts shown up to the last place: all that is held, not all of it, the last place alone, and
    /// any part of a full store.
    parts: [usize; PARTS.len()],
}

impl Met {
    pub fn nothing(len: usize) -> Met {
        Met {
            len,
            calls: 0,
            rounds: 0,
            puts: BTreeMap::new(),
            removals: BTreeMap::new(),
            full: BTreeSet::new(),
            marks: BTreeSet::new(),
            parts: [0; PARTS.len()],
        }
    }

    /// How far from the end this place is, if so many cells from it on are across the end: one of
    /// them is at the last place.
    fn far(&self, place: usize, cells: usize) -> Option<usize> {
        let far = self.len - place % self.len;
        (cells >= far).then_some(far)
    }

    /// Counts an offer by the rings before and after it.
    pub fn put(&mut self, [before, after]: [Ring; 2]) {
        let cells = after.held - before.held;
        if let Some(far) = self.far(before.oldest + before.held, cells) {
            *self.puts.entry((cells, far)).or_default() += 1;
        }
    }

    /// Counts a removal by the rings before and after it, and the end mark of what came out. Gives
    /// whether it was across the end.
    pub fn removal(&mut self, [before, after]: [Ring; 2], mark: Option<bool>) -> bool {
        let cells = before.held - after.held;
        let far = self.far(before.oldest, cells);
        if let Some(far) = far {
            *self.removals.entry(((cells, mark), far)).or_default() += 1;
        }
        far.is_some()
    }

    /// Counts a part, start above length, that was shown of this ring.
    pub fn part(&mut self, ring: Ring, part: u64) {
        let (start, len) = ((part >> 32) as usize, (part & 0xffff_ffff) as usize);
        if len > 0 && start + len == self.len {
            self.parts[usize::from(len < ring.held)] += 1;
            self.parts[2] += usize::from(len == 1);
            self.parts[3] += usize::from(ring.held == self.len);
        }
    }

    /// What has to be met and was not.
    pub fn missing<S: Store>(&self) -> Vec<String> {
        let mut missing = Vec::new();
        let mut ask = |met: bool, what: String| {
            if !met {
                missing.push(what);
            }
        };
        ask(self.rounds >= ROUNDS, format!("{ROUNDS} times round"));
        for &cells in S::PUTS {
            for far in 1..=cells {
                let met = self.puts.contains_key(&(cells, far));
                ask(met, format!("a put of {cells} from {far} before the end"));
            }
        }
        for &removal in S::REMOVALS.iter().filter(|(cells, _)| *cells <= self.len) {
            for far in 1..=removal.0 {
                let met = self.removals.contains_key(&(removal, far));
                ask(met, format!("{removal:?} gone from {far} before the end"));
            }
        }
        for place in full_at(self.len) {
            ask(self.full.contains(&place), format!("full at {place}"));
        }
        for place in full_at(self.len).into_iter().filter(|_| S::MARKS.is_some()) {
            ask(self.marks.contains(&place), format!("marked at {place}"));
        }
        for (&count, name) in self.parts.iter().zip(PARTS) {
            ask(count > 0, format!("a part at the end, {name}"));
        }
        missing
    }

    /// All that has to be met was met.
    pub fn assert_all<S: Store>(&self) {
        assert_eq!(self.missing::<S>(), Vec::<String>::new());
    }
}

/// The oldest places at which a store of this length has to be full: all, or those at the end.
pub fn full_at(len: usize) -> Vec<usize> {
    match len {
        0..=64 => (0..len).collect(),
        _ => vec![len - 2, len - 1, 0, 1],
    }
}

/// The names with their counts, but for those that are 0.
fn said(names: &[&str], counts: &[usize]) -> String {
    let met = names.iter().zip(counts).filter(|(_, count)| **count > 0);
    let said: Vec<String> = met.map(|(name, count)| format!("{name} {count}")).collect();
    said.join(", ")
}

impl fmt::Display for Met {
    fn fmt(&self, f: &mut fmt::Formatter) -> fmt::Result {
        let (mut put, mut gone) = ([0; 4], [0; 4]);
        for (&(cells, _), count) in &self.puts {
            put[cells.min(4) - 1] += count;
        }
        for (&(removal, _), count) in &self.removals {
            let size = match removal {
                (1, _) => 0,
                (2, None) => 1,
                (3, Some(true)) => 2,
                _ => 3,
            };
            gone[size] += count;
        }
        let (calls, rounds, full) = (self.calls, self.rounds, self.full.len());
        let marks = self.marks.len();
        let (put, gone) = (said(&SIZES, &put), said(&SIZES, &gone));
        let parts = said(&PARTS, &self.parts);
        write!(f, "{calls} calls, {rounds} times round; ")?;
        write!(f, "across the end put: {put}; removed: {gone}; ")?;
        write!(f, "full at {full} places; ")?;
        if marks > 0 {
            write!(f, "marked at {marks} places; ")?;
        }
        write!(f, "parts at the end: {parts}")
    }
}
