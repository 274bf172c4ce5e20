//! The three kinds of runs that are drawn of any machine, and how each is driven.

use crate::damage::damage;
use crate::draw::{Difference, Draws};
use crate::drive::{drive, make_all, steps, What};
use crate::implementation::Both;
use crate::machine::{Machine, Stores};
use crate::pair::Pair;
use crate::random::Random;
use crate::tally::Tally;
use std::fmt;

/// What is drawn of a machine.
pub trait Drawable: Machine {
    type What: What<Self>;

    /// Lengths of the stores and the number for create, such that create takes them.
    fn sizes(random: &mut Random) -> ([usize; 2], u32);

    /// A state with every field drawn from its range, most of which calls never reach.
    fn drawn(random: &mut Random) -> Drawn<Self>;

    /// What a step does, and how often it is done at most.
    fn what(random: &mut Random) -> (Self::What, u8);

    /// Every call once, with numbers in and out of range.
    fn every_call(number: u32) -> Vec<Self::Call>;

    /// A number for create, in and out of range.
    fn number(number: u32) -> u32;
}

/// A state with its block and its stores.
pub struct Drawn<M: Machine> {
    pub state: M::State,
    pub block: Vec<u8>,
    pub one: Vec<M::One>,
    pub other: Vec<M::Other>,
}

impl<M: Machine> Drawn<M> {
    pub fn stores(&self) -> Stores<'_, M> {
        (&self.one, &self.other)
    }
}

impl<M: Machine> fmt::Debug for Drawn<M> {
    fn fmt(&self, f: &mut fmt::Formatter) -> fmt::Result {
        write!(f, "{:?}", self.state)
    }
}

/// A store of cells with any bits, also those that do not count; four from each number drawn.
pub fn cells(random: &mut Random, len: usize) -> Vec<u16> {
    let four = |_| {
        let number = random.number();
        [0, 16, 32, 48].map(|shift| (number >> shift) as u16)
    };
    (0..len).step_by(4).flat_map(four).take(len).collect()
}

/// The place of the oldest cell of a ring, and how many it holds: mostly near full or near empty.
pub fn places(random: &mut Random, len: usize) -> [usize; 2] {
    let few = random.below(usize::min(len, 5));
    [
        random.one_of(&[0, few, len - 1 - few, len / 2]),
        random.one_of(&[len - few, len, few, len / 2]),
    ]
}

/// A kind of runs, and how many of them are drawn.
#[derive(Clone, Copy)]
pub struct Kind<M: Machine> {
    runs: usize,
    /// Gives the first difference between two implementations, if there is one.
    difference: fn(Both<M>, Draws, &mut Tally<M>) -> Option<Difference>,
}

impl<M: Drawable> Kind<M> {
    /// Long runs from create, on stores of all sizes.
    pub const FROM_CREATE: Kind<M> = Kind {
        runs: 2000,
        difference: from_create,
    };

    /// Short runs from states that fit, most of which calls never reach.
    pub const FROM_STATES: Kind<M> = Kind {
        runs: 4000,
        difference: from_states,
    };

    /// Every call on blocks that are damaged, and on blocks and stores of other lengths.
    pub const ON_DAMAGED: Kind<M> = Kind {
        runs: 5000,
        difference: on_damaged,
    };

    /// Runs in which these two never differ.
    pub fn held(self, name: &str, both: Both<M>) -> Tally<M> {
        let draws = Draws::asked_for(self.runs);
        // Said first, so that a run that dies without a word can be had again.
        println!("at random, {name}: AT_RANDOM_SEED={}", draws.seed);
        let mut tally = Tally::default();
        if let Some(found) = (self.difference)(both, draws, &mut tally) {
            let (seed, told, start) = (draws.seed, found.told, found.start);
            panic!("{name}, AT_RANDOM_SEED={seed}: {told}\nstarted at {start}");
        }
        let (runs, calls) = (tally.runs, tally.calls);
        println!("at random, {name}: {runs} runs, {calls} calls compared\n{tally}");
        tally
    }

    /// The first difference between these two in the runs that are the same every time.
    pub fn found(self, both: Both<M>) -> Option<Difference> {
        let draws = Draws {
            runs: self.runs,
            seed: 0,
        };
        (self.difference)(both, draws, &mut Tally::default())
    }
}

fn from_create<M: Drawable>(
    both: Both<M>,
    draws: Draws,
    tally: &mut Tally<M>,
) -> Option<Difference> {
    draws.first_difference(
        |random| (M::sizes(random), steps::<M>(random, 200)),
        |(lens, number), steps| drive(Pair::created(both, *lens, *number), steps, tally),
    )
}

fn from_states<M: Drawable>(
    both: Both<M>,
    draws: Draws,
    tally: &mut Tally<M>,
) -> Option<Difference> {
    draws.first_difference(
        |random| (M::drawn(random), steps::<M>(random, 20)),
        |drawn, steps| {
            let pair = Pair::of(both, &drawn.block, drawn.stores());
            drive(pair, steps, tally)
        },
    )
}

fn on_damaged<M: Drawable>(
    both: Both<M>,
    draws: Draws,
    tally: &mut Tally<M>,
) -> Option<Difference> {
    draws.first_difference(
        |random| {
            let number = random.word();
            let start = (M::drawn(random), damage::<M>(random), number);
            (start, M::every_call(number))
        },
        |(drawn, damage, number), calls| {
            let pair = damage.pair(both, &drawn.block, drawn.stores());
            make_all(pair, calls, M::number(*number), tally)
        },
    )
}
