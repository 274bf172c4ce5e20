//! Drives a pair through a run.

use crate::machine::{Machine, Made, Stores, Watcher};
use crate::pair::Pair;
use crate::random::Random;
use crate::runs::Drawable;
use crate::tally::Tally;

/// What a step does: a call that may depend on the state of the moment.
pub trait What<M: Machine>: Copy {
    /// The call in this state, if it is done this often already in a row.
    fn call(self, state: &M::State, done: u8) -> M::Call;

    /// The same where it depends on what the stores hold too.
    fn call_on(self, state: &M::State, _stores: Stores<M>, done: u8) -> M::Call {
        self.call(state, done)
    }
}

/// A step: a thing that is often done several times in a row.
#[derive(Clone, Copy, Debug)]
pub struct Step<W> {
    what: W,
    /// How often it is done already in this row.
    done: u8,
}

/// The steps of so many rows, from one on and below a bound.
pub fn steps<M: Drawable>(random: &mut Random, rows: usize) -> Vec<Step<M::What>> {
    let rows = random.within(1..=rows - 1);
    let row = |_| {
        let (what, most) = M::what(random);
        let times = random.within(1..=most.into()) as u8;
        (0..times).map(move |done| Step { what, done })
    };
    (0..rows).flat_map(row).collect()
}

/// Makes every step on both sides, and holds them to the laws by the run's history.
pub fn drive<M: Machine, W: What<M>>(
    pair: Pair<M>,
    steps: &[Step<W>],
    tally: &mut Tally<M>,
) -> Result<(), String> {
    let call = |step: &Step<W>, state: &M::State, stores: Stores<M>| {
        step.what.call_on(state, stores, step.done)
    };
    run(pair, steps, call, tally)
}

/// Makes a call for each of these on both sides, by the state and the stores before it, and holds
/// them to the laws by the run's history.
pub fn run<M: Machine, T>(
    mut pair: Pair<M>,
    steps: &[T],
    call: impl Fn(&T, &M::State, Stores<M>) -> M::Call,
    tally: &mut Tally<M>,
) -> Result<(), String> {
    tally.runs += 1;
    let mut before = pair.state().ok_or("the run starts at no state")?;
    let mut run = M::Run::starting(&before, pair.buffers().stores());
    for step in steps {
        let call = call(step, &before, pair.buffers().stores());
        let answer = pair.call(call)?;
        let after = pair.state().ok_or_else(|| pair.told("no state"))?;
        let noted = run.note(&Made {
            before: &before,
            call,
            answer,
            after: &after,
            stores: pair.buffers().stores(),
        });
        let rows = noted.map_err(|finding| pair.told(&finding))?;
        tally.note(call, answer, rows);
        before = after;
    }
    let checked = run.check(&before, pair.buffers().stores());
    checked.map_err(|finding| pair.told(&finding))
}

/// Makes these calls on both sides, whatever the block means, and last a create with this number.
pub fn make_all<M: Machine>(
    mut pair: Pair<M>,
    calls: &[M::Call],
    number: u32,
    tally: &mut Tally<M>,
) -> Result<(), String> {
    tally.runs += 1;
    for &call in calls {
        let answer = pair.call(call)?;
        tally.note(call, answer, 0);
    }
    tally.answered(pair.recreate(number)?);
    Ok(())
}
