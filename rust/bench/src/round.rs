//! A round: the calls that a work makes over and over, written down once.
//!
//! The calls of a work depend on the answers, as a returned frame is the frame that was sent. The
//! model is asked once; after that every side gets the same calls, and a side that answers
//! otherwise shows in the checksum.

use crate::desk::Desk;
use crate::machine::Machine;

/// A call and the answer that it had when it was written down.
#[derive(Clone, Copy)]
pub struct Step<C> {
    pub call: C,
    pub answer: u64,
}

/// The set-up and one round of a work for stores of one size.
pub struct Round<C> {
    pub set_up: Vec<Step<C>>,
    pub steps: Vec<Step<C>>,
    /// How many bytes cross in a round, or how many status bytes are told.
    pub bytes: usize,
}

/// Writes down a work's set-up and its first round; `compare` holds every other round to it.
pub fn written_down<M: Machine>(work: M::Work, store: usize) -> Round<M::Call> {
    let model = M::side("model").expect("every machine has a model");
    let mut desk = Desk::<M>::new(model, store);
    let mut made = |call| Step {
        call,
        answer: desk.call(call),
    };
    let calls = M::set_up(work, store).into_iter();
    let set_up = calls.map(&mut made).collect();
    let mut steps: Vec<Step<M::Call>> = Vec::new();
    M::round(work, &mut |call| {
        let step = made(call);
        steps.push(step);
        step.answer
    });
    let crosses = |step: &&Step<M::Call>| M::crosses(work, step.call, step.answer);
    let bytes = steps.iter().filter(crosses).count();
    Round {
        set_up,
        steps,
        bytes,
    }
}
