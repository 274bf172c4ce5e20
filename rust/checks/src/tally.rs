//! What was met, so that a reader sees that nothing was empty.

use crate::machine::Machine;
use model::boundary::{kind, value, DONE, REFUSED};
use std::fmt;
use std::marker::PhantomData;

/// The names of the kinds of answers.
const KINDS: [&str; 6] = ["done", "none", "bytes", "frames", "refused", "lines shown"];

/// Counts of the calls that were made on a machine.
#[derive(Clone, Debug)]
pub struct Tally<M: Machine> {
    pub runs: usize,
    pub calls: usize,
    /// Parts shown that are not empty.
    shown: usize,
    /// By kind of answer.
    kinds: [usize; KINDS.len()],
    /// By number; 0 stays empty.
    refused: [usize; 14],
    /// By the machine's rows.
    rows: [usize; 32],
    of: PhantomData<M>,
}

impl<M: Machine> Default for Tally<M> {
    fn default() -> Tally<M> {
        Tally {
            runs: 0,
            calls: 0,
            shown: 0,
            kinds: [0; KINDS.len()],
            refused: [0; 14],
            rows: [0; 32],
            of: PhantomData,
        }
    }
}

impl<M: Machine> Tally<M> {
    /// Counts a call by its answer, and by the bits of the rows in which it counts.
    pub fn note(&mut self, call: M::Call, answer: u64, mut rows: u32) {
        // A part that is shown has no kind, and those bits of it are 0.
        if M::shows(call) && kind(answer) == DONE {
            self.calls += 1;
            self.shown += usize::from(answer != 0);
        } else {
            self.answered(answer);
        }
        while rows != 0 {
            self.rows[rows.trailing_zeros() as usize] += 1;
            rows &= rows - 1;
        }
    }

    /// Counts a call by its answer alone.
    pub fn answered(&mut self, answer: u64) {
        self.calls += 1;
        self.kinds[kind(answer) as usize] += 1;
        if kind(answer) == REFUSED {
            self.refused[value(answer) as usize] += 1;
        }
    }

    /// Each of these refusals was met, and some other answer.
    pub fn assert_refusals(&self, numbers: &[usize]) {
        for &number in numbers {
            assert!(self.refused[number] > 0, "refusal {number} was never met");
        }
        assert!(self.calls > self.kinds[REFUSED as usize]);
    }

    /// This refusal was met so often at least, and what this row counts too.
    pub fn assert_often(&self, refusal: usize, name: &str, least: usize) {
        let refused = self.refused[refusal];
        assert!(refused >= least, "refusal {refusal}: {refused} times");
        let met = self.rows[row::<M>(name)];
        assert!(met >= least, "{name}: {met} times");
    }

    /// Each of these rows was met.
    pub fn assert_met(&self, names: &[&str]) {
        for name in names {
            assert!(self.rows[row::<M>(name)] > 0, "{name}: never met");
        }
    }

    /// Each of these kinds of answers, a part that was shown and every row of the machine was met.
    pub fn assert_answers_and_rows(&self, kinds: &[u64]) {
        for &kind in kinds {
            let name = KINDS[kind as usize];
            assert!(self.kinds[kind as usize] > 0, "{name}: never met");
        }
        assert!(self.shown > 0, "{self}");
        self.assert_met(M::ROWS);
    }

    /// The counts that are not 0 of these, each with its name.
    fn said<'a>(counts: &[usize], names: impl Iterator<Item = &'a str>) -> String {
        let rows = counts.iter().zip(names).filter(|row| *row.0 > 0);
        let said: Vec<String> = rows
            .map(|(count, name)| format!("{count} {name}"))
            .collect();
        said.join(", ")
    }
}

/// The place of the row with this name.
fn row<M: Machine>(name: &str) -> usize {
    let row = M::ROWS.iter().position(|row| *row == name);
    row.expect(name)
}

impl<M: Machine> fmt::Display for Tally<M> {
    fn fmt(&self, f: &mut fmt::Formatter) -> fmt::Result {
        let kinds = Tally::<M>::said(&self.kinds, KINDS.into_iter());
        write!(f, "    answers: {kinds}, {} shown", self.shown)?;
        let refused = self.refused.iter().enumerate().filter(|row| *row.1 > 0);
        let refused: Vec<String> = refused.map(|(n, count)| format!("{n}: {count}")).collect();
        if !refused.is_empty() {
            write!(f, "\n    refusals by number: {}", refused.join(", "))?;
        }
        let rows = Tally::<M>::said(&self.rows, M::ROWS.iter().copied());
        if !rows.is_empty() {
            write!(f, "\n    {rows}")?;
        }
        Ok(())
    }
}
