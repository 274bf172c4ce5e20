//! What was asked, written down so that it can be had again.

use crate::machine::{Machine, Stores};
use std::fmt;

/// The beginning of a run and its calls so far. It is printed with a call in each line.
#[derive(Clone, Debug)]
pub struct Written<M: Machine> {
    beginning: Beginning<M>,
    calls: Vec<M::Call>,
}

/// How a run begins.
#[derive(Clone, Debug)]
pub enum Beginning<M: Machine> {
    /// With create on fresh stores of these lengths, and the number that create takes.
    Created([usize; 2], u32),
    /// With what these hold, whatever it means: the block and the stores.
    Holding(Vec<u8>, Vec<M::One>, Vec<M::Other>),
}

impl<M: Machine> Written<M> {
    /// A run that begins with create.
    pub fn created(lens: [usize; 2], number: u32) -> Written<M> {
        Written::beginning(Beginning::Created(lens, number))
    }

    /// A run that begins with these buffers, whatever they mean.
    pub fn holding(block: &[u8], (one, other): Stores<M>) -> Written<M> {
        let (one, other) = (one.to_vec(), other.to_vec());
        Written::beginning(Beginning::Holding(block.to_vec(), one, other))
    }

    fn beginning(beginning: Beginning<M>) -> Written<M> {
        Written {
            beginning,
            calls: Vec::new(),
        }
    }

    /// Adds a call.
    pub fn add(&mut self, call: M::Call) {
        self.calls.push(call);
    }

    /// How many calls were added.
    pub fn asked(&self) -> usize {
        self.calls.len()
    }
}

impl<M: Machine> fmt::Display for Written<M> {
    fn fmt(&self, f: &mut fmt::Formatter) -> fmt::Result {
        M::begins(&self.beginning, f)?;
        self.calls.iter().try_for_each(|call| writeln!(f, "{call}"))
    }
}

/// A finding, and the script that leads to it.
pub fn told<M: Machine>(finding: &str, script: &Written<M>) -> String {
    format!("{finding}, {AFTER}{script}")
}

/// What stands between a finding and its script.
const AFTER: &str = "after this script:\n";

/// The script in what was told of a finding.
pub fn script_in(told: &str) -> Option<&str> {
    told.split_once(AFTER).map(|(_, script)| script)
}
