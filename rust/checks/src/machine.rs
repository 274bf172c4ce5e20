//! What the checks ask of a machine: calls behind a block and two lent stores, and its history.

use crate::implementation::Both;
use crate::written::Beginning;
use std::fmt::{self, Debug, Display};
use std::hash::Hash;

/// One cell of a store: a byte, or 16 bits.
pub trait Cell: Copy + Debug + Default + Display + Eq + Hash + 'static {
    /// What stands around a store, where no call may write.
    const GUARD: Self;
}

impl Cell for u8 {
    const GUARD: u8 = 0xa5;
}

impl Cell for u16 {
    const GUARD: u16 = 0xa5c3;
}

/// A machine whose implementations are compared. The type itself is a name and holds nothing.
pub trait Machine: Copy + Debug + Eq + Hash + 'static {
    /// What its first store is of.
    type One: Cell;
    /// What its second store is of.
    type Other: Cell;
    /// A call on a state, its three buffers aside.
    type Call: Copy + Debug + Display + 'static;
    /// What a block means.
    type State: Debug;
    /// A watcher that is small enough to be part of the states of an exploration.
    type Watch: Watcher<Self> + Copy + Debug + Eq + Hash;
    /// A watcher that keeps a run whole.
    type Run: Watcher<Self>;
    /// How long a block is.
    const BLOCK_LEN: usize;
    /// What its first byte is.
    const VERSION: u8;
    /// What the two stores are called.
    const STORES: [&'static str; 2];
    /// What a watcher counts, by the bits of what it saw.
    const ROWS: &'static [&'static str];
    /// What is compared unless something else is said: the archive and the model.
    const BOTH: Both<Self>;

    /// The state in a block, if it is one.
    fn state(block: &[u8]) -> Option<Self::State>;

    /// Writes a state to its block.
    fn pack(state: &Self::State, block: &mut [u8]);

    /// Whether a call shows a store: it changes nothing, and its answer is a part.
    fn shows(call: Self::Call) -> bool;

    /// Whether a call changes nothing: it shows a store or, where a machine says so, something
    /// else.
    fn looks(call: Self::Call) -> bool {
        Self::shows(call)
    }

    /// The frame under way comes back with these bits changed; `None` where that cannot come.
    fn back(state: &Self::State, change: u16) -> Option<Self::Call>;

    /// Takes what only counts out of a block, so that states that differ in nothing else are one.
    fn forget_counts(_block: &mut [u8]) {}

    /// Writes how a run begins.
    fn begins(beginning: &Beginning<Self>, f: &mut fmt::Formatter) -> fmt::Result;
}

/// Both stores of a machine.
pub type Stores<'a, M> = (&'a [<M as Machine>::One], &'a [<M as Machine>::Other]);

/// A call that was made.
pub struct Made<'a, M: Machine> {
    pub before: &'a M::State,
    pub call: M::Call,
    pub answer: u64,
    pub after: &'a M::State,
    /// Both stores after it.
    pub stores: Stores<'a, M>,
}

/// A history that goes along with a run, and the laws that it holds the run to.
pub trait Watcher<M: Machine>: Sized {
    /// A run that starts at any state that fits, with these stores.
    fn starting(state: &M::State, stores: Stores<M>) -> Self;

    /// Takes note of a call and holds what it left to the laws. Gives a bit for each of the
    /// machine's rows that the call counts in.
    fn note(&mut self, made: &Made<M>) -> Result<u32, String>;

    /// Holds the end of a run to what only shows there.
    fn check(&self, _state: &M::State, _stores: Stores<M>) -> Result<(), String> {
        Ok(())
    }
}
