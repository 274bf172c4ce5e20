//! The implementations of a machine behind the block that are compared with each other.

use crate::lent::Lent;
use crate::machine::Machine;

/// One implementation: its create and its other calls.
#[derive(Clone, Copy)]
pub struct Implementation<M: Machine> {
    pub name: &'static str,
    /// Creates a state in the block, with the number that the machine's create takes.
    pub create: fn(Lent<M>, u32) -> u64,
    /// Makes a call.
    pub call: fn(Lent<M>, M::Call) -> u64,
}

/// Two that are compared.
pub type Both<M> = [Implementation<M>; 2];
