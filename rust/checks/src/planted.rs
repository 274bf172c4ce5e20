//! Faults that any machine can have, planted in its model: the checks must find every one.

use crate::implementation::Implementation;
use crate::lent::Lent;
use crate::machine::Machine;
use model::boundary::{kind, REFUSED};

/// The model with this way to make calls.
pub const fn planted<M: Machine>(call: fn(Lent<M>, M::Call) -> u64) -> Implementation<M> {
    Implementation {
        name: "planted",
        create: M::BOTH[1].create,
        call,
    }
}

/// Makes a call as the model does.
pub fn right<M: Machine>(lent: Lent<M>, call: M::Call) -> u64 {
    (M::BOTH[1].call)(lent, call)
}

/// A call that is refused as busy still changes this flag of the block.
pub fn refused_yet_changed<M: Machine, const PLACE: usize>(
    mut lent: Lent<M>,
    call: M::Call,
) -> u64 {
    let answer = right::<M>(lent.again(), call);
    if answer == REFUSED << 16 | 4 && lent.block.len() == M::BLOCK_LEN {
        lent.block[PLACE] ^= 1;
    }
    answer
}

/// The last place of this store, the first or the second, is never written.
pub fn last_place_unwritten<M: Machine, const STORE: usize>(
    mut lent: Lent<M>,
    call: M::Call,
) -> u64 {
    let last = (lent.one.last().copied(), lent.other.last().copied());
    let answer = right::<M>(lent.again(), call);
    match STORE {
        0 => put_back(lent.one, last.0),
        _ => put_back(lent.other, last.1),
    }
    answer
}

/// Writes the last place of a store, if it has one.
fn put_back<C>(store: &mut [C], last: Option<C>) {
    if let (Some(place), Some(cell)) = (store.last_mut(), last) {
        *place = cell;
    }
}

/// Blocks of this version are taken as ours.
pub fn version_taken<M: Machine, const VERSION: u8>(lent: Lent<M>, call: M::Call) -> u64 {
    if let Some(version) = lent.block.first_mut() {
        if *version == VERSION {
            *version = M::VERSION;
        }
    }
    right::<M>(lent, call)
}

/// Makes a call as the model does and then changes the state, given the state before the call. A
/// call that is refused or only looks is left alone.
pub fn changed<M: Machine>(
    mut lent: Lent<M>,
    call: M::Call,
    change: impl FnOnce(&M::State, &mut M::State),
) -> u64 {
    let before = M::state(lent.block);
    let answer = right::<M>(lent.again(), call);
    let quiet = M::looks(call) || kind(answer) == REFUSED;
    if let (Some(before), Some(mut after), false) = (before, M::state(lent.block), quiet) {
        change(&before, &mut after);
        M::pack(&after, lent.block);
    }
    answer
}
