//! Marks that go elsewhere, that are forgotten or added, or that outlive their byte.

use super::place;
use crate::bridge::call::Call;
use crate::bridge::planted::{fitting, Implementation};
use crate::bridge::rule::BREAK;
use crate::bridge::{Lent, TheBridge};
use crate::planted::{planted, right};
use model::{block, Bridge};

/// Takes a break as the model does, and then writes the store that was there before otherwise.
fn breaking(mut lent: Lent, call: Call, write: impl FnOnce(&Bridge, &mut [u16])) -> u64 {
    let (before, kept) = (fitting(&lent), lent.one.to_vec());
    let answer = right::<TheBridge>(lent.again(), call);
    if let (Call::Break, Some(before)) = (call, before) {
        lent.one.copy_from_slice(&kept);
        write(&before, lent.one);
    }
    answer
}

/// Takes a break as the model does, and then makes another cell of the newest one that is held.
fn marking(lent: Lent, call: Call, marked: fn(&Bridge, u16) -> u16) -> u64 {
    breaking(lent, call, |state, store| {
        if state.receive.held > 0 {
            let newest = place(state, state.receive.held - 1);
            store[newest] = marked(state, store[newest]);
        }
    })
}

/// The cell that a break leaves.
fn right_mark(cell: u16) -> u16 {
    cell & 255 | BREAK
}

/// A break marks the oldest cell that is held.
pub const OLDEST_MARKED: Implementation = planted(|lent, call| {
    breaking(lent, call, |state, store| {
        if state.receive.held > 0 {
            let oldest = state.receive.oldest;
            store[oldest] = right_mark(store[oldest]);
        }
    })
});

/// A break with nothing held marks the cell that went last.
pub const GONE_MARKED: Implementation = planted(|lent, call| {
    breaking(lent, call, |state, store| {
        let newest = place(state, state.receive_len + state.receive.held - 1);
        store[newest] = right_mark(store[newest]);
    })
});

/// A break puts a cell of its own, behind the newest one.
pub const MARK_TAKES_A_PLACE: Implementation = planted(|mut lent, call| {
    let before = fitting(&lent);
    let answer = breaking(lent.again(), call, |state, store| {
        if (1..state.receive_len).contains(&state.receive.held) {
            store[place(state, state.receive.held)] = BREAK;
        }
    });
    let room = |state: &Bridge| (1..state.receive_len).contains(&state.receive.held);
    if let (Call::Break, Some(_), Some(mut after)) = (call, before.filter(room), fitting(&lent)) {
        after.receive.held += 1;
        lent.block.copy_from_slice(&block::pack(&after));
    }
    answer
});

/// The mark is forgotten where the newest cell is in a place that came round.
pub const MARK_FORGOTTEN_ROUND: Implementation = planted(|lent, call| {
    marking(lent, call, |state, cell| {
        match state.receive.oldest + state.receive.held > state.receive_len {
            true => cell,
            false => right_mark(cell),
        }
    })
});

/// While ends of lines are not found, a break leaves no mark.
pub const NO_MARK_WITHOUT_THE_RULE: Implementation = planted(|lent, call| {
    marking(lent, call, |state, cell| match state.registers.r10 & 8 {
        0 => cell,
        _ => right_mark(cell),
    })
});

/// A break adds its mark, so that a second one at the same place takes it away again.
pub const MARKS_ADDED: Implementation =
    planted(|lent, call| marking(lent, call, |_, cell| cell.wrapping_add(BREAK)));

/// A break leaves the bits above the mark as they are.
pub const UPPER_BITS_STAY: Implementation =
    planted(|lent, call| marking(lent, call, |_, cell| cell | BREAK));

/// A byte keeps the mark that its place had.
pub const MARK_OUTLIVES_ITS_BYTE: Implementation = planted(|mut lent, call| {
    let (before, kept) = (fitting(&lent), lent.one.to_vec());
    let answer = right::<TheBridge>(lent.again(), call);
    if let (Call::Line(_), Some(before), Some(after)) = (call, before, fitting(&lent)) {
        if after.stored != before.stored {
            let newest = place(&before, before.receive.held);
            lent.one[newest] |= kept[newest] & BREAK;
        }
    }
    answer
});

/// A byte that is lost marks the newest cell, as if it were a break.
pub const LOST_BYTE_MARKS: Implementation = planted(|mut lent, call| {
    let before = fitting(&lent);
    let answer = right::<TheBridge>(lent.again(), call);
    if let (Call::Line(_), Some(before), Some(after)) = (call, before, fitting(&lent)) {
        if after.lost != before.lost {
            let newest = place(&before, before.receive.held - 1);
            lent.one[newest] = right_mark(lent.one[newest]);
        }
    }
    answer
});
