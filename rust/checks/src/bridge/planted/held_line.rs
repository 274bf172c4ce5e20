//! Wrong bridges that change the reading rule under a held line, that refuse it in vain, or that refuse
//! it out of order.

use super::{as_if_empty, fitting, Implementation};
use crate::bridge::call::Call;
use crate::bridge::{Lent, TheBridge};
use crate::planted::{planted, right};
use model::boundary::REFUSED;
use model::{block, Bridge, Ring, ACTIVE_DATA};

/// The refusal of a rule that would change under a held line.
const HELD_BYTES: u64 = REFUSED << 16 | 10;

/// Faults by which bytes are read by another rule than the one in force when they were accepted, or not
/// at all, so that the history alone finds them.
pub const SEEN: [(&str, Implementation); 3] = [
    ("R10 let through", R10_LET_THROUGH),
    ("all three let through", ALL_LET_THROUGH),
    ("taken, and the store emptied", TAKEN_AND_EMPTIED),
];

/// Faults by which a write is answered otherwise and every byte is read as it should be.
pub const ANSWERED: [(&str, Implementation); 6] = [
    ("refused only where it changes", REFUSED_WHERE_CHANGED),
    ("let through while the rule is off", LET_THROUGH_WHILE_OFF),
    ("refused while a frame is under way", REFUSED_UNDER_WAY),
    ("the other store looked at", OTHER_STORE_LOOKED_AT),
    ("every register refused", EVERY_REGISTER_REFUSED),
    ("10 before 6 and 7", TEN_BEFORE_SIX_AND_SEVEN),
];

/// Takes a write that is refused for held bytes where this says so.
fn letting_through(lent: Lent, call: Call, through: impl FnOnce(&Bridge, u32, u32) -> bool) -> u64 {
    match (call, fitting(&lent)) {
        (Call::Register(number, value), Some(state)) if through(&state, number, value) => {
            as_if_empty(lent, call, &state)
        }
        _ => right::<TheBridge>(lent, call),
    }
}

/// Refuses a write for held bytes where this says so and the model takes it.
fn refusing(mut lent: Lent, call: Call, refuses: impl FnOnce(&Bridge, u32) -> bool) -> u64 {
    let (before, kept) = (fitting(&lent), lent.block.to_vec());
    let answer = right::<TheBridge>(lent.again(), call);
    match (call, before) {
        (Call::Register(number, _), Some(state)) if answer == 0 && refuses(&state, number) => {
            lent.block.copy_from_slice(&kept);
            HELD_BYTES
        }
        _ => answer,
    }
}

/// Whether a register is of the reading rule.
fn of_the_rule(number: u32) -> bool {
    matches!(number, 10 | 16 | 17)
}

/// R10 is written also while something is held.
pub const R10_LET_THROUGH: Implementation =
    planted(|lent, call| letting_through(lent, call, |_, number, _| number == 10));

/// R10, C00 and C01 are written also while something is held: the rest of a line is read by the new rule.
pub const ALL_LET_THROUGH: Implementation =
    planted(|lent, call| letting_through(lent, call, |_, number, _| of_the_rule(number)));

/// A write of the value that the register has already is taken.
pub const REFUSED_WHERE_CHANGED: Implementation = planted(|lent, call| {
    letting_through(lent, call, |state, number, value| {
        let r = &state.registers;
        [(10, r.r10), (16, r.c[0]), (17, r.c[1])].contains(&(number, value as u8))
    })
});

/// While ends of lines are not found, C00 and C01 are written also while something is held: they mean
/// nothing then.
pub const LET_THROUGH_WHILE_OFF: Implementation = planted(|lent, call| {
    letting_through(lent, call, |state, number, _| {
        state.registers.r10 & 8 == 0 && matches!(number, 16 | 17)
    })
});

/// A write is refused also while only a frame is under way.
pub const REFUSED_UNDER_WAY: Implementation = planted(|lent, call| {
    refusing(lent, call, |state, number| {
        of_the_rule(number) && state.talker == ACTIVE_DATA
    })
});

/// A write is refused while the transmit store holds something.
pub const OTHER_STORE_LOOKED_AT: Implementation = planted(|lent, call| {
    refusing(lent, call, |state, number| {
        of_the_rule(number) && state.transmit.held > 0
    })
});

/// No register is written while something is held.
pub const EVERY_REGISTER_REFUSED: Implementation =
    planted(|lent, call| refusing(lent, call, |state, _| state.receive.held > 0));

/// The write is taken, and what was held is thrown away.
pub const TAKEN_AND_EMPTIED: Implementation = planted(|mut lent, call| {
    let answer = right::<TheBridge>(lent.again(), call);
    match fitting(&lent) {
        Some(state) if answer == HELD_BYTES => {
            let mut empty = state;
            empty.receive = Ring { oldest: 0, held: 0 };
            lent.block.copy_from_slice(&block::pack(&empty));
            right::<TheBridge>(lent, call)
        }
        _ => answer,
    }
});

/// Held bytes are the reason where the value is one too.
pub const TEN_BEFORE_SIX_AND_SEVEN: Implementation = planted(|lent, call| {
    let held = fitting(&lent).map_or(false, |state| state.receive.held > 0);
    match call {
        Call::Register(number, _) if held && of_the_rule(number) => HELD_BYTES,
        _ => right::<TheBridge>(lent, call),
    }
});

/// Held bytes are the reason where the block is no state that fits the stores too.
pub const TEN_BEFORE_TWO: Implementation = planted(|lent, call| {
    let held = block::unpack(lent.block).map_or(false, |state| state.receive.held > 0);
    let answer = right::<TheBridge>(lent, call);
    match call {
        Call::Register(number, _) if held && of_the_rule(number) && answer == REFUSED << 16 | 2 => {
            HELD_BYTES
        }
        _ => answer,
    }
});
