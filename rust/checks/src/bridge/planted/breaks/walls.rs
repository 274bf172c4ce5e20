//! Breaks that part nothing, too little or too much when frames are read.

use super::{held, place};
use crate::bridge::call::Call;
use crate::bridge::planted::{as_if_empty, fitting, Implementation};
use crate::bridge::rule::BREAK;
use crate::bridge::{Lent, TheBridge};
use crate::planted::{planted, right};
use model::{block, Bridge, ACTIVE_DATA, ADDRESSED, SERVICE};

/// Takes a frame as the model does, but with what it reads of the cells that are held; frames write
/// none.
fn reading(mut lent: Lent, call: Call, read: fn(&Bridge, &[u16], usize) -> u16) -> u64 {
    let state = match (call, fitting(&lent)) {
        (Call::Frame(_), Some(state)) => state,
        _ => return right::<TheBridge>(lent, call),
    };
    let (kept, held) = (lent.one.to_vec(), held(&state, lent.one));
    for index in 0..held.len() {
        lent.one[place(&state, index)] = read(&state, &held, index);
    }
    let answer = right::<TheBridge>(lent.again(), call);
    lent.one.copy_from_slice(&kept);
    answer
}

/// No break is a wall: 13, break, 10 is an end of line.
pub const NO_WALL: Implementation =
    planted(|lent, call| reading(lent, call, |_, held, index| held[index] & 255));

/// A break is a wall only inside the pair: in 50, break, 13, 10 the 50 is an end byte.
pub const WALL_ONLY_INSIDE: Implementation = planted(|lent, call| {
    reading(lent, call, |state, held, index| {
        let pair = [state.registers.c[0], state.registers.c[1]].map(u16::from);
        let after = held.get(index + 1..index + 3);
        match after.map_or(false, |next| next[0] == pair[0] && next[1] & 255 == pair[1]) {
            true => held[index] & 255,
            false => held[index],
        }
    })
});

/// The bits above the mark count as one.
pub const UPPER_BITS_COUNT: Implementation = planted(|lent, call| {
    reading(lent, call, |_, held, index| match held[index] {
        cell @ 512.. => cell | BREAK,
        cell => cell,
    })
});

/// Whether a call is a send in this state.
fn sends(state: &Bridge, call: Call) -> bool {
    match call {
        Call::Frame(0x560) => state.talker == ADDRESSED,
        Call::Frame(frame @ 0..=1023) => {
            let unchanged = (frame as u16 ^ state.under_way) & !SERVICE == 0;
            state.talker == ACTIVE_DATA && unchanged && !state.finishing
        }
        _ => false,
    }
}

/// How many of the cells held are the undecided bytes before a break, if those are the oldest ones.
fn undecided(state: &Bridge, store: &[u16]) -> Option<usize> {
    let (held, c00) = (held(state, store), u16::from(state.registers.c[0]));
    let marked = |index: usize| held.get(index).map_or(false, |cell| cell & BREAK != 0);
    let first = held.get(1).map(|cell| cell & 255) == Some(c00);
    match state.registers.r10 & 8 != 0 {
        true if marked(0) => Some(1),
        true if marked(1) && first => Some(2),
        _ => None,
    }
}

/// Bytes that are undecided at a break wait for ever.
pub const HELD_BACK_FOR_EVER: Implementation = planted(|lent, call| match fitting(&lent) {
    Some(state) if sends(&state, call) && undecided(&state, lent.one).is_some() => {
        as_if_empty(lent, call, &state)
    }
    _ => right::<TheBridge>(lent, call),
});

/// Bytes that are undecided at a break are thrown away.
pub const THROWN_AWAY: Implementation = planted(|lent, call| {
    let gone = fitting(&lent).filter(|state| sends(state, call));
    let gone = gone.and_then(|state| Some((state, undecided(&state, lent.one)?)));
    if let Some((mut state, count)) = gone {
        state.receive.oldest = place(&state, count);
        state.receive.held -= count;
        lent.block.copy_from_slice(&block::pack(&state));
    }
    right::<TheBridge>(lent, call)
});
