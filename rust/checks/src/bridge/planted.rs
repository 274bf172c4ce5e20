//! Wrong bridges, each the model with one fault planted: the checks must find every one.

pub mod ask_take;
pub mod breaks;
pub mod held_line;

use super::call::Call;
use super::{Lent, TheBridge};
use crate::implementation::Implementation as Any;
use crate::planted::{
    changed, last_place_unwritten, planted, refused_yet_changed, right, version_taken,
};
use model::boundary::{kind, REFUSED};
use model::{block, Bridge};

type Implementation = Any<TheBridge>;

/// A lost byte sets no overrun bit: the fault by which a point was lost unheard.
pub const SILENT_LOSS: Implementation = planted(|lent, call| {
    changed::<TheBridge>(lent, call, |before, after| {
        if after.lost != before.lost {
            after.overrun_seen = before.overrun_seen;
        }
    })
});

/// The frames sent stop being counted at the largest number, which no run from create reaches.
pub const STUCK_COUNT: Implementation = planted(|lent, call| {
    changed::<TheBridge>(lent, call, |before, after| {
        if before.sent == u32::MAX && !matches!(call, Call::Reset) {
            after.sent = before.sent;
        }
    })
});

/// A frame that is refused as busy still ends the remote state.
pub const REFUSED_YET_CHANGED: Implementation = planted(refused_yet_changed::<TheBridge, 55>);

/// The last place of the receive store is never written.
pub const LAST_PLACE_UNWRITTEN: Implementation = planted(last_place_unwritten::<TheBridge, 0>);

/// Blocks of version 0 are taken as ours.
pub const ANOTHER_VERSION_TAKEN: Implementation = planted(version_taken::<TheBridge, 0>);

/// Blocks of version 2 are taken as ours, whose receive store had bytes.
pub const VERSION_BEFORE_TAKEN: Implementation = planted(version_taken::<TheBridge, 2>);

/// The state in the block, if it is one that fits the stores.
fn fitting(lent: &Lent) -> Option<Bridge> {
    block::unpack(lent.block).filter(|state| state.fits(lent.one.len(), lent.other.len()))
}

/// Makes a call as the model does that holds nothing from the line, and then holds what it held.
fn as_if_empty(mut lent: Lent, call: Call, state: &Bridge) -> u64 {
    let mut none = *state;
    none.receive.held = 0;
    lent.block.copy_from_slice(&block::pack(&none));
    let answer = right::<TheBridge>(lent.again(), call);
    if let Some(mut after) = block::unpack(lent.block) {
        (after.receive, after.holding) = (state.receive, state.holding);
        lent.block.copy_from_slice(&block::pack(&after));
    }
    answer
}

/// What is free in the receive and in the transmit store.
fn free(state: &Bridge) -> [usize; 2] {
    [
        state.receive_len.saturating_sub(state.receive.held),
        state.transmit_len.saturating_sub(state.transmit.held),
    ]
}

/// Makes a call as the model does and tells another room: the one that is picked from what was free
/// before the call and what is free after it, in the place of the right one.
fn telling(
    mut lent: Lent,
    call: Call,
    pick: fn(before: [usize; 2], after: [usize; 2], of: usize) -> usize,
) -> u64 {
    let before = block::unpack(lent.block);
    let answer = right::<TheBridge>(lent.again(), call);
    let of = match call {
        Call::Line(_) => 0,
        Call::Frame(_) => 1,
        _ => return answer,
    };
    match (before, block::unpack(lent.block)) {
        (Some(before), Some(after)) if kind(answer) != REFUSED => {
            let room = pick(free(&before), free(&after), of);
            answer & 0xffff_ffff | (room as u64) << 32
        }
        _ => answer,
    }
}

/// The room told is that from before the call.
pub const ROOM_BEFORE: Implementation =
    planted(|lent, call| telling(lent, call, |before, _, of| before[of]));

/// The room told is that of the other store.
pub const OTHER_STORES_ROOM: Implementation =
    planted(|lent, call| telling(lent, call, |_, after, of| after[1 - of]));

/// No room is told where nothing went in: at go, at stop, and at a frame that stores nothing.
pub const ROOM_ONLY_WHERE_STORED: Implementation = planted(|lent, call| {
    telling(lent, call, |before, after, of| {
        match after[of] < before[of] {
            true => after[of],
            false => 0,
        }
    })
});

/// A frame that is refused as busy tells the room that there is.
pub const ROOM_WITH_REFUSAL: Implementation = planted(|mut lent, call| {
    let answer = right::<TheBridge>(lent.again(), call);
    match block::unpack(lent.block) {
        Some(state) if answer == REFUSED << 16 | 4 => answer | (free(&state)[1] as u64) << 32,
        _ => answer,
    }
});

/// A device clear leaves a byte in the transmit store. The room that is told and the block agree.
pub const CLEARED_BUT_ONE: Implementation = planted(|lent, call| {
    let mut left = 0;
    let answer = changed::<TheBridge>(lent, call, |before, after| {
        if matches!(call, Call::Frame(0x414)) {
            left = before.transmit.held.min(1);
            after.transmit.held = left;
        }
    });
    answer - ((left as u64) << 32)
});

/// The calls that tell no room tell that of the receive store.
pub const ROOM_IN_EVERY_ANSWER: Implementation = planted(|mut lent, call| {
    let answer = right::<TheBridge>(lent.again(), call);
    match (call, block::unpack(lent.block)) {
        (Call::Line(_) | Call::Frame(_) | Call::ShowReceive | Call::ShowTransmit, _) => answer,
        (_, Some(state)) if kind(answer) != REFUSED => answer | (free(&state)[0] as u64) << 32,
        _ => answer,
    }
});
