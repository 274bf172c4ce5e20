//! Wrong bridges that hand out a line byte when it is asked for, that take another byte than the
//! next one, that refuse the right one, or that answer a take otherwise.

use super::{fitting, Implementation};
use crate::bridge::call::Call;
use crate::bridge::{Lent, TheBridge};
use crate::planted::{changed, planted, right};
use model::boundary::{kind, value, BYTE, REFUSED};
use model::{block, Bridge};

/// The answers of a take.
const DONE: u64 = 0;
const NONE: u64 = 1 << 16;
const NOT_NEXT: u64 = REFUSED << 16 | 12;

/// Faults that the history alone finds: it knows which byte is next, what was taken, and that
/// asking changes nothing.
pub const SEEN: [(&str, Implementation); 16] = [
    ("asking takes the byte", ASKING_TAKES),
    ("asking counts as sending", ASKING_COUNTS_AS_SENDING),
    ("any byte takes the next one", ANY_BYTE_TAKES),
    ("go taken for stop", GO_FOR_STOP),
    ("what waits taken while a stop is owed", WAITING_WHILE_OWED),
    (
        "what waits taken before an equal stop",
        WAITING_BEFORE_EQUAL,
    ),
    ("a stop takes an equal byte along", BOTH_GONE),
    ("a stop that is taken and not recorded", NOT_RECORDED),
    ("taken while it is forbidden", TAKEN_WHILE_FORBIDDEN),
    ("go and stop refused", OWN_REFUSED),
    ("the last byte refused", LAST_REFUSED),
    ("refused, yet gone", REFUSED_YET_GONE),
    ("done where nothing is next", DONE_FOR_NOTHING),
    ("none where nothing is next", NONE_FOR_NOTHING),
    ("the byte answered in the place of done", BYTE_ANSWERED),
    ("a room told", ROOM_TOLD),
];

/// The line byte that is next, by the model.
fn next(lent: &mut Lent) -> Option<u8> {
    let answer = right::<TheBridge>(lent.again(), Call::Ask);
    (kind(answer) == BYTE).then_some(value(answer) as u8)
}

/// Whether go or stop is owed.
fn owes(state: &Bridge) -> bool {
    state.holding != state.stop_sent_last
}

/// The oldest byte that waits.
fn waiting(state: &Bridge, tx: &[u8]) -> Option<u8> {
    (state.transmit.held > 0).then(|| tx[state.transmit.oldest])
}

/// Drops the oldest byte that waits, and leaves all else.
fn dropped(lent: Lent, mut state: Bridge) -> u64 {
    state.transmit.oldest = (state.transmit.oldest + 1) % state.transmit_len;
    state.transmit.held -= 1;
    lent.block.copy_from_slice(&block::pack(&state));
    DONE
}

/// Makes a call as the model does, but a take as this says, which is given the state, what waits
/// and the byte named. `None` leaves it to the model.
fn taking(
    mut lent: Lent,
    call: Call,
    take: impl FnOnce(&mut Lent, &Bridge, Option<u8>, u8) -> Option<u64>,
) -> u64 {
    if let (Call::Take(named), Some(state)) = (call, fitting(&lent)) {
        let waits = waiting(&state, lent.other);
        if let Some(answer) = take(&mut lent, &state, waits, named) {
            return answer;
        }
    }
    right::<TheBridge>(lent, call)
}

/// Makes a call as the model does, and answers a take otherwise, given the right answer and the
/// byte named.
fn answering(lent: Lent, call: Call, answers: fn(u64, u8, &Bridge) -> u64) -> u64 {
    let before = fitting(&lent);
    let answer = right::<TheBridge>(lent, call);
    match (call, before) {
        (Call::Take(named), Some(state)) => answers(answer, named, &state),
        _ => answer,
    }
}

/// Whoever asks for a byte has it, as when it was given.
pub const ASKING_TAKES: Implementation = planted(|mut lent, call| {
    let answer = right::<TheBridge>(lent.again(), call);
    if let (Call::Ask, Some(byte)) = (call, next(&mut lent)) {
        right::<TheBridge>(lent, Call::Take(byte));
    }
    answer
});

/// A go or stop that was asked for counts as sent; what waits stays.
pub const ASKING_COUNTS_AS_SENDING: Implementation = planted(|mut lent, call| {
    let answer = right::<TheBridge>(lent.again(), call);
    if let (Call::Ask, Some(mut state)) = (call, fitting(&lent)) {
        state.stop_sent_last = state.holding;
        lent.block.copy_from_slice(&block::pack(&state));
    }
    answer
});

/// The byte that is next is gone, whichever is named.
pub const ANY_BYTE_TAKES: Implementation = planted(|lent, call| {
    taking(lent, call, |lent, _, _, _| {
        let byte = next(lent)?;
        Some(right::<TheBridge>(lent.again(), Call::Take(byte)))
    })
});

/// Either of go and stop takes the one that is owed.
pub const GO_FOR_STOP: Implementation = planted(|lent, call| {
    taking(lent, call, |lent, state, _, named| {
        let byte = next(lent).filter(|_| owes(state) && state.registers.c[4..].contains(&named))?;
        Some(right::<TheBridge>(lent.again(), Call::Take(byte)))
    })
});

/// The oldest byte that waits is taken by its name, though a go or stop has become due.
pub const WAITING_WHILE_OWED: Implementation = planted(|lent, call| {
    taking(lent, call, |lent, state, waits, named| {
        let late = owes(state) && waits == Some(named) && next(lent) != waits;
        late.then(|| dropped(lent.again(), *state))
    })
});

/// Of an owed go or stop and an equal byte that waits, the one that waits goes.
pub const WAITING_BEFORE_EQUAL: Implementation = planted(|lent, call| {
    taking(lent, call, |lent, state, waits, named| {
        let equal = owes(state) && waits == Some(named) && next(lent) == waits;
        equal.then(|| dropped(lent.again(), *state))
    })
});

/// Of an owed go or stop and an equal byte that waits, both go.
pub const BOTH_GONE: Implementation = planted(|lent, call| {
    taking(lent, call, |lent, state, waits, named| {
        let equal = owes(state) && waits == Some(named) && next(lent) == waits;
        let mut sent = *state;
        sent.stop_sent_last = state.holding;
        equal.then(|| dropped(lent.again(), sent))
    })
});

/// A go or stop that was taken is owed all the same.
pub const NOT_RECORDED: Implementation = planted(|lent, call| {
    changed::<TheBridge>(lent, call, |before, after| {
        if matches!(call, Call::Take(_)) {
            after.stop_sent_last = before.stop_sent_last;
        }
    })
});

/// What waits is taken though the other end forbids our sending.
pub const TAKEN_WHILE_FORBIDDEN: Implementation = planted(|lent, call| {
    taking(lent, call, |lent, state, waits, named| {
        let forbidden = state.forbidden && !owes(state) && waits == Some(named);
        forbidden.then(|| dropped(lent.again(), *state))
    })
});

/// Our own go and stop cannot be taken.
pub const OWN_REFUSED: Implementation =
    planted(|lent, call| taking(lent, call, |_, state, _, _| owes(state).then_some(NOT_NEXT)));

/// The last byte that waits cannot be taken.
pub const LAST_REFUSED: Implementation = planted(|lent, call| {
    taking(lent, call, |_, state, _, _| {
        (!owes(state) && state.transmit.held == 1).then_some(NOT_NEXT)
    })
});

/// A take that is refused drops the byte that is next.
pub const REFUSED_YET_GONE: Implementation = planted(|mut lent, call| {
    let answer = right::<TheBridge>(lent.again(), call);
    if answer == NOT_NEXT {
        if let Some(byte) = next(&mut lent) {
            right::<TheBridge>(lent, Call::Take(byte));
        }
    }
    answer
});

/// Where nothing is next, a take is answered done.
pub const DONE_FOR_NOTHING: Implementation = planted(|lent, call| {
    taking(lent, call, |lent, _, _, _| {
        next(lent).is_none().then_some(DONE)
    })
});

/// Where nothing is next, a take is answered none.
pub const NONE_FOR_NOTHING: Implementation = planted(|lent, call| {
    taking(lent, call, |lent, _, _, _| {
        next(lent).is_none().then_some(NONE)
    })
});

/// A take is answered with the byte, as when it was given.
pub const BYTE_ANSWERED: Implementation = planted(|lent, call| {
    answering(lent, call, |answer, named, _| match answer {
        DONE => BYTE << 16 | u64::from(named),
        _ => answer,
    })
});

/// A take tells the room that it leaves in the transmit store.
pub const ROOM_TOLD: Implementation = planted(|lent, call| {
    answering(lent, call, |answer, _, state| match answer {
        DONE => {
            let held = state.transmit.held - usize::from(!owes(state));
            ((state.transmit_len - held) as u64) << 32
        }
        _ => answer,
    })
});

/// No request begins when a take empties the store. The history knows no requests.
pub const NO_REQUEST: Implementation = planted(|lent, call| {
    changed::<TheBridge>(lent, call, |before, after| {
        if matches!(call, Call::Take(_)) {
            after.request = before.request;
        }
    })
});

/// That nothing is next is the reason where the block is no state that fits the stores too.
pub const TWELVE_BEFORE_TWO: Implementation = planted(|lent, call| {
    let nothing =
        block::unpack(lent.block).map_or(false, |state| !owes(&state) && state.transmit.held == 0);
    match (call, right::<TheBridge>(lent, call)) {
        (Call::Take(_), answer) if nothing && answer == REFUSED << 16 | 2 => NOT_NEXT,
        (_, answer) => answer,
    }
});
