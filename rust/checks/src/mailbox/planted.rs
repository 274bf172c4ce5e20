//! Wrong mailboxes, each the model with one fault planted: the checks must find every one.

use super::call::{frame, Call};
use super::{Lent, TheMailbox};
use crate::answer::{framed, refused, DONE};
use crate::bridge::TheBridge;
use crate::implementation::Implementation as Any;
use crate::machine::Machine;
use crate::planted::{
    changed, last_place_unwritten, planted, refused_yet_changed, right, version_taken,
};
use mailbox_model::block;
use mailbox_model::boundary::BYTE;
use model::boundary::kind;

type Implementation = Any<TheMailbox>;

fn model(lent: Lent, call: Call) -> u64 {
    right::<TheMailbox>(lent, call)
}

/// The end mark of a byte of the bus is dropped.
pub const END_MARK_DROPPED: Implementation = planted(|lent, call| match call {
    Call::Byte(byte, _) => model(lent, Call::Byte(byte, 0)),
    _ => model(lent, call),
});

/// The end mark is dropped when a byte is handed over to the bus.
pub const END_MARK_NOT_FETCHED: Implementation = planted(|lent, call| match model(lent, call) {
    answer if call == Call::Fetch && kind(answer) == BYTE => answer & !256,
    answer => answer,
});

/// A device clear of the loop clears both ways.
pub const BOTH_WAYS_CLEARED: Implementation = planted(|mut lent, call| {
    if call == frame(4, 20) {
        model(lent.again(), Call::Command(20));
    }
    model(lent, call)
});

/// The news end when status is sent, and not when it has come back.
pub const NEWS_END_WHEN_SENT: Implementation = planted(|lent, call| {
    changed::<TheMailbox>(lent, call, |before, after| {
        if call == frame(5, 97) && before.loop_side.talker == 1 {
            after.to_loop.news.available = false;
        }
    })
});

/// News that come while a status byte is under way are forgotten when it comes back.
pub const NEWS_FORGOTTEN: Implementation = planted(|lent, call| {
    changed::<TheMailbox>(lent, call, |_, after| {
        if after.loop_side.talker == 3 {
            after.to_loop.news.again = false;
        }
    })
});

/// The byte of a frame that is held back is stored twice.
pub const HELD_FRAME_STORED_TWICE: Implementation = planted(|mut lent, call| {
    let answer = model(lent.again(), call);
    if answer == framed(5, 66) && matches!(call, Call::Frame(0..=1023)) {
        model(lent, call);
    }
    answer
});

/// In serial poll mode the bus gets data.
pub const DATA_IN_SERIAL_POLL: Implementation = planted(|mut lent, call| {
    let polled = call == Call::Fetch && lent.block.len() == block::LEN && lent.block[37] == 1;
    if !polled {
        return model(lent, call);
    }
    lent.block[37] = 0;
    let answer = model(lent.again(), call);
    lent.block[37] = 1;
    answer
});

/// A byte that finds no room is taken, and is lost.
pub const FULL_STORE_SWALLOWS: Implementation = planted(|lent, call| match call {
    Call::Byte(..) => match model(lent, call) {
        answer if answer == refused(4) => DONE,
        answer => answer,
    },
    _ => model(lent, call),
});

/// A damaged frame is sent again: its byte is put back.
pub const DAMAGED_FRAME_PUT_BACK: Implementation = planted(|mut lent, call| {
    let oldest = [lent.block.get(9).copied(), lent.block.get(11).copied()];
    let sending = lent.block.get(18) == Some(&2) && lent.block.get(21) == Some(&0);
    let answer = model(lent.again(), call);
    if let ([Some(place), Some(held)], true) = (oldest, sending && answer == framed(5, 65)) {
        let room = lent.other.len() > usize::from(held);
        if place > 0 && room {
            lent.block[9] = place - 1;
            lent.block[11] = held + 1;
        }
    }
    answer
});

/// A request of the bus outlives its reason.
pub const REQUEST_OUTLIVES: Implementation = planted(|lent, call| {
    changed::<TheMailbox>(lent, call, |before, after| {
        if call == Call::Fetch && !before.bus_side.serial_poll {
            after.to_bus.news.request = before.to_bus.news.request;
        }
    })
});

/// The bits above the end mark count as one when a cell is read. Calls never write them.
pub const UPPER_BITS_COUNT: Implementation = planted(|lent, call| {
    let place = usize::from(*lent.block.get(3).unwrap_or(&0));
    let upper = lent.one.get(place).map_or(false, |&cell| cell > 511);
    let data = call == Call::Fetch && lent.block.get(37) == Some(&0);
    match model(lent, call) {
        answer if data && upper && kind(answer) == BYTE => answer | 256,
        answer => answer,
    }
});

/// A command leaves the number of a held frame where none is held, which no run from create shows.
pub const HELD_NUMBER_KEPT: Implementation = planted(|lent, call| {
    changed::<TheMailbox>(lent, call, |before, after| {
        let command = matches!(call, Call::Frame(frame) if frame >> 8 == 4);
        if command && !before.loop_side.holds {
            after.loop_side.held = before.loop_side.held;
        }
    })
});

/// A call that is refused as busy still enables not ready.
pub const REFUSED_YET_CHANGED: Implementation = planted(refused_yet_changed::<TheMailbox, 33>);

/// The last place of the store to the loop is never written.
pub const LAST_PLACE_UNWRITTEN: Implementation = planted(last_place_unwritten::<TheMailbox, 1>);

/// Blocks with the bridge's version are taken as ours.
pub const BRIDGES_VERSION_TAKEN: Implementation =
    planted(version_taken::<TheMailbox, { TheBridge::VERSION }>);

/// Faults that change what is seen of calls, so that the history alone finds them.
pub const SEEN: [(&str, Implementation); 10] = [
    ("the end mark dropped", END_MARK_DROPPED),
    ("the end mark not fetched", END_MARK_NOT_FETCHED),
    ("both ways cleared", BOTH_WAYS_CLEARED),
    ("news that end when status is sent", NEWS_END_WHEN_SENT),
    ("news forgotten", NEWS_FORGOTTEN),
    ("a held frame stored twice", HELD_FRAME_STORED_TWICE),
    ("data in serial poll", DATA_IN_SERIAL_POLL),
    ("a full store that swallows", FULL_STORE_SWALLOWS),
    ("a damaged frame put back", DAMAGED_FRAME_PUT_BACK),
    ("a request that outlives its reason", REQUEST_OUTLIVES),
];
