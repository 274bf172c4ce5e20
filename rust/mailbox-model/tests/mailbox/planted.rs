//! Wrong mailboxes, each found by the law that it breaks.

use crate::every_order::COMMON;
use crate::history::{BUSY, FETCHED, FITS, NEWS, ONE_FRAME, REFUSED_CHANGES, REQUEST, WAITS};
use crate::walk::{frame, right, walk, Call, Step, DAMAGE};
use raftershim_mailbox_model::{Answer, News, ACTIVE_DATA};

/// How a wrong mailbox makes a call.
type Wrong = Step<2, 1>;

/// The law that a wrong mailbox is found by.
fn law_broken(step: Wrong) -> &'static str {
    walk(&COMMON, step).expect_err("a wrong mailbox is found").0
}

#[test]
fn a_full_store_that_swallows_a_byte() {
    let swallows: Wrong = |w, call| match right(w, call) {
        Answer::Refused(4) => Answer::Done,
        answer => answer,
    };
    assert_eq!(law_broken(swallows), BUSY);
}

#[test]
fn a_refused_call_that_writes_a_store() {
    let writes: Wrong = |w, call| {
        let answer = right(w, call);
        if answer == Answer::Refused(4) {
            w.to_bus[w.mailbox.to_bus.ring.oldest] ^= 1;
        }
        answer
    };
    assert_eq!(law_broken(writes), REFUSED_CHANGES);
}

#[test]
fn a_full_store_that_replaces_its_newest_byte() {
    let replaces: Wrong = |w, call| {
        let full = w.mailbox.to_loop.ring.held == 1 && matches!(call, Call::Byte(..));
        if full && w.mailbox.bus_side.listener {
            w.mailbox.to_loop.ring.held = 0;
        }
        right(w, call)
    };
    assert_eq!(law_broken(replaces), BUSY);
}

#[test]
fn a_byte_that_is_accepted_and_not_stored() {
    let drops: Wrong = |w, call| {
        let before = *w;
        let answer = right(w, call);
        if call == frame(0, 1) && answer == Answer::Frame(1) {
            *w = before;
        }
        answer
    };
    assert_eq!(law_broken(drops), WAITS);
}

#[test]
fn a_mark_that_is_not_stored() {
    let unmarked: Wrong = |w, call| match call {
        Call::Byte(byte, _) => right(w, Call::Byte(byte, false)),
        _ => right(w, call),
    };
    assert_eq!(law_broken(unmarked), WAITS);
}

#[test]
fn a_mark_that_is_not_handed_over() {
    let unmarked: Wrong = |w, call| match right(w, call) {
        Answer::Byte { byte, .. } => Answer::Byte { byte, end: false },
        answer => answer,
    };
    assert_eq!(law_broken(unmarked), FETCHED);
}

#[test]
fn a_clear_that_clears_both_ways() {
    let both: Wrong = |w, call| {
        if call == frame(4, 20) {
            right(w, Call::Order(20));
        }
        right(w, call)
    };
    assert_eq!(law_broken(both), WAITS);
}

#[test]
fn a_damaged_frame_that_is_put_back() {
    let puts_back: Wrong = |w, call| {
        let sending = w.mailbox.loop_side.talker == ACTIVE_DATA;
        let answer = right(w, call);
        if call == DAMAGE && sending {
            w.mailbox.to_loop.ring.held = 1;
        }
        answer
    };
    assert_eq!(law_broken(puts_back), WAITS);
}

#[test]
fn a_frame_that_is_swallowed_by_the_loop_side() {
    let silent: Wrong = |w, call| match right(w, call) {
        Answer::Frame(frame) if frame == 5 << 8 | 66 => Answer::Done,
        answer => answer,
    };
    assert_eq!(law_broken(silent), ONE_FRAME);
}

#[test]
fn a_request_that_outlives_its_reason() {
    let stays: Wrong = |w, call| {
        let request = w.mailbox.to_bus.news.request;
        let answer = right(w, call);
        w.mailbox.to_bus.news.request = request || w.mailbox.to_bus.news.request;
        answer
    };
    assert_eq!(law_broken(stays), REQUEST);
}

#[test]
fn a_request_of_the_loop_that_outlives_its_reason() {
    let stays: Wrong = |w, call| {
        let news = w.mailbox.to_loop.news;
        let answer = right(w, call);
        if w.mailbox.to_loop.news == News::NONE {
            w.mailbox.to_loop.news.request = news.request;
        }
        answer
    };
    assert_eq!(law_broken(stays), REQUEST);
}

#[test]
fn news_that_end_when_status_is_sent() {
    let ends: Wrong = |w, call| {
        let answer = right(w, call);
        if call == frame(5, 97) {
            w.mailbox.to_loop.news.available = false;
        }
        answer
    };
    assert_eq!(law_broken(ends), NEWS);
}

#[test]
fn news_that_come_while_status_is_under_way_and_are_forgotten() {
    let forgets: Wrong = |w, call| {
        let answer = right(w, call);
        if matches!(call, Call::Byte(..)) && answer == Answer::Done {
            w.mailbox.to_loop.news.again = false;
        }
        answer
    };
    assert_eq!(law_broken(forgets), NEWS);
}

#[test]
fn a_listener_that_stays_talker() {
    let stays: Wrong = |w, call| {
        let talker = w.mailbox.bus_side.talker;
        let answer = right(w, call);
        w.mailbox.bus_side.talker |= talker;
        answer
    };
    assert_eq!(law_broken(stays), FITS);
}
