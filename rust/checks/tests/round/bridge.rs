//! The two stores of the bridge.

use crate::store::{frame_of, framed_item, is_blank, oldest_of, Offer, Removal, Store, MARK};
use model::{Bridge, Ring, ADDRESSED};
use raftershim_checks::answer::{byte, framed, with_room, DONE, NONE};
use raftershim_checks::bridge::call::{frame, Call};
use raftershim_checks::bridge::rule::{Rule, BREAK};
use raftershim_checks::bridge::{Lent, TheBridge};
use raftershim_checks::machine::Stores;

/// The pair that closes a line.
const CR: u16 = 13;
const LF: u16 = 10;
/// R10 with both bits on, and off.
const PAIRS: [&[Call]; 2] = [&[Call::Register(10, 12)], &[Call::Register(10, 0)]];
/// How many places the transmit store has beside the receive store that is tried.
const TRANSMIT: usize = 3;

/// The store from the line to the loop.
pub struct Receive;

/// The store from the loop to the line.
pub struct Transmit;

impl Store for Receive {
    type Of = TheBridge;
    type Cell = u16;
    const SIDE: usize = 0;
    const LEAST: usize = 4;
    const OTHER: usize = TRANSMIT;
    const NUMBER: u32 = 1;
    /// The protocol is off, so that every byte is stored; address 1, and talk.
    const READY: &'static [Call] = &[Call::Register(11, 0), frame(5, 129), frame(4, 65)];
    const PAIRS: [&'static [Call]; 2] = PAIRS;
    const SHOW: Call = Call::ShowReceive;
    const LOTS: &'static [&'static [u16]] = &[
        &[65, 66],
        &[CR, LF],
        &[67, CR, LF],
        &[CR, LF, 68, 69],
        &[CR, LF, CR, LF],
        &[CR, LF, 70, CR, LF],
        &[CR, LF, CR, LF, 71, CR, LF],
        &[72 | MARK],
        &[73 | MARK, CR, LF],
        &[CR | MARK, LF],
        &[74, CR | MARK, LF],
        &[75, CR, LF | MARK, 76, 77],
        &[CR, LF | MARK, CR, LF, 78 | MARK, CR, LF],
    ];
    /// A data frame, a pair, an end byte with its pair, and pairs with each of these behind them.
    const REMOVALS: &'static [Removal] = &[
        (1, Some(false)),
        (2, None),
        (3, Some(true)),
        (3, Some(false)),
        (4, None),
        (5, Some(true)),
        (7, Some(true)),
    ];
    const TELLS_ROOM: bool = true;
    const MARKS: Option<Call> = Some(Call::Break);
    const ALONE: u16 = MARK;

    fn of((rx, tx): Stores<'_, TheBridge>) -> (&[u16], bool) {
        (rx, is_blank(tx))
    }

    fn lent<'a>(lent: &'a mut Lent) -> &'a mut [u16] {
        lent.one
    }

    fn marked(cell: u16) -> u16 {
        cell | BREAK
    }

    fn ring(state: &Bridge) -> Ring {
        state.receive
    }

    fn oldest(state: &mut Bridge) -> &mut usize {
        &mut state.receive.oldest
    }

    /// The mark is a break that follows.
    fn offer(_: &Bridge, item: u16) -> Offer<Receive> {
        let byte = (item & 255) as u8;
        Offer {
            call: Call::Line(byte),
            cells: vec![byte.into()],
            answer: DONE,
            mark: (item & MARK != 0).then_some(Call::Break),
        }
    }

    /// The byte is lost: there is no room, overrun is set, and it is counted as lost alone.
    fn turned_away(before: &Bridge, answer: u64, after: &Bridge) -> bool {
        let counted = (before.stored, before.lost.wrapping_add(1));
        answer == with_room(0, DONE) && after.overrun_seen && (after.stored, after.lost) == counted
    }

    /// The frame under way comes back, or data is asked for.
    fn take(state: &Bridge) -> Call {
        match state.talker {
            ADDRESSED => frame(5, 96),
            _ => Call::Frame(state.under_way.into()),
        }
    }

    fn due(state: &Bridge, waiting: &[u16]) -> (usize, Option<u16>) {
        let (gone, sent) = Rule::of(&state.registers).send(waiting);
        (gone, sent.map(|frame| frame >> 1 & MARK | frame & 255))
    }

    fn handed_out(item: Option<u16>) -> u64 {
        with_room(TRANSMIT, item.map_or(framed(5, 64), framed_item))
    }
}

impl Store for Transmit {
    type Of = TheBridge;
    type Cell = u8;
    const SIDE: usize = 1;
    const LEAST: usize = 3;
    const OTHER: usize = 4;
    const NUMBER: u32 = 1;
    /// Address 1, and listen.
    const READY: &'static [Call] = &[frame(5, 129), frame(4, 33)];
    const PAIRS: [&'static [Call]; 2] = PAIRS;
    const SHOW: Call = Call::ShowTransmit;
    const LOTS: &'static [&'static [u16]] = &[&[65], &[66 | MARK], &[67 | MARK, 68 | MARK]];
    const REMOVALS: &'static [Removal] = &[(1, Some(false))];
    /// A byte, and an end byte with the pair that is added.
    const PUTS: &'static [usize] = &[1, 3];
    const TELLS_ROOM: bool = true;

    fn of((rx, tx): Stores<'_, TheBridge>) -> (&[u8], bool) {
        (tx, is_blank(rx))
    }

    fn lent<'a>(lent: &'a mut Lent) -> &'a mut [u8] {
        lent.other
    }

    fn ring(state: &Bridge) -> Ring {
        state.transmit
    }

    fn oldest(state: &mut Bridge) -> &mut usize {
        &mut state.transmit.oldest
    }

    fn offer(state: &Bridge, item: u16) -> Offer<Transmit> {
        let pair = item & MARK != 0 && state.registers.r10 & 4 != 0;
        let line = [item, CR, LF].map(|item| (item & 255) as u8);
        Offer {
            call: Call::Frame(frame_of(item)),
            cells: line[..if pair { 3 } else { 1 }].to_vec(),
            answer: framed_item(item),
            mark: None,
        }
    }

    fn take(_: &Bridge) -> Call {
        Call::Ask
    }

    fn gone(item: u16) -> Option<Call> {
        Some(Call::Take((item & 255) as u8))
    }

    fn due(_: &Bridge, waiting: &[u8]) -> (usize, Option<u16>) {
        oldest_of(waiting)
    }

    fn handed_out(item: Option<u16>) -> u64 {
        item.map_or(NONE, |item| byte((item & 255) as u8))
    }
}
