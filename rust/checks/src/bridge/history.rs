//! What came on the line, kept whole, and the readings that it was: by the model and by the reading
//! rule over plain sequences, without the crate's counts and marks.

use super::call::{frame, Call};
use super::rule::{Rule, BREAK};
use super::second;
use super::seen::{seen, Seen};
use super::told::{Act, Heard, Reader, Told, Worth};
use super::TheBridge;
use crate::lent::Buffers;
use model::boundary::value;
use model::{block, Bridge, UNASSIGNED};
use raftershim::{Answer, LineByte, BLOCK_LEN};
use std::collections::VecDeque;

/// The end bit of data frames.
const END: u16 = 2 << 8;
/// R10 with bit 3 on, as a meter has it from the start.
const FIND_LINE_ENDS: Call = Call::Register(10, 8);

/// What became of a byte that came on the line, or that no byte came but a break.
#[derive(Clone, Copy, Debug, PartialEq, Eq, Hash)]
enum Fate {
    Break,
    Held,
    /// Read for a reading.
    Read,
    /// Taken out as a part of an end of line.
    Mark,
    /// Lost, thrown away, or taken by the app itself.
    Missing,
}

/// Who takes the frames.
#[derive(Clone, Copy, PartialEq, Eq)]
enum By {
    Reading,
    App,
}

/// The model with all that came on its line since the last cut, go and stop aside.
#[derive(Clone)]
pub struct History {
    buffers: Buffers<TheBridge>,
    line: Vec<(u8, Fate)>,
    /// Readings that have ended and are not told.
    ended: VecDeque<Told>,
    /// How long a text can be.
    longest: usize,
}

impl History {
    /// A fresh bridge that finds the ends of lines.
    pub fn create(rx_len: usize, tx_len: usize, margin: u32, longest: usize) -> History {
        let (rx, tx) = (vec![0; rx_len], vec![0; tx_len]);
        let mut buffers = Buffers::holding(&[0; block::LEN], (&rx, &tx));
        assert_eq!(
            second::create(buffers.lend(), margin),
            0,
            "the sizes are obeyed"
        );
        let mut history = History {
            buffers,
            line: Vec::new(),
            ended: VecDeque::new(),
            longest,
        };
        history.call(FIND_LINE_ENDS, By::App);
        history
    }

    fn state(&self) -> Bridge {
        block::unpack(self.buffers.block()).expect("a call leaves a state")
    }

    /// Makes a call on the model and keeps what it did to the line.
    fn call(&mut self, call: Call, by: By) -> (u64, Seen) {
        let before = self.state();
        let answer = second::call(self.buffers.lend(), call);
        let seen = seen(&before, call, answer);
        let rule = Rule::of(&before.registers);
        match seen {
            Seen::Accepted(byte) => self.line.push((byte, Fate::Held)),
            Seen::Lost => self.line.push((0, Fate::Missing)),
            Seen::Break => {
                self.line.push((0, Fate::Break));
                self.cut_at_breaks(By::Reading);
            }
            Seen::Sent(frame) => self.sent(rule, Some(frame), by),
            Seen::SentNone => self.sent(rule, None, by),
            Seen::DeviceClear | Seen::Reset => self.thrown_away(rule),
            _ => {}
        }
        (answer, seen)
    }

    /// The cells that are held: a break marks the byte that is held before it.
    fn held(&self) -> Vec<u16> {
        let mut held: Vec<u16> = Vec::new();
        for &(byte, fate) in &self.line {
            match fate {
                Fate::Held => held.push(byte.into()),
                Fate::Break => held.last_mut().into_iter().for_each(|cell| *cell |= BREAK),
                _ => {}
            }
        }
        held
    }

    /// The oldest bytes held become this.
    fn become_of(&mut self, count: usize, fate: Fate) {
        let held = self.line.iter_mut().filter(|(_, fate)| *fate == Fate::Held);
        held.take(count).for_each(|(_, was)| *was = fate);
    }

    /// A send took off what the rule says: ends of lines by themselves, then the frame's bytes.
    fn sent(&mut self, rule: Rule, frame: Option<u16>, by: By) {
        let (gone, due) = rule.send(&self.held());
        assert_eq!(frame, due, "the frame that the rule gives");
        for _ in 0..(gone - own(frame)) / 2 {
            self.become_of(2, Fate::Mark);
            self.cut(by);
            self.cut_at_breaks(by);
        }
        if let Some(frame) = frame {
            let fate = [Fate::Missing, Fate::Read][usize::from(by == By::Reading)];
            self.become_of(1, fate);
            if frame & END != 0 {
                self.become_of(2, Fate::Mark);
                self.cut(by);
            }
            self.cut_at_breaks(by);
        }
    }

    /// Cuts the line after its end of line. What was read till there is a reading, unless it is an
    /// empty line or the app itself took its end.
    fn cut(&mut self, by: By) {
        let mark = self.line.iter().rposition(|(_, fate)| *fate == Fate::Mark);
        let cut = mark.expect("an end of line") + 1;
        let (worth, text) = self.worth(&self.line[..cut]);
        self.line.drain(..cut);
        if by == By::Reading && (worth == Worth::Gap || !text.is_empty()) {
            self.ended.push_back(Told::Reading(worth, text));
        }
    }

    /// Cuts the line at each break before which nothing is held. What was read till there is told as a
    /// gap, unless none of it was read or the app itself took its end.
    fn cut_at_breaks(&mut self, by: By) {
        while let Some(cut) = self.first_break() {
            let (_, text) = self.worth(&self.line[..cut]);
            let mut piece = self.line.drain(..=cut);
            let read = piece.any(|(_, fate)| fate == Fate::Read);
            drop(piece);
            if by == By::Reading && read {
                self.ended.push_back(Told::Reading(Worth::Gap, text));
            }
        }
    }

    /// The place of the first break, if nothing before it is held.
    fn first_break(&self) -> Option<usize> {
        let first = |of| self.line.iter().position(|(_, fate)| *fate == of);
        let held = first(Fate::Held).unwrap_or(self.line.len());
        first(Fate::Break).filter(|&cut| cut < held)
    }

    /// A piece of the line is whole if all of it was read or is its end of line, and its text has
    /// room for it.
    fn worth(&self, piece: &[(u8, Fate)]) -> (Worth, Vec<u8>) {
        let read = piece.iter().filter(|(_, fate)| *fate == Fate::Read);
        let mut text: Vec<u8> = read.map(|(byte, _)| *byte).collect();
        let missing = piece.iter().any(|(_, fate)| *fate == Fate::Missing);
        let worth = [Worth::Whole, Worth::Gap][usize::from(missing || text.len() > self.longest)];
        text.truncate(self.longest);
        (worth, text)
    }

    /// All bytes held are missing; the line is cut after the last end of line or break among them.
    fn thrown_away(&mut self, rule: Rule) {
        let held = self.held();
        let (mut place, mut last) = (0, 0);
        loop {
            let (gone, frame) = rule.send(&held[place..]);
            let end = place + gone;
            match frame {
                Some(frame) if frame & END != 0 => last = end,
                _ if gone > own(frame) => last = end - own(frame),
                _ => {}
            }
            if frame.is_none() {
                break;
            }
            place = end;
        }
        self.become_of(last, Fate::Mark);
        let cuts = |(_, fate): &(u8, Fate)| matches!(fate, Fate::Mark | Fate::Break);
        if let Some(cut) = self.line.iter().rposition(cuts) {
            self.line.drain(..=cut);
        }
        self.become_of(held.len(), Fate::Missing);
    }

    /// A call that the app itself makes.
    fn act_of_app(&mut self, call: Call) -> Told {
        let go = self.state().registers.c[4];
        let (answer, seen) = self.call(call, By::App);
        match (call, seen) {
            (Call::Line(_), Seen::Accepted(_)) => Told::LineByte(LineByte::Stored),
            (Call::Line(_), Seen::Lost) => Told::LineByte(LineByte::Lost),
            (Call::Line(byte), _) if byte == go => Told::LineByte(LineByte::Go),
            (Call::Line(_), _) => Told::LineByte(LineByte::Stop),
            (Call::Reset, _) => {
                self.call(FIND_LINE_ENDS, By::App);
                Told::Answer(Ok(Answer::Done))
            }
            _ => Told::Answer(Answer::of(answer)),
        }
    }

    /// Plays the controller until a reading has ended, or nothing more is sent.
    fn read(&mut self) -> Told {
        if self.ended.is_empty() {
            if self.state().address == UNASSIGNED {
                self.call(frame(5, 129), By::Reading);
            }
            let address = u32::from(self.state().address);
            self.call(frame(4, 64 + address), By::Reading);
            let mut out = self.call(frame(5, 96), By::Reading).0;
            while value(out) < 1024 {
                if !self.ended.is_empty() {
                    self.call(frame(5, 66), By::Reading);
                }
                out = self.call(Call::Frame(value(out) as u32), By::Reading).0;
            }
        }
        self.ended.pop_front().unwrap_or_else(|| {
            let (_, text) = self.worth(&self.line);
            Told::Reading(Worth::NotEnded, text)
        })
    }
}

impl Reader for History {
    /// The room of the receive store goes by the bytes of the line that are held.
    fn act(&mut self, act: Act) -> Heard {
        let told = match act {
            Act::Read => self.read(),
            Act::Gap => {
                self.line.push((0, Fate::Missing));
                Told::Answer(Ok(Answer::Done))
            }
            Act::Call(call) => self.act_of_app(call),
        };
        let state = self.state();
        let room = match (act, &told) {
            (Act::Read | Act::Call(Call::Line(_)), _) => state.receive_len - self.held().len(),
            (Act::Call(Call::Frame(_)), Told::Answer(Ok(_))) => {
                state.transmit_len - state.transmit.held
            }
            _ => return (told, None),
        };
        (told, Some(room as u16))
    }

    fn block(&self) -> [u8; BLOCK_LEN] {
        self.buffers.block().try_into().expect("a whole block")
    }
}

/// How many bytes become this frame: its byte, and for an end byte its end of line too.
fn own(frame: Option<u16>) -> usize {
    match frame {
        None => 0,
        Some(frame) if frame & END != 0 => 3,
        Some(_) => 1,
    }
}
