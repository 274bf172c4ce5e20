//! What an app does at a meter's bridge, and what it is told.

use super::call::Call;
use raftershim::BLOCK_LEN;
use raftershim::{Answer, Answered, Frame, LineByte, Meter, Reading, Refusal, Register, WithRoom};

/// What the app does.
#[derive(Clone, Copy, Debug, PartialEq, Eq)]
pub enum Act {
    /// A call of the bridge.
    Call(Call),
    /// It says that its port lost a byte.
    Gap,
    /// It asks for a reading.
    Read,
}

/// What a reading is worth.
#[derive(Clone, Copy, Debug, PartialEq, Eq)]
pub enum Worth {
    Whole,
    Gap,
    NotEnded,
}

/// What an act gives.
#[derive(Clone, Debug, PartialEq, Eq)]
pub enum Told {
    Answer(Answered),
    LineByte(LineByte),
    Reading(Worth, Vec<u8>),
}

/// What an act gives, and the room that it tells, if it tells any.
pub type Heard = (Told, Option<u16>);

/// One that is told readings: the meter, the history, or one with a fault planted.
pub trait Reader {
    fn act(&mut self, act: Act) -> Heard;

    /// The block after it.
    fn block(&self) -> [u8; BLOCK_LEN];
}

impl<R, T, G, X> Reader for Meter<R, T, G, X>
where
    R: AsRef<[u16]> + AsMut<[u16]>,
    T: AsRef<[u8]> + AsMut<[u8]>,
    G: AsRef<[u8]> + AsMut<[u8]>,
    X: AsRef<[u8]> + AsMut<[u8]>,
{
    fn act(&mut self, act: Act) -> Heard {
        let call = match act {
            Act::Read => return heard(self.reading_and_room(), told),
            Act::Gap => return (Told::Answer(self.line_gap().map(Answer::from)), None),
            Act::Call(call) => call,
        };
        let answered = match call {
            Call::Line(byte) => return heard(self.line_byte_and_room(byte), Told::LineByte),
            Call::Frame(frame) => {
                let taken = Frame::try_from(frame).and_then(|out| self.loop_frame_and_room(out));
                return heard(taken, |out| Told::Answer(Ok(out.into())));
            }
            Call::Ask => {
                let asked = self.ask_line_byte();
                asked.map(|next| next.map(|next| next.byte()).into())
            }
            // The crate takes what was asked for and nothing else, so another byte is refused here.
            Call::Take(byte) => match self.ask_line_byte() {
                Ok(Some(next)) if next.byte() == byte => next.take().map(Answer::from),
                asked => Err(asked.err().unwrap_or(Refusal::NOT_NEXT)),
            },
            Call::Break => self.line_break().map(Answer::from),
            Call::Key => self.key().map(Answer::from),
            Call::Register(number, value) => Register::try_from(number)
                .and_then(|register| self.write_register(register, value as u8))
                .map(Answer::from),
            Call::Reset => self.reset().map(Answer::from),
            Call::ShowReceive | Call::ShowTransmit => Ok(Answer::Done),
        };
        (Told::Answer(answered), None)
    }

    fn block(&self) -> [u8; BLOCK_LEN] {
        *self.bridge().saved().as_bytes()
    }
}

/// What an act gave that tells a room, unless it is refused.
fn heard<T>(given: Result<WithRoom<T>, Refusal>, told: impl FnOnce(T) -> Told) -> Heard {
    match given {
        Ok(given) => (told(given.answer), Some(given.room)),
        Err(refusal) => (Told::Answer(Err(refusal)), None),
    }
}

fn told(reading: Reading) -> Told {
    match reading {
        Reading::Whole(text) => Told::Reading(Worth::Whole, text.as_bytes().to_vec()),
        Reading::Gap(text) => Told::Reading(Worth::Gap, text.as_bytes().to_vec()),
        Reading::NotEnded(text) => Told::Reading(Worth::NotEnded, text.as_bytes().to_vec()),
        other => panic!("{other:?}"),
    }
}
