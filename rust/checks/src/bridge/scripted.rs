//! What the calls of a script are to the bridge.

use super::call::Call;
use super::TheBridge;
use crate::played::{Line, Scripted};
use model::Bridge;
use script::{DEFAULT_MARGIN, DEFAULT_STORE};

impl Scripted for TheBridge {
    const DEFAULT: ([usize; 2], u32) = ([DEFAULT_STORE as usize; 2], DEFAULT_MARGIN);

    /// A call for each line byte, and none for saying the state and for the calls of a mailbox.
    fn line(call: &script::Call, _: Option<&Bridge>) -> Line<TheBridge> {
        let call = match *call {
            script::Call::Create {
                receive,
                transmit,
                margin,
            } => return Line::Create([receive, transmit].map(|len| len as usize), margin),
            script::Call::Restore(ref block) => return Line::Restore(block.clone()),
            script::Call::State | script::Call::Mailbox(_) => return Line::Calls(Vec::new()),
            script::Call::Line(ref bytes) | script::Call::LineAndRoom(ref bytes) => {
                return Line::Calls(bytes.iter().copied().map(Call::Line).collect())
            }
            script::Call::Ask => Call::Ask,
            script::Call::Take(byte) => Call::Take(byte),
            script::Call::Frame(frame) | script::Call::FrameAndRoom(frame) => Call::Frame(frame),
            script::Call::Break => Call::Break,
            script::Call::Key => Call::Key,
            script::Call::Register { number, value } => Call::Register(number, value),
            script::Call::Reset => Call::Reset,
            script::Call::Show(script::Side::Receive) => Call::ShowReceive,
            script::Call::Show(script::Side::Transmit) => Call::ShowTransmit,
        };
        Line::Calls(vec![call])
    }
}
