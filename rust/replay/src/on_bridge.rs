//! What a script asks of a bridge, by the types of the bridge.

use crate::facts::facts;
use crate::say::Said;
use raftershim::{BadSize, Frame, Refusal, Register, Saved, Stores};

/// A bridge with its stores.
pub type Bridge = raftershim::Bridge<Vec<u16>, Vec<u8>>;

/// Creates a bridge on stores of these lengths, with this margin.
pub fn create(receive: u32, transmit: u32, margin: u32) -> Result<Bridge, BadSize> {
    let stores = Stores {
        receive: vec![0; receive as usize],
        transmit: vec![0; transmit as usize],
    };
    Bridge::create(stores, margin)
}

/// Gives the bridge a saved block; one that does not fit leaves the bridge as it was.
pub fn restore(bridge: &mut Bridge, block: &[u8]) -> Result<(), Refusal> {
    let (_, stores) = bridge.clone().into_parts();
    *bridge = Bridge::restore(Saved::try_from(block)?, stores)?;
    Ok(())
}

/// Writes a register; what is no register and no byte is refused in the order of the numbers.
pub fn write(bridge: &mut Bridge, number: u32, value: u32) -> Result<(), Refusal> {
    let register = Register::try_from(number)?;
    let value = u8::try_from(value).map_err(|_| Refusal::VALUE_TOO_LARGE)?;
    bridge.write_register(register, value)
}

/// Takes line bytes, one after the other.
pub fn take_all(bridge: &mut Bridge, bytes: &[u8]) -> Said {
    Said::became(bytes.iter().map(|&byte| bridge.line_byte(byte)))
}

/// Takes line bytes, one after the other, and says the room of the receive store after the last.
pub fn take_all_and_room(bridge: &mut Bridge, bytes: &[u8]) -> Said {
    let mut room = 0;
    let taken = bytes.iter().map(|&byte| {
        let taken = bridge.line_byte_and_room(byte)?;
        room = taken.room;
        Ok(taken.answer)
    });
    Said::became(taken).with_room(room)
}

/// Says the line byte that is next, which stays.
pub fn ask_next(bridge: &mut Bridge) -> Result<Option<u8>, Refusal> {
    Ok(bridge.ask_line_byte()?.map(|next| next.byte()))
}

/// Takes the line byte of this name. The crate takes what was asked for and nothing else, so
/// another byte is refused here.
pub fn take_next(bridge: &mut Bridge, byte: u8) -> Result<(), Refusal> {
    match bridge.ask_line_byte()? {
        Some(next) if next.byte() == byte => next.take(),
        _ => Err(Refusal::NOT_NEXT),
    }
}

/// Takes a loop frame.
pub fn pass(bridge: &mut Bridge, frame: u32) -> Result<Frame, Refusal> {
    bridge.loop_frame(Frame::try_from(frame)?)
}

/// Takes a loop frame, and says the room of the transmit store after it.
pub fn pass_and_room(bridge: &mut Bridge, frame: u32) -> Said {
    match Frame::try_from(frame).and_then(|frame| bridge.loop_frame_and_room(frame)) {
        Ok(taken) => Said::Answered(taken.answer.into()).with_room(taken.room),
        Err(refusal) => Said::refused(refusal, &refusal),
    }
}

/// Shows a store.
pub fn show(bridge: &Bridge, side: script::Side) -> Said {
    match side {
        script::Side::Receive => Said::shown(bridge.show_receive()),
        script::Side::Transmit => Said::shown(bridge.show_transmit().iter()),
    }
}

/// Says the state.
pub fn state(bridge: &Bridge) -> Said {
    match bridge.state() {
        Ok(state) => Said::Facts(facts(&state)),
        Err(refusal) => Said::refused(refusal, &refusal),
    }
}
