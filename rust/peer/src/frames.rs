//! Frames taken from the loop.

use crate::block::*;
use crate::requests::{conditions, shows};
use crate::ring::{RECEIVE, TRANSMIT};
use crate::sending::{send, END};
use crate::{with_room, FRAME, MISFIT, REFUSED};

/// The talker's phases.
const IDLE: u8 = 0;
const ADDRESSED: u8 = 1;
const DATA: u8 = 2;
const STATUS: u8 = 3;

/// The service bit of data and identify frames.
const SERVICE: u16 = 1 << 8;
/// 5,64 and 5,65: a sending is over, well or with damage.
const OVER: u16 = 5 << 8 | 64;
const DAMAGED: u16 = 5 << 8 | 65;

/// Takes a loop frame and gives the one that goes on. No condition comes to hold by a frame, so no
/// request begins: a frame only takes from the receive store and adds to the transmit store.
pub fn loop_frame(block: &mut [u8], rx: &[u16], tx: &mut [u8], frame: u32) -> u64 {
    match fitting(block, rx.len(), tx.len()) {
        Some(block) => taken(block, rx, tx, frame),
        None => MISFIT,
    }
}

#[inline(always)]
fn taken(block: &mut Block, rx: &[u16], tx: &mut [u8], frame: u32) -> u64 {
    if frame > 2047 {
        return REFUSED | 3;
    }
    let (frame, data) = (frame as u16, frame as u8);
    let service = u16::from(shows(block)) << 8;
    let out = match frame >> 8 {
        0..=3 if block[LISTENER] == 1 => match store(block, tx, frame) {
            true => frame | service,
            false => return REFUSED | 4,
        },
        0..=3 if block[PHASE] >= DATA => returned(block, rx, frame, service),
        4 => {
            command(block, data);
            frame
        }
        5 => ready(block, rx, data, service),
        _ => frame | service,
    };
    with_room(FRAME | u64::from(out), TRANSMIT.free(block))
}

/// Stores what a data frame adds for the line; false if there is no room for all of it.
#[inline]
fn store(block: &mut Block, tx: &mut [u8], frame: u16) -> bool {
    let with_pair = frame & END != 0 && block[R10] & 4 != 0;
    if TRANSMIT.free(block) < if with_pair { 3 } else { 1 } {
        return false;
    }
    TRANSMIT.put(block, tx, frame as u8);
    if with_pair {
        TRANSMIT.put(block, tx, block[C02]);
        TRANSMIT.put(block, tx, block[C03]);
    }
    true
}

/// Takes the return of our frame.
#[inline]
fn returned(block: &mut Block, rx: &[u16], frame: u16, service: u16) -> u16 {
    let under_way = word(block, UNDER_WAY);
    if (frame ^ under_way) & !SERVICE != 0 {
        end_sending(block);
        return DAMAGED;
    }
    if block[PHASE] == DATA && block[FINISHING] == 0 {
        return send_frame(block, rx, service);
    }
    if block[PHASE] == STATUS {
        let told = |bit: u16, again: u8| (under_way >> bit) as u8 & 1 & !again;
        block[BREAK_SEEN] &= !told(4, block[BREAK_AGAIN]);
        block[OVERRUN_SEEN] &= !told(5, block[OVERRUN_AGAIN]);
        block[KEY_SEEN] &= !told(7, block[KEY_AGAIN]);
    }
    end_sending(block);
    OVER
}

/// Sends the next data frame, or ends the sending.
#[inline]
fn send_frame(block: &mut Block, rx: &[u16], service: u16) -> u16 {
    match send(block, rx) {
        Some(frame) => {
            put_under_way(block, DATA, frame);
            count(block, SENT);
            frame | service
        }
        None => {
            end_sending(block);
            OVER
        }
    }
}

/// Sends the status byte as it was before the call; the request ends.
#[inline]
fn send_status(block: &mut Block, service: u16) -> u16 {
    let status = u16::from(conditions(block) | shows(block) << 6);
    put_under_way(block, STATUS, status);
    block[BREAK_AGAIN..=REQUEST].fill(0);
    status | service
}

#[inline(always)]
fn put_under_way(block: &mut Block, phase: u8, frame: u16) {
    block[PHASE] = phase;
    set_word(block, UNDER_WAY, frame);
    block[FINISHING] = 0;
}

#[inline(always)]
fn end_sending(block: &mut Block) {
    put_under_way(block, ADDRESSED, 0);
}

/// Takes a ready frame.
#[inline]
fn ready(block: &mut Block, rx: &[u16], data: u8, service: u16) -> u16 {
    match data {
        96 if block[PHASE] == ADDRESSED => return send_frame(block, rx, service),
        97 if block[PHASE] == ADDRESSED => return send_status(block, service),
        66 if block[PHASE] == DATA => block[FINISHING] = 1,
        128..=158 if block[ADDRESS] == UNASSIGNED => {
            block[ADDRESS] = data - 128;
            return 5 << 8 | u16::from(data + 1);
        }
        _ => {}
    }
    5 << 8 | u16::from(data)
}

/// Obeys a command.
#[inline]
fn command(block: &mut Block, data: u8) {
    if block[PHASE] >= DATA {
        end_sending(block);
    }
    match data {
        63 => block[LISTENER] = 0,
        32..=62 if data - 32 == block[ADDRESS] => {
            block[LISTENER] = 1;
            block[PHASE] = IDLE;
            block[REMOTE] |= block[REMOTE_ENABLED];
        }
        64..=94 if data - 64 == block[ADDRESS] => {
            block[PHASE] = ADDRESSED;
            block[LISTENER] = 0;
        }
        64..=95 => block[PHASE] = IDLE,
        20 => device_clear(block),
        4 if block[LISTENER] == 1 => device_clear(block),
        1 if block[LISTENER] == 1 => block[REMOTE] = 0,
        144 => {
            block[PHASE] = IDLE;
            block[LISTENER] = 0;
        }
        146 => block[REMOTE_ENABLED] = 1,
        147 => block[REMOTE_ENABLED..=REMOTE].fill(0),
        154 => block[ADDRESS] = UNASSIGNED,
        _ => {}
    }
}

/// Empties both stores and clears what is noted; what we sent last of go and stop stays.
fn device_clear(block: &mut Block) {
    RECEIVE.keep(block, 0, 0);
    TRANSMIT.keep(block, 0, 0);
    block[HOLDING] = 0;
    block[FORBIDDEN] = 0;
    block[BREAK_SEEN..=REQUEST].fill(0);
}
