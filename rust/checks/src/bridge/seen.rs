//! What a call did, as one sees it who knows the state before, the call and the answer.

use super::call::Call;
use super::rule::{heeds, Accepted, Rule};
use super::TheBridge;
use crate::machine::Made;
use model::boundary::{kind, value, REFUSED};
use model::{Bridge, ACTIVE_DATA, ACTIVE_STATUS, ADDRESSED, SERVICE};

/// What a call did.
#[derive(Clone, Copy, Debug, PartialEq, Eq)]
pub enum Seen {
    /// Nothing that a run's history keeps.
    Nothing,
    /// A byte from the line was stored.
    Accepted(u8),
    /// A byte from the line was lost.
    Lost,
    Break,
    Key,
    /// A data frame from the receive store, its service bit aside.
    Sent(u16),
    /// A send that had no frame.
    SentNone,
    StatusSent,
    /// The status byte came back unchanged.
    StatusBack,
    /// The status byte came back damaged, or was forgotten.
    StatusGone,
    /// The first so many of these bytes were added for the line.
    Added([u8; 3], usize),
    /// A line byte was taken that is not our own go or stop.
    HandedOut(u8),
    /// The register with this number was written.
    Register(u32),
    DeviceClear,
    Reset,
}

/// What is counted of that.
pub const ROWS: &[&str] = &[
    "bytes stored",
    "bytes lost",
    "frames sent",
    "line bytes taken",
    "frames kept for the line",
    "status bytes back",
    "status bytes damaged or forgotten",
    "breaks",
    "writes of R10, C00 and C01 taken",
    "sends that a break changed",
    "changes of the reading rule",
    "go and stop taken",
    "takes of another byte than the next",
    "takes where nothing is next",
    "takes of what waits while go or stop is owed",
    "takes of go or stop where an equal byte waits",
];

impl Seen {
    /// Whether it was a send, with a frame or without.
    fn is_send(self) -> bool {
        matches!(self, Seen::Sent(_) | Seen::SentNone)
    }

    /// A bit for each row that counts this call, where this was unread before it.
    pub fn rows(self, made: &Made<TheBridge>, unread: &[Accepted]) -> u32 {
        let of = |bridge: &Bridge| Rule::of(&bridge.registers);
        let broken = self.is_send() && heeds(unread);
        let changed = matches!(self, Seen::Register(_)) && of(made.before) != of(made.after);
        self.row() | u32::from(broken) << 9 | u32::from(changed) << 10
    }

    /// A bit for the row that counts it by itself, if there is one.
    fn row(self) -> u32 {
        match self {
            Seen::Accepted(_) => 1,
            Seen::Lost => 1 << 1,
            Seen::Sent(_) => 1 << 2,
            Seen::HandedOut(_) => 1 << 3,
            Seen::Added(..) => 1 << 4,
            Seen::StatusBack => 1 << 5,
            Seen::StatusGone => 1 << 6,
            Seen::Break => 1 << 7,
            Seen::Register(10 | 16 | 17) => 1 << 8,
            _ => 0,
        }
    }
}

/// What this call with this answer did to this state.
pub fn seen(before: &Bridge, call: Call, answer: u64) -> Seen {
    match call {
        Call::ShowReceive | Call::ShowTransmit => Seen::Nothing,
        _ if kind(answer) == REFUSED => Seen::Nothing,
        Call::Take(byte) if before.holding == before.stop_sent_last => Seen::HandedOut(byte),
        Call::Ask | Call::Take(_) => Seen::Nothing,
        Call::Line(byte) => from_line(before, byte),
        Call::Frame(frame) => from_loop(before, frame as u16, value(answer) as u16),
        Call::Break => Seen::Break,
        Call::Key => Seen::Key,
        Call::Register(number, _) => Seen::Register(number),
        Call::Reset => Seen::Reset,
    }
}

fn from_line(before: &Bridge, byte: u8) -> Seen {
    let handshake = before.registers.r11 & 8 != 0 && before.registers.c[4..].contains(&byte);
    if handshake {
        Seen::Nothing
    } else if before.receive.held < before.receive_len {
        Seen::Accepted(byte)
    } else {
        Seen::Lost
    }
}

fn from_loop(before: &Bridge, frame: u16, out: u16) -> Seen {
    let data = (frame & 255) as u8;
    let unchanged = frame & !SERVICE == before.under_way & !SERVICE;
    match (frame >> 8, before.talker) {
        (4, _) if data == 20 || data == 4 && before.listener => Seen::DeviceClear,
        (4, ACTIVE_STATUS) => Seen::StatusGone,
        (5, ADDRESSED) if data == 96 => sent(out),
        (5, ADDRESSED) if data == 97 => Seen::StatusSent,
        (0..=3, ACTIVE_DATA) if unchanged && !before.finishing => sent(out),
        (0..=3, ACTIVE_DATA) => Seen::Nothing,
        (0..=3, ACTIVE_STATUS) if unchanged => Seen::StatusBack,
        (0..=3, ACTIVE_STATUS) => Seen::StatusGone,
        (0..=3, _) if before.listener => added(before, frame),
        _ => Seen::Nothing,
    }
}

fn sent(out: u16) -> Seen {
    if out < 1024 {
        Seen::Sent(out & !SERVICE)
    } else {
        Seen::SentNone
    }
}

fn added(before: &Bridge, frame: u16) -> Seen {
    let (registers, data) = (&before.registers, (frame & 255) as u8);
    let with_pair = frame & 0x200 != 0 && registers.r10 & 4 != 0;
    let bytes = [data, registers.c[2], registers.c[3]];
    Seen::Added(bytes, if with_pair { 3 } else { 1 })
}
