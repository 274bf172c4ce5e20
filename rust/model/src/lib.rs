//! A plain model of the whole bridge, written from the paper and its change requests alone.
//!
//! It is a second opinion: one struct, one function per call, no cleverness. Quoted sentences are
//! theirs. Both stores are lent at every call; a call that never writes a store borrows it
//! unchangeably, so the signatures already say which call may write what.
//!
//! The receive store is of 16-bit cells, "the byte and its break mark together", and the transmit
//! store of bytes.

#![forbid(unsafe_code)]

pub mod block;
pub mod boundary;
mod line_out;
mod reading;
mod ring;

pub use ring::Ring;

use reading::{cell, marked, reading, Reading};

/// What a call answers.
#[derive(Clone, Copy, Debug, PartialEq, Eq)]
pub enum Answer {
    /// Done, and no more is answered.
    Done,
    /// No line byte is next.
    NoByte,
    /// The line byte that is next.
    Byte(u8),
    /// The frame that goes out for the frame taken.
    Frame(u16),
    /// A refusal with its number; nothing has changed.
    Refused(u8),
}

/// What a call answers that tells how much room is left: a byte that comes in from the line tells
/// that of the receive store, a loop frame that of the transmit store, whether or not a byte was
/// stored.
#[derive(Clone, Copy, Debug, PartialEq, Eq)]
pub struct WithRoom {
    pub answer: Answer,
    /// How much the store can still take after the call, in bytes or cells. A refusal tells no room.
    pub room: Option<usize>,
}

impl WithRoom {
    /// The answer with what the store says of its room, which is not asked after a refusal.
    fn of(answer: Answer, room: impl FnOnce() -> usize) -> WithRoom {
        let room = match answer {
            Answer::Refused(_) => None,
            _ => Some(room()),
        };
        WithRoom { answer, room }
    }
}

/// The other calls tell no room.
impl From<Answer> for WithRoom {
    fn from(answer: Answer) -> WithRoom {
        WithRoom { answer, room: None }
    }
}

/// Talker phase: not addressed to talk.
pub const IDLE: u8 = 0;
/// Talker phase: addressed, not active.
pub const ADDRESSED: u8 = 1;
/// Talker phase: active, a data frame of ours is under way.
pub const ACTIVE_DATA: u8 = 2;
/// Talker phase: active, a status byte of ours is under way.
pub const ACTIVE_STATUS: u8 = 3;

/// The address that means "unassigned".
pub const UNASSIGNED: u8 = 31;

/// The service bit of data and identify frames: the lowest of the three control bits.
pub const SERVICE: u16 = 1 << 8;
/// The end bit of data frames.
const END: u16 = 2 << 8;
/// 5,64: the end of a sending, all well.
const SENDING_OVER: u16 = (5 << 8) | 64;
/// 5,65: the end of a sending, our frame came back damaged.
const SENDING_DAMAGED: u16 = (5 << 8) | 65;

/// The carried registers.
#[derive(Clone, Copy, Debug, PartialEq, Eq)]
pub struct Registers {
    /// Bit 3 shows service requests, bit 0 enables overrun.
    pub r00: u8,
    /// Enables the four store conditions, in the order of status bits 0 to 3.
    pub r01: u8,
    /// Bit 2 enables the key, bit 0 the break.
    pub r02: u8,
    /// Bit 3: detect and delete line ends from the line. Bit 2: insert them on the line.
    pub r10: u8,
    /// Bit 3: receiver protocol.
    pub r11: u8,
    /// C00 to C05: pair looked for, pair inserted, go (ready), stop (not ready).
    pub c: [u8; 6],
}

/// The state that the caller keeps.
#[derive(Clone, Copy, Debug, PartialEq, Eq)]
pub struct Bridge {
    /// Recorded length of the receive store.
    pub receive_len: usize,
    /// Recorded length of the transmit store.
    pub transmit_len: usize,
    /// The margin m.
    pub margin: usize,
    pub registers: Registers,
    /// 0 to 30, or 31 for unassigned.
    pub address: u8,
    /// Talker phase, 0 to 3.
    pub talker: u8,
    pub listener: bool,
    pub remote_enabled: bool,
    pub remote: bool,
    /// Our data frame under way, without its service bit; 0 when there is none.
    pub under_way: u16,
    /// Whether sending ends after the frame under way.
    pub finishing: bool,
    /// Line to loop.
    pub receive: Ring,
    /// Loop to line.
    pub transmit: Ring,
    /// Whether we hold the line off.
    pub holding: bool,
    /// Whether the other end forbade our sending.
    pub forbidden: bool,
    /// Whether stop was the last of go and stop that we sent.
    pub stop_sent_last: bool,
    /// Status bit 4.
    pub break_seen: bool,
    /// Status bit 5.
    pub overrun_seen: bool,
    /// Status bit 7.
    pub key_seen: bool,
    /// Whether a break happened since the last status byte was sent.
    pub break_again: bool,
    /// Whether a byte was lost since the last status byte was sent.
    pub overrun_again: bool,
    /// Whether the key was pressed since the last status byte was sent.
    pub key_again: bool,
    /// Whether a service request has begun and not ended, shown or not.
    pub request: bool,
    /// Bytes stored in the receive store.
    pub stored: u32,
    /// Bytes lost.
    pub lost: u32,
    /// Data frames sent from the receive store.
    pub sent: u32,
}

/// "Margin m is 1 to 1,024. The receive store has 2m+2 to 32,768 bytes, the transmit store 3 to
/// 32,768."
fn sizes_obeyed(receive_len: usize, transmit_len: usize, margin: usize) -> bool {
    (1..=1024).contains(&margin)
        && (2 * margin + 2..=32768).contains(&receive_len)
        && (3..=32768).contains(&transmit_len)
}

/// "Carried: R00 bits 3 and 0; R01 all four; R02 bits 2 and 0; R10 bits 3 and 2; R11 bit 3; C00
/// to C05."
fn carried_bits(number: u32) -> Option<u8> {
    match number {
        0 => Some(0b1001),
        1 => Some(0b1111),
        2 => Some(0b0101),
        10 => Some(0b1100),
        11 => Some(0b1000),
        16..=21 => Some(255),
        _ => None,
    }
}

impl Registers {
    /// "Start: R11 is 8, other control registers 0; C00 and C02 are 13, C01 and C03 are 10; the
    /// C04/C05 pair is go 17 and stop 19"
    const START: Registers = Registers {
        r00: 0,
        r01: 0,
        r02: 0,
        r10: 0,
        r11: 8,
        c: [13, 10, 13, 10, 17, 19],
    };

    fn go(&self) -> u8 {
        self.c[4]
    }

    fn stop(&self) -> u8 {
        self.c[5]
    }

    fn protocol_on(&self) -> bool {
        self.r11 & 8 != 0
    }

    /// Whether each control register has carried bits only.
    fn in_range(&self) -> bool {
        let control = [
            (0, self.r00),
            (1, self.r01),
            (2, self.r02),
            (10, self.r10),
            (11, self.r11),
        ];
        control
            .iter()
            .all(|&(number, value)| value & !carried_bits(number).unwrap_or(0) == 0)
    }

    /// The registers after a write, or the number of its refusal.
    fn written(&self, number: u32, value: u32) -> Result<Registers, u8> {
        // "5: a number not carried"
        let carried = match carried_bits(number) {
            Some(bits) => bits,
            None => return Err(5),
        };
        // "6: a control value above 15, or a character above 255"
        let largest = if number < 16 { 15 } else { 255 };
        if value > largest {
            return Err(6);
        }
        let value = value as u8;
        // "7: a control bit not carried"
        if value & !carried != 0 {
            return Err(7);
        }
        let mut new = *self;
        match number {
            0 => new.r00 = value,
            1 => new.r01 = value,
            2 => new.r02 = value,
            10 => new.r10 = value,
            11 => new.r11 = value,
            _ => new.c[number as usize - 16] = value,
        }
        // "8: the go and stop characters would be equal"
        if new.go() == new.stop() {
            return Err(8);
        }
        Ok(new)
    }
}

impl Bridge {
    /// Creates a bridge for these stores, which it does not write; `Err` is refusal 1.
    pub fn create(rx: &[u16], tx: &[u8], margin: u32) -> Result<Bridge, Answer> {
        if !sizes_obeyed(rx.len(), tx.len(), margin as usize) {
            return Err(Answer::Refused(1));
        }
        Ok(Bridge::start(rx.len(), tx.len(), margin as usize))
    }

    fn start(receive_len: usize, transmit_len: usize, margin: usize) -> Bridge {
        Bridge {
            receive_len,
            transmit_len,
            margin,
            registers: Registers::START,
            address: UNASSIGNED,
            talker: IDLE,
            listener: false,
            remote_enabled: false,
            remote: false,
            under_way: 0,
            finishing: false,
            receive: Ring::EMPTY,
            transmit: Ring::EMPTY,
            holding: false,
            forbidden: false,
            stop_sent_last: false,
            break_seen: false,
            overrun_seen: false,
            key_seen: false,
            break_again: false,
            overrun_again: false,
            key_again: false,
            request: false,
            stored: 0,
            lost: 0,
            sent: 0,
        }
    }

    /// "A state fits if its recorded lengths are those of the stores and obey the sizes above with
    /// its margin, every field is in its range, go and stop differ, and it is not talker and
    /// listener at once"
    pub fn fits(&self, rx_len: usize, tx_len: usize) -> bool {
        self.receive_len == rx_len
            && self.transmit_len == tx_len
            && sizes_obeyed(rx_len, tx_len, self.margin)
            && self.registers.in_range()
            && self.address <= UNASSIGNED
            && self.talker <= ACTIVE_STATUS
            && self.under_way < 1024
            && self.receive.fits(rx_len)
            && self.transmit.fits(tx_len)
            && self.registers.go() != self.registers.stop()
            && !(self.talker != IDLE && self.listener)
    }

    /// "Reset gives what create gives for the same sizes and margin; neither writes a store."
    pub fn reset(&mut self, rx: &[u16], tx: &[u8]) -> Answer {
        if !self.fits(rx.len(), tx.len()) {
            return Answer::Refused(2);
        }
        *self = Bridge::start(self.receive_len, self.transmit_len, self.margin);
        Answer::Done
    }

    /// Writes a register: 0 to 12 are R00 to R12, 16 to 21 are C00 to C05.
    pub fn write_register(&mut self, rx: &[u16], tx: &[u8], number: u32, value: u32) -> Answer {
        if !self.fits(rx.len(), tx.len()) {
            return Answer::Refused(2);
        }
        let new = match self.registers.written(number, value) {
            Ok(new) => new,
            Err(refusal) => return Answer::Refused(refusal),
        };
        // Held bytes, after 8: no register of the reading rule is written while anything is held,
        // whatever the value.
        if matches!(number, 10 | 16 | 17) && self.receive.held > 0 {
            return Answer::Refused(10);
        }
        let before = self.enabled_and_holding();
        self.registers = new;
        if number == 11 {
            // "Writing R11 lets our sending start again at once."
            self.forbidden = false;
            // "Writing R11 sets it afresh: held off exactly if bit 3 is on and m or fewer are
            // free."
            self.holding = new.protocol_on() && self.receive_free() <= self.margin;
        }
        self.begin_request(before);
        Answer::Done
    }

    /// Takes a byte from the line, and tells the room of the receive store.
    pub fn line_byte(&mut self, rx: &mut [u16], tx: &[u8], byte: u8) -> WithRoom {
        let answer = self.line_byte_came(rx, tx, byte);
        WithRoom::of(answer, || self.receive.room(rx.len()))
    }

    fn line_byte_came(&mut self, rx: &mut [u16], tx: &[u8], byte: u8) -> Answer {
        if !self.fits(rx.len(), tx.len()) {
            return Answer::Refused(2);
        }
        let before = self.enabled_and_holding();
        let protocol_on = self.registers.protocol_on();
        // "With R11 bit 3 on, a line byte equal to go or stop is never stored: it permits or
        // forbids our sending."
        if protocol_on && byte == self.registers.go() {
            self.forbidden = false;
        } else if protocol_on && byte == self.registers.stop() {
            self.forbidden = true;
        } else if self.receive_free() == 0 {
            // "Any other byte is stored, or lost exactly when the receive store is full; a loss
            // sets overrun."
            self.overrun_seen = true;
            self.overrun_again = true;
            self.lost = self.lost.wrapping_add(1);
        } else {
            self.receive.put(rx, cell(byte));
            self.stored = self.stored.wrapping_add(1);
            // "Holding off begins, only with R11 bit 3 on, when a stored byte leaves m free or
            // fewer"
            if protocol_on && self.receive_free() <= self.margin {
                self.holding = true;
            }
        }
        self.begin_request(before);
        Answer::Done
    }

    /// "A break sets bit 4 [...], and apart from a request and the note that it happened again
    /// [...] changes nothing else", but for the mark: "a break writes it into the newest held cell,
    /// and nothing else into a store".
    pub fn take_break(&mut self, rx: &mut [u16], tx: &[u8]) -> Answer {
        if !self.fits(rx.len(), tx.len()) {
            return Answer::Refused(2);
        }
        let before = self.enabled_and_holding();
        // "a break with nothing held needs no mark"
        if let Some(newest) = self.receive.newest(rx) {
            *newest = marked(*newest);
        }
        self.break_seen = true;
        self.break_again = true;
        self.begin_request(before);
        Answer::Done
    }

    /// As a break, for the MSRQ key and bit 7; a press leaves no mark.
    pub fn take_key(&mut self, rx: &[u16], tx: &[u8]) -> Answer {
        if !self.fits(rx.len(), tx.len()) {
            return Answer::Refused(2);
        }
        let before = self.enabled_and_holding();
        self.key_seen = true;
        self.key_again = true;
        self.begin_request(before);
        Answer::Done
    }

    /// Takes a loop frame, and tells the room of the transmit store.
    pub fn loop_frame(&mut self, rx: &[u16], tx: &mut [u8], frame: u32) -> WithRoom {
        let answer = self.take_frame(rx, tx, frame);
        WithRoom::of(answer, || self.transmit.room(tx.len()))
    }

    /// "Each frame taken gives exactly one frame out."
    fn take_frame(&mut self, rx: &[u16], tx: &mut [u8], frame: u32) -> Answer {
        if !self.fits(rx.len(), tx.len()) {
            return Answer::Refused(2);
        }
        // "3: a loop frame above 2,047"
        if frame > 2047 {
            return Answer::Refused(3);
        }
        let frame = frame as u16;
        // "4, busy: we are listener, the frame is data, the transmit store lacks room for what it
        // adds"
        let free = self.transmit.room(self.transmit_len);
        if self.listener && frame >> 8 < 4 && free < self.added(frame) {
            return Answer::Refused(4);
        }

        let before = self.enabled_and_holding();
        let cleared = frame >> 8 == 4 && self.is_clear(frame as u8);
        let out = self.taken(rx, tx, frame);
        // "A device clear leaves no request."
        if !cleared {
            self.begin_request(before);
        }
        Answer::Frame(out)
    }

    /// How many bytes a data frame adds to the transmit store of a listener: "the byte; for an end
    /// byte with R10 bit 2 on, then C02 and C03".
    fn added(&self, frame: u16) -> usize {
        if frame & END != 0 && self.registers.r10 & 4 != 0 {
            3
        } else {
            1
        }
    }

    /// Does what the frame asks, and gives the frame that goes out.
    fn taken(&mut self, rx: &[u16], tx: &mut [u8], frame: u16) -> u16 {
        let data = (frame & 255) as u8;
        // "Data frames sent (status too) or passed, and identify frames, get the service bit if a
        // request showed before the call, and otherwise keep theirs."
        let service = if self.request_shows() { SERVICE } else { 0 };
        match frame >> 8 {
            4 => {
                self.command(data);
                frame
            }
            5 => self.ready(rx, data, service),
            6 | 7 => frame | service,
            _ if self.talker >= ACTIVE_DATA => self.returned(rx, frame, service),
            _ => {
                // "Other data frames pass; a listener also stores them."
                if self.listener {
                    let line = [data, self.registers.c[2], self.registers.c[3]];
                    for &byte in &line[..self.added(frame)] {
                        self.transmit.put(tx, byte);
                    }
                }
                frame | service
            }
        }
    }

    /// Shows the receive store, by its cells: "the longest unbroken run of bytes from the oldest
    /// one, [...] and an empty part if nothing is held, the state misfits".
    pub fn show_receive<'a>(&self, rx: &'a [u16], tx: &[u8]) -> &'a [u16] {
        if !self.fits(rx.len(), tx.len()) {
            return &rx[..0];
        }
        self.receive.run(rx)
    }

    /// Shows the transmit store in the same way, by its bytes.
    pub fn show_transmit<'a>(&self, rx: &[u16], tx: &'a [u8]) -> &'a [u8] {
        if !self.fits(rx.len(), tx.len()) {
            return &tx[..0];
        }
        self.transmit.run(tx)
    }

    /// "20, or 4 when listener: device clear."
    fn is_clear(&self, data: u8) -> bool {
        data == 20 || (data == 4 && self.listener)
    }

    /// Does a command's work; the frame goes on unchanged.
    fn command(&mut self, data: u8) {
        // "First, an active talker becomes merely addressed and forgets the frame under way"
        if self.talker >= ACTIVE_DATA {
            self.stop_sending();
        }
        match data {
            32..=63 => self.listen_address(data - 32),
            64..=95 => self.talk_address(data - 64),
            _ if self.is_clear(data) => self.device_clear(),
            // "144: neither talker nor listener."
            144 => {
                self.talker = IDLE;
                self.listener = false;
            }
            // "146 enables remote; 147 ends it and remote."
            146 => self.remote_enabled = true,
            147 => {
                self.remote_enabled = false;
                self.remote = false;
            }
            // "1 when listener: local."
            1 if self.listener => self.remote = false,
            // "154: address 31, unassigned."
            154 => self.address = UNASSIGNED,
            // "All others change no more."
            _ => {}
        }
    }

    /// "32+n: n=31 ends listening; n=a makes us listener, not talker, and remote if enabled;
    /// another n does nothing."
    fn listen_address(&mut self, n: u8) {
        if n == 31 {
            self.listener = false;
        } else if n == self.address {
            self.listener = true;
            self.talker = IDLE;
            if self.remote_enabled {
                self.remote = true;
            }
        }
    }

    /// "64+n: n=a and not 31 makes us talker, not listener; any other n ends talking."
    fn talk_address(&mut self, n: u8) {
        if n == self.address && n != 31 {
            self.talker = ADDRESSED;
            self.listener = false;
        } else {
            self.talker = IDLE;
        }
    }

    /// "Both stores empty, hold-off and the other end's stop end, overrun, break, key and service
    /// request clear." What we sent last stays, so a go may be owed.
    fn device_clear(&mut self) {
        self.receive = Ring::EMPTY;
        self.transmit = Ring::EMPTY;
        self.holding = false;
        self.forbidden = false;
        self.break_seen = false;
        self.overrun_seen = false;
        self.key_seen = false;
        self.forget_notes();
        self.request = false;
    }

    /// Takes a ready frame and gives the frame that goes out for it.
    fn ready(&mut self, rx: &[u16], data: u8, service: u16) -> u16 {
        match data {
            // "Ready 128+n, n at most 30, when unassigned: we take n and send 128+n+1."
            128..=158 if self.address == UNASSIGNED => {
                self.address = data - 128;
                (5 << 8) | (u16::from(data) + 1)
            }
            // "Ready 96 (send data) when addressed talker and not active: send the first frame, or
            // 5,64 if the reading rule has none."
            96 if self.talker == ADDRESSED => self.send(rx, service),
            // "Ready 97 likewise: send the status byte."
            97 if self.talker == ADDRESSED => self.send_status(service),
            _ => {
                // "Ready 66 when active with data: pass it on and finish after the frame under
                // way. Other ready frames pass."
                if data == 66 && self.talker == ACTIVE_DATA {
                    self.finishing = true;
                }
                (5 << 8) | u16::from(data)
            }
        }
    }

    /// "A data frame taken while ours is under way is its return."
    fn returned(&mut self, rx: &[u16], frame: u16, service: u16) -> u16 {
        // "Compared without the service bit: equal gives the next frame, or 5,64 if none, if
        // finishing, or if it was status; unequal gives 5,65."
        if frame & !SERVICE != self.under_way & !SERVICE {
            self.stop_sending();
            return SENDING_DAMAGED;
        }
        if self.talker == ACTIVE_STATUS {
            self.clear_what_was_shown();
        } else if !self.finishing {
            return self.send(rx, service);
        }
        self.stop_sending();
        SENDING_OVER
    }

    /// "Bits 4, 5, 7 clear when a status byte that showed them returns unchanged, unless the thing
    /// happened again since it was sent."
    fn clear_what_was_shown(&mut self) {
        if self.under_way & (1 << 4) != 0 && !self.break_again {
            self.break_seen = false;
        }
        if self.under_way & (1 << 5) != 0 && !self.overrun_again {
            self.overrun_seen = false;
        }
        if self.under_way & (1 << 7) != 0 && !self.key_again {
            self.key_seen = false;
        }
    }

    /// A send from the receive store. "Each first applies step 1 as often as it holds, also when
    /// no frame follows; nothing more is removed after its frame."
    fn send(&mut self, rx: &[u16], service: u16) -> u16 {
        let frame = loop {
            match reading(&self.registers, self.receive, rx) {
                Reading::Pair => self.receive.remove(rx.len(), 2),
                Reading::Wait => break None,
                Reading::Data(byte) => {
                    self.receive.remove(rx.len(), 1);
                    break Some(u16::from(byte));
                }
                Reading::EndByte(byte) => {
                    self.receive.remove(rx.len(), 3);
                    break Some(END | u16::from(byte));
                }
            }
        };
        // "and ends when a send leaves 2m free or more"
        if self.receive_free() >= 2 * self.margin {
            self.holding = false;
        }
        match frame {
            Some(frame) => {
                self.talker = ACTIVE_DATA;
                self.under_way = frame;
                self.finishing = false;
                self.sent = self.sent.wrapping_add(1);
                frame | service
            }
            None => {
                self.stop_sending();
                SENDING_OVER
            }
        }
    }

    /// "The byte shows what held before the call that sends it." A request "ends when status is
    /// sent".
    fn send_status(&mut self, service: u16) -> u16 {
        let shown = if self.request_shows() { 1 << 6 } else { 0 };
        let status = u16::from(self.conditions() | shown);
        self.talker = ACTIVE_STATUS;
        self.under_way = status;
        self.finishing = false;
        self.forget_notes();
        self.request = false;
        status | service
    }

    /// "After 5,64 or 5,65 we are addressed, not active." No frame is under way then.
    fn stop_sending(&mut self) {
        self.talker = ADDRESSED;
        self.under_way = 0;
        self.finishing = false;
    }

    fn forget_notes(&mut self) {
        self.break_again = false;
        self.overrun_again = false;
        self.key_again = false;
    }

    fn receive_free(&self) -> usize {
        self.receive.room(self.receive_len)
    }

    /// "Bit 0 transmit empty, 1 transmit not full, 2 receive not empty, 3 receive full, 4 break, 5
    /// overrun, [...] 7 MSRQ pressed." Bit 6 is left 0 here.
    fn conditions(&self) -> u8 {
        u8::from(self.transmit.held == 0)
            | u8::from(self.transmit.held < self.transmit_len) << 1
            | u8::from(self.receive.held > 0) << 2
            | u8::from(self.receive.held == self.receive_len) << 3
            | u8::from(self.break_seen) << 4
            | u8::from(self.overrun_seen) << 5
            | u8::from(self.key_seen) << 7
    }

    /// The conditions that hold and whose own bit in R00, R01 or R02 is on.
    fn enabled_and_holding(&self) -> u8 {
        let overrun = self.registers.r00 & 1;
        let stores = self.registers.r01 & 15;
        let line_break = self.registers.r02 & 1;
        let key = self.registers.r02 >> 2 & 1;
        self.conditions() & (stores | line_break << 4 | overrun << 5 | key << 7)
    }

    /// "A request begins when an enabled condition comes to hold that was not enabled-and-holding
    /// before the call"
    fn begin_request(&mut self, before: u8) {
        if self.enabled_and_holding() & !before != 0 {
            self.request = true;
        }
    }

    /// "it shows (bit 6 too) only while R00 bit 3 is on"
    fn request_shows(&self) -> bool {
        self.request && self.registers.r00 & 8 != 0
    }
}
