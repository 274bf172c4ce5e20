//! What goes out on the line: the byte that is next is asked for, and is taken when it has gone
//! out.

use crate::{Answer, Bridge};

impl Bridge {
    /// Says the line byte that is next, or none. Asking changes nothing.
    pub fn ask_line_byte(&self, rx: &[u16], tx: &[u8]) -> Answer {
        if !self.fits(rx.len(), tx.len()) {
            return Answer::Refused(2);
        }
        match self.next_on_line(tx) {
            Some(byte) => Answer::Byte(byte),
            None => Answer::NoByte,
        }
    }

    /// Takes a line byte by its name: the one that is next, which is then gone.
    pub fn take_line_byte(&mut self, rx: &[u16], tx: &[u8], byte: u8) -> Answer {
        if !self.fits(rx.len(), tx.len()) {
            return Answer::Refused(2);
        }
        // Refusal 12: another byte is next, or none is.
        if self.next_on_line(tx) != Some(byte) {
            return Answer::Refused(12);
        }
        let before = self.enabled_and_holding();
        if self.owes_go_or_stop() {
            self.stop_sent_last = self.holding;
        } else {
            self.transmit.remove(tx.len(), 1);
        }
        self.begin_request(before);
        Answer::Done
    }

    /// Whether go or stop is owed: the one that we sent last, at the start go, is not what holds.
    fn owes_go_or_stop(&self) -> bool {
        self.stop_sent_last != self.holding
    }

    /// The byte that is next: go or stop first of all if it is owed, even with the protocol off or
    /// our sending forbidden; else none while our sending is forbidden; else the oldest byte held.
    fn next_on_line(&self, tx: &[u8]) -> Option<u8> {
        match (self.owes_go_or_stop(), self.forbidden) {
            (true, _) if self.holding => Some(self.registers.stop()),
            (true, _) => Some(self.registers.go()),
            (false, true) => None,
            (false, false) => self.transmit.look(tx, 0),
        }
    }
}
