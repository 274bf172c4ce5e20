//! The second and third statement of demand 3, held against a run by history of our own.

use super::seen::Seen;
use model::{Bridge, ACTIVE_STATUS};

/// Whether a break, a loss or a key press is still to be told.
#[derive(Clone, Copy, Debug, Default, PartialEq, Eq, Hash)]
struct News {
    /// It happened, and no status byte sent after it has come back unchanged.
    owed: bool,
    /// The status byte under way was sent after it happened last.
    under_way: bool,
}

impl News {
    /// By the state's own flags, since a run may start anywhere.
    fn starting(bridge: &Bridge, bit: u32, happened: bool, again: bool) -> News {
        let shown = bridge.talker == ACTIVE_STATUS && bridge.under_way >> bit & 1 == 1;
        News {
            owed: happened,
            under_way: shown && !again,
        }
    }

    fn note(&mut self, seen: Seen, happening: Seen) {
        match seen {
            Seen::StatusSent => self.under_way = self.owed,
            Seen::StatusBack => {
                self.owed &= !self.under_way;
                self.under_way = false;
            }
            Seen::StatusGone => self.under_way = false,
            Seen::DeviceClear | Seen::Reset => *self = News::default(),
            _ if seen == happening => {
                self.owed = true;
                self.under_way = false;
            }
            _ => {}
        }
    }
}

/// Whether no byte may be lost: "If the run starts with the receiver protocol on, not holding off,
/// and more room than the margin, and at most a margin of data bytes arrives in each spell".
#[derive(Clone, Copy, Debug, PartialEq, Eq, Hash)]
struct Room {
    promised: bool,
    /// Data bytes that arrived in this spell of holding off; 0 once nothing is promised.
    in_spell: u16,
}

impl Room {
    fn starting(bridge: &Bridge) -> Room {
        let free = bridge.receive_len - bridge.receive.held;
        Room {
            promised: bridge.registers.r11 == 8 && !bridge.holding && free > bridge.margin,
            in_spell: 0,
        }
    }

    fn arrived(&mut self, before: &Bridge) {
        self.in_spell = if before.holding { self.in_spell + 1 } else { 0 };
        self.promised &= usize::from(self.in_spell) <= before.margin;
        self.in_spell *= u16::from(self.promised);
    }
}

/// What a run's watcher keeps for these two statements.
#[derive(Clone, Copy, Debug, PartialEq, Eq, Hash)]
pub struct Promises {
    /// Of breaks, losses and key presses: status bits 4, 5 and 7.
    news: [News; 3],
    room: Room,
}

impl Promises {
    pub fn starting(bridge: &Bridge) -> Promises {
        let b = bridge;
        Promises {
            news: [
                News::starting(b, 4, b.break_seen, b.break_again),
                News::starting(b, 5, b.overrun_seen, b.overrun_again),
                News::starting(b, 7, b.key_seen, b.key_again),
            ],
            room: Room::starting(bridge),
        }
    }

    /// Takes note of a call and holds the state after it to both statements. The three bits are
    /// held to more than the demand says: each is set exactly while it is news.
    pub fn note(&mut self, before: &Bridge, seen: Seen, after: &Bridge) -> Result<(), String> {
        let happenings = [Seen::Break, Seen::Lost, Seen::Key];
        for (news, happening) in self.news.iter_mut().zip(happenings) {
            news.note(seen, happening);
        }
        let bits = [after.break_seen, after.overrun_seen, after.key_seen];
        if self.news.map(|news| news.owed) != bits {
            return Err(format!("break, overrun, key: {bits:?}, not so by history"));
        }
        match seen {
            Seen::Accepted(_) | Seen::Lost => self.room.arrived(before),
            // This statement speaks of runs without these, so a new run starts after them.
            Seen::Register(_) | Seen::DeviceClear | Seen::Reset => {
                self.room = Room::starting(after)
            }
            _ => {}
        }
        if seen == Seen::Lost && self.room.promised {
            return Err("a byte is lost where none may be".into());
        }
        Ok(())
    }
}
