//! States drawn at random.

use crate::world::World;
use raftershim_mailbox_model::{BusResponse, LoopResponse, News};

/// Numbers that look random and are the same every time.
pub struct Draw(pub u64);

impl Draw {
    /// A number below `below`.
    pub fn below(&mut self, below: u64) -> u64 {
        self.0 = self.0.wrapping_mul(6364136223846793005).wrapping_add(1);
        (self.0 >> 33) % below
    }

    pub fn flag(&mut self) -> bool {
        self.below(2) == 1
    }

    fn news(&mut self) -> News {
        News {
            request: self.flag(),
            available: self.flag(),
            again: self.flag(),
        }
    }

    /// Any fitting state, reached by calls or not, and any cells.
    pub fn world(&mut self) -> World<2, 1> {
        let mut w = World::new();
        let m = &mut w.mailbox;
        m.to_bus.ring.oldest = self.below(2) as usize;
        m.to_bus.ring.held = self.below(3) as usize;
        m.to_loop.ring.held = self.below(2) as usize;
        (m.to_bus.news, m.to_loop.news) = (self.news(), self.news());
        let side = &mut m.loop_side;
        side.address = [15, 31, self.below(31) as u8][self.below(3) as usize];
        side.talker = self.below(4) as u8;
        side.listener = side.talker == 0 && self.flag();
        side.under_way = self.below(1024) as u16;
        side.source = self.below(11) as u8;
        side.finishing = self.flag();
        side.not_ready = self.flag();
        side.holds = self.flag();
        side.held = self.below(1024) as u16;
        side.poll = LoopResponse {
            on: self.flag(),
            line: self.below(8) as u8,
            sense: self.flag(),
        };
        let side = &mut m.bus_side;
        side.address = self.below(31) as u8;
        side.talker = self.below(2) as u8;
        side.listener = side.talker == 0 && self.flag();
        side.serial_poll = self.flag();
        side.status_read = self.flag();
        side.configuring = self.flag();
        side.poll = BusResponse {
            on: self.flag(),
            line: self.below(8) as u8,
        };
        w.to_bus = [self.below(1 << 16) as u16, self.below(1 << 16) as u16];
        w.to_loop = [self.below(1 << 16) as u16];
        w
    }
}
