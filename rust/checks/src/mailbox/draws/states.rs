//! States with every field drawn from its range, most of which calls never reach.

use crate::mailbox::TheMailbox;
use crate::random::Random;
use crate::runs::{cells, places, Drawable, Drawn};
use mailbox_model::{
    block, BusResponse, BusSide, LoopResponse, LoopSide, Mailbox, News, Ring, Way, IDLE,
};

/// A state that fits its stores.
pub fn state(random: &mut Random) -> Drawn<TheMailbox> {
    let (lens, address) = TheMailbox::sizes(random);
    let state = Mailbox {
        to_bus: way(random, lens[0]),
        to_loop: way(random, lens[1]),
        loop_side: loop_side(random),
        bus_side: bus_side(random, address as u8),
    };
    let (one, other) = (cells(random, lens[0]), cells(random, lens[1]));
    assert!(state.fits(&one, &other));
    Drawn {
        block: block::pack(&state).to_vec(),
        state,
        one,
        other,
    }
}

fn way(random: &mut Random, capacity: usize) -> Way {
    let [oldest, held] = places(random, capacity);
    let [request, available, again] = [(); 3].map(|()| random.flag());
    Way {
        ring: Ring {
            capacity,
            oldest,
            held,
        },
        news: News {
            request,
            available,
            again,
        },
    }
}

fn line(random: &mut Random) -> u8 {
    random.below(8) as u8
}

/// A data frame, often none.
fn frame(random: &mut Random) -> u16 {
    let any = random.below(1024) as u16;
    random.one_of(&[0, any, any])
}

fn loop_side(random: &mut Random) -> LoopSide {
    let talker = random.below(4) as u8;
    let address = random.below(31) as u8;
    let source = random.below(11) as u8;
    LoopSide {
        address: random.one_of(&[31, 15, address, address]),
        talker,
        listener: talker == IDLE && random.below(4) > 0,
        under_way: frame(random),
        source: random.one_of(&[0, source]),
        finishing: random.flag(),
        not_ready: random.flag(),
        holds: random.flag(),
        held: frame(random),
        poll: LoopResponse {
            on: random.flag(),
            line: line(random),
            sense: random.flag(),
        },
    }
}

fn bus_side(random: &mut Random, address: u8) -> BusSide {
    let talker = random.below(2) as u8;
    BusSide {
        address,
        talker,
        listener: talker == IDLE && random.below(4) > 0,
        serial_poll: random.flag(),
        status_read: random.flag(),
        configuring: random.flag(),
        poll: BusResponse {
            on: random.flag(),
            line: line(random),
        },
    }
}
