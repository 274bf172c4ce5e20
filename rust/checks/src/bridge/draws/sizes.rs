//! Sizes of stores and margins.

use crate::random::Random;

/// The largest store.
const LARGEST: usize = 32_768;

/// Sizes that are obeyed, lengths and margin; small ones often, since those fill.
pub fn sizes(random: &mut Random) -> ([usize; 2], u32) {
    let (rx_len, tx_len, margin) = match random.below(24) {
        0..=5 => (4, 3, 1),
        6..=19 => {
            let margin = random.within(1..=8);
            let rx_len = 2 * margin + 2 + random.below(24);
            (rx_len, random.within(3..=23), margin)
        }
        20 => (2 * 1024 + 2, 3, 1024),
        21 => (LARGEST, LARGEST, 1),
        22 => (LARGEST, LARGEST, 1024),
        _ => {
            let margin = random.within(1..=1024);
            let rx_len = random.within(2 * margin + 2..=LARGEST);
            (rx_len, random.within(3..=LARGEST), margin)
        }
    };
    ([rx_len, tx_len], margin as u32)
}
