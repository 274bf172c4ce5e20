//! What has to be met is asked for one by one, and only what is across the end counts.

use crate::bridge::{Receive, Transmit};
use crate::mailbox::{ToBus, ToLoop};
use crate::met::Met;
use crate::store::Store;
use model::Ring;

fn missing<S: Store>(met: &Met) -> usize {
    met.missing::<S>().len()
}

#[test]
fn where_nothing_was_met_all_is_missing() {
    // Rounds, puts by their cells, removals by their cells, places to be full and to be marked at,
    // and parts.
    let met = [3, 4, 64, 32_768].map(Met::nothing);
    let [three, four, small, large] = &met;
    let few = 1 + 2 + 3 + 3 + 4;
    let all = few + 5 + 7;
    assert_eq!(missing::<Receive>(four), 1 + 1 + few + 4 + 4 + 4);
    assert_eq!(missing::<Receive>(small), 1 + 1 + all + 64 + 64 + 4);
    assert_eq!(missing::<Receive>(large), 1 + 1 + all + 4 + 4 + 4);
    assert_eq!(missing::<Transmit>(three), 1 + (1 + 3) + 1 + 3 + 4);
    assert_eq!(missing::<ToBus>(large), 1 + 1 + 2 + 4 + 4);
    assert_eq!(missing::<ToLoop>(large), 1 + 1 + 2 + 4 + 4);
}

#[test]
fn only_what_is_across_the_end_counts() {
    let ring = |oldest, held| Ring { oldest, held };
    let mut met = Met::nothing(8);
    let all = missing::<Receive>(&met);
    // Places 5 and 6, then 6 and 7, then 7 and 0.
    assert!(!met.removal([ring(5, 2), ring(7, 0)], None));
    assert_eq!(missing::<Receive>(&met), all);
    assert!(met.removal([ring(6, 2), ring(0, 0)], None));
    assert!(met.removal([ring(7, 2), ring(1, 0)], None));
    assert_eq!(missing::<Receive>(&met), all - 2);
    // Place 6, then place 7.
    met.put([ring(5, 1), ring(5, 2)]);
    assert_eq!(missing::<Receive>(&met), all - 2);
    met.put([ring(5, 2), ring(5, 3)]);
    assert_eq!(missing::<Receive>(&met), all - 3);
    // Up to place 6; up to place 7 whole, then broken, then place 7 alone, then of a full store.
    met.part(ring(5, 2), 5 << 32 | 2);
    assert_eq!(missing::<Receive>(&met), all - 3);
    met.part(ring(5, 3), 5 << 32 | 3);
    assert_eq!(missing::<Receive>(&met), all - 4);
    met.part(ring(5, 4), 5 << 32 | 3);
    assert_eq!(missing::<Receive>(&met), all - 5);
    met.part(ring(7, 1), 7 << 32 | 1);
    assert_eq!(missing::<Receive>(&met), all - 6);
    met.part(ring(5, 8), 5 << 32 | 3);
    assert_eq!(missing::<Receive>(&met), all - 7);
    // The last place is marked, twice.
    met.marks.extend([7, 7]);
    assert_eq!(missing::<Receive>(&met), all - 8);
}
