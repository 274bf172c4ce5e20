//! The laws in every order of calls, on stores of one and two cells.

use crate::walk::{frame, right, walk, Call, DAMAGE, ECHO, ECHO_WITH_SERVICE};
use crate::world::BUS;
use Call::{BusClear, Byte, Fetch, Order, Reset};

/// What moves bytes, marks, roles and news.
pub const COMMON: [Call; 29] = [
    frame(4, 47),
    frame(4, 79),
    frame(4, 63),
    frame(4, 20),
    frame(4, 4),
    frame(4, 15),
    frame(4, 144),
    frame(5, 96),
    frame(5, 97),
    frame(5, 99),
    frame(5, 66),
    frame(6, 0),
    frame(0, 1),
    frame(3, 2),
    ECHO,
    ECHO_WITH_SERVICE,
    DAMAGE,
    Order(32 + BUS),
    Order(64 + BUS),
    Order(63),
    Order(20),
    Order(4),
    Order(24),
    Order(25),
    Byte(1, false),
    Byte(2, true),
    Fetch,
    BusClear,
    Reset,
];

/// Addresses, the device ID and parallel polls, which multiply the states.
const MORE: [Call; 8] = [
    frame(4, 154),
    frame(5, 131),
    frame(5, 98),
    frame(4, 128),
    frame(4, 21),
    Order(5),
    Order(98),
    Order(21),
];

/// The laws hold in all these states, and there are no fewer and no more.
fn holds_in<const B: usize, const L: usize>(alphabet: &[Call], states: usize) {
    assert_eq!(walk::<B, L>(alphabet, right), Ok(states));
}

#[test]
fn stores_of_one_cell() {
    holds_in::<1, 1>(&[&COMMON[..], &MORE[..]].concat(), 410_824);
}

#[test]
fn two_cells_to_the_bus() {
    holds_in::<2, 1>(&COMMON, 59_652);
}

#[test]
fn two_cells_to_the_loop() {
    holds_in::<1, 2>(&COMMON, 53_444);
}

#[test]
fn two_cells_each_way() {
    holds_in::<2, 2>(&COMMON, 453_864);
}
