//! Wrong walls: going through every order finds each by a short way, by a difference to the model and
//! by the history alone where two equal ones are compared.

use raftershim_checks::bridge::call::Call;
use raftershim_checks::bridge::frames::*;
use raftershim_checks::bridge::garbled::garbled;
use raftershim_checks::bridge::orders::Orders;
use raftershim_checks::bridge::planted::breaks::{
    UpperBitsCount, UpperBitsStay, GONE_MARKED, SEEN, UPPER_BITS_COUNT, UPPER_BITS_STAY,
};
use raftershim_checks::bridge::MODEL;
use Call::{Break, Line, Register, ShowReceive, ShowTransmit};

/// From a talker that finds ends of lines and holds nothing.
const ORDERS: Orders = Orders {
    name: "breaks, planted",
    receive: (4, 1),
    start: &[Register(10, 8), ASSIGN, TALK],
    calls: &[
        Line(13),
        Line(10),
        Line(50),
        Break,
        SEND,
        Register(10, 0),
        ShowReceive,
        ShowTransmit,
    ],
    limit: 300_000,
};

#[test]
fn each_fault_is_found_twice_by_a_short_way() {
    for (name, fault) in SEEN {
        let calls = ORDERS.found_beside_the_model(fault).expect(name).calls;
        let alone = ORDERS.difference([fault, fault], &[0]).expect(name);
        let by_history = alone.calls;
        println!("breaks, planted, {name}: found in {calls} calls, by history in {by_history}");
        assert!(calls <= 8 && by_history <= 8, "{name}: {}", alone.told);
    }
}

/// A cell that is not held is nobody's, so no history of what is held finds this.
#[test]
fn a_cell_that_is_gone_and_marked_is_found_beside_the_model() {
    let found = ORDERS.found_beside_the_model(GONE_MARKED);
    assert_eq!(found.expect("it is found").calls, 1);
}

/// Calls write no bit above a mark, so the store must have some already.
#[test]
fn bits_above_the_marks_are_found_where_they_are_garbled() {
    let faults = [
        (UPPER_BITS_COUNT, garbled::<UpperBitsCount>()),
        (UPPER_BITS_STAY, garbled::<UpperBitsStay>()),
    ];
    for (plain, garbled) in faults {
        assert!(ORDERS.difference([plain, MODEL], &[0]).is_none());
        let found = ORDERS.difference([garbled, MODEL], &[0]);
        let found = found.expect("it is found");
        assert!(found.calls <= 3, "{}", found.told);
    }
}
