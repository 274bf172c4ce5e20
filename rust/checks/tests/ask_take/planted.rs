//! Wrong bridges at asks and takes: going through every order finds each by a short way, by a
//! difference to the model and by the history alone where two equal ones are compared.

use raftershim_checks::bridge::call::{frame, Call};
use raftershim_checks::bridge::frames::*;
use raftershim_checks::bridge::orders::Orders;
use raftershim_checks::bridge::planted::ask_take::{NO_REQUEST, SEEN};
use raftershim_checks::explore::EVERY_STATE;
use Call::{Ask, Line, Register, Take};

/// From a listener with one byte from the line fewer than make a stop due. An empty transmit store
/// begins a request.
const ORDERS: Orders = Orders {
    name: "ask and take, planted",
    receive: (4, 1),
    start: &[ASSIGN, LISTEN, Register(1, 1), Line(50), Line(50)],
    calls: &[
        Line(50),
        Line(19),
        frame(0, 19),
        frame(0, 65),
        SEND_STATUS,
        TALK,
        Ask,
        Take(17),
        Take(19),
        Take(65),
    ],
    limit: EVERY_STATE,
};

#[test]
fn each_fault_is_found_twice_by_a_short_way() {
    for (name, fault) in SEEN {
        let calls = ORDERS.found_beside_the_model(fault).expect(name).calls;
        let alone = ORDERS.difference([fault, fault], &[]).expect(name);
        let by_history = alone.calls;
        println!(
            "ask and take, planted, {name}: found in {calls} calls, by history in {by_history}"
        );
        assert!(calls <= 3 && by_history <= 3, "{name}: {}", alone.told);
    }
}

/// Every byte goes out as it should, so no history of what was taken finds this.
#[test]
fn a_request_that_does_not_begin_is_found_beside_the_model() {
    let found = ORDERS
        .found_beside_the_model(NO_REQUEST)
        .expect("it is found");
    println!(
        "ask and take, planted, no request: found in {} calls",
        found.calls
    );
    assert!(found.calls <= 5, "{}", found.told);
    assert!(ORDERS.difference([NO_REQUEST, NO_REQUEST], &[]).is_none());
}
