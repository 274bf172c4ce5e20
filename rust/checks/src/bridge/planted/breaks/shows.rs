//! Calls that show another store, or a part in another measure.

use crate::bridge::call::Call;
use crate::bridge::planted::Implementation;
use crate::bridge::TheBridge;
use crate::planted::{planted, right};

/// Each call that shows a store shows the other one.
pub const STORES_EXCHANGED: Implementation = planted(|lent, call| {
    right::<TheBridge>(
        lent,
        match call {
            Call::ShowReceive => Call::ShowTransmit,
            Call::ShowTransmit => Call::ShowReceive,
            other => other,
        },
    )
});

/// The receive store is shown in bytes, of which a cell has two.
pub const SHOWN_IN_BYTES: Implementation = planted(|lent, call| {
    let part = right::<TheBridge>(lent, call);
    match call {
        Call::ShowReceive => part * 2,
        _ => part,
    }
});
