//! A whole script.

use crate::{Call, Step, Steps, Unread};
use std::fmt;
use std::str::FromStr;

/// The steps of a whole script. What is printed of it, a line each, is read as the same script if
/// each call is of the product that was made last.
#[derive(Clone, Debug, Default, PartialEq, Eq)]
pub struct Script {
    /// The steps in their order.
    pub steps: Vec<Step>,
}

impl FromStr for Script {
    type Err = Unread;

    fn from_str(text: &str) -> Result<Script, Unread> {
        let steps = Steps::new(text.as_bytes()).map(|step| step.map(|(_, step)| step));
        steps
            .collect::<Result<_, _>>()
            .map(|steps| Script { steps })
    }
}

impl FromIterator<Call> for Script {
    fn from_iter<I: IntoIterator<Item = Call>>(calls: I) -> Script {
        let steps = calls.into_iter().map(Step::from).collect();
        Script { steps }
    }
}

impl fmt::Display for Script {
    fn fmt(&self, f: &mut fmt::Formatter<'_>) -> fmt::Result {
        self.steps.iter().try_for_each(|step| writeln!(f, "{step}"))
    }
}
