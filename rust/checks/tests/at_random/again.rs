//! A script that was told of a fault, read and played again.

use raftershim_checks::implementation::Implementation;
use raftershim_checks::played::{play, Scripted};
use raftershim_checks::written::script_in;
use script::Script;

/// A finding without the script that leads to it.
fn without_script(told: &str) -> &str {
    let script = script_in(told).expect("a script is told");
    &told[..told.len() - script.len()]
}

/// Reads the script that was told, which is printed again as it was, shows the same difference to
/// the model, and is played by replay to its end.
pub fn read_again<M: Scripted>(fault: Implementation<M>, told: &str) -> Script {
    let printed = script_in(told).expect("a script is told");
    let script: Script = printed.parse().expect("it has no mistake");
    assert_eq!(script.to_string(), printed);
    let again = play([fault, M::BOTH[1]], &script).expect_err("it differs again");
    assert_eq!(without_script(&again), without_script(told));
    let counts = replay::run::run(&mut printed.as_bytes(), &mut Vec::new()).expect("it is played");
    assert_eq!(
        (counts.calls, counts.not_played),
        (script.steps.len() as u64, 0)
    );
    script
}
