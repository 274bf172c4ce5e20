//! The scripts of the folder scripts, played on the archive beside the model of the machine that
//! each speaks of.

use raftershim_checks::bridge::TheBridge;
use raftershim_checks::mailbox::TheMailbox;
use raftershim_checks::played::{play, Scripted};
use script::Script;
use std::fs;
use std::path::Path;

/// How many calls of a machine were compared, and in how many scripts.
fn played<M: Scripted>() -> [usize; 2] {
    let folder = Path::new(env!("CARGO_MANIFEST_DIR")).join("../../scripts");
    let mut counts = [0; 2];
    for file in fs::read_dir(folder).expect("the folder is there") {
        let path = file.expect("a file").path();
        let text = fs::read_to_string(&path).expect("a script");
        let script: Script = text.parse().expect("it has no mistake");
        let calls = play(M::BOTH, &script);
        let calls = calls.unwrap_or_else(|told| panic!("{}: {told}", path.display()));
        counts = [counts[0] + calls, counts[1] + usize::from(calls > 0)];
    }
    counts
}

#[test]
fn every_script_of_the_folder() {
    let [calls, scripts] = played::<TheBridge>();
    assert!(scripts > 5 && calls > 200, "{scripts}, {calls}");
    println!("scripts: {scripts} scripts, {calls} calls compared");
    let [calls, scripts] = played::<TheMailbox>();
    assert!(scripts > 4 && calls > 150, "{scripts}, {calls}");
    println!("scripts of the mailbox: {scripts} scripts, {calls} calls compared");
}
