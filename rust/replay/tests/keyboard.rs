//! Who types the script is told so, and nobody else.
#![cfg(unix)]

use raftershim_replay::keyboard::READS_FROM_IT;
use std::fs::File;
use std::process::{Command, Stdio};

/// What the program says about mistakes and the like, with this as its input.
fn told(arguments: &[&str], input: Stdio) -> String {
    let mut replay = Command::new(env!("CARGO_BIN_EXE_replay"));
    let ended = replay.args(arguments).stdin(input).output().unwrap();
    String::from_utf8(ended.stderr).unwrap()
}

fn device(path: &str) -> Stdio {
    File::open(path).unwrap().into()
}

#[test]
fn one_who_types() {
    // A device that gives characters, as a terminal is; the first line never ends, which is said.
    let said = told(&[], device("/dev/zero"));
    assert!(said.starts_with(READS_FROM_IT), "{said}");
    assert_eq!(said.lines().count(), 2, "{said}");
}

#[test]
fn nobody_else() {
    let script = concat!(env!("CARGO_MANIFEST_DIR"), "/../../scripts/reading.script");
    assert_eq!(told(&[], Stdio::null()), "");
    assert_eq!(told(&[], Stdio::piped()), "");
    assert_eq!(told(&[], device(script)), "");
    assert_eq!(told(&[script], device("/dev/zero")), "");
    assert_eq!(told(&["--help"], device("/dev/zero")), "");
}
