//! Plays a script as the program does. Each test file takes what it needs of this.
#![allow(dead_code)]

use raftershim_replay::program;
use std::ffi::OsString;

/// The exit status, what was said and what was said about mistakes.
pub fn with(arguments: &[&str], input: &[u8]) -> (u8, String, String) {
    let arguments: Vec<OsString> = arguments.iter().map(OsString::from).collect();
    let (mut out, mut err) = (Vec::new(), Vec::new());
    let status = program(&arguments, &mut &*input, &mut out, &mut err);
    let text = |bytes| String::from_utf8(bytes).expect("sentences are text");
    (status, text(out), text(err))
}

pub fn play(script: &str) -> (u8, String, String) {
    with(&[], script.as_bytes())
}

pub fn strings(status: u8, said: &str, mistakes: &str) -> (u8, String, String) {
    (status, said.to_string(), mistakes.to_string())
}

/// The exit status of a script and what the program says last.
pub fn ends(script: &str) -> (u8, String) {
    let (status, said, mistakes) = play(script);
    assert_eq!(mistakes, "", "{script}");
    let last = said.lines().last().unwrap_or_default();
    (status, last.to_string())
}

pub fn end(status: u8, last: &str) -> (u8, String) {
    (status, last.to_string())
}
