//! The program `replay`: plays a script of calls to the bridge or the mailbox and says each answer.

#![forbid(unsafe_code)]

use raftershim_replay::{keyboard, program};
use std::env;
use std::ffi::OsString;
use std::io;
use std::process::ExitCode;

fn main() -> ExitCode {
    let arguments: Vec<OsString> = env::args_os().skip(1).collect();
    if arguments.is_empty() && keyboard::is_input() {
        eprintln!("{}", keyboard::READS_FROM_IT);
    }
    ExitCode::from(program(
        &arguments,
        &mut io::stdin().lock(),
        &mut io::stdout().lock(),
        &mut io::stderr().lock(),
    ))
}
