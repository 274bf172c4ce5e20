//! Works for counting the instructions of the archive beside plain Rust.
//!
//! `bench SIDE WORK STORE ROUNDS` makes the rounds of a work on one side and prints the calls and
//! bytes of a round, and the checksum; whoever counts takes the difference of two numbers of rounds.
//! `bench sides WORK` names the sides that a work has. `bench compare WORK STORE ROUNDS` runs all of
//! them in step and fails where they differ. `bench stack WORK SIDE` prints the deepest stack of a
//! call of the machine that does this work, and the call.

#[macro_use]
mod sides;

mod bridge;
mod compared;
mod counted;
mod desk;
mod machine;
mod mailbox;
mod round;
mod stack;

use machine::Machine;
use std::process::ExitCode;

/// What the words have to be.
const WORDS: &str =
    "words: SIDE WORK STORE ROUNDS, compare WORK STORE ROUNDS, sides WORK, stack WORK SIDE";

/// Does what the words ask of the machine that does a work, and gives the line to print.
fn asked<M: Machine>(work: M::Work, words: &[&str]) -> Result<String, String> {
    let number = |word: &str| word.parse::<usize>().map_err(|_| "no number");
    let side = |name| M::side(name).ok_or("no such side");
    match *words {
        ["sides", _] => {
            let names: Vec<&str> = M::sides().iter().map(|side| side.0).collect();
            Ok(names.join(" "))
        }
        ["stack", _, name] => match stack::deepest::<M>(side(name)?) {
            (bytes, Some(call)) => Ok(format!("{bytes} bytes by {call:?}")),
            (_, None) => Err("no call uses any stack".to_string()),
        },
        [what, _, store, rounds] => {
            let (store, rounds) = (number(store)?, number(rounds)?);
            let round = round::written_down::<M>(work, store);
            if what == "compare" {
                let calls = compared::calls::<M>(M::answering(), store, &round, rounds)?;
                return Ok(format!("{calls} calls compared"));
            }
            let sum = counted::checksum::<M>(side(what)?, store, &round, rounds);
            // With the highest bit set every checksum has 16 digits and takes as long to print.
            let digits = sum | 1 << 63;
            Ok(format!("{} {} {digits:x}", round.steps.len(), round.bytes))
        }
        _ => Err(WORDS.to_string()),
    }
}

/// Does what the words ask; the second is the work, by which the machine is known.
fn answered(words: &[&str]) -> Result<String, String> {
    let name = words.get(1).ok_or(WORDS)?;
    if let Some(work) = bridge::Bridge::work(name) {
        return asked::<bridge::Bridge>(work, words);
    }
    let work = mailbox::Mailbox::work(name).ok_or("no such work")?;
    asked::<mailbox::Mailbox>(work, words)
}

fn main() -> ExitCode {
    let words: Vec<String> = std::env::args().skip(1).collect();
    let words: Vec<&str> = words.iter().map(String::as_str).collect();
    match answered(&words) {
        Ok(line) => {
            println!("{line}");
            ExitCode::SUCCESS
        }
        Err(sentence) => {
            eprintln!("bench: {sentence}");
            ExitCode::FAILURE
        }
    }
}
