//! Long runs of what can happen, drawn at random, on stores of many sizes.

use crate::both::{our_meter, Both, Counts, Letter, OurMeter, Sizes};
use raftershim_checks::bridge::told::Reader;
use raftershim_checks::random::Random;
use raftershim_checks::shrink::shrunk;

/// Sizes of which each bound is met.
fn sizes(random: &mut Random) -> Sizes {
    let margin = random.within(1..=6);
    Sizes {
        rx_len: random.within(2 * margin + 2..=2 * margin + 30),
        margin: margin as u32,
        longest: random.within(0..=24),
    }
}

/// Mostly a meter that sends readings and an app that is sometimes late.
fn letter(random: &mut Random) -> Letter {
    match random.below(100) {
        0..=49 => Letter::Line(random.one_of(b"0123456789.-\r\n")),
        50..=64 => Letter::LineEnd,
        65..=84 => Letter::Read,
        85 => Letter::Line(random.byte()),
        86 => Letter::Line(random.one_of(&[17, 19])),
        87 => Letter::Out,
        88 => Letter::Gap,
        89..=90 => Letter::Break,
        91 => Letter::AskStatus,
        92 => Letter::AskData,
        93..=95 => Letter::Back,
        96 => Letter::Clear,
        97 => Letter::Reset,
        _ => seldom(random),
    }
}

/// A key is pressed, a go or stop is taken whether it is due or not, or a register is written.
fn seldom(random: &mut Random) -> Letter {
    match random.below(5) {
        0 => Letter::Key,
        1 => Letter::Take(random.one_of(&[17, 19])),
        _ => register(random),
    }
}

fn register(random: &mut Random) -> Letter {
    let writes = [
        (0, 9),
        (2, 5),
        (10, 8),
        (10, 8),
        (10, 12),
        (10, 0),
        (11, 0),
        (11, 8),
    ];
    let characters = [(16, 13), (16, 10), (17, 10), (17, 13), (17, b'1')];
    let (number, value) = match random.flag() {
        true => random.one_of(&writes),
        false => random.one_of(&characters),
    };
    Letter::Register(number, value)
}

/// Runs of readers that are made like this; a difference comes with the letters needed for it.
pub fn runs<M: Reader>(make: fn(Sizes) -> M, runs: usize) -> Result<Counts, String> {
    let mut random = Random::seeded(1982);
    let mut counts = Counts::default();
    for run in 0..runs {
        let sizes = sizes(&mut random);
        let letters: Vec<Letter> = (0..300).map(|_| letter(&mut random)).collect();
        let mut differs = |letters: &[Letter]| {
            let mut both = Both::new(make(sizes), sizes);
            let mut happen = letters.iter();
            happen.find_map(|&letter| both.happens(letter, &mut counts).err())
        };
        if differs(&letters).is_some() {
            let (needed, finding) = shrunk(letters, differs).expect("a difference");
            return Err(format!("run {run}, {sizes:?}: {finding}, after {needed:?}"));
        }
    }
    Ok(counts)
}

#[test]
fn long_runs() {
    let make: fn(Sizes) -> OurMeter = our_meter;
    let counts = runs(make, 6000).unwrap_or_else(|finding| panic!("{finding}"));
    println!("readings at random: {counts}");
    assert!(counts.whole > 10_000 && counts.gaps > 10_000, "{counts}");
}
