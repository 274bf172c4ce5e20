//! Every order of a few letters, up to a length, on tiny stores.

use crate::both::{our_meter, Both, Counts, Letter, Sizes};
use raftershim_checks::bridge::told::Reader;
use Letter::{
    AskData, AskStatus, Back, Break, Clear, Gap, Key, Line, LineEnd, Out, Read, Register, Reset,
};

/// What to go through.
pub struct Plan {
    pub sizes: Sizes,
    /// What happens first.
    pub start: &'static [Letter],
    pub letters: &'static [Letter],
    pub length: usize,
}

/// Goes through all orders of a plan; a difference ends with the letters that lead to it.
pub fn go_through<M: Reader + Clone>(plan: &Plan, reader: M) -> Result<Counts, String> {
    let mut counts = Counts::default();
    let mut both = Both::new(reader, plan.sizes);
    for &letter in plan.start {
        both.happens(letter, &mut counts)?;
    }
    deeper(plan, &both, &mut Vec::new(), &mut counts)?;
    Ok(counts)
}

fn deeper<M: Reader + Clone>(
    plan: &Plan,
    both: &Both<M>,
    path: &mut Vec<Letter>,
    counts: &mut Counts,
) -> Result<(), String> {
    if path.len() == plan.length {
        return Ok(());
    }
    for &letter in plan.letters {
        let mut next = both.clone();
        path.push(letter);
        next.happens(letter, counts)
            .map_err(|finding| format!("{finding}, after {:?} {path:?}", plan.start))?;
        deeper(plan, &next, path, counts)?;
        path.pop();
    }
    Ok(())
}

/// The tiniest stores.
pub const TINY: Sizes = Sizes {
    rx_len: 4,
    margin: 1,
    longest: 8,
};

fn held(name: &str, plan: Plan) {
    let meter = our_meter(plan.sizes);
    let counts = go_through(&plan, meter).unwrap_or_else(|finding| panic!("{name}: {finding}"));
    println!("readings, {name}: {counts}");
    assert!(
        counts.whole > 0 && counts.gaps > 0 && counts.not_ended > 0,
        "{name}"
    );
}

pub const BYTES_AND_READS: Plan = Plan {
    sizes: TINY,
    start: &[],
    letters: &[Line(b'2'), Line(b'\r'), Line(b'\n'), Read],
    length: 10,
};

#[test]
fn bytes_ends_of_lines_and_reads() {
    held("every order of bytes and reads, store 4", BYTES_AND_READS);
    let longer = |rx_len, margin, longest| Plan {
        sizes: Sizes {
            rx_len,
            margin,
            longest,
        },
        length: 9,
        ..BYTES_AND_READS
    };
    held("the same, store 5", longer(5, 1, 8));
    held("the same, store 6, texts of 2", longer(6, 2, 2));
}

pub const PORT_GAPS: Plan = Plan {
    letters: &[Line(b'2'), Line(b'\r'), Line(b'\n'), Gap, Read],
    length: 8,
    ..BYTES_AND_READS
};

#[test]
fn bytes_that_the_port_lost() {
    held("bytes that the port lost, store 4", PORT_GAPS);
    let letters = &[Line(b'2'), LineEnd, Gap, Read, AskData, Back, Clear];
    held_on_both("the same and the app itself", &[], letters, [7, 7]);
    let letters = &[Line(b'2'), LineEnd, Gap, Read, Clear, Reset];
    held_on_both("the same and resets", &[], letters, [7, 7]);
}

pub const BREAKS: Plan = Plan {
    letters: &[Line(b'2'), Line(b'\r'), Line(b'\n'), Break, Read],
    length: 8,
    ..BYTES_AND_READS
};

#[test]
fn breaks_that_cut_readings_off() {
    held("breaks, store 4", BREAKS);
    let letters = &[Line(b'2'), LineEnd, Break, Read, AskData, Back, Clear];
    held_on_both("breaks and the app itself", &[], letters, [7, 7]);
    let letters = &[Line(b'2'), LineEnd, Break, Gap, Read, Reset];
    held_on_both("breaks, gaps and resets", &[], letters, [7, 7]);
    let start = &[Register(10, 0), Line(b'1'), Read];
    let letters = &[Line(b'2'), LineEnd, Break, Read, Register(10, 8)];
    held_on_both("breaks and the rule off at first", start, letters, [7, 7]);
}

#[test]
fn breaks_where_texts_are_short() {
    for longest in 0..2 {
        let sizes = Sizes { longest, ..TINY };
        let counts = go_through(&Plan { sizes, ..BREAKS }, our_meter(sizes));
        let counts = counts.unwrap_or_else(|finding| panic!("{finding}"));
        println!("readings, breaks and texts of {longest}: {counts}");
        assert!(counts.gaps > 0);
    }
}

/// Holds every order of these letters on stores of 4 and 5, after these.
fn held_on_both(
    name: &str,
    start: &'static [Letter],
    letters: &'static [Letter],
    lengths: [usize; 2],
) {
    for (rx_len, length) in [4, 5].into_iter().zip(lengths) {
        let sizes = Sizes { rx_len, ..TINY };
        let name = format!("{name}, store {rx_len}");
        held(
            &name,
            Plan {
                sizes,
                start,
                letters,
                length,
            },
        );
    }
}

#[test]
fn clears_and_resets() {
    let letters = &[Line(b'2'), Line(b'\r'), Line(b'\n'), Read, Clear, Reset];
    held_on_both("clears and resets", &[], letters, [7, 7]);
    let letters = &[Line(b'2'), LineEnd, Read, Clear];
    held_on_both("clears between whole ends of lines", &[], letters, [9, 9]);
}

#[test]
fn reads_by_the_app_itself() {
    let letters = &[Line(b'2'), LineEnd, Read, AskData, Back, Clear];
    held_on_both("reads by the app itself", &[], letters, [7, 7]);
}

#[test]
fn status_polls_breaks_and_keys() {
    let start = &[Register(0, 9), Register(2, 5), Line(b'1'), Line(b'1')];
    let letters = &[Line(b'2'), LineEnd, Read, AskStatus, Back, Break, Key];
    held_on_both("status polls, breaks and keys", start, letters, [7, 7]);
}

#[test]
fn an_end_of_line_of_two_equal_characters() {
    let letters = &[Line(b'2'), Line(b'\n'), Read, Clear];
    let start = &[Register(16, 10)];
    held_on_both("an end of line of equal characters", start, letters, [9, 9]);
}

#[test]
fn rules_changed_under_way() {
    let letters = &[
        Line(b'2'),
        LineEnd,
        Read,
        Register(10, 0),
        Register(10, 8),
        Register(16, b'2'),
    ];
    held_on_both("rules changed under way", &[], letters, [7, 7]);
}

#[test]
fn go_and_stop() {
    let letters = &[Line(b'2'), LineEnd, Line(17), Line(19), Read, Out];
    held_on_both("go and stop", &[Line(b'1')], letters, [7, 7]);
}
