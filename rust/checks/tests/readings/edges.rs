//! Orders that are too long to be met by going through all, and too rare to be met at random.

use crate::both::{our_meter, Both, Counts, Letter};
use crate::every_order::TINY;
use Letter::{Gap, Line, LineEnd, Read, Register};

#[test]
fn two_lines_that_end_in_one_send_are_told_in_their_order() {
    // 9 is read with the rule off, and nothing is held, so the rule is switched on again. The end of the
    // line of 9 comes alone. The line after it has lost all its text, between the two characters of its
    // end.
    let letters = [
        Register(10, 0),
        Line(b'9'),
        Read,
        Register(10, 8),
        LineEnd,
        Line(b'\r'),
        Gap,
        Line(b'\n'),
        Read,
        Read,
        Read,
    ];
    let mut both = Both::new(our_meter(TINY), TINY);
    let mut counts = Counts::default();
    for letter in letters {
        let held = both.happens(letter, &mut counts);
        held.unwrap_or_else(|finding| panic!("{finding}"));
    }
    let told = (counts.whole, counts.gaps, counts.not_ended);
    assert_eq!(told, (1, 1, 2));
}
