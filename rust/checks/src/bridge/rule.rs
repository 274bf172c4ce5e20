//! The reading rule, written once more, over a plain sequence of cells, each with the rule by which it is
//! read.

use model::Registers;

/// The end bit of data frames.
const END: u16 = 2 << 8;
/// The mark of a cell: a break follows its byte.
pub const BREAK: u16 = 1 << 8;

/// What counts of a cell: the byte and the mark.
pub const fn counting(cell: u16) -> u16 {
    cell & ALL
}

/// The bits of a cell that count.
const ALL: u16 = BREAK | 255;

/// What the rule goes by: R10 bit 3 and the pair C00, C01.
#[derive(Clone, Copy, Debug, Default, PartialEq, Eq, Hash)]
pub struct Rule {
    on: bool,
    pair: [u8; 2],
}

/// A cell, and the rule that was in force when its byte was accepted: by that it is read.
#[derive(Clone, Copy, Debug, Default, PartialEq, Eq, Hash)]
pub struct Accepted {
    pub cell: u16,
    pub rule: Rule,
}

impl Accepted {
    /// A break follows its byte.
    pub fn mark(&mut self) {
        self.cell |= BREAK;
    }
}

impl Rule {
    pub fn of(registers: &Registers) -> Rule {
        Rule {
            on: registers.r10 & 8 != 0,
            pair: [registers.c[0], registers.c[1]],
        }
    }

    /// The cell of a byte that is accepted while this rule is in force.
    pub fn accepts(self, cell: u16) -> Accepted {
        Accepted { cell, rule: self }
    }

    /// These cells, all of them accepted while this rule is in force.
    pub fn accepts_all(self, cells: &[u16]) -> Vec<Accepted> {
        cells.iter().map(|&cell| self.accepts(cell)).collect()
    }

    /// One send from cells that are all read by this rule: how many of them go, and the frame, if there
    /// is one.
    pub fn send(self, cells: &[u16]) -> (usize, Option<u16>) {
        let get = |place| self.accepts(cells[place]);
        let len = cells.len();
        Line {
            len,
            get,
            bits: ALL,
        }
        .send()
    }
}

/// One send: how many cells go, and the frame, if there is one.
pub fn send(accepted: &[Accepted]) -> (usize, Option<u16>) {
    sent(accepted, ALL)
}

/// Whether this send is another one because of a break.
pub fn heeds(accepted: &[Accepted]) -> bool {
    send(accepted) != sent(accepted, 255)
}

/// All frames of a whole sequence.
pub fn frames(mut accepted: &[Accepted]) -> Vec<u16> {
    let mut frames = Vec::new();
    while let (gone, Some(frame)) = send(accepted) {
        frames.push(frame);
        accepted = &accepted[gone..];
    }
    frames
}

/// One send that looks at these bits of a cell.
fn sent(accepted: &[Accepted], bits: u16) -> (usize, Option<u16>) {
    let get = |place: usize| accepted[place];
    let len = accepted.len();
    Line { len, get, bits }.send()
}

/// A sequence of so many, and which bits of their cells are looked at.
struct Line<F> {
    len: usize,
    get: F,
    bits: u16,
}

impl<F: Fn(usize) -> Accepted> Line<F> {
    /// The rule by which the cell here is read, and what is looked at of the cell. Where the next one is
    /// read by another rule there is a wall between them, as if a break had come.
    fn at(&self, place: usize) -> Option<(Rule, u16)> {
        let get = |place| (place < self.len).then(|| (self.get)(place));
        let Accepted { cell, rule } = get(place)?;
        let wall = get(place + 1).map_or(false, |next| next.rule != rule);
        Some((rule, cell & self.bits | if wall { BREAK } else { 0 }))
    }

    /// Whether the cell here is C00 and no wall follows it.
    fn first_at(&self, place: usize) -> bool {
        let here = self.at(place);
        here.map_or(false, |(rule, cell)| cell == rule.pair[0].into())
    }

    /// Whether the pair stands here, with no wall in it. One may follow it.
    fn pair_at(&self, place: usize) -> bool {
        let last = self.at(place + 1);
        self.first_at(place)
            && last.map_or(false, |(rule, cell)| {
                rule.on && cell & 255 == rule.pair[1].into()
            })
    }

    fn send(&self) -> (usize, Option<u16>) {
        let mut gone = 0;
        while self.pair_at(gone) {
            gone += 2;
        }
        let (rule, cell) = match self.at(gone) {
            Some(here) => here,
            None => return (gone, None),
        };
        if rule.on && cell & BREAK == 0 {
            if self.pair_at(gone + 1) {
                return (gone + 3, Some(END | cell));
            }
            let left = self.len - gone;
            if left == 1 || left == 2 && self.first_at(gone + 1) {
                return (gone, None);
            }
        }
        (gone + 1, Some(cell & 255))
    }
}

#[cfg(test)]
mod tests {
    use super::*;

    /// The rule with the pair 13, 10, that with the pair 10, 13, and none.
    const RULE: Rule = Rule {
        on: true,
        pair: [13, 10],
    };
    const TURNED: Rule = Rule {
        on: true,
        pair: [10, 13],
    };
    const OFF: Rule = Rule {
        on: false,
        pair: [13, 10],
    };
    /// Cells, and the send from them.
    type Row<'a> = (&'a [u16], (usize, Option<u16>));

    /// Bytes with a break behind each.
    const B10: u16 = BREAK | 10;
    const B13: u16 = BREAK | 13;
    const B50: u16 = BREAK | 50;

    #[test]
    fn no_indicator_spans_a_break() {
        let rows: [Row; 12] = [
            (&[50, 13, 10], (3, Some(END | 50))),
            (&[50, 13], (0, None)),
            (&[B50], (1, Some(50))),
            (&[B50, 13, 10], (1, Some(50))),
            (&[50, B13, 10], (1, Some(50))),
            (&[50, B13], (1, Some(50))),
            (&[B13, 10], (1, Some(13))),
            (&[50, 13, B10], (3, Some(END | 50))),
            (&[13, B10], (2, None)),
            (&[13, B10, B50], (3, Some(50))),
            (&[13, 10, B13, 10], (3, Some(13))),
            (
                &[0xfe00 | 50, 0xfe00 | 13, 0xfe00 | 10],
                (3, Some(END | 50)),
            ),
        ];
        for (cells, sent) in rows {
            assert_eq!(RULE.send(cells), sent, "{cells:?}");
            assert_eq!(send(&RULE.accepts_all(cells)), sent, "{cells:?}");
        }
        let off = OFF.accepts_all(&[50, B13, 10, 13, B10]);
        assert_eq!(frames(&off), [50, 13, 10, 13, 10]);
    }

    #[test]
    fn a_send_that_a_break_changes_is_told_from_others() {
        for cells in [&[B50][..], &[B50, 13, 10], &[50, B13, 10], &[B13, 10]] {
            assert!(heeds(&RULE.accepts_all(cells)), "{cells:?}");
        }
        for cells in [&[B50, 46][..], &[50, 13, B10], &[13, B10], &[50, 46, B13]] {
            assert!(!heeds(&RULE.accepts_all(cells)), "{cells:?}");
        }
    }

    /// Stretches, each with its rule, and the frames of all of them.
    type Stretches<'a> = (&'a [(Rule, &'a [u16])], &'a [u16]);

    #[test]
    fn each_byte_is_read_by_its_own_rule_and_no_indicator_spans_two() {
        let rows: [Stretches; 9] = [
            (&[(RULE, &[50, 13]), (RULE, &[10])], &[END | 50]),
            (&[(RULE, &[50, 13]), (TURNED, &[10])], &[50, 13]),
            (&[(RULE, &[50, 13, 10]), (TURNED, &[13])], &[END | 50]),
            (&[(RULE, &[50]), (TURNED, &[10, 13])], &[50]),
            (
                &[(RULE, &[50, 13, 10]), (TURNED, &[51, 10, 13])],
                &[END | 50, END | 51],
            ),
            (&[(RULE, &[50]), (OFF, &[13, 10])], &[50, 13, 10]),
            (&[(OFF, &[50, 13]), (RULE, &[10, 46])], &[50, 13, 10]),
            (&[(RULE, &[13, 10]), (OFF, &[13, 10])], &[13, 10]),
            (&[(RULE, &[13]), (TURNED, &[46]), (RULE, &[10])], &[13, 46]),
        ];
        for (stretches, due) in rows {
            let all = stretches
                .iter()
                .flat_map(|(rule, cells)| rule.accepts_all(cells));
            let all: Vec<Accepted> = all.collect();
            assert_eq!(frames(&all), due, "{stretches:?}");
        }
    }
}
