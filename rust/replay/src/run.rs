//! Makes the calls of a script, line by line, and compares what is said with what is expected.

use crate::counts::Counts;
use crate::on_bridge::{self, Bridge};
use crate::on_mailbox::{self, Mailbox};
use crate::say::{self, Said};
use crate::stop::Stop;
use raftershim::{Answer, BadSize, Refusal};
use script::{Call, Expected, MailboxCall, Step, Steps, DEFAULT_MARGIN, DEFAULT_STORE};
use std::io::{self, BufRead, Write};

/// Plays a whole script. What is said goes to `out`, the counts last.
///
/// # Errors
///
/// The first mistake in the script ends the run, and so does a failing `input` or `out`.
pub fn run<I, O>(input: &mut I, out: &mut O) -> Result<Counts, Stop>
where
    I: BufRead + ?Sized,
    O: Write + ?Sized,
{
    let mut player = Player::new().map_err(Stop::Refused)?;
    for step in Steps::new(input) {
        let (line, step) = step.map_err(Stop::Unread)?;
        player.play(line, &step, out).map_err(Stop::Writing)?;
    }
    writeln!(out, "{}", player.counts).map_err(Stop::Writing)?;
    Ok(player.counts)
}

/// Where a script plays.
enum Place {
    /// On this bridge.
    Bridge(Bridge),
    /// On this mailbox.
    Mailbox(Mailbox),
    /// Nowhere, since what was to be made last was refused.
    Nowhere,
}

/// Where a script plays, and the counts so far.
struct Player {
    place: Place,
    /// Whether the script knows where it plays: it made something, or was told.
    told: bool,
    /// The line that was to make something last.
    made: u64,
    counts: Counts,
}

impl Player {
    fn new() -> Result<Player, BadSize> {
        let bridge = on_bridge::create(DEFAULT_STORE, DEFAULT_STORE, DEFAULT_MARGIN)?;
        Ok(Player {
            place: Place::Bridge(bridge),
            told: false,
            made: 0,
            counts: Counts::default(),
        })
    }

    /// Makes one call and says its answer.
    fn play<O>(&mut self, line: u64, step: &Step, out: &mut O) -> io::Result<()>
    where
        O: Write + ?Sized,
    {
        let makes = matches!(
            step.call,
            Call::Create { .. } | Call::Mailbox(MailboxCall::Create { .. })
        );
        if !self.told && !makes {
            self.told = true;
            let sentence = say::default_bridge(DEFAULT_STORE, DEFAULT_MARGIN);
            writeln!(out, "line {line}: {sentence}")?;
        }
        let said = self.answer(line, step);
        let sentence = self.counted(line, &said, step.expected.as_ref());
        writeln!(out, "line {line}: {sentence}")
    }

    fn answer(&mut self, line: u64, step: &Step) -> Said {
        match step.call {
            Call::Create {
                receive,
                transmit,
                margin,
            } => {
                let created = on_bridge::create(receive, transmit, margin);
                self.create(line, created.map(Place::Bridge), step)
            }
            Call::Reset => self.on_bridge(|bridge| said(bridge.reset())),
            Call::Restore(ref block) => {
                self.on_bridge(|bridge| said(on_bridge::restore(bridge, block)))
            }
            Call::Register { number, value } => {
                self.on_bridge(|bridge| said(on_bridge::write(bridge, number, value)))
            }
            Call::Line(ref bytes) => self.on_bridge(|bridge| on_bridge::take_all(bridge, bytes)),
            Call::LineAndRoom(ref bytes) => {
                self.on_bridge(|bridge| on_bridge::take_all_and_room(bridge, bytes))
            }
            Call::Break => self.on_bridge(|bridge| said(bridge.line_break())),
            Call::Key => self.on_bridge(|bridge| said(bridge.key())),
            Call::Ask => self.on_bridge(|bridge| said(on_bridge::ask_next(bridge))),
            Call::Take(byte) => self.on_bridge(|bridge| said(on_bridge::take_next(bridge, byte))),
            Call::Frame(frame) => self.on_bridge(|bridge| said(on_bridge::pass(bridge, frame))),
            Call::FrameAndRoom(frame) => {
                self.on_bridge(|bridge| on_bridge::pass_and_room(bridge, frame))
            }
            Call::Show(side) => self.on_bridge(|bridge| on_bridge::show(bridge, side)),
            Call::State => self.on_bridge(|bridge| on_bridge::state(bridge)),
            Call::Mailbox(ref call) => self.mailbox_answer(line, call, step),
        }
    }

    fn mailbox_answer(&mut self, line: u64, call: &MailboxCall, step: &Step) -> Said {
        match *call {
            MailboxCall::Create {
                to_bus,
                to_loop,
                address,
            } => {
                let created = on_mailbox::create(to_bus, to_loop, address);
                self.create(line, created.map(Place::Mailbox), step)
            }
            MailboxCall::Reset => self.on_mailbox(|mailbox| said(mailbox.reset())),
            MailboxCall::Restore(ref block) => {
                self.on_mailbox(|mailbox| said(on_mailbox::restore(mailbox, block)))
            }
            MailboxCall::Frame(frame) => {
                self.on_mailbox(|mailbox| said(on_mailbox::pass(mailbox, frame)))
            }
            MailboxCall::Command(command) => {
                self.on_mailbox(|mailbox| said(on_mailbox::order(mailbox, command)))
            }
            MailboxCall::Byte { ref bytes, end } => {
                self.on_mailbox(|mailbox| on_mailbox::take_all(mailbox, bytes, end))
            }
            MailboxCall::Fetch => self.on_mailbox(|mailbox| said(mailbox.bus_fetch())),
            MailboxCall::Clear => self.on_mailbox(|mailbox| said(mailbox.bus_clear())),
            MailboxCall::Lines => self.on_mailbox(|mailbox| said(mailbox.bus_lines())),
            MailboxCall::Show(way) => self.on_mailbox(|mailbox| on_mailbox::show(mailbox, way)),
            MailboxCall::State => self.on_mailbox(|mailbox| on_mailbox::state(mailbox)),
        }
    }

    /// Makes a call on the bridge, if there is one.
    fn on_bridge(&mut self, make: impl FnOnce(&mut Bridge) -> Said) -> Said {
        match &mut self.place {
            Place::Bridge(bridge) => make(bridge),
            _ => Said::NotPlayed { refused: self.made },
        }
    }

    /// Makes a call on the mailbox, if there is one.
    fn on_mailbox(&mut self, make: impl FnOnce(&mut Mailbox) -> Said) -> Said {
        match &mut self.place {
            Place::Mailbox(mailbox) => make(mailbox),
            _ => Said::NotPlayed { refused: self.made },
        }
    }

    /// Puts what was made in the place of what was there. If it is refused, what was there stays if
    /// the script made it and expects the refusal. Else the script wanted something else than there
    /// is, and plays nowhere until it makes something.
    fn create(&mut self, line: u64, created: Result<Place, BadSize>, step: &Step) -> Said {
        let told = std::mem::replace(&mut self.told, true);
        self.made = line;
        match created {
            Ok(place) => {
                self.place = place;
                Said::Answered(Answer::Done)
            }
            Err(bad) => {
                let said = Said::refused(Refusal::from(bad), &bad);
                let expected = step.expected.as_ref();
                let met = expected.map_or(false, |expected| said.meeting(expected).is_some());
                if !(told && met) {
                    self.place = Place::Nowhere;
                }
                said
            }
        }
    }

    /// The sentence to say, counted.
    fn counted(&mut self, line: u64, said: &Said, expected: Option<&Expected>) -> String {
        self.counts.calls += 1;
        match expected.map(|expected| (expected, said.meeting(expected))) {
            Some((_, Some(sentence))) => {
                self.counts.as_expected += 1;
                sentence
            }
            Some((expected, None)) => {
                self.counts.differ += 1;
                said.different(expected)
            }
            None => {
                match said {
                    Said::Refused { .. } => self.counts.refused(line),
                    Said::NotPlayed { .. } => self.counts.not_played(line),
                    _ => {}
                }
                said.to_string()
            }
        }
    }
}

/// What there is to say to a call that answers so.
fn said<T: Into<Answer>>(answered: Result<T, Refusal>) -> Said {
    match answered {
        Ok(answer) => Said::Answered(answer.into()),
        Err(refusal) => Said::refused(refusal, &refusal),
    }
}
