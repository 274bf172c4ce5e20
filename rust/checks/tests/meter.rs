//! The meter of last spring: a full receive buffer swallowed the point of "2.5", and a user heard
//! 25 volts. Here the app asks for the status before it speaks, and the overrun bit keeps it quiet.

use model::boundary::value;
use raftershim_checks::answer::{framed, with_room, DONE};
use raftershim_checks::bridge::call::{frame, Call};
use raftershim_checks::bridge::Pair;

/// Status bit 5.
const OVERRUN: u64 = 1 << 5;
const OVER: u64 = out(5, 64);
const DAMAGED: u64 = out(5, 65);

/// A frame that goes on while the transmit store is empty, which has three places.
const fn out(control: u64, data: u64) -> u64 {
    with_room(3, framed(control, data))
}

/// The app at its place on the loop, with the bridge behind it.
struct App {
    bridge: Pair,
}

/// What the app says.
#[derive(Debug, PartialEq)]
enum Said {
    Reading(String),
    ByteLost,
    /// No status byte came round whole.
    Nothing,
}

impl App {
    /// The smallest stores; the bridge detects ends of line, has address 1 and is made talker.
    fn new() -> App {
        let mut bridge = Pair::create(4, 3, 1);
        bridge.expect(Call::Register(10, 8), DONE);
        bridge.expect(frame(5, 129), out(5, 130));
        bridge.expect(frame(4, 65), out(4, 65));
        App { bridge }
    }

    fn meter_sends(&mut self, bytes: &[u8]) {
        for &byte in bytes {
            let held = self.bridge.state().expect("a state").receive.held;
            let room = 4_usize.saturating_sub(held + 1);
            self.bridge.expect(Call::Line(byte), with_room(room, DONE));
        }
    }

    fn offer(&mut self, frame: u32) -> u64 {
        let answer = self.bridge.call(Call::Frame(frame));
        answer.unwrap_or_else(|finding| panic!("{finding}"))
    }

    /// Asks for data until the bridge has no more, up to the end byte: a reading.
    fn reads(&mut self) -> String {
        let mut reading = String::new();
        let mut answer = self.offer(0x560);
        while answer != OVER {
            let sent = value(answer);
            assert!(sent < 1024, "a data frame");
            reading.push(char::from((sent & 255) as u8));
            if sent & 0x200 != 0 {
                self.offer(0x542);
            }
            answer = self.offer(sent as u32);
        }
        reading
    }

    /// Asks for the status; the loop changes these bits on its way to the app. What came damaged
    /// is not believed: the bridge says so when the frame is back.
    fn asks_status(&mut self, damage: u32, meanwhile: &[u8]) -> Option<u64> {
        let seen = value(self.offer(0x561)) as u32 ^ damage;
        self.meter_sends(meanwhile);
        match self.offer(seen) {
            OVER => Some(seen.into()),
            DAMAGED => None,
            other => panic!("{other:#x} ends no status"),
        }
    }

    /// Speaks a reading only after a status byte without the overrun bit.
    fn speaks(&mut self, reading: String, damage: u32, meanwhile: &[u8]) -> Said {
        match self.asks_status(damage, meanwhile) {
            None => Said::Nothing,
            Some(status) if status & OVERRUN != 0 => Said::ByteLost,
            Some(_) => Said::Reading(reading),
        }
    }
}

/// The reading before is still unread when the 2 fills the store; the point is lost.
fn point_lost() -> (App, String) {
    let mut app = App::new();
    app.meter_sends(b"1\r\n2.");
    assert_eq!(app.reads(), "1");
    app.meter_sends(b"5\r\n");
    let reading = app.reads();
    assert_eq!(reading, "25");
    (app, reading)
}

#[test]
fn a_whole_reading_is_spoken() {
    let mut app = App::new();
    app.meter_sends(b"2.");
    let first = app.reads();
    app.meter_sends(b"5\r\n");
    let reading = first + &app.reads();
    assert_eq!(app.speaks(reading, 0, b""), Said::Reading("2.5".into()));
    println!("the meter: 1 whole reading spoken");
}

#[test]
fn a_reading_without_its_point_is_not_spoken() {
    let (mut app, reading) = point_lost();
    assert_eq!(app.speaks(reading, 0, b""), Said::ByteLost);
    // The news is told, so the next reading is spoken.
    app.meter_sends(b"3\r\n");
    let reading = app.reads();
    assert_eq!(app.speaks(reading, 0, b""), Said::Reading("3".into()));
    println!("the meter: 1 reading of 25 kept quiet, the next spoken");
}

#[test]
fn damage_to_the_status_byte_does_not_lose_the_news() {
    let mut damages = 0;
    // Every change of the frame but the service bit alone; 32 takes the overrun bit off.
    for damage in (1..1024).filter(|damage| damage & !0x100 != 0) {
        let (mut app, reading) = point_lost();
        assert_eq!(app.speaks(reading.clone(), damage, b""), Said::Nothing);
        assert_eq!(app.speaks(reading, 0, b""), Said::ByteLost);
        damages += 1;
    }
    println!("the meter: {damages} damaged status bytes, the overrun bit still there after each");
}

#[test]
fn a_service_request_of_another_device_is_no_damage() {
    let (mut app, reading) = point_lost();
    assert_eq!(app.speaks(reading.clone(), 0x100, b""), Said::ByteLost);
    assert_eq!(app.speaks(reading, 0, b""), Said::Reading("25".into()));
    println!("the meter: 1 status byte back with a service bit, the news told by it");
}

#[test]
fn a_loss_while_the_status_byte_is_under_way_is_told_next() {
    let (mut app, reading) = point_lost();
    // Five bytes into four places: one more is lost after the status byte was sent.
    assert_eq!(app.speaks(reading, 0, b"4.5\r\n"), Said::ByteLost);
    let reading = app.reads();
    assert_eq!(app.speaks(reading, 0, b""), Said::ByteLost);
    assert_eq!(app.speaks(String::new(), 0, b""), Said::Reading("".into()));
    println!("the meter: 2 losses, each told by a status byte sent after it");
}
