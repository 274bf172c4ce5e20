//! The paper's examples, its list of slips, the whole-run demands, what a break does, what a held
//! line refuses, and how a line byte is asked for and taken, as calls on the model.

#[path = "paper/ask_take.rs"]
mod ask_take;
#[path = "paper/held_line.rs"]
mod held_line;

use raftershim_model::boundary::{self, room};
use raftershim_model::{block, Answer, Bridge, WithRoom};
use raftershim_model::{ACTIVE_DATA, ACTIVE_STATUS, IDLE, SERVICE, UNASSIGNED};
use Answer::{Byte, Done, Frame, NoByte, Refused};

/// A bridge together with its two stores.
#[derive(Clone, Debug, PartialEq)]
struct World {
    bridge: Bridge,
    rx: Vec<u16>,
    tx: Vec<u8>,
}

/// A call; `Echo` and `Damage` offer our own frame under way, unchanged or with one bit changed.
#[derive(Clone, Copy, Debug, PartialEq)]
enum Call {
    Reset,
    Write(u32, u32),
    Line(u8),
    Break,
    Key,
    Ask,
    Take(u8),
    Loop(u32),
    Echo,
    Damage,
}

/// The frame written "control,data".
fn f(control: u16, data: u16) -> u16 {
    control << 8 | data
}

fn offer(control: u16, data: u16) -> Call {
    Call::Loop(u32::from(f(control, data)))
}

impl World {
    fn new(rx_len: usize, tx_len: usize, margin: u32) -> World {
        let (rx, tx) = (vec![0; rx_len], vec![0; tx_len]);
        let bridge = Bridge::create(&rx, &tx, margin).expect("sizes are obeyed");
        World { bridge, rx, tx }
    }

    /// A fresh world after calls that are all taken.
    fn after(rx_len: usize, tx_len: usize, margin: u32, calls: &[Call]) -> World {
        let mut world = World::new(rx_len, tx_len, margin);
        for &call in calls {
            let answer = world.call(call);
            assert!(!matches!(answer, Refused(_)), "{call:?}: {answer:?}");
        }
        world
    }

    fn call(&mut self, call: Call) -> Answer {
        self.told(call).answer
    }

    /// The answer with the room that it tells.
    fn told(&mut self, call: Call) -> WithRoom {
        let (bridge, rx, tx) = (&mut self.bridge, &mut self.rx, &mut self.tx);
        let under_way = u32::from(bridge.under_way);
        match call {
            Call::Reset => bridge.reset(rx, tx).into(),
            Call::Write(number, value) => bridge.write_register(rx, tx, number, value).into(),
            Call::Line(byte) => bridge.line_byte(rx, tx, byte),
            Call::Break => bridge.take_break(rx, tx).into(),
            Call::Key => bridge.take_key(rx, tx).into(),
            Call::Ask => bridge.ask_line_byte(rx, tx).into(),
            Call::Take(byte) => bridge.take_line_byte(rx, tx, byte).into(),
            Call::Loop(frame) => bridge.loop_frame(rx, tx, frame),
            Call::Echo => bridge.loop_frame(rx, tx, under_way),
            Call::Damage => bridge.loop_frame(rx, tx, under_way ^ 1),
        }
    }

    /// The world after one more call.
    fn then(&self, call: Call) -> World {
        let mut next = self.clone();
        next.call(call);
        next
    }

    /// The cells held in the receive store, oldest first, as far as they count.
    fn held(&self) -> Vec<u16> {
        let ring = self.bridge.receive;
        let place = |i| self.rx[(ring.oldest + i) % self.rx.len()] & 511;
        (0..ring.held).map(place).collect()
    }

    /// The bytes held in the transmit store, oldest first.
    fn waiting(&self) -> Vec<u8> {
        let ring = self.bridge.transmit;
        let place = |i| self.tx[(ring.oldest + i) % self.tx.len()];
        (0..ring.held).map(place).collect()
    }

    /// Asks for a line byte, sends it and takes it: this is it, or none. Asking changes nothing,
    /// and no other byte can be taken.
    fn goes_out(&mut self) -> Option<u8> {
        let before = self.clone();
        let asked = self.call(Call::Ask);
        assert_eq!(self, &before);
        let other = match asked {
            Byte(byte) => byte ^ 1,
            NoByte => 0,
            other => panic!("no answer to an ask: {other:?}"),
        };
        assert_eq!(self.call(Call::Take(other)), Refused(12));
        assert_eq!(self, &before);
        match asked {
            Byte(byte) => {
                assert_eq!(self.call(Call::Take(byte)), Done);
                Some(byte)
            }
            _ => None,
        }
    }

    /// Asks for data with ready 96 and returns every frame unchanged until 5,64.
    fn read_out(&mut self) -> Vec<u16> {
        let mut frames = Vec::new();
        let mut answer = self.call(offer(5, 96));
        while answer != Frame(f(5, 64)) {
            match answer {
                Frame(frame) if frame < 1024 => frames.push(frame),
                other => panic!("no data frame: {other:?}"),
            }
            answer = self.call(Call::Echo);
        }
        frames
    }
}

/// Address 1, addressed to talk.
const TALK: [Call; 2] = [Call::Loop(0x581), Call::Loop(0x441)];

/// The mark of a cell whose byte a break follows. Alone it is a break, where rows say what came.
const BREAK: u16 = 256;

/// The frames of the reading rule for these cells; a second writing of the rule, for whole
/// sequences: each piece between two breaks is read by itself, and only in the last can bytes wait.
fn frames_of(rule_on: bool, pair: [u8; 2], cells: &[u16]) -> Vec<u16> {
    let pieces = cells.split_inclusive(|cell| cell & BREAK != 0);
    let frames = pieces.flat_map(|piece| {
        let ended = piece.last().map_or(false, |last| last & BREAK != 0);
        let bytes: Vec<u8> = piece.iter().map(|cell| *cell as u8).collect();
        frames_of_piece(rule_on, pair, &bytes, ended)
    });
    frames.collect()
}

/// What the reading rule goes by: whether R10 bit 3 is on, and the pair C00, C01.
type Rule = (bool, [u8; 2]);

/// The rule in force.
fn rule_of(bridge: &Bridge) -> Rule {
    let registers = &bridge.registers;
    (registers.r10 & 8 != 0, [registers.c[0], registers.c[1]])
}

/// The frames of cells that are each read by a rule of their own: each stretch of one rule is read by
/// itself, and ends as at a break where another rule follows.
fn frames_of_stretches(cells: &[(Rule, u16)]) -> Vec<u16> {
    let mut frames = Vec::new();
    let mut rest = cells;
    while let Some(&(rule, _)) = rest.first() {
        let end = rest.iter().position(|cell| cell.0 != rule);
        let (stretch, after) = rest.split_at(end.unwrap_or(rest.len()));
        let mut stretch: Vec<u16> = stretch.iter().map(|cell| cell.1).collect();
        if let (Some(last), false) = (stretch.last_mut(), after.is_empty()) {
            *last |= BREAK;
        }
        frames.extend(frames_of(rule.0, rule.1, &stretch));
        rest = after;
    }
    frames
}

/// The frames of bytes without a break between them; `ended` says whether one follows the last.
fn frames_of_piece(rule_on: bool, pair: [u8; 2], mut bytes: &[u8], ended: bool) -> Vec<u16> {
    let mut frames = Vec::new();
    while let Some((&first, rest)) = bytes.split_first() {
        if rule_on && bytes.starts_with(&pair) {
            bytes = &bytes[2..];
        } else if rule_on && rest.starts_with(&pair) {
            frames.push(f(2, u16::from(first)));
            bytes = &rest[2..];
        } else if rule_on && !ended && (rest.is_empty() || rest == &pair[..1]) {
            break;
        } else {
            frames.push(f(0, u16::from(first)));
            bytes = rest;
        }
    }
    frames
}

/// A pair, what came on the line, the frames, and the cells that are left.
type Row<'a> = ([u32; 2], &'a [u16], &'a [(u16, u16)], &'a [u16]);

/// The rows of the paper.
const ROWS: [Row; 10] = [
    ([13, 10], &[], &[], &[]),
    ([13, 10], &[50], &[], &[50]),
    ([13, 10], &[50, 13], &[], &[50, 13]),
    ([13, 10], &[50, 46], &[(0, 50)], &[46]),
    ([13, 10], &[50, 13, 10], &[(2, 50)], &[]),
    ([13, 10], &[13, 10], &[], &[]),
    ([13, 10], &[50, 13, 46], &[(0, 50), (0, 13)], &[46]),
    ([13, 10], &[13, 13, 10], &[(2, 13)], &[]),
    (
        [13, 10],
        &[50, 13, 10, 13, 10, 46, 13, 10],
        &[(2, 50), (2, 46)],
        &[],
    ),
    (
        [10, 10],
        &[50, 10, 10, 10, 46, 53],
        &[(2, 50), (0, 10), (0, 46)],
        &[53],
    ),
];

/// Rows with breaks: between a byte and a pair, within a pair, behind one, several at one place, and
/// where nothing is held.
const ROWS_WITH_BREAKS: [Row; 16] = [
    ([13, 10], &[BREAK], &[], &[]),
    ([13, 10], &[BREAK, 50], &[], &[50]),
    ([13, 10], &[50, BREAK], &[(0, 50)], &[]),
    ([13, 10], &[50, BREAK, BREAK], &[(0, 50)], &[]),
    ([13, 10], &[50, BREAK, 13, 10], &[(0, 50)], &[]),
    ([13, 10], &[13, BREAK, 10], &[(0, 13)], &[10]),
    ([13, 10], &[50, 13, BREAK], &[(0, 50), (0, 13)], &[]),
    ([13, 10], &[50, 13, BREAK, 10], &[(0, 50), (0, 13)], &[10]),
    ([13, 10], &[50, 13, 10, BREAK], &[(2, 50)], &[]),
    ([13, 10], &[50, 13, 10, BREAK, 13, 10], &[(2, 50)], &[]),
    ([13, 10], &[13, 10, BREAK, 46, 53], &[(0, 46)], &[53]),
    ([13, 10], &[13, BREAK, 13, 10, 46], &[(0, 13)], &[46]),
    (
        [13, 10],
        &[50, 13, BREAK, 10, 13, 10],
        &[(0, 50), (0, 13), (2, 10)],
        &[],
    ),
    (
        [13, 10],
        &[50, 46, BREAK, 53, BREAK, 13, BREAK],
        &[(0, 50), (0, 46), (0, 53), (0, 13)],
        &[],
    ),
    ([10, 10], &[10, BREAK, 10], &[(0, 10)], &[10]),
    (
        [10, 10],
        &[50, 10, BREAK, 10, 10, 53],
        &[(0, 50), (0, 10)],
        &[53],
    ),
];

/// What comes on the line: a byte, or a break.
fn came(item: u16) -> Call {
    match item {
        BREAK => Call::Break,
        byte => Call::Line(byte as u8),
    }
}

/// Lets a row come, reads it out, and holds frames and cells to it.
fn held_to((pair, items, frames, left): Row) {
    let registers = [
        Call::Write(10, 8),
        Call::Write(16, pair[0]),
        Call::Write(17, pair[1]),
    ];
    let mut world = World::after(64, 64, 8, &[&registers[..], &TALK].concat());
    for &item in items {
        assert_eq!(world.call(came(item)), Done);
    }
    let frames: Vec<u16> = frames.iter().map(|&(c, d)| f(c, d)).collect();
    let cells = world.held();
    assert_eq!(frames_of(true, pair.map(|c| c as u8), &cells), frames);
    assert_eq!(world.read_out(), frames, "{items:?}");
    assert_eq!(world.held(), left, "{items:?}");
    assert_eq!(world.bridge.sent as usize, frames.len());
}

#[test]
fn proved_rows() {
    ROWS.into_iter().for_each(held_to);
    let mut count = ROWS.len();

    let mut world = World::new(64, 64, 8);
    assert_eq!(world.bridge.address, UNASSIGNED);
    assert_eq!(world.call(offer(5, 158)), Frame(f(5, 159)));
    assert_eq!(world.bridge.address, 30);
    count += 1;
    println!("{count} P rows");
}

#[test]
fn rows_with_breaks() {
    ROWS_WITH_BREAKS.into_iter().for_each(held_to);
    println!("{} rows with breaks", ROWS_WITH_BREAKS.len());
}

#[test]
fn run_store_8_margin_3() {
    let mut world = World::after(8, 3, 3, &[&[Call::Write(10, 8)], &TALK[..]].concat());
    for number in 1..=9 {
        assert_eq!(world.call(Call::Line(48 + number)), Done);
        assert_eq!(world.bridge.holding, number >= 5, "byte {number}");
        assert_eq!(world.bridge.lost, u32::from(number == 9));
    }
    assert!(world.bridge.overrun_seen);
    assert_eq!(world.goes_out(), Some(19));
    let mut call = offer(5, 96);
    while world.bridge.receive.held > 2 {
        assert!(world.bridge.holding);
        assert!(matches!(world.call(call), Frame(frame) if frame < 1024));
        call = Call::Echo;
    }
    assert!(!world.bridge.holding);
    assert_eq!(world.goes_out(), Some(17));
    println!(
        "{} bytes stored, {} lost, {} frames sent",
        world.bridge.stored, world.bridge.lost, world.bridge.sent
    );
}

#[test]
fn run_transmit_store_3() {
    let listen = [TALK[0], offer(4, 33), Call::Write(10, 12)];
    let mut world = World::after(64, 3, 8, &listen);
    assert_eq!(world.call(offer(2, 50)), Frame(f(2, 50)));
    assert_eq!(world.waiting(), [50, 13, 10]);
    let out: Vec<Option<u8>> = (0..4).map(|_| world.goes_out()).collect();
    assert_eq!(out, [Some(50), Some(13), Some(10), None]);

    assert_eq!(world.call(offer(0, 51)), Frame(f(0, 51)));
    let before = world.clone();
    let mut busy = 0;
    for control in [2, 3] {
        assert_eq!(world.call(offer(control, 52)), Refused(4));
        assert_eq!(world, before);
        busy += 1;
    }
    assert_eq!(world.call(offer(1, 52)), Frame(f(1, 52)));
    assert_eq!(world.waiting(), [51, 52]);
    println!(
        "{} bytes taken, {busy} end bytes busy at one held",
        out.len() - 1
    );
}

#[test]
fn run_sizes_and_frames() {
    let mut count = [0, 0];
    for (rx_len, tx_len, margin, taken) in [
        (7, 3, 3, false),
        (8, 3, 3, true),
        (8, 2, 3, false),
        (8, 3, 0, false),
        (4, 3, 1, true),
        (3, 3, 1, false),
        (2050, 3, 1024, true),
        (2049, 3, 1024, false),
        (32768, 32768, 1025, false),
        (32768, 32768, 1024, true),
        (32769, 3, 1, false),
        (4, 32769, 1, false),
        (4, 3, u32::MAX, false),
    ] {
        let created = Bridge::create(&vec![0; rx_len], &vec![0; tx_len], margin);
        match created {
            Ok(bridge) => assert!(taken && bridge.fits(rx_len, tx_len)),
            Err(answer) => assert!(!taken && answer == Refused(1)),
        }
        count[usize::from(taken)] += 1;
    }

    let mut world = World::new(8, 3, 3);
    assert_eq!(world.call(Call::Loop(2047)), Frame(2047));
    let before = world.clone();
    assert_eq!(world.call(Call::Loop(2048)), Refused(3));
    assert_eq!(world.call(Call::Loop(u32::MAX)), Refused(3));
    assert_eq!(world, before);
    println!("{} sizes taken, {} refused", count[1], count[0]);
}

#[test]
fn slip_1_overrun_cleared_when_status_is_sent() {
    let mut world = lost_one();
    assert_eq!(world.call(offer(5, 97)), Frame(f(0, 0b0010_1111)));
    assert_eq!(world.call(Call::Damage), Frame(f(5, 65)));
    assert!(world.bridge.overrun_seen);
    assert_eq!(world.call(offer(5, 97)), Frame(f(0, 0b0010_1111)));
    assert_eq!(world.call(Call::Echo), Frame(f(5, 64)));
    assert!(!world.bridge.overrun_seen);
    println!("overrun kept over 1 damaged status, cleared by 1 return");
}

#[test]
fn slip_2_overrun_cleared_though_a_byte_was_lost_in_between() {
    let mut world = lost_one();
    world.call(offer(5, 97));
    assert_eq!(world.call(Call::Line(58)), Done);
    assert_eq!(world.call(Call::Echo), Frame(f(5, 64)));
    assert!(world.bridge.overrun_seen);
    world.call(offer(5, 97));
    assert_eq!(world.call(Call::Echo), Frame(f(5, 64)));
    assert!(!world.bridge.overrun_seen);
    println!("{} bytes lost, 2 status bytes returned", world.bridge.lost);
}

/// Address 1, addressed to talk, receive store full, one byte lost.
fn lost_one() -> World {
    let bytes: Vec<Call> = (50..55).map(Call::Line).collect();
    let world = World::after(4, 3, 1, &[&TALK, &bytes[..]].concat());
    assert_eq!((world.bridge.stored, world.bridge.lost), (4, 1));
    world
}

#[test]
fn slip_3_returns_compared_with_the_service_bit() {
    let bytes = [Call::Line(50), Call::Line(51), Call::Line(52)];
    let mut world = World::after(64, 3, 8, &[&TALK, &bytes[..]].concat());
    assert_eq!(world.call(offer(5, 96)), Frame(f(0, 50)));
    assert_eq!(world.call(offer(1, 50)), Frame(f(0, 51)));
    // The end bit does count.
    assert_eq!(world.call(offer(2, 51)), Frame(f(5, 65)));
    // Our own request: sent with the bit, returned with and without it.
    world.call(Call::Write(0, 8));
    world.call(Call::Write(2, 4));
    world.call(Call::Key);
    assert_eq!(world.call(offer(5, 96)), Frame(f(1, 52)));
    assert_eq!(world.call(offer(0, 52)), Frame(f(5, 64)));
    println!("2 returns with another service bit, both equal");
}

#[test]
fn slip_4_listen_address_31_while_unassigned() {
    let mut world = World::new(64, 3, 8);
    let before = world.clone();
    assert_eq!(world.call(offer(4, 63)), Frame(f(4, 63)));
    assert_eq!(world.call(offer(4, 95)), Frame(f(4, 95)));
    assert_eq!(world, before);
    println!("2 commands, neither listener nor talker");
}

#[test]
fn slip_5_owed_go_dropped_when_the_protocol_goes_off() {
    let bytes = [Call::Line(50), Call::Line(51), Call::Line(52)];
    let mut world = World::after(4, 3, 1, &bytes);
    assert_eq!(world.goes_out(), Some(19));
    assert_eq!(world.call(Call::Line(19)), Done);
    assert!(world.bridge.forbidden);
    assert_eq!(world.call(Call::Write(11, 0)), Done);
    assert!(!world.bridge.holding && !world.bridge.forbidden);
    assert_eq!(world.goes_out(), Some(17));
    assert_eq!(world.goes_out(), None);
    println!("1 stop and 1 go taken");
}

#[test]
fn onepass_example() {
    let mut world = World::new(64, 64, 8);
    assert_eq!(world.call(Call::Write(0x0a, 0x08)), Done);
    for byte in [0x32, 0x2e, 0x35, 0x0d, 0x0a] {
        assert_eq!(world.call(Call::Line(byte)), Done);
    }
    let mut lines = vec!["onepass 1".to_string()];
    for frame in [0x0581, 0x0441, 0x0560, 0x0032, 0x002e, 0x0235] {
        match world.call(Call::Loop(frame)) {
            Frame(out) => lines.push(format!("{},{}", out >> 8, out & 255)),
            other => panic!("{other:?}"),
        }
    }
    let mut taken = 0;
    while world.goes_out().is_some() {
        taken += 1;
    }
    lines.push(format!("line {taken}"));
    let expected = [
        "onepass 1",
        "5,130",
        "4,65",
        "0,50",
        "0,46",
        "2,53",
        "5,64",
        "line 0",
    ];
    assert_eq!(lines, expected);
    println!("{} lines", lines.len());
}

#[test]
fn commands_and_ready_frames() {
    // Frames in order, each with (address, talker, listener, remote enabled, remote) after it.
    let steps = [
        ((4, 33), (31, 0, false, false, false)),
        ((5, 129), (1, 0, false, false, false)),
        ((5, 130), (1, 0, false, false, false)),
        ((4, 33), (1, 0, true, false, false)),
        ((4, 146), (1, 0, true, true, false)),
        ((4, 34), (1, 0, true, true, false)),
        ((4, 66), (1, 0, true, true, false)),
        ((4, 33), (1, 0, true, true, true)),
        ((4, 1), (1, 0, true, true, false)),
        ((4, 33), (1, 0, true, true, true)),
        ((4, 63), (1, 0, false, true, true)),
        ((4, 1), (1, 0, false, true, true)),
        ((4, 147), (1, 0, false, false, false)),
        ((4, 65), (1, 1, false, false, false)),
        ((4, 33), (1, 0, true, false, false)),
        ((4, 65), (1, 1, false, false, false)),
        ((5, 97), (1, 3, false, false, false)),
        ((4, 65), (1, 1, false, false, false)),
        ((4, 144), (1, 0, false, false, false)),
        ((4, 33), (1, 0, true, false, false)),
        ((4, 144), (1, 0, false, false, false)),
        ((4, 65), (1, 1, false, false, false)),
        ((4, 154), (31, 1, false, false, false)),
        ((5, 97), (31, 3, false, false, false)),
        ((5, 159), (31, 3, false, false, false)),
        ((4, 95), (31, 0, false, false, false)),
        ((5, 97), (31, 0, false, false, false)),
    ];
    let mut world = World::new(4, 3, 1);
    for ((control, data), expected) in steps {
        world.call(offer(control, data));
        let b = &world.bridge;
        let roles = (b.address, b.talker, b.listener, b.remote_enabled, b.remote);
        assert_eq!(roles, expected, "after {control},{data}");
    }

    // Ready 66 finishes after the frame under way, and only that sending.
    let mut world = World::after(4, 3, 1, &[&TALK, &[50, 51].map(Call::Line)[..]].concat());
    assert_eq!(world.call(offer(5, 66)), Frame(f(5, 66)));
    assert_eq!(world.call(offer(5, 96)), Frame(f(0, 50)));
    assert_eq!(world.call(offer(5, 66)), Frame(f(5, 66)));
    assert_eq!(world.call(Call::Echo), Frame(f(5, 64)));
    assert_eq!(world.held(), [51]);
    assert_eq!(world.read_out(), [f(0, 51)]);

    // Command 4 clears a listener only; a clear leaves no request though transmit becomes empty.
    let filled = [Call::Write(1, 1), TALK[0], offer(4, 33), offer(0, 9)];
    let mut world = World::after(4, 3, 1, &filled);
    world.bridge.request = false;
    // The other end's stop forbids our sending until its go.
    for (byte, out) in [(19, None), (17, Some(9))] {
        world.call(offer(0, 9));
        world.call(Call::Line(byte));
        assert_eq!(world.goes_out(), out);
    }
    world.call(Call::Line(19));
    let talking = World::after(4, 3, 1, &[TALK[0], TALK[1], Call::Break]).then(offer(4, 4));
    assert!(talking.bridge.break_seen);
    let cleared = world.then(offer(4, 4));
    assert_eq!(cleared.waiting(), []);
    assert!(!cleared.bridge.forbidden && !cleared.bridge.request);
    println!("{} frames through the roles", steps.len());
}

#[test]
fn service_requests() {
    let mut world = World::after(64, 3, 8, &TALK);
    // Transmit is empty, so enabling that begins a request, which shows only with R00 bit 3.
    world.call(Call::Write(1, 1));
    assert!(world.bridge.request);
    assert_eq!(world.call(offer(6, 0)), Frame(f(6, 0)));
    world.call(Call::Write(0, 8));
    let passed = [
        (6, 0, 7),
        (0, 9, 1),
        (2, 9, 3),
        (3, 9, 3),
        (5, 0, 5),
        (4, 0, 4),
    ];
    for (control, data, out) in passed {
        assert_eq!(world.call(offer(control, data)), Frame(f(out, data)));
    }
    // The first status shows it and carries the bit; the next frames do not.
    assert_eq!(world.call(offer(5, 97)), Frame(f(1, 0b0100_0011)));
    assert!(!world.bridge.request);
    assert_eq!(world.call(offer(0, 0b0100_0011)), Frame(f(5, 64)));
    assert_eq!(world.call(offer(5, 97)), Frame(f(0, 0b0000_0011)));
    assert_eq!(world.call(Call::Echo), Frame(f(5, 64)));
    // Writing the same value begins none, off and on again does, and so does a first key press.
    let mut begun = 0;
    for (call, begins) in [
        (Call::Write(1, 1), false),
        (Call::Write(1, 0), false),
        (Call::Write(1, 1), true),
        (Call::Write(2, 4), false),
        (Call::Key, true),
        (Call::Key, false),
        (offer(4, 20), false),
        (Call::Key, true),
    ] {
        world.bridge.request = false;
        world.call(call);
        assert_eq!(world.bridge.request, begins, "{call:?}");
        begun += u32::from(begins);
    }
    println!("{} frames passed, {begun} requests begun", passed.len());
}

#[test]
fn sends_hold_off_and_counts() {
    // A send that finds no frame removes its pairs and may end holding off.
    let bytes = [13, 10, 13].map(Call::Line);
    let start = [&[Call::Write(10, 8)], &TALK[..], &bytes].concat();
    let mut world = World::after(4, 3, 1, &start);
    assert!(world.bridge.holding);
    assert_eq!(world.call(offer(5, 96)), Frame(f(5, 64)));
    assert_eq!((world.held(), world.bridge.holding), (vec![13], false));
    assert_eq!(world.goes_out(), None);

    // A device clear after our stop owes a go, and the next byte goes to place 0.
    let mut world = World::after(4, 3, 1, &[50, 51, 52].map(Call::Line));
    assert_eq!(world.goes_out(), Some(19));
    world.call(offer(4, 20));
    assert_eq!(world.goes_out(), Some(17));
    world.call(Call::Line(99));
    assert_eq!(world.rx, [99, 51, 52, 0]);

    // "starting again at 0 after 4,294,967,295"
    let mut world = World::after(4, 3, 1, &TALK);
    world.bridge.stored = u32::MAX;
    world.bridge.sent = u32::MAX;
    world.bridge.lost = u32::MAX;
    for byte in 50..55 {
        world.call(Call::Line(byte));
    }
    world.call(offer(5, 96));
    let counts = (world.bridge.stored, world.bridge.lost, world.bridge.sent);
    assert_eq!(counts, (3, 0, 0));
    println!("counts (stored, lost, sent) came round to {counts:?}");
}

#[test]
fn register_refusals() {
    let control = [(0, 9), (1, 15), (2, 5), (10, 12), (11, 8)];
    let mut count = [0; 9];
    for number in (0..64).chain([255, 256, 272, u32::MAX]) {
        for value in (0..300).chain([1 << 8 | 17, 1 << 16, u32::MAX]) {
            let mut world = World::new(4, 3, 1);
            let before = world.clone();
            let bits = control.iter().find(|row| row.0 == number);
            let expected = match bits {
                Some(_) if value > 15 => Refused(6),
                Some(row) if (0..4).any(|b| value >> b & 1 > row.1 >> b & 1) => Refused(7),
                Some(_) => Done,
                None if !(16..=21).contains(&number) => Refused(5),
                None if value > 255 => Refused(6),
                None if (number, value) == (20, 19) || (number, value) == (21, 17) => Refused(8),
                None => Done,
            };
            assert_eq!(world.call(Call::Write(number, value)), expected);
            match expected {
                Refused(refusal) => {
                    assert_eq!(world, before);
                    count[usize::from(refusal)] += 1;
                }
                _ => {
                    assert!(world.bridge.fits(4, 3));
                    count[0] += 1;
                }
            }
        }
    }
    println!(
        "{} writes taken; refused 5: {}, 6: {}, 7: {}, 8: {}",
        count[0], count[5], count[6], count[7], count[8]
    );
}

/// Each makes a state fit no longer.
const SPOILERS: [fn(&mut Bridge); 24] = [
    |b| b.receive_len = 5,
    |b| b.transmit_len = 4,
    |b| b.margin = 0,
    |b| b.margin = 2,
    |b| b.margin = usize::MAX,
    |b| b.registers.r00 = 2,
    |b| b.registers.r01 = 16,
    |b| b.registers.r02 = 8,
    |b| b.registers.r10 = 1,
    |b| b.registers.r11 = 12,
    |b| b.registers.c[4] = 19,
    |b| b.registers.c[5] = 17,
    |b| b.address = 32,
    |b| b.talker = 4,
    |b| {
        b.talker = 1;
        b.listener = true;
    },
    |b| b.under_way = 1024,
    |b| b.under_way = u16::MAX,
    |b| b.receive.oldest = 4,
    |b| b.receive.held = 5,
    |b| b.transmit.oldest = 3,
    |b| b.transmit.held = 4,
    |b| b.receive.oldest = usize::MAX,
    |b| b.receive.held = usize::MAX,
    |b| b.transmit.held = usize::MAX,
];

/// A call of each kind that takes a state, some with refusals of larger numbers.
const CALLS: [Call; 9] = [
    Call::Reset,
    Call::Write(3, 99),
    Call::Line(50),
    Call::Break,
    Call::Key,
    Call::Ask,
    Call::Take(50),
    Call::Loop(2048),
    Call::Echo,
];

#[test]
fn misfit_states_are_refused_and_left_alone() {
    let mut count = 0;
    for spoil in SPOILERS {
        let mut world = World::after(4, 3, 1, &[Call::Line(50)]);
        assert_eq!(world.bridge.show_receive(&world.rx, &world.tx), [50]);
        spoil(&mut world.bridge);
        let before = world.clone();
        for call in CALLS {
            assert_eq!(world.call(call), Refused(2));
            assert_eq!(world, before);
            count += 1;
        }
        let (rx, tx) = (&world.rx, &world.tx);
        assert!(world.bridge.show_receive(rx, tx).is_empty());
        assert!(world.bridge.show_transmit(rx, tx).is_empty());
        count += 2;
    }
    println!("{} misfits, {count} calls refused or empty", SPOILERS.len());
}

#[test]
fn show_is_the_unbroken_run() {
    let mut world = World::after(4, 3, 1, &TALK);
    let mut count = 0;
    for step in 0..40_u8 {
        world.call(Call::Line(100 + step));
        if step % 5 == 0 {
            world.call(Call::Break);
        }
        if step % 3 != 0 {
            world.call(if world.bridge.talker == ACTIVE_DATA {
                Call::Echo
            } else {
                offer(5, 96)
            });
        }
        let shown = world.bridge.show_receive(&world.rx, &world.tx);
        let ring = world.bridge.receive;
        assert_eq!(shown.len(), ring.held.min(4 - ring.oldest));
        assert_eq!(shown, &world.held()[..shown.len()]);
        assert!(world.bridge.show_transmit(&world.rx, &world.tx).is_empty());
        count += 1;
    }
    println!("{count} parts shown");
}

/// What a run's observer keeps, from the calls, the worlds before them and the answers alone.
#[derive(Clone)]
struct History {
    /// Bytes and breaks held at the start, then all accepted, as cells, each with the rule in force when
    /// it was accepted.
    accepted: Vec<(Rule, u16)>,
    /// Data frames sent from the receive store, the service bit aside.
    sent: Vec<u16>,
    /// Bytes held for the line at the start, then all added.
    added: Vec<u8>,
    /// Line bytes taken, our own go and stop aside: what is taken is handed out.
    handed_out: Vec<u8>,
    /// Whether stop was the last of our go and stop that was taken.
    stop_taken_last: bool,
    /// A byte was lost and no status byte sent after the loss has come back unchanged.
    news_owed: bool,
    /// The status byte under way was sent after the last loss.
    news_under_way: bool,
    /// Whether the promise that no byte is lost still applies to the run.
    no_loss_promised: bool,
    /// Data bytes that arrived in this spell of holding off.
    in_spell: usize,
}

/// These cells, all read by this rule.
fn ruled(rule: Rule, cells: Vec<u16>) -> Vec<(Rule, u16)> {
    cells.into_iter().map(|cell| (rule, cell)).collect()
}

impl History {
    fn starting(world: &World) -> History {
        let bridge = &world.bridge;
        History {
            accepted: ruled(rule_of(bridge), world.held()),
            sent: Vec::new(),
            added: world.waiting(),
            handed_out: Vec::new(),
            stop_taken_last: bridge.stop_sent_last,
            news_owed: false,
            news_under_way: false,
            no_loss_promised: bridge.registers.r11 == 8
                && !bridge.holding
                && world.rx.len() - bridge.receive.held > bridge.margin,
            in_spell: 0,
        }
    }

    /// The same run after a register write. The statements on news and on losses speak of runs without
    /// one, so these start again.
    fn written(self, world: &World) -> History {
        History {
            accepted: self.accepted,
            sent: self.sent,
            added: self.added,
            handed_out: self.handed_out,
            stop_taken_last: self.stop_taken_last,
            ..History::starting(world)
        }
    }

    /// The history after one call that was not refused. Demand 3 speaks of runs without a reset or a
    /// device clear, so a new run starts after them.
    fn after(
        mut self,
        before: &World,
        (call, answer): (Call, Answer),
        after: &World,
        found: &mut Found,
    ) -> History {
        match call {
            Call::Reset => History::starting(after),
            _ if call == offer(4, 20) => History {
                stop_taken_last: self.stop_taken_last,
                ..History::starting(after)
            },
            Call::Write(..) => {
                found.rules += u32::from(rule_of(&before.bridge) != rule_of(&after.bridge));
                self.written(after)
            }
            _ => {
                self.note(before, call, answer, found);
                self
            }
        }
    }

    /// Takes note of one call that was not refused.
    fn note(&mut self, before: &World, call: Call, answer: Answer, found: &mut Found) {
        let bridge = &before.bridge;
        let frame = match call {
            Call::Loop(frame) => frame as u16,
            Call::Echo => bridge.under_way,
            Call::Damage => bridge.under_way ^ 1,
            Call::Line(byte) => return self.note_line(before, byte, found),
            Call::Break => return self.note_break(found),
            Call::Take(byte) => return self.note_taken(bridge, byte, found),
            _ => return,
        };
        if let Frame(out) = answer {
            self.note_data(bridge, frame, out, found);
            self.note_news(bridge, frame, found);
        }
    }

    /// The line byte that is next: our own go or stop, if what was taken last of them is not what
    /// holds, and else the oldest byte that was added and not taken, unless our sending is
    /// forbidden.
    fn next_on_line(&self, bridge: &Bridge) -> Option<u8> {
        match (bridge.holding, self.stop_taken_last) {
            (true, false) => Some(bridge.registers.c[5]),
            (false, true) => Some(bridge.registers.c[4]),
            _ if bridge.forbidden => None,
            _ => self.added.get(self.handed_out.len()).copied(),
        }
    }

    /// Holds an ask and a take to what is next: the ask says it, and the take is refused exactly if
    /// it names another byte.
    fn check_line(&self, before: &World, call: Call, answer: Answer) {
        let next = self.next_on_line(&before.bridge);
        match call {
            Call::Ask => assert_eq!(answer, next.map_or(NoByte, Byte)),
            Call::Take(byte) if next == Some(byte) => assert_eq!(answer, Done),
            Call::Take(_) => assert_eq!(answer, Refused(12)),
            _ => {}
        }
    }

    /// A line byte was taken.
    fn note_taken(&mut self, bridge: &Bridge, byte: u8, found: &mut Found) {
        if bridge.holding == self.stop_taken_last {
            self.handed_out.push(byte);
        }
        self.stop_taken_last = bridge.holding;
        found.taken += 1;
    }

    /// A break follows the byte that was accepted last, whether that is still held or not. Before
    /// the first there is nothing that it could part.
    fn note_break(&mut self, found: &mut Found) {
        if let Some(last) = self.accepted.last_mut() {
            last.1 |= BREAK;
            found.breaks += 1;
        }
    }

    /// A line byte: accepted, or lost, and then news is owed.
    fn note_line(&mut self, before: &World, byte: u8, found: &mut Found) {
        let bridge = &before.bridge;
        let handshake = bridge.registers.c[4..].contains(&byte);
        if bridge.registers.r11 != 0 && handshake {
            return;
        }
        self.in_spell = if bridge.holding { self.in_spell + 1 } else { 0 };
        self.no_loss_promised &= self.in_spell <= bridge.margin;
        if bridge.receive.held < before.rx.len() {
            self.accepted.push((rule_of(bridge), byte.into()));
        } else {
            assert!(!self.no_loss_promised);
            self.news_owed = true;
            self.news_under_way = false;
            found.losses += 1;
        }
    }

    /// Data frames that were sent, and bytes that were added for the line.
    fn note_data(&mut self, bridge: &Bridge, frame: u16, out: u16, found: &mut Found) {
        let data = frame < 1024;
        let asked = frame == f(5, 96) && bridge.talker == 1;
        if (asked || data && bridge.talker == ACTIVE_DATA) && out < 1024 {
            self.sent.push(out & !SERVICE);
            found.sent += 1;
        }
        if data && bridge.listener {
            self.added.push((frame & 255) as u8);
            if frame & 0x200 != 0 && bridge.registers.r10 & 4 != 0 {
                self.added.extend_from_slice(&bridge.registers.c[2..4]);
            }
        }
    }

    /// A status byte sent, come back or forgotten.
    fn note_news(&mut self, bridge: &Bridge, frame: u16, found: &mut Found) {
        let unchanged = frame & !SERVICE == bridge.under_way & !SERVICE;
        if frame == f(5, 97) && bridge.talker == 1 {
            self.news_under_way = self.news_owed;
        } else if frame < 1024 && bridge.talker == ACTIVE_STATUS {
            if unchanged && self.news_under_way {
                self.news_owed = false;
                found.news += 1;
            }
            self.news_under_way = false;
        } else if frame >> 8 == 4 {
            self.news_under_way = false;
        }
    }

    /// Demand 3 and the promise for the transmit store, after every call. What is held was accepted
    /// last, and is read by the rules of these.
    fn check(&self, world: &World) {
        let held = world.held();
        let rules = &self.accepted[self.accepted.len() - held.len()..];
        let held: Vec<(Rule, u16)> = rules.iter().map(|of| of.0).zip(held).collect();
        let sent_then_held = [self.sent.clone(), frames_of_stretches(&held)].concat();
        assert_eq!(sent_then_held, frames_of_stretches(&self.accepted));
        assert!(world.bridge.overrun_seen || !self.news_owed);
        assert_eq!(world.bridge.stop_sent_last, self.stop_taken_last);
        let out_then_waiting = [self.handed_out.clone(), world.waiting()].concat();
        assert_eq!(out_then_waiting, self.added);
    }
}

/// What an exploration met, so that a reader sees it was not empty.
#[derive(Debug, Default)]
struct Found {
    calls: u32,
    refused: u32,
    sent: u32,
    losses: u32,
    breaks: u32,
    news: u32,
    /// Writes that changed the reading rule.
    rules: u32,
    /// Line bytes that were taken, our own go and stop too.
    taken: u32,
}

/// Makes every call of the alphabet, checks, and goes on from each result.
fn explore(world: &World, history: &History, calls: &[Call], depth: u32, found: &mut Found) {
    for &call in calls {
        let mut next = world.clone();
        let answer = next.call(call);
        found.calls += 1;
        history.check_line(world, call, answer);
        if call == Call::Ask || matches!(answer, Refused(_)) {
            assert_eq!(&next, world);
            found.refused += u32::from(call != Call::Ask);
            continue;
        }
        assert!(next.bridge.fits(next.rx.len(), next.tx.len()));
        let idle = next.bridge.talker != ACTIVE_DATA && next.bridge.talker != ACTIVE_STATUS;
        assert!(!idle || next.bridge.under_way == 0 && !next.bridge.finishing);
        let noted = history.clone().after(world, (call, answer), &next, found);
        noted.check(&next);
        if depth > 1 {
            explore(&next, &noted, calls, depth - 1, found);
        }
    }
}

#[test]
fn every_order_while_talking() {
    let alphabet = [
        Call::Line(13),
        Call::Line(10),
        Call::Line(50),
        Call::Break,
        Call::Ask,
        Call::Take(17),
        Call::Take(19),
        offer(5, 96),
        offer(5, 97),
        offer(5, 66),
        Call::Echo,
        Call::Damage,
        offer(4, 0),
        Call::Loop(2048),
    ];
    let rule_on = [Call::Write(10, 8), Call::Write(0, 9), TALK[0], TALK[1]];
    let starts: [&[Call]; 4] = [
        &[],
        &[Call::Line(50), Call::Line(13)],
        &[10, 13, 10, 13].map(Call::Line),
        &[Call::Line(50), Call::Line(50), offer(5, 96)],
    ];
    for start in starts {
        let world = World::after(4, 3, 1, &[&rule_on, start].concat());
        let mut found = Found::default();
        explore(&world, &History::starting(&world), &alphabet, 5, &mut found);
        println!("from {:?}: {found:?}", world.held());
        assert!(found.refused > 0 && found.sent > 0 && found.breaks > 0 && found.taken > 0);
    }
}

#[test]
fn every_order_with_listening_and_registers() {
    let alphabet = [
        Call::Line(50),
        Call::Line(17),
        Call::Line(19),
        Call::Key,
        Call::Ask,
        Call::Take(17),
        Call::Take(19),
        Call::Take(65),
        Call::Take(66),
        offer(0, 65),
        offer(3, 66),
        offer(4, 33),
        offer(4, 65),
        offer(5, 96),
        offer(4, 20),
        Call::Write(11, 0),
        Call::Reset,
    ];
    let starts: [&[Call]; 2] = [
        &[offer(4, 33), Call::Write(10, 4)],
        &[Call::Write(10, 12), Call::Line(50), Call::Line(51)],
    ];
    for start in starts {
        let world = World::after(4, 3, 1, &[&TALK[..1], start].concat());
        assert_eq!(world.bridge.talker, IDLE);
        let mut found = Found::default();
        explore(&world, &History::starting(&world), &alphabet, 5, &mut found);
        println!("from {:?}: {found:?}", world.held());
        assert!(found.refused > 0 && found.taken > 0);
    }
}

#[test]
fn every_frame_in_every_phase() {
    let listen = [TALK[0], offer(4, 33), offer(4, 146)];
    let data = [TALK[0], TALK[1], Call::Line(50), offer(5, 96)];
    let status = [TALK[0], TALK[1], Call::Break, offer(5, 97)];
    let starts: [&[Call]; 5] = [&[], &listen, &TALK, &data, &status];
    let mut count = [0, 0];
    for start in starts {
        let world = World::after(4, 3, 1, start);
        for frame in 0..2048 {
            let mut next = world.clone();
            let answer = next.call(Call::Loop(frame));
            assert!(matches!(answer, Frame(out) if out < 2048), "{answer:?}");
            assert!(next.bridge.fits(4, 3));
            count[usize::from(answer != Frame(frame as u16))] += 1;
        }
    }
    println!("{} frames passed, {} answered", count[0], count[1]);
}

/// A plain repeatable source of numbers.
struct Numbers(u64);

impl Numbers {
    fn below(&mut self, bound: u64) -> u64 {
        self.0 ^= self.0 << 13;
        self.0 ^= self.0 >> 7;
        self.0 ^= self.0 << 17;
        (self.0 >> 16) % bound
    }

    fn flag(&mut self) -> bool {
        self.below(2) == 1
    }
}

/// A state with every field drawn from a little more than its range.
fn drawn_state(n: &mut Numbers) -> Bridge {
    let mut b = World::new(4, 3, 1).bridge;
    b.registers.r00 = [0, 1, 8, 9][n.below(4) as usize];
    b.registers.r01 = n.below(16) as u8;
    b.registers.r02 = [0, 1, 4, 5][n.below(4) as usize];
    b.registers.r10 = [0, 4, 8, 12][n.below(4) as usize];
    b.registers.r11 = [0, 8][n.below(2) as usize];
    for place in 0..6 {
        b.registers.c[place] = n.below(4) as u8;
    }
    b.address = n.below(33) as u8;
    b.talker = n.below(5) as u8;
    b.listener = n.flag();
    b.remote_enabled = n.flag();
    b.remote = n.flag();
    b.under_way = n.below(1100) as u16;
    b.finishing = n.flag();
    b.receive.oldest = n.below(5) as usize;
    b.receive.held = n.below(6) as usize;
    b.transmit.oldest = n.below(4) as usize;
    b.transmit.held = n.below(5) as usize;
    b.holding = n.flag();
    b.forbidden = n.flag();
    b.stop_sent_last = n.flag();
    b.break_seen = n.flag();
    b.overrun_seen = n.flag();
    b.key_seen = n.flag();
    b.break_again = n.flag();
    b.overrun_again = n.flag();
    b.key_again = n.flag();
    b.request = n.flag();
    b.stored = u32::MAX - n.below(2) as u32;
    b.lost = u32::MAX - n.below(2) as u32;
    b.sent = u32::MAX - n.below(2) as u32;
    b
}

/// A call with numbers drawn from a little more than their range.
fn drawn_call(n: &mut Numbers) -> Call {
    match n.below(12) {
        0 => Call::Reset,
        1 => Call::Write(n.below(23) as u32, n.below(20) as u32),
        2 => Call::Line(n.below(5) as u8),
        3 => Call::Break,
        4 => Call::Key,
        5 => Call::Ask,
        6 => Call::Take(n.below(4) as u8),
        7 => Call::Echo,
        8 => Call::Damage,
        9 => offer(5, 96 + n.below(2) as u16),
        _ => Call::Loop(n.below(2060) as u32),
    }
}

#[test]
fn every_call_ends_on_drawn_states() {
    let mut n = Numbers(0x2545_f491_4f6c_dd1d);
    let mut count = [0, 0, 0];
    for _ in 0..200_000 {
        let bridge = drawn_state(&mut n);
        // Few bytes, so that they meet, with any bits above them.
        let rx: Vec<u16> = (0..4).map(|_| n.below(1 << 16) as u16 & 0xff03).collect();
        let tx: Vec<u8> = (0..3).map(|_| n.below(4) as u8).collect();
        let mut world = World { bridge, rx, tx };
        let call = drawn_call(&mut n);
        let before = world.clone();
        let fits = before.bridge.fits(4, 3);
        match world.call(call) {
            Refused(2) => {
                assert!(!fits && world == before);
                count[0] += 1;
            }
            Refused(_) => {
                assert!(fits && world == before);
                count[1] += 1;
            }
            _ => {
                assert!(fits && world.bridge.fits(4, 3));
                count[2] += 1;
            }
        }
        let (rx, tx) = (&world.rx, &world.tx);
        let nothing = world.bridge.show_receive(rx, tx).is_empty()
            && world.bridge.show_transmit(rx, tx).is_empty();
        assert!(fits || nothing);
    }
    let [misfit, refused, taken] = count;
    println!("{misfit} misfits, {refused} other refusals, {taken} calls taken");
    assert!(misfit > 0 && refused > 0 && taken > 0);
}

/// What a call tells of the room, after its answer.
fn room_told(world: &mut World, call: Call) -> (Answer, Option<usize>) {
    let told = world.told(call);
    (told.answer, told.room)
}

#[test]
fn a_line_byte_tells_the_room_of_the_receive_store() {
    let mut world = World::after(4, 3, 1, &[Call::Write(11, 8)]);
    for (byte, room) in [(50, 3), (17, 3), (19, 3), (51, 2), (52, 1), (53, 0)] {
        assert_eq!(room_told(&mut world, Call::Line(byte)), (Done, Some(room)));
    }
    // It is lost, and so there is still none; go is taken beside a full store.
    assert_eq!(room_told(&mut world, Call::Line(54)), (Done, Some(0)));
    assert_eq!(room_told(&mut world, Call::Line(17)), (Done, Some(0)));
    assert_eq!(world.bridge.lost, 1);
}

#[test]
fn a_frame_tells_the_room_of_the_transmit_store() {
    let mut world = World::after(6, 7, 2, &[Call::Write(10, 4), Call::Line(50)]);
    let passed = |control, data, room| (offer(control, data), Frame(f(control, data)), Some(room));
    let steps = [
        (offer(5, 129), Frame(f(5, 130)), Some(7)),
        passed(6, 0, 7),
        passed(0, 65, 7),
        passed(4, 33, 7),
        passed(0, 65, 6),
        passed(2, 66, 3),
        passed(6, 1, 3),
        passed(4, 65, 3),
        (offer(5, 96), Frame(f(0, 50)), Some(3)),
        (Call::Damage, Frame(f(5, 65)), Some(3)),
        passed(4, 33, 3),
        passed(2, 67, 0),
        (offer(0, 68), Refused(4), None),
        (Call::Loop(2048), Refused(3), None),
        passed(4, 20, 7),
    ];
    for (call, answer, room) in steps {
        assert_eq!(room_told(&mut world, call), (answer, room), "{call:?}");
    }
}

#[test]
fn no_other_call_tells_any_room() {
    let mut world = World::after(4, 3, 1, &[Call::Line(50)]);
    let calls = [
        Call::Ask,
        Call::Take(50),
        Call::Break,
        Call::Key,
        Call::Write(11, 8),
        Call::Write(3, 0),
        Call::Reset,
    ];
    for call in calls {
        assert_eq!(world.told(call).room, None, "{call:?}");
    }
    let (mut rx, tx) = ([0; 5], [0; 3]);
    assert_eq!(world.bridge.line_byte(&mut rx, &tx, 50).room, None);
}

#[test]
fn the_number_of_an_answer_has_the_room_in_bits_32_to_47() {
    let (mut rx, mut tx) = (vec![0; 32_768], vec![0; 3]);
    let mut lent = [0; block::LEN];
    assert_eq!(boundary::create(&mut lent, &rx, &tx, 1024), 0);
    let number = boundary::line_byte(&mut lent, &mut rx, &tx, 17);
    assert_eq!((number, room(number)), (32_768 << 32, 32_768));
    let number = boundary::loop_frame(&mut lent, &rx, &mut tx, 0x581);
    assert_eq!((number, room(number)), (3 << 32 | 3 << 16 | 0x582, 3));
    let number = boundary::loop_frame(&mut lent, &rx, &mut tx, 2048);
    assert_eq!((number, room(number)), (4 << 16 | 3, 0));
}

#[test]
fn a_break_marks_the_newest_held_cell_and_writes_nothing_else() {
    let mut world = World::after(4, 3, 1, &[&[Call::Write(10, 8)], &TALK[..]].concat());
    // Nothing is held: nothing is written, though a byte stood there.
    world.rx = vec![7, 8, 9, 0xabcd];
    assert_eq!(world.call(Call::Break), Done);
    assert_eq!(world.rx, [7, 8, 9, 0xabcd]);
    // The newest cell gets the mark, once and whole, also when the store is full.
    for (byte, cells) in [
        (50, [50 | BREAK, 8, 9, 0xabcd]),
        (13, [50 | BREAK, 13 | BREAK, 9, 0xabcd]),
        (10, [50 | BREAK, 13 | BREAK, 10 | BREAK, 0xabcd]),
        (255, [50 | BREAK, 13 | BREAK, 10 | BREAK, 255 | BREAK]),
    ] {
        assert_eq!(world.call(Call::Line(byte)), Done);
        for _ in 0..2 {
            assert_eq!(world.call(Call::Break), Done);
            assert_eq!(world.rx, cells);
        }
    }
    // A mark takes no room, and a byte that is lost has none.
    assert_eq!((world.bridge.receive.held, world.bridge.lost), (4, 0));
    assert_eq!(world.call(Call::Line(51)), Done);
    let before = world.rx.clone();
    assert_eq!(world.call(Call::Break), Done);
    assert_eq!(world.rx, before);
    assert_eq!(world.read_out(), [50, 13, 10, 255]);
    // The store has come round: the newest cell is at place 0, and is written afresh without a mark.
    assert_eq!(world.call(Call::Line(52)), Done);
    assert_eq!(world.rx[0], 52);
    assert_eq!(world.call(Call::Break), Done);
    assert_eq!(world.rx[0], 52 | BREAK);
}

#[test]
fn the_low_nine_bits_of_a_cell_count_and_no_other() {
    for off in [false, true] {
        let rule = Call::Write(10, if off { 0 } else { 8 });
        let mut world = World::after(8, 3, 3, &[&[rule], &TALK[..]].concat());
        for item in [50, 13, 10, 46, 13, BREAK, 10] {
            world.call(came(item));
        }
        for cell in &mut world.rx {
            *cell |= 0xfe00;
        }
        // The newest cell is byte and mark exactly after a break, and its bits above go.
        world.call(Call::Break);
        assert_eq!(world.rx[5], 10 | BREAK);
        assert_eq!(world.rx[4], 0xfe00 | BREAK | 13);
        let due: &[u16] = match off {
            true => &[50, 13, 10, 46, 13, 10],
            false => &[f(2, 50), 46, 13, 10],
        };
        assert_eq!(world.read_out(), due);
    }
}

#[test]
fn a_block_of_the_version_before_is_no_state() {
    let (mut rx, mut tx) = ([0; 4], [0; 3]);
    let mut lent = [0; block::LEN];
    assert_eq!(boundary::create(&mut lent, &rx, &tx, 1), 0);
    boundary::line_byte(&mut lent, &mut rx, &tx, 50);
    assert_eq!((lent[0], boundary::show_receive(&lent, &rx, &tx)), (3, 1));
    lent[0] = 2;
    let before = (lent, rx, tx);
    let answers = [
        boundary::reset(&mut lent, &rx, &tx),
        boundary::write_register(&mut lent, &rx, &tx, 10, 8),
        boundary::line_byte(&mut lent, &mut rx, &tx, 51),
        boundary::line_break(&mut lent, &mut rx, &tx),
        boundary::key(&mut lent, &rx, &tx),
        boundary::ask_line_byte(&lent, &rx, &tx),
        boundary::take_line_byte(&mut lent, &rx, &tx, 50),
        boundary::loop_frame(&mut lent, &rx, &mut tx, 0x581),
    ];
    assert_eq!(answers, [4 << 16 | 2; 8]);
    assert_eq!(boundary::show_receive(&lent, &rx, &tx), 0);
    assert_eq!(boundary::show_transmit(&lent, &rx, &tx), 0);
    assert_eq!((lent, rx, tx), before);
}
