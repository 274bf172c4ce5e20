//! What is printed is read as the same script.

use raftershim_script::{Call, Command, Expected, MailboxCall, Script, Side, Step, Way};
use std::fs;
use std::path::Path;

/// Prints a script and reads it again.
fn round_trip(script: &Script) {
    let printed = script.to_string();
    let read: Script = printed
        .parse()
        .unwrap_or_else(|e| panic!("{e}:\n{printed}"));
    assert_eq!(read, *script, "{printed}");
}

/// Every call, with numbers at the edges of what it can take.
fn every_call() -> Vec<Call> {
    let numbers = [0, 1, 12, 13, 15, 16, 21, 22, 255, 2047, 2048, u32::MAX];
    let mut calls = vec![
        Call::Reset,
        Call::Break,
        Call::Key,
        Call::Ask,
        Call::Take(0),
        Call::Take(255),
        Call::State,
        Call::Show(Side::Receive),
        Call::Show(Side::Transmit),
        Call::Line((0..=255).collect()),
        Call::Line(vec![255; 1000]),
        Call::LineAndRoom(vec![255; 1000]),
        Call::Restore((0..56).collect()),
        Call::Create {
            receive: 0,
            transmit: 1_000_000,
            margin: u32::MAX,
        },
    ];
    for number in numbers {
        calls.extend([Call::Frame(number), Call::FrameAndRoom(number)]);
        let registers = numbers.map(|value| Call::Register { number, value });
        calls.extend(registers);
    }
    calls
}

/// Every call of a mailbox, with numbers at the edges of what it can take, after what makes one.
fn every_mailbox_call() -> Vec<Call> {
    let mut calls = vec![
        MailboxCall::Create {
            to_bus: 0,
            to_loop: 1_000_000,
            address: u32::MAX,
        },
        MailboxCall::Reset,
        MailboxCall::Fetch,
        MailboxCall::Clear,
        MailboxCall::Lines,
        MailboxCall::State,
        MailboxCall::Show(Way::Bus),
        MailboxCall::Show(Way::Loop),
        MailboxCall::Restore((0..41).collect()),
        MailboxCall::Command(Command::OwnListen),
        MailboxCall::Command(Command::OwnTalk),
    ];
    for end in [false, true] {
        let bytes = vec![255; 1000];
        calls.push(MailboxCall::Byte { bytes, end });
    }
    let numbers = (0..=130).chain([u32::MAX]);
    calls.extend(numbers.map(|number| MailboxCall::Command(Command::Number(number))));
    calls.extend([0, 2047, 2048, u32::MAX].map(MailboxCall::Frame));
    calls.into_iter().map(Call::Mailbox).collect()
}

#[test]
fn every_call_and_expected_answer() {
    let mut calls = every_call();
    calls.extend(every_mailbox_call());
    round_trip(&calls.iter().cloned().collect());
    for expected in ["done", "frame 0,50", "2 bytes: 50 46", "\"#\" => x", "é"] {
        let expected = Expected::new(expected);
        assert!(expected.is_some());
        let call = Call::Ask;
        round_trip(&Script {
            steps: vec![Step { call, expected }],
        });
    }
}

#[test]
fn names_are_printed_where_there_are_some() {
    let print = |line: &str| {
        let script: Script = line.parse().expect("a script");
        script.to_string()
    };
    assert_eq!(print("register 10 8"), "register R10 8\n");
    assert_eq!(print("register 21 46 => DONE"), "register C05 46 => DONE\n");
    assert_eq!(print("register 13 8"), "register 13 8\n");
    assert_eq!(print("frame 1376 # send data"), "frame 5,96\n");
    assert_eq!(print("frame 8,0"), "frame 2048\n");
    assert_eq!(print("take 019 => DONE"), "take 19 => DONE\n");
    assert_eq!(print("line \"2.5\" 13 10"), "line 50 46 53 13 10\n");
    assert_eq!(print("line \"2.5\"   room"), "line 50 46 53 room\n");
    assert_eq!(print("frame 1376 room#"), "frame 5,96 room\n");
    let print =
        |line: &str| print(&format!("mailbox 4 4 7\n{line}")).replace("mailbox 4 4 7\n", "");
    assert_eq!(print("byte \"2.5\" end"), "byte 50 46 53 end\n");
    for (read, printed) in [
        ("63", "UNL"),
        ("39", "LAD 7"),
        ("tad 7", "TAD 7"),
        ("99", "PPE 3"),
        ("112", "PPD"),
        ("113", "113"),
        ("6", "6"),
        ("mla", "MLA"),
    ] {
        assert_eq!(
            print(&format!("command {read}")),
            format!("command {printed}\n")
        );
    }
}

#[test]
fn every_script_of_the_folder() {
    let folder = Path::new(env!("CARGO_MANIFEST_DIR")).join("../../scripts");
    let mut scripts = 0;
    for file in fs::read_dir(folder).expect("the folder is there") {
        let text = fs::read_to_string(file.expect("a file").path()).expect("a script");
        let script: Script = text.parse().expect("it has no mistake");
        assert!(script.steps.len() > 10);
        round_trip(&script);
        scripts += 1;
    }
    assert!(scripts > 13, "only {scripts} scripts");
}
