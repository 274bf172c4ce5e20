//! Every mistake that a script can have, by its sentence.

use raftershim_script::{Script, Unread, LONGEST_LINE};
use std::error::Error;
use std::io::{self, BufReader, Read};

/// What is said about a script whose third line is this one, after this first line, and whose fourth
/// is a mistake too.
fn mistake_after(first: &str, line: &str) -> String {
    let script = format!("{first}\n\n{line}\nnonsense\n");
    match script.parse::<Script>() {
        Ok(script) => panic!("{line}: {script:?}"),
        Err(unread) => unread.to_string(),
    }
}

fn mistake(line: &str) -> String {
    mistake_after("# first", line)
}

/// Each line is a mistake after this first line: the sentence has its number, what was expected and
/// what was found.
fn mistakes_after(first: &str, expected: &str, lines: &[(&str, &str)]) {
    for (line, found) in lines {
        let sentence = format!("line 3: expected {expected}, found {found}");
        assert_eq!(mistake_after(first, line), sentence);
    }
}

/// The same in a line that speaks of a bridge.
fn mistakes(expected: &str, lines: &[(&str, &str)]) {
    mistakes_after("# first", expected, lines);
}

/// The same in a line that speaks of a mailbox.
fn mailbox_mistakes(expected: &str, lines: &[(&str, &str)]) {
    mistakes_after("mailbox 4 4 7", expected, lines);
}

#[test]
fn mistakes_in_the_call() {
    let calls =
        "create, mailbox, reset, restore, register, line, break, key, ask, take, frame, show \
                 or state";
    let found = [
        ("linen 5", "linen"),
        ("or", "or"),
        ("fetch", "fetch, a call of the mailbox"),
        ("\"ask\"", "\"ask\""),
        ("next", "next"),
        ("a\u{7}b", "a?b"),
    ];
    mistakes(calls, &found);
    mistakes("nothing more after ask", &[("ask 1", "1")]);
    let found = [
        ("frame 5,96 0,50", "0,50"),
        ("frame 5,96 Room", "Room"),
        ("frame 5,96 \"room\"", "\"room\""),
    ];
    mistakes("the word room or nothing more after frame", &found);
    let found = [
        ("frame 5,96 room 2", "2"),
        ("frame 5,96 room room", "room"),
        ("line 50 room 2", "2"),
        ("line \"2\" room \"5\"", "\"5\""),
    ];
    mistakes("nothing more after room", &found);
    mistakes("a byte from 0 to 255 after line", &[("line room", "room")]);
    mailbox_mistakes("nothing more after frame", &[("frame 5,96 room", "room")]);
    mistakes("nothing more after create", &[("create 4 3 1 2", "2")]);
    let found = [("ask =>", "nothing"), ("ask => :", "nothing")];
    mistakes("an answer after =>", &found);
    mistakes("a call before =>", &[("=> done", "nothing")]);
}

#[test]
fn mistakes_in_the_call_of_a_mailbox() {
    let calls = "create, mailbox, reset, restore, frame, command, byte, fetch, clear, lines, show \
                 or state";
    let found = [
        ("fetches", "fetches"),
        ("line 5", "line, a call of the bridge"),
        ("register R10 8", "register, a call of the bridge"),
        ("take 19", "take, a call of the bridge"),
    ];
    mailbox_mistakes(calls, &found);
    // A create makes a bridge, and its lines are no lines of a mailbox.
    let after = mistake_after("mailbox 4 4 7\ncreate 4 3 1", "lines");
    assert!(
        after.ends_with("found lines, a call of the mailbox"),
        "{after}"
    );
    mailbox_mistakes("nothing more after fetch", &[("fetch 1", "1")]);
    mailbox_mistakes("nothing more after lines", &[("lines on", "on")]);
    mailbox_mistakes(
        "bus or loop after show",
        &[("show", "nothing"), ("show receive", "receive")],
    );
    mailbox_mistakes("nothing more after show", &[("show bus loop", "loop")]);
}

#[test]
fn mistakes_in_bytes_of_the_bus() {
    let found = [
        ("byte", "nothing"),
        ("byte end", "end"),
        ("byte 256", "256"),
        ("byte \"2\" ends", "ends"),
        ("byte \"2\" END", "END"),
    ];
    mailbox_mistakes("a byte from 0 to 255 after byte", &found);
    let found = [("byte 5 end 6", "6"), ("byte \"5\" end end", "end")];
    mailbox_mistakes("nothing more after byte", &found);
    // The other calls know no end mark.
    mailbox_mistakes(
        "a byte from 0 to 255 after restore",
        &[("restore 1 end", "end")],
    );
    mistakes("a byte from 0 to 255 after line", &[("line 1 end", "end")]);
}

#[test]
fn mistakes_in_commands() {
    let command = "UNL, UNT, MLA, MTA, LAD, TAD, SPE, SPD, DCL, SDC, PPC, PPE, PPD, PPU or a \
                   number after command";
    let found = [
        ("command", "nothing"),
        ("command IFC", "IFC"),
        ("command LAD7", "LAD7"),
        ("command -1", "-1"),
        ("command 4294967296", "4294967296"),
        ("command \"UNL\"", "\"UNL\""),
    ];
    mailbox_mistakes(command, &found);
    mailbox_mistakes(
        "a number from 0 to 30 after LAD",
        &[("command lad 31", "31")],
    );
    mailbox_mistakes(
        "a number from 0 to 30 after TAD",
        &[("command TAD", "nothing")],
    );
    mailbox_mistakes(
        "a number from 0 to 15 after PPE",
        &[("command PPE 16", "16")],
    );
    mailbox_mistakes("nothing more after MLA", &[("command MLA 7", "7")]);
    mailbox_mistakes("nothing more after UNL", &[("command UNL UNT", "UNT")]);
    mailbox_mistakes("nothing more after command", &[("command 63 7", "7")]);
}

#[test]
fn mistakes_in_making_a_mailbox() {
    let found = [("mailbox", "nothing"), ("mailbox 1000001 4 7", "1000001")];
    let wanted = "a length of the store to the bus from 0 to 1000000 after mailbox";
    mistakes(wanted, &found);
    mailbox_mistakes(wanted, &found);
    let found = [("mailbox 4", "nothing"), ("mailbox 4 x", "x")];
    mistakes(
        "a length of the store to the loop from 0 to 1000000 after mailbox",
        &found,
    );
    let found = [
        ("mailbox 4 4", "nothing"),
        ("mailbox 4 4 4294967296", "4294967296"),
    ];
    mistakes(
        "an address on the bus from 0 to 4294967295 after mailbox",
        &found,
    );
    mistakes("nothing more after mailbox", &[("mailbox 4 4 7 1", "1")]);
}

#[test]
fn mistakes_in_line_bytes() {
    let found = [
        ("line 300", "300"),
        ("line", "nothing"),
        ("line 1 -1", "-1"),
        ("line +1", "+1"),
        ("line \"2\" 2.5", "2.5"),
    ];
    mistakes("a byte from 0 to 255 after line", &found);
    let found = [("restore", "nothing"), ("restore 1 256", "256")];
    mistakes("a byte from 0 to 255 after restore", &found);
    let found = [
        ("take", "nothing"),
        ("take 256", "256"),
        ("take \"A\"", "\"A\""),
        ("take stop", "stop"),
    ];
    mistakes("a byte from 0 to 255 after take", &found);
    let found = [("take 65 66", "66"), ("take 65 room", "room")];
    mistakes("nothing more after take", &found);
    mistakes("a closing quotation mark", &[("line \"2.5", "none")]);
    let between = "between the quotation marks";
    mistakes(
        &format!("characters {between}"),
        &[("line \"\"", "nothing")],
    );
    let one = format!("characters of one byte {between}");
    mistakes(&one, &[("line \"5Ω\"", "Ω")]);
}

#[test]
fn mistakes_in_frames() {
    let found = [
        ("frame", "nothing"),
        ("frame 5,256", "5,256"),
        ("frame 5,", "5,"),
        ("frame 16777216,0", "16777216,0"),
        ("frame 4294967296", "4294967296"),
        ("frame \"5,96\"", "\"5,96\""),
    ];
    let frame = "a frame as control,data with data up to 255, or as one number, after frame";
    mistakes(frame, &found);
}

#[test]
fn mistakes_in_registers() {
    let found = [
        ("register", "nothing"),
        ("register R13 0", "R13"),
        ("register C06 0", "C06"),
        ("register R1 0", "R1"),
        ("register 4294967296 0", "4294967296"),
    ];
    let register = "a register R00 to R12, C00 to C05 or a number after register";
    mistakes(register, &found);
    let found = [("register R10", "nothing"), ("register R10 x", "x")];
    mistakes("a value from 0 to 4294967295 after register", &found);
}

#[test]
fn mistakes_in_create_and_show() {
    let lengths = "length from 0 to 1000000 after create";
    mistakes(&format!("a receive {lengths}"), &[("create x", "x")]);
    let found = [("create 64", "nothing"), ("create 64 1000001", "1000001")];
    mistakes(&format!("a transmit {lengths}"), &found);
    let found = [("create 64 64", "nothing")];
    mistakes("a margin from 0 to 4294967295 after create", &found);
    let found = [("show", "nothing"), ("show line", "line")];
    mistakes("receive or transmit after show", &found);
}

#[test]
fn long_words_are_cut() {
    let sentence = mistake(&"x".repeat(1000));
    assert!(sentence.ends_with(&format!("found {}", "x".repeat(40))));
}

#[test]
fn lines_that_are_too_long_or_no_text() {
    let long = "#".repeat(LONGEST_LINE + 1);
    mistakes("a line of at most 4096 bytes", &[(&long, "a longer one")]);
    assert!("#".repeat(LONGEST_LINE).parse::<Script>().is_ok());
    let steps = raftershim_script::Steps::new(&b"key\nline \xff\n"[..]);
    let last = steps.last().expect("a line").expect_err("no text");
    let sentence = "line 2: expected text in UTF-8, found other bytes";
    assert_eq!(last.to_string(), sentence);
}

/// Gives one line and then fails.
struct Failing(&'static [u8]);

impl Read for Failing {
    fn read(&mut self, buffer: &mut [u8]) -> io::Result<usize> {
        match self.0.read(buffer)? {
            0 => Err(io::Error::new(io::ErrorKind::Other, "gone")),
            taken => Ok(taken),
        }
    }
}

#[test]
fn an_error_has_its_source() {
    let mut steps = raftershim_script::Steps::new(BufReader::new(Failing(b"key\n")));
    assert!(matches!(steps.next(), Some(Ok((1, _)))));
    let unread = steps.next().expect("not the end").expect_err("it fails");
    assert!(matches!(unread, Unread::Reading(_)));
    assert_eq!(unread.to_string(), "the script cannot be read: gone");
    assert!(unread.source().is_some());
    let unread = "ask 1".parse::<Script>().expect_err("a mistake");
    let source = unread.source().expect("the mistake").to_string();
    assert_eq!(unread.to_string(), format!("line 1: {source}"));
}
