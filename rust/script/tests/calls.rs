//! Every call as a script has it, and every expected answer.

use raftershim_script::{
    parse, Call, Command, Expected, MailboxCall, Product, Script, Side, Step, Way,
};

fn read(product: Product, line: &str) -> Step {
    match parse(product, line) {
        Ok(Some(step)) => step,
        other => panic!("{line}: {other:?}"),
    }
}

fn step(line: &str) -> Step {
    read(Product::Bridge, line)
}

fn call(line: &str) -> Call {
    step(line).call
}

/// The call of a line that speaks of a mailbox.
fn mailbox_call(line: &str) -> MailboxCall {
    match read(Product::Mailbox, line).call {
        Call::Mailbox(call) => call,
        other => panic!("{line}: {other:?}"),
    }
}

#[test]
fn calls() {
    let create = Call::Create {
        receive: 64,
        transmit: 32,
        margin: 8,
    };
    assert_eq!(call("create 64 32 8"), create);
    assert_eq!(call("reset"), Call::Reset);
    assert_eq!(call("restore 2 8 0"), Call::Restore(vec![2, 8, 0]));
    assert_eq!(call("break"), Call::Break);
    assert_eq!(call("key"), Call::Key);
    assert_eq!(call("ask"), Call::Ask);
    assert_eq!(call("take 0"), Call::Take(0));
    assert_eq!(call("take 255"), Call::Take(255));
    assert_eq!(call("state"), Call::State);
    assert_eq!(call("show receive"), Call::Show(Side::Receive));
    assert_eq!(call("show transmit"), Call::Show(Side::Transmit));
}

#[test]
fn line_bytes() {
    assert_eq!(call("line 0"), Call::Line(vec![0]));
    assert_eq!(call("line 255"), Call::Line(vec![255]));
    assert_eq!(call("line \"2.5\" 13 10"), Call::Line(b"2.5\r\n".to_vec()));
    assert_eq!(call("line \"# => \" 1"), Call::Line(b"# => \x01".to_vec()));
    assert_eq!(call("line \"room\""), Call::Line(b"room".to_vec()));
}

#[test]
fn the_room_may_be_asked_for() {
    let bytes = b"2.5\r".to_vec();
    assert_eq!(call("line \"2.5\" 13 room"), Call::LineAndRoom(bytes));
    let text = Call::LineAndRoom(b"room".to_vec());
    assert_eq!(call("line \"room\"room"), text);
    assert_eq!(call("frame 5,96 room"), Call::FrameAndRoom(1376));
    assert_eq!(call("frame 2048 room"), Call::FrameAndRoom(2048));
    let expecting = step("frame 5,96 room => frame 0,50, room 3");
    assert_eq!(expecting.call, Call::FrameAndRoom(1376));
    assert_eq!(expecting.expected, Expected::new("frame 0,50, room 3"));
}

#[test]
fn frames_that_do_not_exist_too() {
    assert_eq!(call("frame 5,96"), Call::Frame(1376));
    assert_eq!(call("frame 7,255"), Call::Frame(2047));
    assert_eq!(call("frame 8,0"), Call::Frame(2048));
    assert_eq!(call("frame 2048"), Call::Frame(2048));
    assert_eq!(call("frame 16777215,255"), Call::Frame(u32::MAX));
    assert_eq!(call("frame 4294967295"), Call::Frame(u32::MAX));
}

#[test]
fn registers_that_do_not_exist_too() {
    let numbers = [
        ("R00", 0),
        ("R12", 12),
        ("r10", 10),
        ("C00", 16),
        ("c05", 21),
        ("13", 13),
        ("4294967295", u32::MAX),
    ];
    for (name, number) in numbers {
        let value = u32::MAX;
        let line = format!("register {name} {value}");
        assert_eq!(call(&line), Call::Register { number, value });
    }
}

#[test]
fn calls_of_a_mailbox() {
    let create = MailboxCall::Create {
        to_bus: 64,
        to_loop: 32,
        address: 7,
    };
    assert_eq!(mailbox_call("mailbox 64 32 7"), create);
    assert_eq!(mailbox_call("reset"), MailboxCall::Reset);
    let saved = MailboxCall::Restore(vec![129, 8, 0]);
    assert_eq!(mailbox_call("restore 129 8 0"), saved);
    assert_eq!(mailbox_call("frame 5,96"), MailboxCall::Frame(1376));
    assert_eq!(mailbox_call("fetch"), MailboxCall::Fetch);
    assert_eq!(mailbox_call("clear"), MailboxCall::Clear);
    assert_eq!(mailbox_call("lines"), MailboxCall::Lines);
    assert_eq!(mailbox_call("show bus"), MailboxCall::Show(Way::Bus));
    assert_eq!(mailbox_call("show loop"), MailboxCall::Show(Way::Loop));
    assert_eq!(mailbox_call("state"), MailboxCall::State);
}

#[test]
fn bytes_with_and_without_the_end_mark() {
    let byte = |bytes: &[u8], end| {
        let bytes = bytes.to_vec();
        MailboxCall::Byte { bytes, end }
    };
    assert_eq!(mailbox_call("byte 255"), byte(&[255], false));
    assert_eq!(mailbox_call("byte 0 end"), byte(&[0], true));
    assert_eq!(mailbox_call("byte \"2.5\" end"), byte(b"2.5", true));
    assert_eq!(mailbox_call("byte \"2\" 46 \"5\""), byte(b"2.5", false));
    assert_eq!(mailbox_call("byte \"end\""), byte(b"end", false));
}

#[test]
fn commands_that_do_not_exist_too() {
    let numbers = [
        ("SDC", 4),
        ("PPC", 5),
        ("DCL", 20),
        ("PPU", 21),
        ("SPE", 24),
        ("SPD", 25),
        ("LAD 0", 32),
        ("LAD 30", 62),
        ("UNL", 63),
        ("TAD 0", 64),
        ("tad 30", 94),
        ("unt", 95),
        ("PPE 0", 96),
        ("PPE 15", 111),
        ("PPD", 112),
        ("0", 0),
        ("127", 127),
        ("128", 128),
        ("4294967295", u32::MAX),
    ];
    for (name, number) in numbers {
        let call = mailbox_call(&format!("command {name}"));
        assert_eq!(
            call,
            MailboxCall::Command(Command::Number(number)),
            "{name}"
        );
    }
    let own = [Command::OwnListen, Command::OwnTalk];
    let read = ["MLA", "mta"].map(|name| mailbox_call(&format!("command {name}")));
    assert_eq!(read, own.map(MailboxCall::Command));
}

#[test]
fn a_line_speaks_of_what_was_made_last() {
    let script = "reset\nmailbox 1 1 7\nreset\nreset\ncreate 4 3 1\nreset\n";
    let script: Script = script.parse().expect("no mistake");
    let products: Vec<Product> = script
        .steps
        .iter()
        .map(|step| step.call.product())
        .collect();
    let (bridge, mailbox) = (Product::Bridge, Product::Mailbox);
    let expected = [bridge, mailbox, mailbox, mailbox, bridge, bridge];
    assert_eq!(products, expected);
}

#[test]
fn lines_without_a_call() {
    for line in ["", "  \t", "# ask", "  # ask => no line byte", "\r\n"] {
        for product in [Product::Bridge, Product::Mailbox] {
            assert_eq!(parse(product, line), Ok(None), "{line}");
        }
    }
}

#[test]
fn expected_answers() {
    let expected = |line| step(line).expected.map(|expected| expected.to_string());
    assert_eq!(expected("ask"), None);
    assert_eq!(expected("ask # no"), None);
    assert_eq!(expected("line \"=> x\""), None);
    let said = Some("no line byte".to_string());
    assert_eq!(expected("ask => no line byte"), said);
    assert_eq!(expected("  ask=>no line byte  # so\r\n"), said);
}

#[test]
fn what_is_heard() {
    let is = |expected, heard| Expected::new(expected).expect("it has words").is(heard);
    assert!(is("bytes lost 0", "bytes lost: 0"));
    assert!(is("frame 0 50", "frame 0,50"));
    assert!(is("Talker: addressed", "talker, addressed"));
    assert!(is(
        "refusal 3: The frame is above 2,047.",
        "refusal 3: the frame is above 2,047"
    ));
    // Words may not be missing, parted, joined or in another order.
    assert!(!is("bytes lost", "bytes lost: 0"));
    assert!(!is("bytes lost 0 0", "bytes lost: 0"));
    assert!(!is("frame 0,5 0", "frame 0,50"));
    assert!(!is("frame 050", "frame 0,50"));
    assert!(!is("frame 50,0", "frame 0,50"));
    assert!(!is("no overrun seen", "overrun seen"));
    assert_eq!(Expected::new(" , "), None);
}
