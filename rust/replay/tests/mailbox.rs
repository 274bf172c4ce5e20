//! What is said to each kind of call of a mailbox, and when such a script is as expected.

mod played;

use played::{end, ends, play, strings};

#[test]
fn answers_of_every_kind() {
    let script = "mailbox 4 4 7\nframe 5,129\nframe 4,33\nframe 0,50\nframe 2,53\nlines\n\
                  command MTA\nfetch\nfetch\nfetch\nlines\nclear\nreset\n";
    let said = "line 1: done\nline 2: frame 5,130\nline 3: frame 4,33\nline 4: frame 0,50\n\
                line 5: frame 2,53\nline 6: SRQ on, poll answer 0\nline 7: done\n\
                line 8: byte 50 for the bus\nline 9: byte 53 for the bus, with EOI\n\
                line 10: no byte for the bus\nline 11: SRQ off, poll answer 0\nline 12: done\n\
                line 13: done\n13 lines with a call, no answer is expected\n";
    assert_eq!(play(script), strings(3, said, ""));
}

#[test]
fn the_mark_is_part_of_the_answer() {
    let left = "mailbox 4 4 7\nframe 4,47\nframe 0,50\nframe 2,53\ncommand MTA\n";
    let fetched = "fetch => byte 50 for the bus\nfetch => byte 53 for the bus, with EOI\n";
    assert_eq!(ends(&format!("{left}{fetched}")).0, 0);
    for wrong in [
        "fetch => byte 50 for the bus, with EOI",
        "show bus => 2 bytes: 50 53",
        "show bus => 2 bytes: 50 end 53",
        "show bus => 2 bytes",
        "lines => SRQ off, poll answer 0",
        "lines => SRQ on",
    ] {
        assert_eq!(ends(&format!("{left}{wrong}\n")).0, 1, "{wrong}");
    }
    assert_eq!(
        ends(&format!("{left}show bus => 2 bytes: 50 53 end\n")).0,
        0
    );
}

#[test]
fn what_became_of_bytes_of_the_bus() {
    let script = "mailbox 4 3 7\nbyte \"12\" end => 2 not kept\ncommand MLA\n\
                  byte \"2.\" => 2 kept\nbyte \"55\" end => 1 kept, then refusal 4\n\
                  byte \"5\" end => refusal 4\nshow loop => 3 bytes: 50 46 53\n";
    assert_eq!(ends(script), end(0, "5 lines as expected, 0 differ"));
    let (_, said, _) = play("mailbox 4 1 7\ncommand MLA\nbyte 1 2 end\n");
    let busy = "refusal 4: busy, the store lacks room for what the frame or the byte adds";
    assert!(
        said.contains(&format!("line 3: 1 kept, then {busy}\n")),
        "{said}"
    );
    // What was kept before a refusal is part of the answer, and so is the refusal.
    for wrong in [
        "refusal 4",
        "1 kept",
        "2 kept",
        "done",
        "2 kept, then refusal 4",
    ] {
        let script = format!("mailbox 4 1 7\ncommand MLA\nbyte 1 2 end => {wrong}\n");
        assert_eq!(ends(&script).0, 1, "{wrong}");
    }
    assert_eq!(ends("mailbox 4 1 7\nbyte 1 2 => 2 kept\n").0, 1);
}

#[test]
fn our_own_addresses_are_those_of_the_mailbox() {
    let roles = |script: &str, facts: [&str; 2]| {
        let expected = facts.map(|fact| format!("state => bus: {fact}\n")).concat();
        let script = format!("{script}\n{expected}");
        assert_eq!(ends(&script).0, 0, "{script}");
    };
    let made = "mailbox 4 4 7";
    roles(&format!("{made}\ncommand MLA"), ["listener", "not talker"]);
    roles(
        &format!("{made}\ncommand LAD 7"),
        ["listener", "not talker"],
    );
    roles(
        &format!("{made}\ncommand LAD 8"),
        ["not listener", "not talker"],
    );
    roles(&format!("{made}\ncommand MTA"), ["not listener", "talker"]);
    roles(
        &format!("{made}\ncommand MTA\ncommand TAD 8"),
        ["not talker", "not listener"],
    );
    // A saved block brings its own address.
    let block = |bus: u8| {
        let mut block = [0; 41];
        (block[0], block[1], block[7]) = (129, 4, 4);
        (block[17], block[23]) = (31, bus);
        block.map(|byte| format!(" {byte}")).concat()
    };
    let restored = format!("{made}\nrestore{}\ncommand MLA", block(30));
    roles(&restored, ["address 30", "listener"]);
    let refused = format!(
        "{made}\nrestore{} => refusal 2\nstate => bus: address 7\n",
        block(31)
    );
    assert_eq!(ends(&refused).0, 0);
}

#[test]
fn refusals_are_named() {
    let script = "mailbox 4 4 7\ncommand 128\nframe 2048\n";
    let said = "line 2: refusal 13: the command of the bus is above 127\n\
                line 3: refusal 3: the loop frame is above 2047\n";
    assert!(play(script).1.contains(said));
    let last = "1 line as expected, 0 differ, 1 refusal not expected, first in line 2";
    assert_eq!(ends("mailbox 4 4 7 => done\ncommand 128\n"), end(1, last));
    let address =
        "mailbox 4 4 31 => refusal 1: the address on the bus is 31, and it must be 0 to 30";
    assert!(play(address).1.contains("1 line as expected"));
}

#[test]
fn nothing_is_played_after_a_refused_mailbox() {
    let not_played = "this is not played, since the create in line 2 was refused";
    let script = "mailbox 4 4 7\nmailbox 0 4 7\nfetch\nlines => SRQ off, poll answer 0\n";
    let (status, said, _) = play(script);
    let lines = format!(
        "line 3: {not_played}\nline 4: expected SRQ off, poll answer 0, but {not_played}\n\
         0 lines as expected, 1 differs, 1 refusal not expected, 1 line not played, first in line 2\n"
    );
    assert_eq!(status, 1);
    assert!(said.ends_with(&lines), "{said}");
    // If it is expected, the mailbox before it stays.
    let script = "mailbox 4 4 7\ncommand MLA\nmailbox 0 4 7 => refusal 1\nstate => bus: listener\n";
    assert_eq!(ends(script), end(0, "2 lines as expected, 0 differ"));
}

#[test]
fn a_refusal_leaves_the_other_product_where_no_line_plays_on_it() {
    // The lines after it speak of a mailbox, and a bridge is none.
    let script = "create 4 3 1\nmailbox 0 4 7 => refusal 1\nreset\n";
    let last = "1 line as expected, 0 differ, 1 line not played, first in line 3";
    assert_eq!(ends(script), end(1, last));
    let script = "mailbox 4 4 7\ncreate 3 3 1 => refusal 1\nreset\n";
    assert_eq!(ends(script), end(1, last));
    // It is still there when the lines speak of it again.
    let script = "create 4 3 1\nline 7\nmailbox 0 4 7 => refusal 1\ncreate 3 3 1 => refusal 1\n\
                  show receive => 1 byte: 7\n";
    assert_eq!(ends(script), end(0, "3 lines as expected, 0 differ"));
    // The bridge that a script gets without a create is not told of, nor is it played on.
    let script = "mailbox 0 4 7 => refusal 1\nfetch\n";
    let last = "1 line as expected, 0 differ, 1 line not played, first in line 2";
    assert_eq!(ends(script), end(1, last));
}

#[test]
fn each_product_is_made_anew() {
    let script = "line 1 2\nmailbox 4 4 7\ncommand MLA\nbyte 3\ncreate 4 3 1\n\
                  show receive => nothing\nmailbox 4 4 7\nshow loop => nothing\n";
    assert_eq!(ends(script), end(0, "2 lines as expected, 0 differ"));
    let (_, said, _) = play("mailbox 4 4 7\nfetch => no byte for the bus\n");
    assert!(!said.contains("no create so far"), "{said}");
}

#[test]
fn a_call_of_the_other_product_is_a_mistake() {
    let (status, said, mistakes) = play("mailbox 4 4 7 => done\nline 5\n");
    assert_eq!((status, said.as_str()), (1, "line 1: done\n"));
    assert!(
        mistakes.starts_with("line 2: expected create, mailbox, reset"),
        "{mistakes}"
    );
    assert!(
        mistakes.ends_with("found line, a call of the bridge\n"),
        "{mistakes}"
    );
    let (status, _, mistakes) = play("fetch\n");
    assert_eq!(status, 1);
    assert!(
        mistakes.ends_with("found fetch, a call of the mailbox\n"),
        "{mistakes}"
    );
}

/// A mailbox in use, all of whose facts are to be said.
const IN_USE: &str = "mailbox 4 3 7\nframe 5,135\nframe 4,39\nframe 4,138\nframe 0,1\nframe 4,71\n\
    command MLA\ncommand PPC\ncommand PPE 5\nbyte 49 50\nframe 5,96\nframe 5,66\ncommand SPE\n\
    command MTA\nfetch\n";

/// Its facts, one a line.
const FACTS: &str = "\
line 16: the state is this
loop: address 7
loop: talker, active with data
loop: frame 0,49 under way
loop: finishing
loop: bytes of an ID sent: 0
loop: not listener
loop: not ready is not enabled
loop: no frame held back
loop: poll answer on line 2 while service is requested
bus: address 7
bus: talker
bus: not listener
bus: serial poll
bus: status byte given since the last command
bus: the next command may not set the poll answer
bus: poll answer on line 5
to the bus: 1 of 4 bytes wait
to the bus: no service requested
to the bus: no data available
to the bus: no news since the last status byte
to the loop: 1 of 3 bytes wait
to the loop: service requested
to the loop: data available
to the loop: news since the last status byte
16 lines with a call, no answer is expected
";

/// Another one, and the facts that it has in the other form.
const HOLDING: &str = "mailbox 2 3 7\nframe 4,47\nframe 4,129\nframe 4,15\nframe 2,9\n\
    command MLA\ncommand PPC\n";
const OTHER_FACTS: [&str; 12] = [
    "loop: no address",
    "loop: not talker",
    "loop: no frame under way",
    "loop: not finishing",
    "loop: listener",
    "loop: not ready is enabled",
    "loop: frame 2,9 held back",
    "loop: poll answer on line 1 while service is not requested",
    "bus: no serial poll",
    "bus: no status byte given since the last command",
    "bus: the next command may set the poll answer",
    "bus: no poll answer",
];

#[test]
fn the_state_fact_by_fact() {
    let (_, said, _) = play(&format!("{IN_USE}state\n"));
    assert!(said.ends_with(FACTS), "{said}");
    for fact in OTHER_FACTS {
        assert_eq!(ends(&format!("{HOLDING}state => {fact}\n")).0, 0, "{fact}");
    }
    let (status, said, _) = play(&format!("{IN_USE}state => bus: listener\n"));
    assert_eq!(status, 1);
    let different = "\nline 16: expected bus: listener, but the state is this\nloop: address 7\n";
    assert!(said.contains(different), "{said}");
}
