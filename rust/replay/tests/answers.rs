//! What is said to each kind of call.

mod played;

use played::{end, ends, play, strings};
use raftershim::{Answer, Refusal};
use raftershim_replay::say::Said;

#[test]
fn a_script_without_create_is_told_its_bridge() {
    let told = "no create so far, so both stores have 64 bytes and the margin is 8";
    let said = format!(
        "line 2: {told}\nline 2: done\nline 3: no line byte\n1 line as expected, 0 differ\n"
    );
    let script = "# key\nkey\nask => no line byte\n";
    assert_eq!(play(script), strings(0, &said, ""));
}

#[test]
fn refusals_are_named() {
    let (_, said, _) = play("create 4 3 1\nframe 2048\nregister R03 1 => refusal 5");
    let lines: Vec<&str> = said.lines().collect();
    assert!(lines[1].starts_with("line 2: refusal 3: "), "{said}");
    assert!(lines[2].starts_with("line 3: refusal 5: "), "{said}");
    let whole = lines[1].trim_start_matches("line 2: ");
    assert_eq!(play(&format!("frame 2048 => {whole}")).0, 0);
    for wrong in ["refusal", "refusal 30", "refusal 3 4", "3", "frame 8,0"] {
        assert_eq!(play(&format!("frame 2048 => {wrong}")).0, 1, "{wrong}");
    }
}

#[test]
fn what_became_of_line_bytes() {
    let script = "create 4 3 1\nline \"12\" 19 \"34\" 17 17 \"5\" => 4 stored, 1 taken as stop, \
                  2 taken as go, 1 lost\nline \"6\" => 1 lost\n";
    assert_eq!(ends(script), end(0, "2 lines as expected, 0 differ"));
    // A lost byte is not done.
    assert_eq!(ends("create 4 3 1\nline \"12345\" => done").0, 1);
    assert_eq!(ends("create 4 3 1\nline \"12345\" => 5 stored").0, 1);
}

#[test]
fn the_room_is_said_where_it_is_asked_for() {
    let script = "create 4 3 1\nline \"12\" 19 room => 2 stored, 1 taken as stop, room 2\n\
                  line \"345\" room => 2 stored, 1 lost, room 0\nline 17 room => 1 taken as go, room 0\n\
                  frame 5,129 room => frame 5,130, room 3\nframe 4,33 => frame 4,33\n\
                  frame 0,65 room => frame 0,65, room 2\nframe 0,66 room => frame 0,66 room 1\n\
                  frame 0,67 room => frame 0,67, room 0\nframe 0,68 room => refusal 4\n\
                  frame 2048 room => refusal 3\nask => line byte 19\n";
    assert_eq!(ends(script), end(0, "11 lines as expected, 0 differ"));
    // Another room, a room that was not asked for, one that is not expected, and one with a refusal.
    let wrong = [
        "line 1 room => 1 stored, room 4",
        "line 1 => 1 stored, room 3",
        "line 1 room => 1 stored",
        "frame 5,129 room => frame 5,130, room 4",
        "frame 2048 room => refusal 3, room 3",
    ];
    for line in wrong {
        assert_eq!(ends(&format!("create 4 3 1\n{line}\n")).0, 1, "{line}");
    }
    let (_, said, _) = play("create 4 3 1\nline 1 room\nframe 2048 room\n");
    assert!(
        said.contains("line 2: 1 stored, room 3\nline 3: refusal 3: "),
        "{said}"
    );
}

#[test]
fn a_line_byte_is_asked_for_and_taken() {
    let script = "create 4 3 1\ntake 0 => refusal 12\nline \"123\"\nask => line byte 19\n\
                  ask => line byte 19\ntake 17 => refusal 12\nask => line byte 19\ntake 19 => done\n\
                  take 19 => refusal 12\nask => no line byte\n";
    assert_eq!(ends(script), end(0, "8 lines as expected, 0 differ"));
    let (_, said, _) = play("create 4 3 1\ntake 65\nask\n");
    let refused = Refusal::NOT_NEXT.to_string();
    let lines = format!("line 2: {refused}\nline 3: no line byte\n");
    assert!(said.contains(&lines), "{said}");
    // What was asked for is no take, and what was taken is not next again.
    for wrong in [
        "ask => done",
        "take 19 => line byte 19",
        "take 19 => no line byte",
    ] {
        let script = format!("create 4 3 1\nline \"123\"\n{wrong}\n");
        assert_eq!(ends(&script).0, 1, "{wrong}");
    }
}

#[test]
fn a_refusal_has_no_room_in_words_either() {
    let refused = Said::refused(Refusal::MISFIT, &Refusal::MISFIT);
    assert_eq!(refused.clone().with_room(3), refused);
    let taken = [Ok("stored"), Err(Refusal::MISFIT)];
    let said = Said::became(taken.into_iter()).with_room(3).to_string();
    assert!(said.starts_with("1 stored, then refusal 2: "), "{said}");
    assert!(!said.contains("room"), "{said}");
    let said = Said::Answered(Answer::Done).with_room(3).to_string();
    assert_eq!(said, "done, room 3");
}

#[test]
fn a_saved_block_is_put_on_the_stores() {
    let fresh = "3 1 0 4 0 0 0 0 0 3 0 0 0 0 0 0 0 0 0 0 0 0 0 0 0 0 0 31 0 0 0 0 0 \
                 0 0 0 0 8 13 10 13 10 17 19 0 0 0 0 0 0 0 0 0 0 0 0";
    let two_held = fresh.replacen("4 0 0 0 0 0", "4 0 1 0 2 0", 1);
    let other_length = fresh.replacen("4 0", "5 0", 1);
    let script = format!(
        "create 4 3 1\nline \"1234\"\nrestore {two_held} => done\nshow receive => 2 bytes: 50 51\n\
         restore {other_length} => refusal 2\nrestore 3 => refusal 2\nshow receive => 2 bytes 50 51\n\
         restore {fresh} => done\nshow receive => nothing\n"
    );
    assert_eq!(ends(&script), end(0, "7 lines as expected, 0 differ"));
    // The version before had the same length.
    let before = two_held.replacen('3', "2", 1);
    let script = format!("create 4 3 1\nrestore {before} => refusal 2\n");
    assert_eq!(ends(&script), end(0, "1 line as expected, 0 differ"));
}

#[test]
fn a_break_is_said_behind_the_byte_that_it_follows() {
    let script = "create 8 3 3\nbreak => done\nshow receive => nothing\nline \"2.\" => 2 stored\n\
                  break => done\nbreak => done\nline 53 13 room => 2 stored, room 4\nbreak => done\n\
                  show receive => 4 bytes: 50 46 break 53 13 break\n";
    assert_eq!(ends(script), end(0, "8 lines as expected, 0 differ"));
    // The word is heard, and where it stands.
    for wrong in ["4 bytes: 50 46 53 13", "4 bytes: 50 break 46 53 13 break"] {
        let script = script.replace("4 bytes: 50 46 break 53 13 break", wrong);
        assert_eq!(ends(&script).0, 1, "{wrong}");
    }
    let script = "create 8 3 3\nline 50\nbreak\nshow receive\n";
    let (_, said, _) = play(script);
    assert!(said.contains("line 4: 1 byte: 50 break\n"), "{said}");
}

/// A bridge in use, all of whose facts are to be said.
const IN_USE: &str = "create 4 3 1\nregister R00 9\nframe 4,146\nframe 5,135\nframe 4,39\n\
    frame 0,1\nframe 4,71\nline 1 2 3 4 5\nline 19\nkey\nframe 5,96\nframe 5,66\n";

/// Its facts, one a line.
const FACTS: &str = "\
line 13: the state is this
address 7
talker, active with data
frame 0,1 under way
finishing
not listener
remote
remote enabled
receive store: 3 of 4 bytes held
transmit store: 1 of 3 bytes held
margin 1
holding the line off
our sending is forbidden
stop owed
overrun seen
no break seen
key seen
overrun noted since the last status byte
no break noted since the last status byte
key noted since the last status byte
service request, shown
bytes stored: 4
bytes lost: 1
frames sent: 1
control registers: R00 9, R01 0, R02 0, R10 0, R11 8
character registers: C00 13, C01 10, C02 13, C03 10, C04 17, C05 19
13 lines with a call, no answer is expected
";

#[test]
fn the_state_fact_by_fact() {
    let (_, said, _) = play(&format!("{IN_USE}state\n"));
    assert!(said.ends_with(FACTS), "{said}");
    let (status, said, _) = play(&format!("{IN_USE}state => stop owed\n"));
    assert_eq!(status, 0);
    assert!(said.ends_with("\nline 13: stop owed\n1 line as expected, 0 differ\n"));
    let (status, said, _) = play(&format!("{IN_USE}state => go owed\n"));
    assert_eq!(status, 1);
    let different = "\nline 13: expected go owed, but the state is this\naddress 7\n";
    assert!(said.contains(different), "{said}");
}
