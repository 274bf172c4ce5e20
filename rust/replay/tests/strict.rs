//! When a script is as expected, and when not.

mod played;

use played::{end, ends, play};

#[test]
fn a_script_that_expects_nothing_is_never_as_expected() {
    let none = end(3, "0 lines with a call, no answer is expected");
    assert_eq!(ends(""), none);
    assert_eq!(ends("\n# key => done\n\n"), none);
    let one = end(3, "1 line with a call, no answer is expected");
    assert_eq!(ends("key"), one);
    let refused =
        "2 lines with a call, no answer is expected, 1 refusal not expected, first in line 2";
    assert_eq!(ends("key\nframe 2048"), end(3, refused));
}

#[test]
fn a_refusal_that_nobody_expects_is_a_difference() {
    assert_eq!(ends("key => done"), end(0, "1 line as expected, 0 differ"));
    let refused = "1 line as expected, 0 differ, 1 refusal not expected, first in line 1";
    assert_eq!(ends("frame 2048\nkey => done"), end(1, refused));
    assert_eq!(ends("frame 2048 => refusal 3\nkey").0, 0);
    let refused = "1 line as expected, 1 differs, 2 refusals not expected, first in line 2";
    let script = "key => done\nframe 2048\nkey => frame 0,0\nregister R03 1";
    assert_eq!(ends(script), end(1, refused));
}

#[test]
fn nothing_is_played_after_a_refused_create() {
    let script = "create 4 3 1\ncreate 3 3 1\nkey\nask => no line byte\n";
    let (status, said, _) = play(script);
    let not_played = "this is not played, since the create in line 2 was refused";
    let lines = format!(
        "line 3: {not_played}\nline 4: expected no line byte, but {not_played}\n\
         0 lines as expected, 1 differs, 1 refusal not expected, 1 line not played, first in line 2\n"
    );
    assert_eq!(status, 1);
    assert!(said.ends_with(&lines), "{said}");
    // Not on the bridge that a script without create gets either, though the refusal is expected.
    let script = "create 3 3 1 => refusal 1\nkey\n";
    let last = "1 line as expected, 0 differ, 1 line not played, first in line 2";
    assert_eq!(ends(script), end(1, last));
    let script = "create 3 3 1 => done\nkey\ncreate 4 3 1 => done\nkey => done\n";
    let last = "2 lines as expected, 1 differs, 1 line not played, first in line 2";
    assert_eq!(ends(script), end(1, last));
}

#[test]
fn a_create_that_is_refused_as_expected_leaves_the_bridge() {
    let script = "create 4 3 1\nline 7\ncreate 3 3 1 => refusal 1\nshow receive => 1 byte: 7\n";
    assert_eq!(play(script).0, 0);
    let script = "create 4 3 1\nline 7\ncreate 4 3 1 => done\nshow receive => nothing\n";
    assert_eq!(play(script).0, 0);
}

#[test]
fn marks_and_the_case_of_letters_are_not_heard() {
    let script = "create 4 3 1\nline 7 8\nstate => bytes lost 0\nstate => Bytes lost: 0\n\
                  show receive => 2 bytes 7 8\nstate => receive store 2 of 4 bytes held\n";
    assert_eq!(ends(script), end(0, "4 lines as expected, 0 differ"));
    // What is said is the bridge's own sentence.
    assert!(play(script).1.contains("line 3: bytes lost: 0\n"));
    assert_eq!(ends("state => bytes lost 1").0, 1);
    assert_eq!(ends("state => bytes lost").0, 1);
}
