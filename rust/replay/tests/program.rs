//! The program as a whole: arguments, exit statuses, mistakes, and writing that fails.

mod played;

use played::{play, strings, with};
use raftershim_replay::{help, program, AS_EXPECTED, DIFFERENT, NOTHING_EXPECTED, NOT_RUN};
use std::io::{self, ErrorKind, Write};

#[test]
fn arguments() {
    assert_eq!(with(&["--help"], b"ask"), strings(0, help::HELP, ""));
    assert_eq!(with(&["-h"], b"ask"), strings(0, help::HELP, ""));
    let unknown = "there is no option --loud, try replay --help\n";
    assert_eq!(with(&["--loud"], b"ask"), strings(2, "", unknown));
    let second = "expected one script, found b after it\n";
    assert_eq!(with(&["a", "b"], b"ask"), strings(2, "", second));
    let (status, said, mistakes) = with(&["no/such.script"], b"ask");
    assert_eq!((status, said.as_str()), (2, ""));
    assert!(mistakes.starts_with("the script no/such.script cannot be opened: "));
    let (status, _, mistakes) = with(&[env!("CARGO_MANIFEST_DIR")], b"ask");
    assert_eq!(status, 2);
    assert!(mistakes.starts_with("the script cannot be read: "));
}

#[test]
fn a_script_from_a_file() {
    let script = concat!(env!("CARGO_MANIFEST_DIR"), "/../../scripts/reading.script");
    let (status, said, mistakes) = with(&[script], b"nonsense");
    assert_eq!((status, mistakes.as_str()), (0, ""));
    assert!(said.ends_with("as expected, 0 differ\n"));
}

#[test]
fn a_mistake_ends_the_run() {
    let (status, said, mistakes) = play("create 4 3 1\nline 300\nask\n");
    assert_eq!((status, said.as_str()), (1, "line 1: done\n"));
    let sentence = "line 2: expected a byte from 0 to 255 after line, found 300\n";
    assert_eq!(mistakes, sentence);
}

#[test]
fn files_of_other_systems() {
    let script = "\u{feff}create 4 3 1 => done\r\n\r\nask => no line byte\r\n";
    assert!(play(script).1.ends_with("2 lines as expected, 0 differ\n"));
    let (status, _, mistakes) = with(&[], b"key\nline \xff\n");
    let sentence = "line 2: expected text in UTF-8, found other bytes\n";
    assert_eq!((status, mistakes.as_str()), (1, sentence));
    let (status, _, mistakes) = play(&"#".repeat(5000));
    let sentence = "line 1: expected a line of at most 4096 bytes, found a longer one\n";
    assert_eq!((status, mistakes.as_str()), (1, sentence));
    assert_eq!(play(&"#".repeat(4096)).2, "");
}

/// Takes some bytes and then fails.
struct Failing(usize, ErrorKind);

impl Write for Failing {
    fn write(&mut self, bytes: &[u8]) -> io::Result<usize> {
        if self.0 == 0 {
            return Err(self.1.into());
        }
        let taken = bytes.len().min(self.0);
        self.0 -= taken;
        Ok(taken)
    }

    fn flush(&mut self) -> io::Result<()> {
        Ok(())
    }
}

#[test]
fn a_broken_pipe_ends_quietly() {
    let sentence = |room, kind| {
        let mut err = Vec::new();
        let mut out = Failing(room, kind);
        let status = program(&[], &mut "key\nkey\n".as_bytes(), &mut out, &mut err);
        (status, String::from_utf8(err).expect("sentences are text"))
    };
    for room in 0..100 {
        let (status, mistakes) = sentence(room, ErrorKind::BrokenPipe);
        assert_eq!((status, mistakes.as_str()), (2, ""), "{room}");
    }
    let (status, mistakes) = sentence(3, ErrorKind::Other);
    assert_eq!(status, 2);
    assert!(mistakes.starts_with("the answers cannot be written: "));
}

#[test]
fn the_help_tells_the_limits_and_the_exit_statuses() {
    let told = [
        format!("A line has at most {} bytes.", script::LONGEST_LINE),
        format!("at most {} places here", script::LONGEST_STORE),
        format!("status is {AS_EXPECTED} if the script expects answers"),
        format!("It is {DIFFERENT} if a line was not as expected"),
        format!("It is {NOT_RUN} if the arguments are wrong"),
        format!("It is {NOTHING_EXPECTED} if no line expects an answer"),
    ];
    for sentence in told {
        assert!(help::HELP.contains(&sentence), "{sentence}");
    }
}
