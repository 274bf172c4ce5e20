//! The examples say what stands beside them, and README's program is the example.

use raftershim::Refusal;
use std::cell::RefCell;

thread_local! {
    static SAID: RefCell<String> = const { RefCell::new(String::new()) };
}

fn keep(line: &str) {
    SAID.with(|said| said.borrow_mut().push_str(&format!("{line}\n")));
}

/// Keeps what an example says, in the place of the macro that prints it.
macro_rules! println {
    ($($said:tt)*) => {
        crate::keep(&format!($($said)*))
    };
}

/// Takes an example in.
macro_rules! example {
    ($name:ident, $file:literal) => {
        mod $name {
            include!($file);

            pub fn run() -> Result<(), Refusal> {
                main()
            }
        }
    };
}

example!(braille, "../examples/braille.rs");
example!(mailbox, "../examples/mailbox.rs");
example!(meter, "../examples/meter.rs");
example!(printer, "../examples/printer.rs");
example!(status, "../examples/status.rs");

fn said(example: fn() -> Result<(), Refusal>) -> String {
    SAID.with(|said| said.borrow_mut().clear());
    example().unwrap();
    SAID.with(|said| said.borrow().clone())
}

#[test]
fn a_meter() {
    assert_eq!(said(meter::run), include_str!("../examples/meter.txt"));
}

#[test]
fn a_braille_line() {
    assert_eq!(said(braille::run), include_str!("../examples/braille.txt"));
}

#[test]
fn a_mailbox() {
    assert_eq!(said(mailbox::run), include_str!("../examples/mailbox.txt"));
}

#[test]
fn a_printer() {
    assert_eq!(said(printer::run), include_str!("../examples/printer.txt"));
}

#[test]
fn status_polling() {
    assert_eq!(said(status::run), include_str!("../examples/status.txt"));
}

/// A text as an indented block of a document.
fn indented(text: &str) -> String {
    let line = |line: &str| match line {
        "" => "\n".to_string(),
        line => format!("    {line}\n"),
    };
    text.lines().map(line).collect()
}

#[test]
fn the_program_of_readme_is_the_example() {
    let readme = include_str!("../../../README.md");
    let shown = [
        include_str!("../examples/meter.rs"),
        include_str!("../examples/meter.txt"),
        include_str!("../examples/braille.rs"),
        include_str!("../examples/braille.txt"),
        include_str!("../examples/mailbox.txt"),
    ];
    for text in shown {
        assert!(
            readme.contains(&indented(text)),
            "README.md has not:\n{text}"
        );
    }
}
