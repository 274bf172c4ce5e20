//! The scripts of the folder scripts, and what happens when an answer is not the expected one.

mod played;

use played::play;
use std::fs;
use std::path::PathBuf;

fn folder(name: &str) -> PathBuf {
    PathBuf::from(env!("CARGO_MANIFEST_DIR")).join(name)
}

/// Every script of the folder, with its name.
fn scripts() -> Vec<(String, String)> {
    let files = fs::read_dir(folder("../../scripts")).expect("the folder is there");
    files
        .map(|file| file.expect("a file").path())
        .filter(|path| path.extension().map_or(false, |end| end == "script"))
        .map(|path| {
            let script = fs::read_to_string(&path).expect("the script is there");
            (path.display().to_string(), script)
        })
        .collect()
}

/// The lines of a script that expect an answer, counted from 0.
fn expecting(script: &str) -> Vec<usize> {
    let lines = script.lines().enumerate();
    lines
        .filter(|(_, line)| !line.starts_with('#') && line.contains(" => "))
        .map(|(number, _)| number)
        .collect()
}

#[test]
fn every_script_is_as_expected() {
    let scripts = scripts();
    assert!(scripts.len() >= 15, "only {} scripts", scripts.len());
    for (name, script) in scripts {
        let (status, said, mistakes) = play(&script);
        let expected = expecting(&script).len();
        let last = format!("{expected} lines as expected, 0 differ");
        assert_eq!(said.lines().last(), Some(last.as_str()), "{name}");
        assert_eq!((status, mistakes.as_str()), (0, ""), "{name}");
        assert!(expected > 10, "{name}");
    }
}

/// Every expected answer is replaced, and all these lines are named.
#[test]
fn no_expected_answer_is_passed_over() {
    for (name, script) in scripts() {
        let expecting = expecting(&script);
        let mut lines: Vec<String> = script.lines().map(String::from).collect();
        expecting
            .iter()
            .for_each(|&number| lines[number].push_str(" or not"));
        let (status, said, _) = play(&lines.join("\n"));
        let (named, right): (Vec<&str>, Vec<&str>) = said
            .lines()
            .filter(|line| line.starts_with("line "))
            .partition(|line| line.contains(": expected "));
        let numbers = expecting.iter().map(|number| number + 1);
        let starts: Vec<String> = numbers.map(|n| format!("line {n}: expected ")).collect();
        assert_eq!(named.len(), starts.len(), "{name}: {right:?}");
        for (line, start) in named.iter().zip(&starts) {
            assert!(line.starts_with(start), "{name}: {line}");
        }
        let last = format!("0 lines as expected, {} differ", expecting.len());
        assert_eq!(said.lines().last(), Some(last.as_str()), "{name}");
        assert_eq!(status, 1, "{name}");
    }
}

#[test]
fn a_wrong_script_fails_and_its_lines_are_named() {
    let read = |name| fs::read_to_string(folder("tests/data").join(name)).expect("a file");
    let (status, said, mistakes) = play(&read("wrong.script"));
    assert_eq!((status, mistakes.as_str()), (1, ""));
    assert_eq!(said, read("wrong.said"));
}
