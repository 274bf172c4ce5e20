//! The workspace asks for nothing but itself, and its lock can be read by the oldest cargo that
//! builds it for other targets.

use std::fs;
use std::path::Path;

/// What is wrong with a lock, a sentence each.
fn faults(lock: &str) -> Vec<String> {
    let foreign = lock.lines().filter(|line| line.starts_with("source = "));
    let mut faults: Vec<String> = foreign
        .map(|line| format!("a crate from elsewhere: {line}"))
        .collect();
    if !lock.lines().any(|line| line == "version = 3") {
        faults.push("the lock is not of version 3, which cargo 1.65 reads".into());
    }
    faults
}

#[test]
fn the_lock_names_our_crates_alone() {
    let path = Path::new(env!("CARGO_MANIFEST_DIR")).join("../../Cargo.lock");
    let lock = fs::read_to_string(path).expect("the lock is there");
    assert!(lock.contains("name = \"raftershim\""));
    assert_eq!(faults(&lock), Vec::<String>::new());
}

#[test]
fn planted_faults_are_found() {
    let sound = "version = 3\n\n[[package]]\nname = \"raftershim\"\nversion = \"0.1.0\"\n";
    assert_eq!(faults(sound).len(), 0);
    assert_eq!(
        faults(&sound.replace("version = 3", "version = 4")).len(),
        1
    );
    let foreign = "source = \"registry+https://github.com/rust-lang/crates.io-index\"\n";
    assert_eq!(faults(&format!("{sound}{foreign}")).len(), 1);
}
