//! Finds or makes the archive of the bridge for the target that is built, links it, and tells the
//! crate whether `core` has `Error`.

use std::env;
use std::path::{Path, PathBuf};
use std::process::{exit, Command};

const ARCHIVE: &str = "libraftershim.a";

fn main() {
    println!("cargo:rerun-if-env-changed=RAFTERSHIM_ARCHIVE_DIR");
    link(&match env::var_os("RAFTERSHIM_ARCHIVE_DIR") {
        Some(dir) => PathBuf::from(dir),
        None => made(),
    });
    probe_core_error();
}

/// Ends the build with one sentence for the person who reads it.
fn stop(sentence: &str) -> ! {
    eprintln!("{sentence}");
    exit(1)
}

fn variable(name: &str) -> String {
    env::var(name).unwrap_or_default()
}

/// The folder of the repository's archive for this target, which is made if it is missing.
fn made() -> PathBuf {
    let (top, target) = (
        variable("CARGO_MANIFEST_DIR") + "/../..",
        variable("TARGET"),
    );
    let dir = Path::new(&top).join("target/staticlib").join(&target);
    if !dir.join(ARCHIVE).is_file() {
        let script = format!("{top}/archives/make.sh");
        let ended = Command::new("sh").args([&script, &target]).output();
        let ended = ended.unwrap_or_else(|_| stop("The command sh is missing."));
        if !ended.status.success() {
            let said = String::from_utf8_lossy(&ended.stderr);
            stop(&format!(
                "There is no archive for {target}, and `sh archives/make.sh {target}` of the \
                 repository made none. It said:\n{said}Make it where the Rattle toolchain is, and \
                 name its folder in RAFTERSHIM_ARCHIVE_DIR."
            ));
        }
    }
    dir
}

fn link(dir: &Path) {
    let archive = dir.join(ARCHIVE);
    println!("cargo:rerun-if-changed={}", archive.display());
    // The linker runs in another folder, so it needs the full path.
    let dir = match dir.canonicalize() {
        Ok(dir) if archive.is_file() => dir,
        _ => stop(&format!(
            "The archive {} is missing: RAFTERSHIM_ARCHIVE_DIR names the folder where it is.",
            archive.display()
        )),
    };
    println!("cargo:rustc-link-search=native={}", dir.display());
    println!("cargo:rustc-link-lib=static=raftershim");
}

/// `core::error::Error` is there from Rust 1.81 on. The name of the setting is told to compilers
/// that ask for it, which is from 1.80 on; older ones would warn of the line.
fn probe_core_error() {
    let minor = rustc_minor().unwrap_or(0);
    if minor >= 80 {
        println!("cargo:rustc-check-cfg=cfg(core_error)");
    }
    if minor >= 81 {
        println!("cargo:rustc-cfg=core_error");
    }
}

/// The second number of the compiler's version, such as 63 of "rustc 1.63.0".
fn rustc_minor() -> Option<u32> {
    let output = Command::new(env::var_os("RUSTC")?)
        .arg("--version")
        .output()
        .ok()?;
    let text = String::from_utf8(output.stdout).ok()?;
    text.split('.').nth(1)?.parse().ok()
}
