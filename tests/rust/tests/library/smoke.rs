//! The library from C: compiles `tests/c/smoke.c` with the header, links the
//! archive, and compares what the program prints.

use std::path::{Path, PathBuf};
use std::process::Command;

/// The folder above `rust`, which holds `c`.
fn tests_folder() -> PathBuf {
    Path::new(env!("CARGO_MANIFEST_DIR")).join("..")
}

#[test]
fn from_c() {
    let tests = tests_folder();
    let program = Path::new(env!("CARGO_TARGET_TMPDIR")).join("smoke");
    let compiled = Command::new("cc")
        .args(["-std=c99", "-Wall", "-Wextra", "-Werror", "-pedantic"])
        .arg("-I")
        .arg(tests.join("../include"))
        .arg(tests.join("c/smoke.c"))
        .arg(env!("FADZGIME_ARCHIVE"))
        .args(["-o".as_ref(), program.as_os_str()])
        .status();
    assert!(compiled.expect("there is a C compiler").success());
    let run = Command::new(&program).output().expect("the program runs");
    assert!(run.status.success());
    let expected = std::fs::read_to_string(tests.join("c/smoke.expected")).expect("stored output");
    assert_eq!(String::from_utf8_lossy(&run.stdout), expected);
}
