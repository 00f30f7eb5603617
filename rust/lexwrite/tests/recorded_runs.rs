//! The recorded runs of the program: their input has the recorded output and exit status. `tests/process` has them and
//! more, but runs only optimized programs for this machine. These tests add debug builds, and i686 in `tests/packages`.

use std::fs::{self, File};
use std::path::{Path, PathBuf};
use std::process::{Command, Output, Stdio};

fn folder_of(name: &str) -> PathBuf {
    Path::new(env!("CARGO_MANIFEST_DIR")).join("../../tests/runs").join(name)
}

/// Runs the program on a recorded input.
fn run(name: &str, output: impl Into<Stdio>) -> Output {
    let input = File::open(folder_of(name).join("stdin")).unwrap();
    Command::new(env!("CARGO_BIN_EXE_lexwrite")).stdin(input).stdout(output).output().unwrap()
}

#[test]
fn recorded_answers() {
    for name in ["good", "hostile", "not_ascii", "vectors"] {
        let read = |file| fs::read_to_string(folder_of(name).join(file)).unwrap();
        let run = run(name, Stdio::piped());
        assert_eq!(run.status.code(), read("status").trim().parse().ok(), "{name}");
        assert!(run.stdout == read("stdout").as_bytes(), "{name}: other answers");
    }
}

#[test]
#[cfg(target_os = "linux")]
fn full_output() {
    let full = File::options().write(true).open("/dev/full").unwrap();
    assert_eq!(run("good", full).status.code(), Some(2));
}
