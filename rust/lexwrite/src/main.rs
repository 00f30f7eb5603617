//! Reads lines from standard input, and writes their answers to standard output. The exit status is 0 if all lines are
//! valid, 1 if a line is invalid, and 2 if the input or the output failed.

use std::process::ExitCode;

fn main() -> ExitCode {
    ExitCode::from(answer_lines().unwrap_or(2))
}

/// Answers the lines through the files of the standard streams: of a stream that cannot be written, `Stdout` says that
/// it was. It also repeats an interrupted write, and writes once more at the end of a process whose write failed.
#[cfg(unix)]
fn answer_lines() -> std::io::Result<u8> {
    use lexwrite::lines::{BlockWriter, Writing, answer_reader};
    use std::fs::File;
    use std::os::fd::AsFd;

    let input = File::from(std::io::stdin().as_fd().try_clone_to_owned()?);
    let output = File::from(std::io::stdout().as_fd().try_clone_to_owned()?);
    let mut writer = BlockWriter::<_, { 16 * 1024 }>::new(Writing::new(output));
    Ok(answer_reader(input, &mut writer))
}

/// Answers the lines, if the standard streams are no files.
#[cfg(not(unix))]
fn answer_lines() -> std::io::Result<u8> {
    Ok(lexwrite::lines::answer_lines())
}
