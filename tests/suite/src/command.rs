//! Commands, run on a text, and what they print.
use std::io::Write;
use std::process::{Command, Output, Stdio};
use std::thread::sleep;
use std::time::Duration;

/// Runs a command on a text.
pub fn run(command: &mut Command, text: &[u8]) -> Output {
    run_in_pieces(command, &[text], Duration::ZERO)
}

/// Runs a command on a text that comes in pieces, with a pause before each but the first.
pub fn run_in_pieces(command: &mut Command, pieces: &[&[u8]], pause: Duration) -> Output {
    let mut child = command
        .stdin(Stdio::piped())
        .stdout(Stdio::piped())
        .stderr(Stdio::piped())
        .spawn()
        .unwrap_or_else(|error| panic!("{command:?}: {error}"));
    let mut input = child.stdin.take().expect("standard input is piped");
    for (index, piece) in pieces.iter().enumerate() {
        if index > 0 {
            sleep(pause);
        }
        // The program does not read past the first byte too many, so the pipe may be closed by then.
        let _ = input.write_all(piece);
    }
    drop(input);
    child.wait_with_output().expect("the command ends")
}

/// The status and what is printed; nothing else is said.
pub fn prints(output: Output, status: i32, printed: &str) {
    assert_eq!(output.status.code(), Some(status), "{output:?}");
    assert_eq!(String::from_utf8_lossy(&output.stdout), printed);
    assert!(output.stderr.is_empty(), "{output:?}");
}
