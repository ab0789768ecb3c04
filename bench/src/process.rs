//! A program on a text, from its start to its end.
use std::io::Write;
use std::process::{Command, Stdio};

pub const PROGRAM: &str = concat!(env!("CARGO_MANIFEST_DIR"), "/../target/bin/till");
pub const SECOND: &str = concat!(
    env!("CARGO_MANIFEST_DIR"),
    "/../target/cargo/release/second"
);

pub fn run(program: &str, text: &[u8]) {
    let mut child = Command::new(program)
        .stdin(Stdio::piped())
        .stdout(Stdio::null())
        .spawn()
        .unwrap_or_else(|error| panic!("{program}: {error}"));
    let mut input = child.stdin.take().expect("standard input is piped");
    input.write_all(text).expect("the program takes its input");
    drop(input);
    assert!(child.wait().expect("the program ends").success());
}
