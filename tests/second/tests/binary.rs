//! The program itself: standard input to standard output.

mod common;

use std::fs;
use std::io::Write;
use std::path::Path;
use std::process::{Command, Stdio};

use common::{till, EXAMPLE, EXAMPLE_PAGE};

fn printed(text: &[u8]) -> Vec<u8> {
    output(&[], text)
}

fn output(arguments: &[&str], text: &[u8]) -> Vec<u8> {
    let mut child = Command::new(env!("CARGO_BIN_EXE_second"))
        .args(arguments)
        .stdin(Stdio::piped())
        .stdout(Stdio::piped())
        .spawn()
        .expect("the program starts");
    let mut input = child.stdin.take().expect("standard input is piped");
    input.write_all(text).expect("the program takes its input");
    drop(input);
    let output = child.wait_with_output().expect("the program ends");
    assert!(output.status.success());
    output.stdout
}

#[test]
fn pages_and_refusals() {
    assert_eq!(printed(EXAMPLE), EXAMPLE_PAGE.as_bytes());
    assert_eq!(printed(b""), b"F,32,1\n");
    assert_eq!(printed(&EXAMPLE[..EXAMPLE.len() - 1]), b"F,32,9\n");
    assert_eq!(printed(&[EXAMPLE, b"x"].concat()), b"F,32,10\n");
    assert_eq!(printed(&[b'\n'; 16_384]), b"F,2,1\n");
    assert_eq!(printed(&[b'\n'; 16_385]), b"F,1,0\n");
    assert_eq!(printed(&[b'\n'; 200_000]), b"F,1,0\n");
    assert_eq!(printed(&till(129, &[])), b"F,3,1\n");
    let no_high = include_bytes!("../../../examples/no_high.txt");
    assert_eq!(printed(no_high), b"F,35,4\n");
}

#[test]
fn rolls_and_refusals() {
    let roll = output(&["--roll"], EXAMPLE);
    assert_eq!(roll, second::roll_program(EXAMPLE));
    assert_eq!(roll.len(), 9 * 43);
    assert_eq!(output(&["--roll"], b""), b"F,32,1\n");
    assert_eq!(output(&["--roll"], &till(129, &[])), b"F,3,1\n");
}

/// The path of a file that holds a book.
fn file_of(name: &str, book: &[u8]) -> String {
    let path = Path::new(env!("CARGO_TARGET_TMPDIR")).join(name);
    fs::write(&path, book).expect("the book is written");
    path.to_str().expect("a path in UTF-8").to_string()
}

#[test]
fn books_and_refusals() {
    let book = output(&["--book"], EXAMPLE);
    assert_eq!(book, second::book_program(EXAMPLE));
    assert_eq!(book.len(), 65_536);
    assert_eq!(output(&["--book"], b""), b"F,32,1\n");
    let own = file_of("own.book", &book);
    assert_eq!(output(&["--check", &own], EXAMPLE), b"");
    assert_eq!(output(&["--check", &own], &till(129, &[])), b"F,3,1\n");
    // The first entry is that of 0 and 2.
    assert_eq!(output(&["--check", &own], &till(4, &[])), b"F,34,2\n");
}

#[test]
fn other_arguments() {
    let short = file_of("short.book", &[0; 65_535]);
    let long = file_of("long.book", &[0; 65_537]);
    for arguments in [
        &["--rol"][..],
        &[""],
        &["--roll", "--roll"],
        &["--book", "--roll"],
        &["--check"],
        &["--check", &short],
        &["--check", &long],
        &["--check", "no such book"],
    ] {
        let mut command = Command::new(env!("CARGO_BIN_EXE_second"));
        let output = command.args(arguments).output();
        let output = output.expect("the program ends");
        assert!(!output.status.success() && output.stdout.is_empty());
    }
}
