//! The script `till` where it writes or checks no book, and says why; and where another kit makes its programs.
use std::fs::{self, File};
use std::os::fd::OwnedFd;
use std::os::unix::fs::symlink;
use std::os::unix::net::{UnixListener, UnixStream};
use std::os::unix::process::ExitStatusExt;
use std::path::Path;
use std::process::Command;

use second::store::BOOK;
use suite::command::{prints, run};
use suite::script::{
    bash, example, fails, own_book, page, script, shell, with_book, Checkout, KIT,
};

/// What cannot be read is no empty text: there is no book of it, and no verdict on one.
#[test]
fn no_text() {
    let (folder, book) = with_book("no_text", &[0; BOOK]);
    let socket = folder.0.join("socket");
    let _listener = UnixListener::bind(&socket).expect("a socket");
    let book = book.to_str().expect("a path");
    for words in [&["--book"][..], &["--check", book]] {
        let run_on = |file: &Path| run(script().args(words).arg(file), b"");
        fails(run_on(&socket), "cannot be read");
        fails(run_on(&folder.0), "a folder");
        fails(run_on(&folder.0.join("none")), "no such file");
        let mut of_a_folder = script();
        of_a_folder
            .args(words)
            .stdin(File::open(&folder.0).expect("a folder"));
        let output = of_a_folder.output().expect("the script starts");
        fails(output, "standard input cannot be read");
    }
    let model = example("worked.txt");
    let on_a_socket = run(script().arg("--check").arg(&socket).arg(&model), b"");
    fails(on_a_socket, "socket' cannot be read");
    for words in ["--book", "--check - \"$1\""] {
        let output = shell(&format!("exec \"$0\" {words} <&-"));
        fails(output, "standard input cannot be read");
    }
}

/// A sound book needs no place to print to.
#[test]
fn no_place_to_print() {
    let (_folder, book) = with_book("no_place", &own_book("worked.txt"));
    for to in ["/dev/full", "&-"] {
        for words in ["--book \"$2\"", "--check \"$1\" \"$2\""] {
            let output = bash(&format!("\"$0\" {words} >{to}"), &book, "branching.txt");
            fails(output, "not all could be printed");
        }
        let line = format!("\"$0\" --check \"$1\" \"$2\" >{to}");
        prints(bash(&line, &book, "worked.txt"), 0, "");
    }
    let terminal = bash("\"$0\" --book \"$2\" >/dev/ptmx", &book, "worked.txt");
    fails(terminal, "a book is no text: send it to a file");
    let (reader, writer) = UnixStream::pair().expect("two ends");
    drop(reader);
    let mut unread = script();
    unread
        .arg("--book")
        .arg(example("worked.txt"))
        .stdout(OwnedFd::from(writer));
    let output = unread.output().expect("the script starts");
    assert_eq!(output.status.signal(), Some(13), "{output:?}");
    assert!(output.stderr.is_empty(), "{output:?}");
}

/// A part of the book is in the file by then, and `cat` is killed before it can say why.
#[test]
fn no_room_for_all() {
    let (_folder, file) = with_book("no_room", b"");
    let line = "ulimit -f 10; \"$0\" --book \"$2\" >\"$1\"";
    let output = bash(line, &file, "worked.txt");
    fails(output, "not all could be printed: no reason was given");
    let part = fs::metadata(&file).expect("a file").len();
    assert!(part > 0 && part < BOOK as u64, "{part}");
}

// ---- with another kit

/// What can be told at once is told before a program is made, and each program is made when it is used first.
#[test]
fn made_when_used() {
    let checkout = Checkout::new("book_made");
    checkout.write("book", "");
    let book = checkout.file("book");
    let book = book.to_str().expect("a path");
    fails(checkout.run_with(&["--check", book]), "fewer bytes");
    fails(checkout.run_with(&["--book", book, book]), "written alone");
    assert_eq!(checkout.makings(), 0);
    checkout.passes_with(&["--book"], "1".repeat(BOOK), 1);
    checkout.passes_with(&["--book"], "1".repeat(BOOK), 1);
    checkout.write("book", &"1".repeat(BOOK));
    checkout.passes_with(&["--check", book], String::new(), 2);
    checkout.passes(1, 3);
    checkout.write("crates/a/src/lib.rt", "2\n");
    checkout.passes_with(&["--book"], "2".repeat(BOOK), 4);
    let makings = fs::read_to_string(checkout.file("kit/makings")).expect("names");
    let names: Vec<&str> = makings.lines().collect();
    assert_eq!(names, ["till_book", "till_check", "till", "till_book"]);
}

/// Only books need the tool that codes them.
#[test]
fn without_the_tool() {
    let checkout = Checkout::new("without_base64");
    checkout.passes(1, 1);
    let tools = checkout.file("tools");
    fs::create_dir(&tools).expect("a folder");
    let path = std::env::var("PATH").expect("a PATH");
    for name in "cat dirname find head readlink sed sha256sum sort bash".split(' ') {
        let mut files = path.split(':').map(|folder| Path::new(folder).join(name));
        let file = files.find(|file| file.exists());
        symlink(file.expect(name), tools.join(name)).expect("a link");
    }
    let without = |options: &[&str]| {
        let mut command = Command::new("bash");
        command.arg(checkout.file("till")).env("PATH", &tools);
        run(command.args(options), b"")
    };
    prints(without(&[]), 0, &page(1));
    for options in [&["--book"][..], &["--check", "book"]] {
        fails(without(options), "a tool is missing: no command 'base64'");
    }
}

/// A book that is cut short or too long, a line that has no end, or a failure: nothing is written.
#[test]
fn a_program_that_fails() {
    let checkout = Checkout::new("a_book_that_fails");
    checkout.write("book", &"1".repeat(BOOK));
    let book = checkout.file("book");
    let check: &[&str] = &["--check", book.to_str().expect("a path")];
    let zeros = |count: usize| format!("head -c {count} /dev/zero");
    let programs: [(&[&str], &str, &str); 15] = [
        (
            &["--book"],
            &(zeros(BOOK) + "; exit 1"),
            "the program failed",
        ),
        (
            &["--book"],
            &(zeros(BOOK) + "; kill -9 $$"),
            "the program failed",
        ),
        (&["--book"], &zeros(BOOK - 1), "no whole book"),
        (&["--book"], &zeros(BOOK + 1), "no whole book"),
        (&["--book"], &zeros(3), "no whole book"),
        (&["--book"], "printf F,2,1", "no whole book"),
        (&["--book"], "echo F,2", "no whole book"),
        (&["--book"], "echo F,2,1; exit 1", "the program failed"),
        (&["--book"], "true", "no whole book"),
        (check, "echo V,pass,1; echo E", "no whole line"),
        (check, "printf F,34,1", "no whole line"),
        (check, "echo", "no whole line"),
        (check, "exit 1", "the program failed"),
        (check, "echo F,34,1; exit 1", "the program failed"),
        (check, "kill -9 $$", "the program failed"),
    ];
    for (options, program, why) in programs {
        checkout.write(
            "program",
            &format!("#!/bin/sh\ncat >/dev/null\n{program}\n"),
        );
        let kit = KIT.replace("    chmod", "    cp program \"$program\"\n    chmod");
        checkout.write("kit/rt", &kit);
        checkout.write("crates/a/src/lib.rt", program);
        let output = checkout.run_with(options);
        let said = String::from_utf8_lossy(&output.stderr).into_owned();
        assert_eq!(output.status.code(), Some(3), "{program}: {said}");
        let silent = output.stdout.is_empty();
        assert!(silent && said.contains(why), "{program}: {said}");
    }
}
