//! The script `till` with `--book` and `--check`: what it prints, and its statuses.
use std::fs;
use std::process::{Command, Output};

use second::store::BOOK;
use second::{book_program, check_program};
use suite::bench::{examples, root, Folder};
use suite::command::{prints, run};
use suite::script::{bash, example, fails, own_book, script, with_book};

/// What the script writes, and its status; nothing is said.
fn writes(output: Output, status: i32, bytes: &[u8]) {
    assert_eq!(output.status.code(), Some(status), "{:?}", output.stderr);
    assert!(output.stdout == bytes, "{} bytes", output.stdout.len());
    assert!(output.stderr.is_empty(), "{:?}", output.stderr);
}

/// Passed or refused, a model that is read has a book.
#[test]
fn books_of_one_file_or_standard_input() {
    let mut not_read = 0;
    for (file, text, page) in examples() {
        let status = if page.starts_with(b"F,") { 2 } else { 0 };
        let printed = book_program(&text);
        assert!(printed == page || printed.len() == BOOK, "{file:?}");
        writes(
            run(script().arg("--book").arg(&file), b""),
            status,
            &printed,
        );
        writes(run(script().arg("--book"), &text), status, &printed);
        let mut dash = script();
        writes(run(dash.args(["--book", "-"]), &text), status, &printed);
        not_read += status;
    }
    assert!(not_read > 2);
    let (file, printed) = (example("worked.txt"), own_book("worked.txt"));
    writes(run(script().arg(file).arg("--book"), b""), 0, &printed);
}

/// Each book on each model: accepted, refused with the first bad entry, or the text is not read.
#[test]
fn checks_of_one_file_or_standard_input() {
    let names = ["worked.txt", "no_steps.txt"];
    let mut statuses = [0; 3];
    for name in names {
        let book = own_book(name);
        let (_folder, file) = with_book("checks", &book);
        for (model, text, page) in examples() {
            let printed = String::from_utf8(check_program(&text, &book)).expect("a line");
            let status = match &printed {
                _ if page.starts_with(b"F,") => 2,
                _ if printed.is_empty() => 0,
                _ => 1,
            };
            let mut check = script();
            prints(
                run(check.arg("--check").arg(&file).arg(&model), b""),
                status,
                &printed,
            );
            let mut check = script();
            prints(
                run(check.arg("--check").arg(&file), &text),
                status,
                &printed,
            );
            statuses[status as usize] += 1;
        }
    }
    assert!(statuses.iter().all(|&count| count > 5), "{statuses:?}");
}

/// Book and model as files, from standard input and from pipes.
#[test]
fn ways_to_give_a_book() {
    let (_folder, file) = with_book("ways", &own_book("worked.txt"));
    for line in [
        "\"$0\" --check \"$1\" \"$2\"",
        "\"$0\" --check \"$1\" - <\"$2\"",
        "\"$0\" --check - \"$2\" <\"$1\"",
        "\"$0\" \"$1\" --check \"$2\"",
        "\"$0\" --check -- \"$1\" \"$2\"",
        "cat \"$1\" | \"$0\" --check - \"$2\"",
        "cat \"$1\" | \"$0\" --check /dev/stdin \"$2\"",
        "cat \"$2\" | \"$0\" --check \"$1\" /dev/stdin",
        "\"$0\" --check <(cat \"$1\") <(cat \"$2\")",
        "\"$0\" --check <(\"$0\" --book \"$2\") \"$2\"",
        "\"$0\" --book \"$2\" | \"$0\" --check - \"$2\"",
        "\"$0\" --book - <\"$2\" | \"$0\" --check - \"$2\"",
        // A regular file of any size would be too large.
        "ulimit -f 0; \"$0\" --book \"$2\" | \"$0\" --check - \"$2\"",
        "sh \"$0\" --check \"$1\" \"$2\"",
    ] {
        prints(bash(line, &file, "worked.txt"), 0, "");
    }
    // 0 scan 1 is no step of the other model.
    let entry = "F,34,2\n";
    let from_pipes = "\"$0\" --check <(cat \"$1\") <(cat \"$2\")";
    prints(bash(from_pipes, &file, "branching.txt"), 1, entry);
    // The line of a text that is not read is no book.
    let from_book = "\"$0\" --book \"$2\" | \"$0\" --check - \"$2\"";
    let output = bash(from_book, &file, "chain_129.txt");
    fails(output, "has fewer bytes than a book: 6,");
    let (folder, dash) = (Folder::new("dash"), own_book("worked.txt"));
    fs::write(folder.0.join("-"), dash).expect("a file");
    let mut named = script();
    named.args(["--check", "--", "-"]).current_dir(&folder.0);
    prints(run(named.arg(example("worked.txt")), b""), 0, "");
}

/// A book has 65,536 bytes, no fewer and no more; and there is one model.
#[test]
fn no_book() {
    let check = |book: &[u8]| {
        let (_folder, file) = with_book("no_book", book);
        let mut from_file = script();
        let mut piped = script();
        let model = example("no_steps.txt");
        piped.args(["--check", "-"]).arg(&model);
        from_file.arg("--check").arg(&file).arg(&model);
        [run(&mut from_file, b""), run(&mut piped, book)]
    };
    let sizes = ["0", "1", "2", "3", "4", "999", "1,000", "65,534", "65,535"];
    for size in sizes {
        let why = format!("has fewer bytes than a book: {size}, and not 65,536");
        let size = size.replace(',', "").parse().expect("a number");
        for output in check(&vec![0; size]) {
            fails(output, &why);
        }
    }
    for output in check(&[0; 65_536]) {
        prints(output, 0, "");
    }
    for size in [65_537, 65_538, 65_539, 200_000] {
        let why = "has more bytes than a book, which has 65,536";
        for output in check(&vec![0; size]) {
            fails(output, why);
        }
    }
    let given = |words: &[&str]| {
        let mut check = script();
        run(check.args(words).current_dir(root()), &[0; 65_536])
    };
    let worked = "examples/worked.txt";
    fails(given(&["--check"]), "--check needs a book");
    fails(given(&["--check", "none", worked]), "no such file: 'none'");
    fails(given(&["--check", "examples", worked]), "a folder");
    for words in [
        &["-"][..],
        &["-", "-"],
        &["/dev/stdin"],
        &["-", "/dev/fd/0"],
    ] {
        let output = given(&[&["--check"], words].concat());
        fails(output, "standard input is either the book or the model");
    }
    let output = given(&["--check", "none", "none.txt"]);
    let said = String::from_utf8_lossy(&output.stderr).into_owned();
    fails(output, "no such file: 'none'");
    assert_eq!(said.lines().count(), 2, "{said}");
}

#[test]
fn words_and_options() {
    let given = |words: &[&str]| {
        let mut script = script();
        run(script.args(words).current_dir(root()), b"")
    };
    let worked = "examples/worked.txt";
    fails(
        given(&["--book", worked, worked]),
        "a book is written alone",
    );
    fails(
        given(&["--check", worked, worked, worked]),
        "a book is checked alone: --check takes a book and one model, and here are 3 files",
    );
    for words in [
        ["--book", "--check", worked],
        ["--check", "--book", worked],
        ["--roll", "--book", worked],
        ["--book", "--roll", worked],
        ["--check", worked, "--roll"],
    ] {
        fails(given(&words), "only one of --roll, --book and --check");
    }
    fails(given(&["--roll", "-"]), "no option -:");
    fails(given(&["--book", "--halp"]), "no option --halp:");
}

/// The README's lines that show entries print what stands below them, but for its remarks.
#[test]
fn the_readme() {
    let readme = fs::read_to_string(root().join("README.md")).expect("the README");
    let mut lines = readme.lines().map(str::trim);
    let mut shown = 0;
    while let Some(line) =
        lines.find(|line| line.starts_with("./till --book") && line.contains(" | od "))
    {
        let mut command = Command::new("bash");
        let output = run(command.args(["-c", line]).current_dir(root()), b"");
        let printed = String::from_utf8(output.stdout).expect("numbers");
        for is in printed.lines() {
            let said = lines.next().expect("a line below");
            assert!(said.starts_with(is), "{line}\n{is}\n{said}");
            shown += 1;
        }
    }
    assert_eq!(shown, 4);
}
