//! The script `till`: what it prints, its statuses, and when it makes the programs. And `tests/run` where it fails.
use std::collections::BTreeSet;
use std::fs::{self, File};
use std::os::fd::OwnedFd;
use std::os::unix::fs::{symlink, PermissionsExt};
use std::os::unix::net::{UnixListener, UnixStream};
use std::os::unix::process::ExitStatusExt;
use std::path::{Path, PathBuf};
use std::process::{Child, Command, Output, Stdio};
use std::thread::sleep;
use std::time::{Duration, Instant};

use suite::bench::{examples, rolls, root, Folder};
use suite::command::{prints, run};
use suite::script::{example, fails, page, roll, script, shell, Checkout, KIT};

// ---- with the programs

/// An example with what is printed of it and the status that this stands for.
type Example = (PathBuf, Vec<u8>, String, i32);

fn with_status((file, text, printed): (PathBuf, Vec<u8>, Vec<u8>)) -> Example {
    let printed = String::from_utf8(printed).expect("a page or a roll");
    let status = match &printed {
        _ if printed.starts_with("F,") => 2,
        _ if printed.starts_with("V,refuse,") => 1,
        _ => 0,
    };
    (file, text, printed, status)
}

fn pages() -> Vec<Example> {
    examples().into_iter().map(with_status).collect()
}

#[test]
fn one_file_or_standard_input() {
    for (file, text, page, status) in pages() {
        prints(run(script().arg(&file), b""), status, &page);
        prints(run(&mut script(), &text), status, &page);
    }
}

/// The status is the page's, whichever is printed; where there is no page, its line stands as it is.
#[test]
fn rolls_of_one_file_or_standard_input() {
    let mut statuses = BTreeSet::new();
    for (file, text, roll, status) in rolls().into_iter().map(with_status) {
        prints(run(script().arg("--roll").arg(&file), b""), status, &roll);
        prints(run(script().arg(&file).arg("--roll"), b""), status, &roll);
        prints(run(script().arg("--roll"), &text), status, &roll);
        statuses.insert(status);
    }
    assert!(statuses.into_iter().eq([0, 1, 2]));
    let none = example("none.txt");
    fails(run(script().arg("--roll").arg(none), b""), "no such file");
    for files in [["worked.txt", "worked.txt"], ["none.txt", "worked.txt"]] {
        let output = run(script().arg("--roll").args(files.map(example)), b"");
        fails(output, "a roll is printed alone");
    }
}

/// A line for each file; the worst status counts.
#[test]
fn several_files() {
    let line = |(file, _, page, _): &Example| {
        let first = page.lines().next().expect("a line");
        format!("{}: {first}\n", file.display())
    };
    for worst in 0..=2 {
        let mut few = pages();
        few.retain(|(.., status)| *status <= worst);
        let lines: String = few.iter().map(line).collect();
        let files = few.iter().map(|(file, ..)| file);
        prints(run(script().args(files), b""), worst, &lines);
    }
    let (none, refused) = (example("none.txt"), example("worked.txt"));
    let output = run(script().args([&none, &refused, &root()]), b"");
    assert_eq!(output.status.code(), Some(3), "{output:?}");
    let printed = format!("{}: V,refuse,1,2\n", refused.display());
    assert_eq!(String::from_utf8_lossy(&output.stdout), printed);
    let said = String::from_utf8_lossy(&output.stderr);
    assert_eq!(said.lines().count(), 2, "{said}");
}

#[test]
fn words_and_options() {
    for option in ["--help", "-h"] {
        let output = run(script().arg(option), b"");
        assert_eq!(output.status.code(), Some(0), "{output:?}");
        assert!(output.stdout.starts_with(b"usage: ./till "), "{output:?}");
        assert!(output.stderr.is_empty(), "{output:?}");
    }
    prints(run(script().arg("--make"), b""), 0, "");
    for option in ["--halp", "-x", "-"] {
        let why = format!("no option {option}:");
        fails(run(script().arg(option), b""), &why);
    }
    let folder = Folder::new("words");
    let page = fs::read_to_string(example("released.page")).expect("a page");
    let refused = fs::read(example("worked.txt")).expect("a text");
    for name in ["-x", "-"] {
        fs::copy(example("released.txt"), folder.0.join(name)).expect("a copy");
        let mut named = script();
        named.args(["--", name]).current_dir(&folder.0);
        prints(run(&mut named, &refused), 0, &page);
    }
}

/// What cannot be read is no empty text and not the text on standard input: there is no verdict.
#[test]
fn no_text() {
    let passed = fs::read(example("released.txt")).expect("a text");
    let fails_on = |file: &Path, why| fails(run(script().arg(file), &passed), why);
    let folder = Folder::new("no_text");
    let socket = folder.0.join("socket");
    let _listener = UnixListener::bind(&socket).expect("a socket");
    fails_on(&socket, "cannot be read");
    fails_on(&folder.0, "a folder");
    fails_on(&folder.0.join("none"), "no such file");
    let secret = folder.0.join("secret");
    fs::write(&secret, &passed).expect("a file");
    fs::set_permissions(&secret, fs::Permissions::from_mode(0o0)).expect("a file");
    // Root may read it.
    if File::open(&secret).is_err() {
        fails_on(&secret, "no permission");
    }
    let mut of_a_folder = script();
    of_a_folder.stdin(File::open(&folder.0).expect("a folder"));
    let output = of_a_folder.output().expect("the script starts");
    fails(output, "standard input cannot be read");
    for line in ["exec \"$0\" <&-", "exec \"$0\" --roll <&-"] {
        fails(shell(line), "standard input cannot be read");
    }
}

#[test]
fn no_place_to_print() {
    for to in ["/dev/full", "&-"] {
        for words in ["\"$1\"", "--roll \"$1\"", "\"$1\" \"$1\"", "--help"] {
            let output = shell(&format!("exec \"$0\" {words} >{to}"));
            fails(output, "not all could be printed");
        }
    }
}

/// A reader that leaves after the first line has no part in the status. Where no one reads, the script ends by the
/// signal, as `cat` does, and says nothing.
#[test]
fn readers_that_leave() {
    let lines = |line: &str| {
        let mut shell = Command::new("bash");
        shell.args(["-o", "pipefail", "-c", line]);
        shell.arg(root().join("till"));
        shell.args(["worked.txt", "roll_832.txt"].map(example));
        run(&mut shell, b"")
    };
    prints(lines("\"$0\" \"$1\" | head -n 1"), 1, "V,refuse,1,2\n");
    let first = "\"$0\" --roll \"$2\" | head -n 1 | cut -c 1-9";
    prints(lines(first), 1, "V,refuse,\n");
    prints(lines("\"$0\" -h | head -n 1 | cut -c 1-6"), 0, "usage:\n");
    let worked = "examples/worked.txt";
    for words in [&[worked][..], &["--roll", worked], &["--help"]] {
        let (reader, writer) = UnixStream::pair().expect("two ends");
        drop(reader);
        let mut unread = script();
        unread.stdout(OwnedFd::from(writer)).current_dir(root());
        let output = unread.args(words).output().expect("the script starts");
        assert_eq!(output.status.signal(), Some(13), "{output:?}");
        assert!(output.stderr.is_empty(), "{output:?}");
    }
}

/// However the script is started.
#[test]
fn ways_to_start() {
    let page = fs::read_to_string(example("released.page")).expect("a page");
    let folder = Folder::new("ways_to_start");
    let link = folder.0.join("link");
    symlink(root().join("till"), &link).expect("a link");
    prints(
        run(Command::new(&link).arg(example("released.txt")), b""),
        0,
        &page,
    );
    assert!(!folder.0.join("target").exists(), "made beside the link");
    for line in [
        "sh \"$0\" \"$1\"",
        "bash --posix \"$0\" \"$1\"",
        "\"$0\" \"$1\" <&-",
    ] {
        prints(shell(line), 0, &page);
    }
    let mut from_above = Command::new("bash");
    let words = [Path::new("till"), Path::new("examples/released.txt")];
    from_above.args(words).current_dir(root());
    prints(run(from_above.env("CDPATH", "examples:.:/"), b""), 0, &page);
}

// ---- with another kit

/// What counts are the contents of the sources, the kit and the program, and not the times of files.
#[test]
fn made_by_contents() {
    let checkout = Checkout::new("made_by_contents");
    checkout.passes(1, 1);
    checkout.passes(1, 1);
    checkout.write_old("crates/a/src/lib.rt", "2\n");
    checkout.passes(2, 2);
    checkout.write("crates/a/src/lib.rt", "2\n");
    checkout.passes(2, 2);
    checkout.write_old("kit/version", "second\n");
    checkout.passes(2, 3);
    let other = "#!/bin/sh\necho V,pass,7\necho E\n";
    checkout.write("target/bin/till", other);
    checkout.passes(2, 4);
    fs::remove_file(checkout.file("target/bin/till")).expect("a program");
    checkout.passes(2, 5);
    checkout.write_old("crates.txt", "a:\n#\n");
    checkout.passes(2, 6);
}

/// Each program is made when it is used first, and noted by itself; `--make` makes all.
#[test]
fn four_programs() {
    let checkout = Checkout::new("four_programs");
    let files = ["crates.txt", "crates.txt"].map(|name| checkout.file(name));
    let mut several = checkout.script("till");
    let output = run(several.arg("--roll").args(files), b"");
    fails(output, "a roll is printed alone");
    assert_eq!(checkout.makings(), 0);
    checkout.rolls(1, 1);
    checkout.passes(1, 2);
    checkout.rolls(1, 2);
    checkout.write("target/bin/till_roll", "#!/bin/sh\necho V,pass,7\necho E\n");
    checkout.passes(1, 2);
    checkout.rolls(1, 3);
    checkout.write("crates/a/src/lib.rt", "2\n");
    checkout.passes(2, 4);
    checkout.rolls(2, 5);
    let made = |makings| {
        let output = checkout.run_with(&["--make"]);
        assert_eq!(output.status.code(), Some(0), "{output:?}");
        assert!(output.stdout.is_empty(), "{output:?}");
        assert_eq!(checkout.makings(), makings, "{output:?}");
    };
    made(7);
    fs::remove_file(checkout.file("target/bin/till.made")).expect("a note");
    made(8);
    checkout.write("crates/a/src/lib.rt", "3\n");
    made(12);
    checkout.passes(3, 12);
    checkout.rolls(3, 12);
    let makings = fs::read_to_string(checkout.file("kit/makings")).expect("names");
    let names: Vec<&str> = makings.lines().collect();
    let (till, roll) = ("till", "till_roll");
    let (book, check) = ("till_book", "till_check");
    assert_eq!(names[..5], [roll, till, roll, till, roll]);
    assert_eq!(names[5..], [book, check, till, till, roll, book, check]);
}

/// An edit made while the program is proved is not lost: nor is it when it is taken back.
#[test]
fn edited_meanwhile() {
    let checkout = Checkout::new("edited_meanwhile");
    checkout.write_old("kit/edit", "2\n");
    checkout.passes(2, 2);
    checkout.write_old("crates/a/src/lib.rt", "1\n");
    checkout.passes(1, 3);
}

/// One of several first runs makes a program. The others wait for it, and say so: it is not made before they do. Two of
/// the four print a roll, and each program is made once.
#[test]
fn four_first_runs() {
    let checkout = Checkout::new("four_first_runs");
    checkout.write("kit/hold", "");
    let said = [0, 1, 2, 3].map(|run| checkout.file(&format!("said{run}")));
    let options: [&[&str]; 4] = [&[], &["--roll"], &["--roll"], &[]];
    let start = |index: usize| -> Child {
        let mut script = checkout.script("till");
        script.args(options[index]);
        script.stdin(Stdio::null()).stdout(Stdio::piped());
        script.stderr(File::create(&said[index]).expect("a file"));
        script.spawn().expect("the script starts")
    };
    let runs = [0, 1, 2, 3].map(start);
    let waits = |said: &&PathBuf| {
        let said = fs::read_to_string(said).expect("a file");
        said.starts_with("till: waiting for another run")
    };
    let started = Instant::now();
    while said.iter().filter(waits).count() < 3 {
        assert!(started.elapsed() < Duration::from_secs(120), "none waits");
        sleep(Duration::from_millis(10));
    }
    fs::remove_file(checkout.file("kit/hold")).expect("a file");
    for (run, options) in runs.into_iter().zip(options) {
        let output = run.wait_with_output().expect("the script ends");
        let printed = if options.is_empty() { page(1) } else { roll(1) };
        assert_eq!(String::from_utf8_lossy(&output.stdout), printed);
    }
    assert_eq!(checkout.makings(), 2);
}

#[test]
fn not_made() {
    let checkout = Checkout::new("not_made");
    checkout.write("kit/broken", "");
    let said = |output: Output| String::from_utf8_lossy(&output.stderr).into_owned();
    let output = checkout.run();
    assert_eq!(output.status.code(), Some(3), "{output:?}");
    assert!(said(output).contains("could not be made: rt: FAILED: a, see "));
    fs::remove_dir_all(checkout.file("target")).expect("a folder");
    checkout.write("target", "");
    fails(checkout.run(), "nothing can be written to");
    // As it is said of a source that cannot be read; root can read every one.
    let why = "crates/a/src/lib.rt: Permission denied";
    let tool = format!("#!/bin/sh\necho 'sha256sum: {why}' >&2\nexit 1\n");
    checkout.write_executable("kit/sha256sum", &tool);
    let why = format!("the sources cannot be read: {why}");
    fails(checkout.run(), &why);
    fs::remove_file(checkout.file("crates.txt")).expect("a file");
    fails(checkout.run(), "the script belongs beside crates.txt");
}

/// A program that is made needs no kit. Where it is to be made, or a tool is gone, the script says what is missing.
#[test]
fn without_the_kit() {
    let checkout = Checkout::new("without_the_kit");
    let tools = checkout.file("tools");
    fs::create_dir(&tools).expect("a folder");
    let path = std::env::var("PATH").expect("a PATH");
    let names = "cat dirname find head readlink sed sha256sum sort bash";
    for name in names.split(' ') {
        let mut files = path.split(':').map(|folder| Path::new(folder).join(name));
        let file = files.find(|file| file.exists());
        symlink(file.expect(name), tools.join(name)).expect("a link");
    }
    let without_kit = |options: &[&str]| {
        let mut command = Command::new("bash");
        command.arg(checkout.file("till")).env("PATH", &tools);
        run(command.args(options), b"")
    };
    let without = || without_kit(&[]);
    checkout.rolls(1, 1);
    prints(without_kit(&["--roll"]), 0, &roll(1));
    fails(without(), "the Rattle kit is missing");
    checkout.passes(1, 2);
    prints(without(), 0, &page(1));
    for name in names.split(' ').filter(|&name| name != "bash") {
        let (tool, away) = (tools.join(name), checkout.file("away"));
        fs::rename(&tool, &away).expect("a tool");
        let why = format!("a tool is missing: no command '{name}'");
        fails(without(), &why);
        fs::rename(&away, &tool).expect("a tool");
    }
    checkout.write("crates/a/src/lib.rt", "2\n");
    fails(without(), "the Rattle kit is missing");
}

/// Where the archive cannot be built, the tests that run meanwhile are stopped, with the processes that they started.
#[test]
fn tests_without_the_archive() {
    let checkout = Checkout::new("tests_without_the_archive");
    for folder in ["tests", "crates/till_c"] {
        fs::create_dir(checkout.file(folder)).expect("a folder");
    }
    fs::copy(root().join("tests/run"), checkout.file("tests/run")).expect("a copy");
    checkout.write_executable(
        "kit/rt",
        "#!/bin/sh\nsleep 0.5\necho rt: FAILED: a\nexit 1\n",
    );
    let cargo = "#!/bin/sh\nsh -c 'sleep 20; : >\"$0\"' \"$(dirname \"$0\")/went_on\" || exit 1\n";
    checkout.write_executable("kit/cargo", cargo);
    // This waits for all that could still write to its pipes.
    let output = run(&mut checkout.script("tests/run"), b"");
    assert_eq!(output.status.code(), Some(1), "{output:?}");
    let said = String::from_utf8_lossy(&output.stderr);
    assert!(
        said.contains("rt: FAILED: a\ntests: the archive could not"),
        "{said}"
    );
    assert!(!checkout.file("kit/went_on").exists(), "the tests went on");
}

/// A page or a roll that is cut short, or that comes with a failure, is no verdict.
#[test]
fn a_program_that_fails() {
    let checkout = Checkout::new("a_program_that_fails");
    let columns = "printf '%-42s\\n' V,pass,1";
    let [fails, unended, one_short] = ["E; exit 1", "; printf %-42s E", "; printf '%-41s\\n' E"]
        .map(|end| format!("{columns} {end}"));
    let programs: [(&[&str], &str, &str); 12] = [
        (&[], "echo V,pass,1; echo E; exit 1", "the program failed"),
        (&[], "kill -9 $$", "the program failed"),
        (&[], "printf 'V,pass,1\\nE'", "no whole page"),
        (&[], "echo V,pass,1", "no whole page"),
        (&[], "printf F,2,1", "no whole page"),
        (&[], "true", "no whole page"),
        (&["--roll"], &fails, "the program failed"),
        (&["--roll"], &unended, "no whole roll"),
        (&["--roll"], &one_short, "no whole roll"),
        (&["--roll"], columns, "no whole roll"),
        (&["--roll"], "printf F,2,1", "no whole roll"),
        (&["--roll"], "true", "no whole roll"),
    ];
    for (options, program, why) in programs {
        let made = format!("#!/bin/sh\ncat >/dev/null\n{program}\n");
        checkout.write("program", &made);
        let kit = KIT.replace("    chmod", "    cp program \"$program\"\n    chmod");
        checkout.write("kit/rt", &kit);
        checkout.write("crates/a/src/lib.rt", program);
        let output = checkout.run_with(options);
        let said = String::from_utf8_lossy(&output.stderr).into_owned();
        assert_eq!(output.status.code(), Some(3), "{program}: {output:?}");
        assert!(
            output.stdout.is_empty() && said.contains(why),
            "{program}: {said}"
        );
    }
}
