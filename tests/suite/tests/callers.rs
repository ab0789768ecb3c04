//! Callers in C and Rust: the header compiles without a warning, and the README's lines make whole programs.
use std::fs;
use std::fs::File;
use std::io::{self, Write};
use std::os::unix::fs::symlink;
use std::path::Path;
use std::process::{Command, Output, Stdio};

use second::gen;
use suite::bench::{examples, root, Folder, WORKED, WORKED_PAGE};
use suite::lists;
use suite::operations::ALL;

/// A folder with what the README's lines name, and a target folder of its own.
fn folder(name: &str) -> Folder {
    let folder = Folder::new(name);
    fs::create_dir_all(folder.0.join("target")).expect("a folder");
    for part in ["crates", "examples"] {
        let part_of_root = root().join(part).canonicalize().expect("a folder");
        symlink(part_of_root, folder.0.join(part)).expect("a link");
    }
    folder
}

/// What a line of words does in a folder.
fn output(line: &str, folder: &Path) -> Output {
    let words: Vec<&str> = line.split_whitespace().collect();
    let mut command = Command::new(words[0]);
    let output = command.args(&words[1..]).current_dir(folder).output();
    output.unwrap_or_else(|error| panic!("{line}: {error}"))
}

/// The line makes its program without a word.
fn make(line: &str, folder: &Path) {
    let made = output(line, folder);
    assert!(made.status.success(), "{line}\n{made:?}");
    assert!(made.stdout.is_empty() && made.stderr.is_empty(), "{made:?}");
}

/// The README's line that begins so.
fn readme_line(start: &str) -> String {
    let readme = fs::read_to_string(root().join("README.md")).expect("the README");
    let line = readme.lines().find(|line| line.trim().starts_with(start));
    line.expect("the README has the line").trim().to_string()
}

/// What the README's callers say where the page begins with this line, and their status.
fn told(first_line: &str) -> (String, i32) {
    let fields: Vec<&str> = first_line.split(',').collect();
    match fields[..] {
        ["V", "pass", rank] => (format!("passed, rank {rank}\n"), 0),
        ["V", "refuse", step, depth] => (format!("refused at step {step}, depth {depth}\n"), 1),
        ["F", number, place] => (format!("not read: number {number}, place {place}\n"), 2),
        _ => panic!("{first_line}"),
    }
}

/// What the README's caller says of an input, and its status.
fn judged(folder: &Folder, input: &Path, output: Stdio) -> (String, Option<i32>) {
    let mut judge = Command::new(folder.0.join("target/judge"));
    judge
        .stdin(File::open(input).expect("an input"))
        .stdout(output);
    let child = judge
        .stderr(Stdio::null())
        .spawn()
        .expect("the program starts");
    let judged = child.wait_with_output().expect("the program ends");
    (
        String::from_utf8(judged.stdout).expect("words"),
        judged.status.code(),
    )
}

/// The README's line is run as it stands, with more words for the compiler; then its program on every example, on an
/// input that cannot be read and with no place to write to.
fn readme_caller(name: &str, start: &str, words: &str) {
    let folder = folder(name);
    make(&format!("{} {words}", readme_line(start)), &folder.0);
    for (file, _, page) in examples() {
        let page = String::from_utf8(page).expect("a page");
        let (line, status) = told(page.lines().next().expect("a line"));
        let judged = judged(&folder, &file, Stdio::piped());
        assert_eq!(judged, (line, Some(status)), "{file:?}");
    }
    assert_eq!(
        judged(&folder, &folder.0, Stdio::piped()),
        (String::new(), Some(3))
    );
    let full = File::options()
        .write(true)
        .open("/dev/full")
        .expect("a device");
    let worked = root().join("examples/worked.txt");
    assert_eq!(judged(&folder, &worked, full.into()).1, Some(3));
}

#[test]
fn the_caller_in_c() {
    readme_caller(
        "caller_c",
        "cc examples/judge.c ",
        "-std=c11 -Wall -Wextra -Werror",
    );
}

/// On a terminal the caller in C writes at the end of the line: what fails there fails the answer too.
#[test]
fn the_caller_in_c_line_by_line() {
    let folder = folder("caller_c_lines");
    let lines = "#include <stdio.h>\n\
        __attribute__((constructor)) static void by_line(void) { setvbuf(stdout, NULL, _IOLBF, 4096); }\n";
    fs::write(folder.0.join("lines.c"), lines).expect("a file");
    let line = readme_line("cc examples/judge.c ");
    make(&format!("{line} lines.c"), &folder.0);
    let full = File::options().write(true).open("/dev/full");
    let worked = root().join("examples/worked.txt");
    let (_, status) = judged(&folder, &worked, full.expect("a device").into());
    assert_eq!(status, Some(3));
}

/// The header and the caller are C++ too. A machine need not have a compiler for it.
#[test]
fn the_caller_in_cpp() {
    if Command::new("c++").arg("--version").output().is_err() {
        // Shown although the test passes, as a line that is printed is not.
        let line = b"callers::the_caller_in_cpp: skipped, for there is no command 'c++'\n";
        io::stderr().write_all(line).expect("the skip is shown");
        return;
    }
    let folder = folder("caller_cpp");
    let line = "c++ -x c++ examples/judge.c -I crates/till_c -std=c++11 -Wall -Wextra -Werror -c -o target/judge.o";
    make(line, &folder.0);
    make(
        "c++ target/judge.o crates/till_c/out/libtill_c.a -o target/judge",
        &folder.0,
    );
    let worked = root().join("examples/worked.txt");
    let (line, status) = told("V,refuse,1,2");
    assert_eq!(
        judged(&folder, &worked, Stdio::piped()),
        (line, Some(status))
    );
}

#[test]
fn the_caller_in_rust() {
    readme_caller("caller_rust", "rustc examples/judge.rs ", "-D warnings");
}

/// The worked example by the header's names. That C can call every function, `the_needs` shows.
#[test]
fn the_header() {
    let printed = printed(&program("worked", ""), b"");
    assert_eq!(
        String::from_utf8_lossy(&printed),
        String::from_utf8_lossy(WORKED_PAGE)
    );
}

/// A folder with the program of this name in C, made with these lines in the file `calls.h` beside it.
fn program(name: &str, calls: &str) -> Folder {
    let folder = folder(name);
    fs::write(folder.0.join("calls.h"), calls).expect("a file");
    let program = format!("{name}.c");
    let file = root().join("tests/suite/tests").join(&program);
    fs::copy(file, folder.0.join(&program)).expect("a copy");
    let options = "-I crates/till_c -std=c11 -Wall -Wextra -Werror";
    let archive = "crates/till_c/out/libtill_c.a";
    make(&format!("cc {program} {archive} {options}"), &folder.0);
    folder
}

/// What the folder's program prints on an input.
fn printed(folder: &Folder, input: &[u8]) -> Vec<u8> {
    let file = folder.0.join("input");
    fs::write(&file, input).expect("a file");
    let mut command = Command::new(folder.0.join("a.out"));
    command.stdin(File::open(file).expect("an input"));
    let printed = command.output().expect("the program runs");
    assert!(printed.status.success(), "{printed:?}");
    printed.stdout
}

/// In C: every list, and a function for each operation that calls it.
fn calls() -> String {
    let functions = ALL.iter().map(|operation| {
        let (name, call) = (operation.function(), operation.called());
        format!("static void call_{name}(void) {{ {call} }}\n")
    });
    let rows = ALL.iter().map(|operation| {
        let name = operation.function();
        format!("    {{\"{name}\", call_{name}}},\n")
    });
    [
        &lists::declared(),
        &functions.collect::<String>(),
        "static const struct {\n    const char *name;\n    void (*call)(void);\n} calls[] = {\n",
        &rows.collect::<String>(),
        "};\n",
    ]
    .concat()
}

/// A kB, as the header and the README take it.
const KB: usize = 1_000;

/// How many kB of read-only memory the archive stays below. The header says it, and the README says the same.
fn read_only_kilobytes() -> usize {
    let said_by = |file: &str| -> usize {
        let text = fs::read_to_string(root().join(file)).expect("a file");
        let words: Vec<&str> = text.split_whitespace().collect();
        let said = ["code", "and", "constants", "take", "less", "than"];
        let place = words.windows(6).position(|words| words == said);
        let number = words[place.expect(file) + 6];
        number.parse().expect("a number")
    };
    let [header, readme] = ["crates/till_c/till.h", "README.md"].map(said_by);
    assert_eq!(header, readme);
    header
}

/// What the header says for firmware: the symbols that the archive needs, its writable data, its code with its
/// constants, and the stack.
#[test]
fn the_needs() {
    let symbols = output("nm crates/till_c/out/libtill_c.a", &root());
    let symbols = String::from_utf8(symbols.stdout).expect("symbols");
    let of_kind = |kinds: &str| -> Vec<&str> {
        let lines = symbols.lines().map(|line| line.split_whitespace().rev());
        let symbols = lines.filter_map(|mut words| Some((words.next()?, words.next()?)));
        let of_kind = symbols.filter(|(_, kind)| kind.len() == 1 && kinds.contains(kind));
        of_kind.map(|(name, _)| name).collect()
    };
    assert_eq!(of_kind("U"), ["memcpy", "memset"]);
    assert_eq!(of_kind("BbCDdGgSsVvWw"), [""; 0]);
    let sizes = output("size crates/till_c/out/libtill_c.a", &root());
    let sizes = String::from_utf8(sizes.stdout).expect("sizes");
    let sizes = sizes.lines().skip(1).flat_map(str::split_whitespace);
    let sizes: Vec<usize> = sizes.map_while(|size| size.parse().ok()).collect();
    let most = read_only_kilobytes() * KB;
    assert!(0 < sizes[0] && sizes[0] < most, "{sizes:?}");
    the_stack();
}

/// The stack that each operation takes: on small texts, and on models at the limits of every kind. Some have no ticks;
/// of the others some have moves that have no room as sets, and some have many answers to an opening.
fn the_stack() {
    let mut rng = gen::seeded("callers::the_stack", 9_100);
    let ticks = include_bytes!("../../../examples/tick_betrays.txt");
    let mut texts = vec![("worked", WORKED.to_vec()), ("a tick", ticks.to_vec())];
    let models = [
        gen::limit_models(&mut rng),
        gen::tick_limit_models(&mut rng),
    ];
    let models = models.into_iter().flatten();
    texts.extend(models.map(|(what, model)| (what, model.to_text())));
    let program = program("stack", &calls());
    for (what, text) in texts {
        let stack = String::from_utf8(printed(&program, &text)).expect("lines");
        let functions = stack.lines().map(|line| taken(what, line));
        let all = ALL.iter().map(|operation| operation.function());
        assert!(functions.eq(all), "{what}");
    }
}

/// The function of a line that tells how much stack it takes, which is not too much.
fn taken<'a>(what: &str, line: &'a str) -> &'a str {
    let (name, bytes) = line.split_once(' ').expect("a name and a number");
    let most = match name {
        "till_reach" | "till_run" | "till_write" => KB,
        "till_read" => 9 * KB,
        "till_book" => 118 * KB,
        "till_check" => 128 * KB,
        _ => 108 * KB,
    };
    let bytes: usize = bytes.parse().expect("a number");
    assert!(0 < bytes && bytes < most, "{what}, {line}");
    name
}
