//! The script `till` as the tests call it, and checkouts in which another kit makes its programs.
use std::fs::{self, File};
use std::os::unix::fs::PermissionsExt;
use std::path::{Path, PathBuf};
use std::process::{Command, Output};

use second::book_program;

use crate::bench::{root, Folder};
use crate::command::run;

/// Status 3: the script says why and prints nothing.
pub fn fails(output: Output, why: &str) {
    assert_eq!(output.status.code(), Some(3), "{output:?}");
    assert!(output.stdout.is_empty(), "{output:?}");
    let said = String::from_utf8_lossy(&output.stderr);
    assert!(said.starts_with("till: ") && said.contains(why), "{said}");
}

pub fn script() -> Command {
    Command::new(root().join("till"))
}

pub fn example(name: &str) -> PathBuf {
    root().join("examples").join(name)
}

/// What a line of a shell makes of the script and a model that passes.
pub fn shell(line: &str) -> Output {
    let mut shell = Command::new("sh");
    shell.args(["-c", line]).arg(root().join("till"));
    run(shell.arg(example("released.txt")), b"")
}

/// What a line of bash makes of the script, a book and a model.
pub fn bash(line: &str, book: &Path, model: &str) -> Output {
    let mut bash = Command::new("bash");
    bash.args(["-o", "pipefail", "-c", line]);
    let words = [root().join("till"), book.to_path_buf(), example(model)];
    run(bash.args(words), b"")
}

// ---- books

/// A folder with a book in the file `book`.
pub fn with_book(name: &str, book: &[u8]) -> (Folder, PathBuf) {
    let folder = Folder::new(name);
    let file = folder.0.join("book");
    fs::write(&file, book).expect("a file");
    (folder, file)
}

pub fn own_book(name: &str) -> Vec<u8> {
    book_program(&fs::read(example(name)).expect("a text"))
}

// ---- with another kit

/// Stands in for the kit: each program that it makes passes each text, and tells the source's number as the rank; each
/// byte of its book is this number, and it accepts every book. It notes the name of each program, and as the kit does it
/// links none that is there with the source's stamp.
pub const KIT: &str = r#"#!/bin/sh
kit=$(dirname "$0")
case $1 in
version) cat "$kit/version" ;;
run)
    name=$(basename "$PWD")
    cd ../..
    program=crates/$name/out/$name
    echo "$name" >>"$kit/makings"
    rank=$(cat crates/a/src/lib.rt)
    while [ -f "$kit/hold" ]; do sleep 0.01; done
    [ ! -f "$kit/broken" ] || { echo "rt: FAILED: a" && exit 1; }
    [ ! -f "$program" ] || [ "$rank" != "$(cat "$program.stamp")" ] || exit 0
    case $name in
    till) prints="printf '%s\n' V,pass,$rank E" ;;
    till_roll) prints="printf '%-42s\n' V,pass,$rank E" ;;
    till_book) prints="head -c 65536 /dev/zero | tr '\0' $rank" ;;
    till_check) prints=: ;;
    esac
    mkdir -p "crates/$name/out"
    printf '#!/bin/sh\ncat >/dev/null\n%s\n' "$prints" >"$program"
    chmod +x "$program"
    echo "$rank" >"$program.stamp"
    [ ! -f "$kit/edit" ] || mv "$kit/edit" crates/a/src/lib.rt
    ;;
esac
"#;

/// A checkout with the script, one source and that kit.
pub struct Checkout(Folder);

impl Checkout {
    pub fn new(name: &str) -> Checkout {
        let checkout = Checkout(Folder::new(name));
        for name in ["a/src", "till", "till_roll", "till_book", "till_check"] {
            let folder = checkout.file("crates").join(name);
            fs::create_dir_all(folder).expect("a folder");
        }
        fs::create_dir(checkout.file("kit")).expect("a folder");
        fs::copy(root().join("till"), checkout.file("till")).expect("a copy");
        let files = [
            ("crates.txt", "a:\n"),
            ("crates/a/src/lib.rt", "1\n"),
            ("kit/version", "first\n"),
        ];
        for (name, contents) in files {
            checkout.write(name, contents);
        }
        checkout.write_executable("kit/rt", KIT);
        checkout
    }

    pub fn file(&self, name: &str) -> PathBuf {
        self.0 .0.join(name)
    }

    pub fn write(&self, name: &str, contents: &str) {
        fs::write(self.file(name), contents).expect("a file");
    }

    pub fn write_executable(&self, name: &str, contents: &str) {
        self.write(name, contents);
        let executable = fs::Permissions::from_mode(0o755);
        fs::set_permissions(self.file(name), executable).expect("a file");
    }

    /// As if the file had been written long ago.
    pub fn write_old(&self, name: &str, contents: &str) {
        self.write(name, contents);
        let file = File::options()
            .write(true)
            .open(self.file(name))
            .expect("a file");
        file.set_modified(std::time::UNIX_EPOCH).expect("a time");
    }

    /// A script of the checkout, which finds that kit.
    pub fn script(&self, name: &str) -> Command {
        let path = std::env::var("PATH").expect("a PATH");
        let path = format!("{}:{path}", self.file("kit").display());
        let mut script = Command::new("bash");
        script.arg(self.file(name)).env("PATH", path);
        script
    }

    /// The script's output on a text that the program does not look at.
    pub fn run(&self) -> Output {
        self.run_with(&[])
    }

    pub fn run_with(&self, options: &[&str]) -> Output {
        run(self.script("till").args(options), b"")
    }

    pub fn makings(&self) -> usize {
        let makings = fs::read_to_string(self.file("kit/makings"));
        makings.map_or(0, |makings| makings.lines().count())
    }

    /// The script passes a text with this rank; by now programs have been made so many times.
    pub fn passes(&self, rank: u16, makings: usize) {
        self.passes_with(&[], page(rank), makings);
    }

    /// The same with a roll.
    pub fn rolls(&self, rank: u16, makings: usize) {
        self.passes_with(&["--roll"], roll(rank), makings);
    }

    pub fn passes_with(&self, options: &[&str], printed: String, makings: usize) {
        let output = self.run_with(options);
        assert_eq!(output.status.code(), Some(0), "{output:?}");
        assert_eq!(String::from_utf8_lossy(&output.stdout), printed);
        assert_eq!(self.makings(), makings, "{output:?}");
    }
}

/// What that kit's programs print.
pub fn page(rank: u16) -> String {
    format!("V,pass,{rank}\nE\n")
}

pub fn roll(rank: u16) -> String {
    format!("{:<42}\n{:<42}\n", format!("V,pass,{rank}"), "E")
}
