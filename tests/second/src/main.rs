//! Reads a text from standard input and prints its page or its `F` line; with
//! `--roll` its receipt roll in place of the page, with `--book` the bytes of
//! its book. With `--check BOOK` it prints nothing if the book in that file is
//! sound, and otherwise the `F` line.

use std::io::{self, Read, Write};

use second::store::BOOK;

/// What is printed for a text.
type Program = Box<dyn Fn(&[u8]) -> Vec<u8>>;

fn main() -> io::Result<()> {
    let arguments: Vec<String> = std::env::args().skip(1).collect();
    let arguments: Vec<&str> = arguments.iter().map(String::as_str).collect();
    let printed: Program = match arguments[..] {
        [] => Box::new(second::program),
        ["--roll"] => Box::new(second::roll_program),
        ["--book"] => Box::new(second::book_program),
        ["--check", file] => {
            let book = std::fs::read(file)?;
            if book.len() != BOOK {
                return Err(io::Error::other("a book has 65,536 bytes"));
            }
            Box::new(move |text| second::check_program(text, &book))
        }
        _ => {
            let known = "the arguments are --roll, --book, or --check and a book";
            return Err(io::Error::other(known));
        }
    };
    let mut text = Vec::new();
    io::stdin().read_to_end(&mut text)?;
    let mut out = io::stdout();
    out.write_all(&printed(&text))?;
    out.flush()
}
