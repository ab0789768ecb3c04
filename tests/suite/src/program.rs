//! The programs, and what the second checker prints in their place.
use second::gen::{self, shown, Rng};
use second::store::BOOK;
use std::process::Command;
use std::time::Duration;

use crate::bench::root;
use crate::command::run_in_pieces;

/// The most bytes that a text may have.
pub const LONGEST: usize = 16_384;

/// A program, and what the second checker prints in its place.
pub struct Program {
    pub name: &'static str,
    second: fn(&[u8]) -> Vec<u8>,
}

pub const TILL: Program = Program {
    name: "till",
    second: second::program,
};
pub const TILL_ROLL: Program = Program {
    name: "till_roll",
    second: second::roll_program,
};
pub const TILL_BOOK: Program = Program {
    name: "till_book",
    second: second::book_program,
};
/// It takes the book before the text.
pub const TILL_CHECK: Program = Program {
    name: "till_check",
    second: |input| {
        let (book, text) = input.split_at(BOOK);
        second::check_program(text, book)
    },
};

impl Program {
    /// What is printed of an input that comes in pieces.
    pub fn in_pieces(&self, pieces: &[&[u8]], pause: Duration) -> Vec<u8> {
        let mut program = Command::new(root().join("target/bin").join(self.name));
        let output = run_in_pieces(&mut program, pieces, pause);
        assert!(output.status.success(), "{output:?}");
        assert!(output.stderr.is_empty(), "{output:?}");
        output.stdout
    }

    pub fn printed(&self, text: &[u8]) -> Vec<u8> {
        self.in_pieces(&[text], Duration::ZERO)
    }

    /// The program prints what the second checker prints.
    pub fn same(&self, text: &[u8]) -> Vec<u8> {
        self.same_in_pieces(&[text], Duration::ZERO)
    }

    pub fn same_in_pieces(&self, pieces: &[&[u8]], pause: Duration) -> Vec<u8> {
        let (name, text) = (self.name, pieces.concat());
        let lengths = || pieces.iter().map(|piece| piece.len()).collect::<Vec<_>>();
        let _case = gen::case(|| {
            let (text, lengths) = (shown(&text), lengths());
            format!("{name}, text: {text}\nin pieces of {lengths:?}")
        });
        let printed = self.in_pieces(pieces, pause);
        let expected = (self.second)(&text);
        assert!(
            printed == expected,
            "printed:\n{}\nexpected:\n{}",
            shown(&printed),
            shown(&expected)
        );
        printed
    }
}

/// A text in pieces of up to so many bytes.
pub fn cut<'a>(rng: &mut Rng, text: &'a [u8], most: usize) -> Vec<&'a [u8]> {
    let (mut pieces, mut rest): (Vec<&[u8]>, &[u8]) = (Vec::new(), text);
    while !rest.is_empty() {
        let (piece, after) = rest.split_at(rng.between(1, most).min(rest.len()));
        pieces.push(piece);
        rest = after;
    }
    pieces
}
