//! What a test shows: its seed, and the case at which it fails as a text that
//! can be run again.

use std::io::{self, Write};
use std::{iter, thread};

use super::Rng;
use crate::book::{book_of, Entry, ENTRY};
use crate::store::{Model, TABLE};

/// A generator for a test. Its seed is shown, also where the test passes: it
/// is written past the harness, which keeps what a passing test prints.
pub fn seeded(test: &str, seed: u64) -> Rng {
    let line = format!("{test}: seed {seed}\n");
    io::stderr()
        .write_all(line.as_bytes())
        .expect("the seed is shown");
    Rng::new(seed)
}

/// A text as a failing test shows it: the command that prints it again, byte
/// for byte.
pub fn shown(text: &[u8]) -> String {
    let mut command = String::from("printf '%b' '");
    for &byte in text {
        match byte {
            b'\\' => command += "\\\\",
            b'\'' => command += "\\x27",
            b'\n' | b' '..=b'~' => command.push(char::from(byte)),
            _ => command += &format!("\\x{byte:02x}"),
        }
    }
    command + "'"
}

/// A store as a failing test shows it: the text of the model that it was made
/// of, and the numbers that were changed or added.
pub fn shown_store(model: &Model, store: &[u16]) -> String {
    let good = model.to_store();
    let made = format!("store of {}", shown(&model.to_text()));
    if store == good {
        return made;
    }
    let (length, changed) = (store.len(), differing(store, &good));
    format!("{made}\nof {length} numbers, changed at (place, number): {changed:?}")
}

/// A store that was made of no model.
pub fn shown_numbers(store: &[u16]) -> String {
    let numbers = differing(store, &[]);
    let length = store.len();
    format!("store of {length} numbers, all 0 but (place, number): {numbers:?}")
}

/// A book as a failing test shows it: the text of the model, and the entries
/// that are not as in our own book of it.
pub fn shown_book(model: &Model, book: &[u8]) -> String {
    let own = book_of(model);
    let differing: Vec<(usize, [u8; ENTRY])> = (0..TABLE)
        .map(|number| (number, Entry::of(book, number)))
        .filter(|&(number, entry)| entry != Entry::of(&own, number))
        .map(|(number, entry)| (number, entry.bytes()))
        .collect();
    let (made, length) = (shown(&model.to_text()), book.len());
    format!("book of {length} bytes for {made}\nwith (entry, bytes): {differing:?}")
}

/// Places and numbers where a store differs from another, which is 0 past its
/// end.
fn differing(store: &[u16], other: &[u16]) -> Vec<(usize, u16)> {
    let other = other.iter().copied().chain(iter::repeat(0));
    let both = store.iter().copied().zip(other).enumerate();
    both.filter(|(_, (number, old))| number != old)
        .map(|(place, (number, _))| (place, number))
        .collect()
}

/// The case that a test is at. It is shown if the test fails before this is
/// dropped.
#[must_use]
pub struct Case<F: Fn() -> String>(F);

pub fn case<F: Fn() -> String>(shown: F) -> Case<F> {
    Case(shown)
}

/// The case of a model.
pub fn model_case(model: &Model) -> Case<impl Fn() -> String + '_> {
    case(|| format!("model: {}", shown(&model.to_text())))
}

/// The case of a text.
pub fn text_case(text: &[u8]) -> Case<impl Fn() -> String + '_> {
    case(|| format!("text: {}", shown(text)))
}

/// The case of a book, which has the bytes of all entries.
pub fn book_case<'a>(model: &'a Model, book: &'a [u8]) -> Case<impl Fn() -> String + 'a> {
    case(|| shown_book(model, book))
}

impl<F: Fn() -> String> Drop for Case<F> {
    fn drop(&mut self) {
        if thread::panicking() {
            eprintln!("failed at {}", (self.0)());
        }
    }
}
