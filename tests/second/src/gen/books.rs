//! Books of plays (request (v) of document 02): sound ones of every kind, and
//! damaged ones.

mod changes;
mod damage;
mod sound;

pub use changes::{mutated_book, scrap_book};
pub use damage::{bad_books, BadBook};
pub use sound::{cut_book, sound_book, sound_books, with_silent_entries};

use super::{bad_stores, Rng};
use crate::book::{answers, Entry, Moves, Side};
use crate::store::{Model, MOST_STATES, TABLE};

/// A store that is not good, and a book of any kind beside it.
#[derive(Debug, Clone)]
pub struct BadStoreBook {
    pub what: &'static str,
    pub store: Vec<u16>,
    pub book: Vec<u8>,
}

/// Each damaged store of a model with a book beside it: sound or not of that
/// model, or of random bytes. All get 22, which is tested before the book.
pub fn bad_store_books(rng: &mut Rng, model: &Model) -> Vec<BadStoreBook> {
    let mut list = Vec::new();
    for (what, store) in bad_stores(model) {
        let book = match rng.below(3) {
            0 => sound_book(rng, model),
            1 => {
                let book = sound_book(rng, model);
                mutated_book(rng, model, &book)
            }
            _ => scrap_book(rng),
        };
        list.push(BadStoreBook { what, store, book });
    }
    list
}

/// The pair of an entry's number.
fn pair_of(number: usize) -> (usize, usize) {
    (number / MOST_STATES, number % MOST_STATES)
}

/// Numbers of the entries that do not count as absent, rising.
fn present(book: &[u8]) -> Vec<usize> {
    (0..TABLE)
        .filter(|&number| !Entry::of(book, number).is_absent())
        .collect()
}

/// Whether both numbers of a pair are states.
fn of_states(model: &Model, (p, q): (usize, usize)) -> bool {
    p.max(q) < usize::from(model.states)
}

/// Numbers of the entries of the pairs to which the answers to an entry's
/// opening lead; none if its side is neither 1 nor 2.
fn rests_on(moves: &Moves, book: &[u8], number: usize) -> Vec<usize> {
    let entry = Entry::of(book, number);
    let Some(side) = Side::of(entry.side) else {
        return Vec::new();
    };
    let next = answers(moves, pair_of(number), side, entry.opening()).into_iter();
    next.map(|(p, q)| MOST_STATES * p + q).collect()
}
