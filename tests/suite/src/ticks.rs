//! Tills with a silent action, and their books.
use second::book::entry_number;
use second::gen::{self, Rng};
use second::Model;

use crate::bench::text_of;
use crate::books::Book;

/// The actions of these tills.
pub const ACTIONS: &str = "A,L,scan\nA,H,print\nA,D,close\nA,T,tick\n";
pub const SCAN: u16 = 0;
pub const PRINTING: u16 = 1;
pub const CLOSE: u16 = 2;
pub const TICK: u16 = 3;

/// The action of a silent opening.
pub const SILENTLY: u8 = 255;

/// A text with start 0 and these steps.
pub fn ticking(states: u16, steps: &[(u16, u16, u16)]) -> Vec<u8> {
    text_of(states, ACTIONS, steps)
}

/// The models at the limits that are made with ticks, but not those that were made without.
pub fn shapes_at_the_limits(rng: &mut Rng) -> Vec<Model> {
    let models = gen::tick_limit_models(rng).into_iter();
    let made_with_ticks = models.filter(|&(what, _)| what != "silenced");
    made_with_ticks.map(|(_, model)| model).collect()
}

/// Entries of a book, each with its pair.
pub type Entries<'a> = &'a [(usize, usize, [u8; 4])];

/// The book with just these entries.
pub fn with_entries(entries: Entries) -> Book {
    let none = Book::without_entries();
    let put = |book: Book, &(p, q, entry): &_| book.with(entry_number(p, q), entry);
    entries.iter().fold(none, put)
}

/// The steps of the example `tick_betrays`, of four states: after the print the timer may switch the scanner off. 2
/// comes to 3 silently; 0 can only stay, and scans.
pub const BETRAYS: [(u16, u16, u16); 6] = [
    (0, SCAN, 1),
    (0, PRINTING, 2),
    (1, CLOSE, 0),
    (2, SCAN, 1),
    (2, TICK, 3),
    (3, CLOSE, 0),
];
/// Its book.
pub const BETRAYS_BOOK: Entries = &[
    (0, 1, [1, 0, 1, 1]),
    (0, 2, [2, SILENTLY, 3, 2]),
    (0, 3, [1, 0, 1, 1]),
    (1, 0, [2, 0, 1, 1]),
    (1, 2, [2, 0, 1, 1]),
    (2, 0, [1, SILENTLY, 3, 2]),
    (2, 1, [1, 0, 1, 1]),
    (2, 3, [1, 0, 1, 1]),
    (3, 0, [2, 0, 1, 1]),
    (3, 2, [2, 0, 1, 1]),
];
