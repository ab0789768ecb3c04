//! Check: whether a book is sound (request (v) of document 02).

use crate::book::{answers, entry_number, moves_of, Entry, Moves, Side};
use crate::store::{good, BOOK, MOST_STATES, STORE};
use crate::{lent, read, Refusal};

/// Accepts exactly the sound books. Any other is refused with the number of
/// its first bad entry.
pub fn check(store: &[u16], book: &[u8]) -> Result<(), Refusal> {
    lent(&[(store.len(), STORE), (book.len(), BOOK)])?;
    let model = good(store)?;
    match bad_entries(&model.moves(), book).first() {
        Some(&number) => Err(Refusal::new(34, number as u64)),
        None => Ok(()),
    }
}

/// The numbers of all entries that keep a book from being sound, rising.
///
/// Entries of numbers that are no states are held to the same rule.
pub fn bad_entries(moves: &Moves, book: &[u8]) -> Vec<usize> {
    let mut bad = Vec::new();
    for p in 0..MOST_STATES {
        for q in 0..MOST_STATES {
            let entry = Entry::of(book, entry_number(p, q));
            if !entry.is_absent() && !holds(moves, book, (p, q), entry) {
                bad.push(entry_number(p, q));
            }
        }
    }
    bad
}

/// Whether the side of a pair's entry is 1 or 2, its opening is in the model,
/// and every answer leads to a pair that has an entry of lower depth.
fn holds(moves: &Moves, book: &[u8], pair: (usize, usize), entry: Entry) -> bool {
    let Some(side) = Side::of(entry.side) else {
        return false;
    };
    let (opener, _) = side.turned(pair);
    let told_apart = |&(p, q): &(usize, usize)| {
        let next = Entry::of(book, entry_number(p, q));
        !next.is_absent() && next.depth < entry.depth
    };
    moves_of(moves, opener)
        .binary_search(&entry.opening())
        .is_ok()
        && answers(moves, pair, side, entry.opening())
            .iter()
            .all(told_apart)
}

/// What the program prints for a text and a book: nothing if the book is
/// accepted, otherwise the `F` line.
pub fn check_program(text: &[u8], book: &[u8]) -> Vec<u8> {
    let mut store = vec![0; STORE];
    let answer = read(text, &mut store);
    match answer.and_then(|()| check(&store, book)) {
        Ok(()) => Vec::new(),
        Err(refusal) => refusal.line(),
    }
}
