//! Books that are not sound, of which it is known which entry is the first bad
//! one.

mod absent;
mod present;

use std::collections::BTreeSet;

use super::{of_states, pair_of, present, rests_on};
use crate::book::{moves_of, Entry, Moves};
use crate::gen::{some_of, Rng};
use crate::rank::ranks_of;
use crate::store::{Model, TABLE};
use crate::Refusal;

/// A damaged book, what was done, and the refusal it must get.
#[derive(Debug, Clone)]
pub struct BadBook {
    pub what: &'static str,
    pub book: Vec<u8>,
    pub refusal: Refusal,
}

/// A sound book damaged at each kind of place: entries that are there, that
/// are absent, and that are of numbers which are no states.
pub fn bad_books(rng: &mut Rng, model: &Model, sound: &[u8]) -> Vec<BadBook> {
    let mut list = BadBooks {
        model,
        moves: model.moves(),
        sound,
        books: Vec::new(),
    };
    let present = present(sound);
    for number in some(rng, &present) {
        list.side(number);
        list.action(number);
        list.target(number);
        list.lowered(number);
    }
    list.many(&present);
    let resting = resting(&list.moves, sound);
    let rested_on = numbers(|number| !resting[number].is_empty());
    for number in some(rng, &rested_on) {
        list.taken_away(number, &resting[number]);
        list.raised(number, &resting[number]);
    }
    let absent = numbers(|number| Entry::of(sound, number).is_absent());
    for number in some(rng, &absent) {
        list.no_side(number);
        list.no_opening(number);
    }
    for number in some(rng, &rank_0(model)) {
        list.alike(number);
    }
    let outside = numbers(|number| !of_states(model, pair_of(number)));
    for number in some(rng, &outside) {
        list.no_state(number);
    }
    list.books
}

/// Numbers of entries, rising.
fn numbers(wanted: impl Fn(usize) -> bool) -> Vec<usize> {
    (0..TABLE).filter(|&number| wanted(number)).collect()
}

/// First, second, middle, last and a random one of these entries.
fn some(rng: &mut Rng, numbers: &[usize]) -> BTreeSet<usize> {
    let mut some = some_of(0, numbers.len());
    if !numbers.is_empty() {
        some.insert(rng.below(numbers.len()));
    }
    some.into_iter().map(|index| numbers[index]).collect()
}

/// For each entry the numbers of those that rest on it, rising.
fn resting(moves: &Moves, book: &[u8]) -> Vec<Vec<usize>> {
    let mut resting = vec![Vec::new(); TABLE];
    for number in present(book) {
        for next in rests_on(moves, book, number) {
            resting[next].push(number);
        }
    }
    resting
}

/// Numbers of the entries of states that are of rank 0, those of a state with
/// itself among them.
fn rank_0(model: &Model) -> Vec<usize> {
    let (ranks, _) = ranks_of(model);
    numbers(|number| {
        let (p, q) = pair_of(number);
        of_states(model, (p, q)) && ranks[p][q] == 0
    })
}

/// A model with its moves, a sound book of it, and the damaged ones made of that
/// so far.
struct BadBooks<'a> {
    model: &'a Model,
    moves: Vec<Vec<(u16, u16)>>,
    sound: &'a [u8],
    books: Vec<BadBook>,
}

impl BadBooks<'_> {
    /// The sound book with other entries, and its first bad one.
    fn add(&mut self, what: &'static str, entries: &[(usize, Entry)], bad: usize) {
        let mut book = self.sound.to_vec();
        for &(number, entry) in entries {
            entry.put(&mut book, number);
        }
        let refusal = Refusal::new(34, bad as u64);
        self.books.push(BadBook {
            what,
            book,
            refusal,
        });
    }

    /// Another entry that is bad itself. Those that rest on it stay good, since
    /// it is still there and not deeper.
    fn own(&mut self, what: &'static str, number: usize, entry: Entry) {
        self.add(what, &[(number, entry)], number);
    }

    /// The entry if its opening is not in the model.
    fn unless_opening(&mut self, what: &'static str, number: usize, entry: Entry) {
        if !self.opens(number, entry) {
            self.own(what, number, entry);
        }
    }

    fn entry(&self, number: usize) -> Entry {
        Entry::of(self.sound, number)
    }

    /// Whether the opening of an entry is in the model: a move of the side that
    /// opens.
    fn opens(&self, number: usize, entry: Entry) -> bool {
        let (p, q) = pair_of(number);
        let opener = match entry.side {
            1 => p,
            2 => q,
            _ => return false,
        };
        moves_of(&self.moves, opener).contains(&entry.opening())
    }
}
