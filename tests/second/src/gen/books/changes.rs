//! Books with random changes, and books of random bytes.

use super::{pair_of, present};
use crate::book::{entry_number, openings, Entry, ENTRY};
use crate::gen::Rng;
use crate::store::{Model, BOOK, TABLE};

/// A book with a few entries changed. It may still be sound.
pub fn mutated_book(rng: &mut Rng, model: &Model, book: &[u8]) -> Vec<u8> {
    let mut changed = book.to_vec();
    for _ in 0..rng.between(1, 3) {
        let number = some_entry(rng, model, &changed);
        match rng.below(8) {
            0 => copy(rng, model, &mut changed, number),
            1 => turn(&mut changed, number),
            2 => exchange(rng, model, &mut changed, number),
            3 => step(rng, model, &mut changed, number),
            _ => {
                let place = ENTRY * number + rng.below(ENTRY);
                changed[place] = byte(rng, changed[place]);
            }
        }
    }
    changed
}

/// The number of an entry: mostly one that is there, or one of two states.
fn some_entry(rng: &mut Rng, model: &Model, book: &[u8]) -> usize {
    let present = present(book);
    let states = usize::from(model.states);
    match rng.below(8) {
        0..=3 if !present.is_empty() => *rng.pick(&present),
        4 => rng.below(TABLE),
        5 => entry_number(states.min(127), rng.below(states)),
        6 => entry_number(rng.below(states), states.min(127)),
        _ => entry_number(rng.below(states), rng.below(states)),
    }
}

/// A byte that often is near the old one, or a small one.
fn byte(rng: &mut Rng, old: u8) -> u8 {
    match rng.below(6) {
        0 => old.wrapping_add(1),
        1 => old.wrapping_sub(1),
        2 => 0,
        3 => rng.between(1, 2) as u8,
        4 => rng.below(12) as u8,
        _ => *rng.pick(&[3, 63, 64, 127, 128, 254, 255]),
    }
}

/// The entry of another pair.
fn copy(rng: &mut Rng, model: &Model, book: &mut [u8], number: usize) {
    let other = some_entry(rng, model, book);
    Entry::of(book, other).put(book, number);
}

/// The entry of the pair the other way round, which is right but for its side.
fn turn(book: &mut [u8], number: usize) {
    let (p, q) = pair_of(number);
    Entry::of(book, entry_number(q, p)).put(book, number);
}

/// Two entries exchanged.
fn exchange(rng: &mut Rng, model: &Model, book: &mut [u8], number: usize) {
    let other = some_entry(rng, model, book);
    let (here, there) = (Entry::of(book, number), Entry::of(book, other));
    here.put(book, other);
    there.put(book, number);
}

/// An opening that is some step of the model, with the depth that was there. In
/// a model with silent actions it may be a move of either side.
fn step(rng: &mut Rng, model: &Model, book: &mut [u8], number: usize) {
    if model.has_silent() && rng.percent(70) {
        let openings = openings(&model.moves(), pair_of(number));
        if !openings.is_empty() {
            let &(side, opening) = rng.pick(&openings);
            let depth = Entry::of(book, number).depth;
            Entry::new(side.byte(), opening, depth).put(book, number);
        }
    } else if !model.steps.is_empty() {
        let step = rng.pick(&model.steps);
        let (p, q) = pair_of(number);
        let side = match usize::from(step.source) {
            source if source == p => 1,
            source if source == q => 2,
            _ => rng.between(1, 2) as u8,
        };
        let depth = Entry::of(book, number).depth;
        Entry::new(side, (step.action, step.target), depth).put(book, number);
    }
}

/// A book of random bytes: any, small ones, or few entries that are there.
pub fn scrap_book(rng: &mut Rng) -> Vec<u8> {
    let length = BOOK + *rng.pick(&[0, 0, 0, 1, 4, 100]);
    let bound = *rng.pick(&[2, 3, 4, 12, 129, 256]);
    let mut book: Vec<u8> = (0..length).map(|_| rng.below(bound) as u8).collect();
    let chance = *rng.pick(&[0, 90, 99, 100]);
    for number in 0..TABLE {
        if rng.percent(chance) {
            book[ENTRY * number] = 0;
        }
    }
    book
}
