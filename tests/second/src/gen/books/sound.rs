//! Sound books.

use std::collections::BTreeSet;

use super::{of_states, pair_of, present, rests_on};
use crate::book::{book_of, entry_number, openings, Entry, Side};
use crate::gen::Rng;
use crate::moves::{single, states_of, States, Targets, SILENT};
use crate::store::{Model, BOOK, MOST_STATES, TABLE};

/// Sound books of a model, one of each kind.
pub fn sound_books(rng: &mut Rng, model: &Model) -> Vec<(&'static str, Vec<u8>)> {
    let own = book_of(model);
    let moves = Targets::new(model);
    let mut books = vec![
        ("no entry", vec![0; BOOK]),
        ("depths one less", with_depths(&own, |rank| rank - 1)),
        ("depths raised", raised(rng, &own)),
        ("sides changed", turned(&own)),
        ("other openings", plays(rng, &moves, 100)),
        ("some entries", {
            let chance = rng.between(5, 60);
            plays(rng, &moves, chance)
        }),
        ("absent entries not 0", with_scrap(rng, &own)),
        (
            "numbers that are no states",
            with_no_states(rng, model, &own),
        ),
        ("longer", longer(rng, &own)),
    ];
    if let [first, .., last] = present(&own)[..] {
        let any = *rng.pick(&present(&own));
        for number in [first, any, last] {
            books.push(("what one entry rests on", cut_book(model, &own, number)));
        }
    }
    books.push(("our own", own));
    books
}

/// A sound book of a model, of any kind or of several.
pub fn sound_book(rng: &mut Rng, model: &Model) -> Vec<u8> {
    let moves = Targets::new(model);
    let mut book = match rng.below(4) {
        0 => book_of(model),
        1 => plays(rng, &moves, 100),
        _ => {
            let chance = rng.between(5, 100);
            plays(rng, &moves, chance)
        }
    };
    if rng.percent(20) {
        book = turned(&book);
    }
    let entries = present(&book);
    if !entries.is_empty() && rng.percent(20) {
        book = cut_book(model, &book, *rng.pick(&entries));
    }
    if rng.percent(30) {
        book = raised(rng, &book);
    }
    if rng.percent(30) {
        book = with_no_states(rng, model, &book);
    }
    if rng.percent(50) {
        book = with_scrap(rng, &book);
    }
    if rng.percent(10) {
        book = longer(rng, &book);
    }
    book
}

/// Of a sound book the entry of this number and all that it rests on.
pub fn cut_book(model: &Model, book: &[u8], number: usize) -> Vec<u8> {
    let moves = model.moves();
    let mut kept = BTreeSet::new();
    let mut open = vec![number];
    while let Some(number) = open.pop() {
        if kept.insert(number) {
            open.extend(rests_on(&moves, book, number));
        }
    }
    let mut cut = vec![0; BOOK];
    for number in kept {
        Entry::of(book, number).put(&mut cut, number);
    }
    cut
}

/// Each depth replaced. A rule that keeps the order of depths keeps a book
/// sound.
fn with_depths(book: &[u8], rule: impl Fn(u8) -> u8) -> Vec<u8> {
    let mut changed = book.to_vec();
    for number in present(book) {
        let entry = Entry::of(book, number);
        let depth = rule(entry.depth);
        Entry { depth, ..entry }.put(&mut changed, number);
    }
    changed
}

/// Depths raised, the greatest perhaps to 255, with the order of depths kept.
fn raised(rng: &mut Rng, book: &[u8]) -> Vec<u8> {
    let depths = present(book).into_iter();
    let depths: BTreeSet<u8> = depths.map(|n| Entry::of(book, n).depth).collect();
    let mut new = [0_u8; 256];
    let mut bound = 256;
    // From the greatest down, each below the one before it.
    for &depth in depths.iter().rev() {
        let room = bound - 1 - usize::from(depth);
        let raise = match rng.below(3) {
            0 => room,
            1 => rng.below(room + 1),
            _ => rng.below(room.min(4) + 1),
        };
        bound = usize::from(depth) + raise;
        new[usize::from(depth)] = bound as u8;
    }
    with_depths(book, |depth| new[usize::from(depth)])
}

/// Each entry put at the pair the other way round, opened from the other side.
fn turned(book: &[u8]) -> Vec<u8> {
    let mut changed = vec![0; BOOK];
    for number in present(book) {
        let (p, q) = pair_of(number);
        let entry = Entry::of(book, number);
        let side = 3 - entry.side;
        Entry { side, ..entry }.put(&mut changed, entry_number(q, p));
    }
    changed
}

/// Entries for pairs in random order, each with any opening that the entries
/// before it allow and any depth above theirs. Of the pairs that allow an
/// entry so many in a hundred get one in each round.
fn plays(rng: &mut Rng, moves: &Targets, chance: usize) -> Vec<u8> {
    let states = moves.states();
    let mut plays = Plays::new(moves);
    let rounds = if chance == 100 {
        MOST_STATES
    } else {
        rng.between(1, 6)
    };
    for _ in 0..rounds {
        let mut added = false;
        for index in rng.order(states * states) {
            let pair = (index / states, index % states);
            if plays.entry(pair).is_absent() && rng.percent(chance) {
                let allowed = plays.allowed(pair);
                if !allowed.is_empty() {
                    let &(entry, least) = rng.pick(&allowed);
                    let depth = least + rng.below((256 - least).min(3));
                    let depth = depth as u8;
                    plays.put(pair, Entry { depth, ..entry });
                    added = true;
                }
            }
        }
        if !added {
            break;
        }
    }
    plays.book
}

/// A book being filled, and for each state those with which it has an entry, as
/// the first of the pair and as the second.
struct Plays<'a> {
    moves: &'a Targets,
    book: Vec<u8>,
    seconds: Vec<States>,
    firsts: Vec<States>,
}

impl Plays<'_> {
    fn new(moves: &Targets) -> Plays<'_> {
        Plays {
            moves,
            book: vec![0; BOOK],
            seconds: vec![0; MOST_STATES],
            firsts: vec![0; MOST_STATES],
        }
    }

    fn entry(&self, (p, q): (usize, usize)) -> Entry {
        Entry::of(&self.book, entry_number(p, q))
    }

    fn put(&mut self, (p, q): (usize, usize), entry: Entry) {
        entry.put(&mut self.book, entry_number(p, q));
        self.seconds[p] |= single(q as u16);
        self.firsts[q] |= single(p as u16);
    }

    /// The entries that a pair can have beside those of the book, each with the
    /// least depth.
    fn allowed(&self, pair: (usize, usize)) -> Vec<(Entry, usize)> {
        let mut allowed = Vec::new();
        for side in Side::ALL {
            let (opener, other) = side.turned(pair);
            let told_apart = match side {
                Side::First => &self.seconds,
                Side::Second => &self.firsts,
            };
            for &(action, targets) in self.moves.of(opener) {
                let answers = self.moves.after(other, action);
                for target in states_of(targets) {
                    if answers & !told_apart[usize::from(target)] == 0 {
                        let least = self.above(side, target, answers);
                        let entry = Entry::new(side.byte(), (action, target), 0);
                        allowed.push((entry, least));
                    }
                }
            }
        }
        allowed.retain(|&(_, least)| least < 256);
        allowed
    }

    /// The least depth above those of the pairs to which these answers lead.
    fn above(&self, side: Side, target: u16, answers: States) -> usize {
        let depth = |answer: u16| {
            let pair = side.turned((usize::from(target), usize::from(answer)));
            usize::from(self.entry(pair).depth) + 1
        };
        states_of(answers).map(depth).max().unwrap_or(0)
    }
}

/// Random bytes after the side of absent entries, some or all.
fn with_scrap(rng: &mut Rng, book: &[u8]) -> Vec<u8> {
    let mut changed = book.to_vec();
    let chance = *rng.pick(&[1, 50, 100]);
    for number in 0..TABLE {
        if Entry::of(book, number).is_absent() && rng.percent(chance) {
            let step = (rng.below(256) as u16, rng.below(256) as u16);
            Entry::new(0, step, rng.below(256) as u8).put(&mut changed, number);
        }
    }
    changed
}

/// Entries of a state that opens and a number that is no state, which has no
/// answer: any depth will do.
fn with_no_states(rng: &mut Rng, model: &Model, book: &[u8]) -> Vec<u8> {
    // The silent moves of a model without silent actions are left to
    // `with_silent_entries`.
    let moves = match model.has_silent() {
        true => model.moves(),
        false => model.low_steps(),
    };
    let mut changed = book.to_vec();
    let chance = *rng.pick(&[1, 10, 100]);
    for number in 0..TABLE {
        let pair = pair_of(number);
        if !of_states(model, pair) && rng.percent(chance) {
            let openings = openings(&moves, pair);
            if !openings.is_empty() {
                let &(side, step) = rng.pick(&openings);
                let depth = *rng.pick(&[0, 1, 127, 255]);
                Entry::new(side.byte(), step, depth).put(&mut changed, number);
            }
        }
    }
    changed
}

/// A sound book with entries of a state that opens silently and a number that is
/// no state. Zero steps are a silent move too, in every model.
pub fn with_silent_entries(rng: &mut Rng, model: &Model, book: &[u8]) -> Vec<u8> {
    let moves = Targets::new(model);
    let mut changed = book.to_vec();
    let chance = *rng.pick(&[1, 10, 100]);
    for number in 0..TABLE {
        let pair = pair_of(number);
        if of_states(model, pair) || !rng.percent(chance) {
            continue;
        }
        for side in Side::ALL {
            let (opener, _) = side.turned(pair);
            let targets: Vec<u16> = states_of(moves.after(opener, SILENT)).collect();
            if !targets.is_empty() {
                let opening = (SILENT, *rng.pick(&targets));
                let depth = *rng.pick(&[0, 1, 127, 255]);
                Entry::new(side.byte(), opening, depth).put(&mut changed, number);
            }
        }
    }
    changed
}

/// A few more bytes than need be.
fn longer(rng: &mut Rng, book: &[u8]) -> Vec<u8> {
    let more = rng.between(1, 9);
    let more = (0..more).map(|_| rng.below(256) as u8);
    book.iter().copied().chain(more).collect()
}
