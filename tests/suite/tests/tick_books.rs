//! Books of models with silent actions: by hand what silent openings are, and books of every kind beside the second
//! checker.
use std::collections::{BTreeMap, BTreeSet};

use second::book::{entry_number, Entry};
use second::gen::{self, Rng};
use second::store::{BOOK as BOOK_BYTES, TABLE};
use second::Model;
use suite::bench::{self, example, store_of, WORKED};
use suite::books::Book;
use suite::lists::Lists;
use suite::operations::{BOOK, CHECK};
use suite::program::TILL_CHECK;
use suite::stores::Store;
use suite::ticks::{self, shapes_at_the_limits, ticking, with_entries, Entries};
use suite::ticks::{BETRAYS, BETRAYS_BOOK, CLOSE, PRINTING, SCAN, SILENTLY, TICK};

const SEED: u64 = 8_400;

// ---- by hand

/// The book has just these entries, and is accepted.
fn own(text: &[u8], before: &Lists, entries: Entries) {
    let store = store_of(text);
    let (answer, after) = BOOK.same(&store, before);
    assert_eq!(answer, Ok(()));
    let book = Book::bytes(after.book[..BOOK_BYTES].to_vec());
    let expected = with_entries(entries);
    assert!(book[..] == expected[..], "{book}\nexpected {expected}");
    assert_eq!(CHECK.same((&store, &book), before).0, Ok(()));
}

/// A silent opening has action 255. It comes after every action, also after one of a higher target, and of several the
/// lowest target is taken. A low opening may go by way of ticks.
#[test]
fn own_books_by_hand() {
    let mut rng = gen::seeded("tick_books::own_books_by_hand", SEED);
    let before = Lists::enough(&mut rng);
    own(&example("tick_betrays").0, &before, BETRAYS_BOOK);
    own(
        &example("tick_depth_one").0,
        &before,
        &[
            (0, 1, [2, 0, 2, 1]),
            (0, 2, [2, 0, 2, 1]),
            (1, 0, [1, 0, 2, 1]),
            (2, 0, [1, 0, 2, 1]),
        ],
    );
    // 0 ticks to 1 and to 2, which have no step; 3 scans for ever, and so may 0 by way of 3.
    let steps = [(0, SCAN, 3), (0, TICK, 1), (0, TICK, 2), (3, SCAN, 3)];
    own(
        &ticking(4, &steps),
        &before,
        &[
            (0, 1, [1, 0, 3, 1]),
            (0, 2, [1, 0, 3, 1]),
            (0, 3, [1, SILENTLY, 1, 2]),
            (1, 0, [2, 0, 3, 1]),
            (1, 3, [2, 0, 3, 1]),
            (2, 0, [2, 0, 3, 1]),
            (2, 3, [2, 0, 3, 1]),
            (3, 0, [2, SILENTLY, 1, 2]),
            (3, 1, [1, 0, 3, 1]),
            (3, 2, [1, 0, 3, 1]),
        ],
    );
}

/// Check on the book with just these entries: the pair of the first bad one.
fn bad(text: &[u8], before: &Lists, entries: Entries) -> Option<(usize, usize)> {
    let (store, book) = (store_of(text), with_entries(entries));
    let refusal = CHECK.same((&store, &book), before).0.err()?;
    assert_eq!(refusal.number, 34);
    Some((refusal.place as usize / 128, refusal.place as usize % 128))
}

/// Silent openings in the till with the tick that betrays.
#[test]
fn silent_openings() {
    let mut rng = gen::seeded("tick_books::silent_openings", SEED + 1);
    let (text, before) = (ticking(4, &BETRAYS), Lists::enough(&mut rng));
    let bad = |entries: Entries| bad(&text, &before, entries);
    let then = (0, 3, [1, 0, 1, 1]);
    assert_eq!(bad(&[(0, 2, [2, SILENTLY, 3, 2]), then]), None);
    assert_eq!(bad(&[(0, 2, [2, SILENTLY, 3, 9]), then]), None);
    assert_eq!(
        bad(&[(2, 0, [1, SILENTLY, 3, 2]), (3, 0, [2, 0, 1, 1])]),
        None
    );
    // The answer of zero steps leads to 0 and 3, which needs a lower entry.
    assert_eq!(bad(&[(0, 2, [2, SILENTLY, 3, 2])]), Some((0, 2)));
    for opening in [
        [2, SILENTLY, 3, 1],
        // the number of the silent action, and another that is none
        [2, 3, 3, 2],
        [2, 254, 3, 2],
        // no silent move to there
        [1, SILENTLY, 3, 2],
        [2, SILENTLY, 0, 2],
        [2, SILENTLY, 1, 2],
        // zero steps, of which an answer leads back to the pair itself
        [1, SILENTLY, 0, 9],
        [2, SILENTLY, 2, 9],
    ] {
        assert_eq!(bad(&[(0, 2, opening), then]), Some((0, 2)), "{opening:?}");
    }
}

/// A number that is no state has no move, silent ones too. A state has that of zero steps, in every model.
#[test]
fn silent_openings_beside_no_state() {
    let mut rng = gen::seeded("tick_books::silent_openings_beside_no_state", SEED + 2);
    let before = Lists::enough(&mut rng);
    let (tick, no_tick) = (ticking(4, &BETRAYS), WORKED.to_vec());
    for text in [&tick, &no_tick] {
        for number in [4, 64, 127] {
            let itself = number as u8;
            for depth in [0, 1, 255] {
                let sound = [
                    (0, number, [1, SILENTLY, 0, depth]),
                    (number, 3, [2, SILENTLY, 3, depth]),
                ];
                assert_eq!(bad(text, &before, &sound), None);
                for (p, q, entry) in [
                    (number, 0, [1, SILENTLY, itself, depth]),
                    (0, number, [2, SILENTLY, itself, depth]),
                    (number, number, [1, SILENTLY, itself, depth]),
                    (0, number, [1, SILENTLY, 1, depth]),
                    (0, 0, [1, SILENTLY, 0, depth]),
                ] {
                    assert_eq!(bad(text, &before, &[(p, q, entry)]), Some((p, q)));
                }
            }
        }
    }
    // 2 comes to 3 silently in one of them.
    let entry = [(2, 9, [1, SILENTLY, 3, 0])];
    assert_eq!(bad(&tick, &before, &entry), None);
    assert_eq!(bad(&no_tick, &before, &entry), Some((2, 9)));
}

/// In a book of 128 states each number is a state, and answers a silent opening by staying: that leads back to the pair
/// itself. Of 127 states the last number is none, and has no answer.
#[test]
fn silent_openings_among_128_states() {
    let mut rng = gen::seeded("tick_books::silent_openings_among_128_states", SEED + 8);
    let before = Lists::enough(&mut rng);
    let steps = [(0, SCAN, 1), (0, PRINTING, 2), (1, CLOSE, 0)];
    let ticks = [&steps[..], &[(126, TICK, 126)]].concat();
    for (actions, steps) in [
        (bench::ACTIONS, &steps[..]),
        (ticks::ACTIONS, &steps),
        (ticks::ACTIONS, &ticks),
    ] {
        let [all, one_fewer] = [128, 127].map(|states| bench::text_of(states, actions, steps));
        for depth in [1, 255] {
            for (p, q, entry) in [
                (0, 127, [1, SILENTLY, 0, depth]),
                (127, 0, [2, SILENTLY, 0, depth]),
            ] {
                assert_eq!(bad(&all, &before, &[(p, q, entry)]), Some((p, q)));
                assert_eq!(bad(&one_fewer, &before, &[(p, q, entry)]), None);
            }
            for (p, q, entry) in [
                (0, 127, [2, SILENTLY, 127, depth]),
                (127, 0, [1, SILENTLY, 127, depth]),
            ] {
                assert_eq!(bad(&all, &before, &[(p, q, entry)]), Some((p, q)));
                assert_eq!(bad(&one_fewer, &before, &[(p, q, entry)]), Some((p, q)));
            }
        }
    }
}

/// Each value of each byte of some entries, in the till with the tick that betrays.
#[test]
fn every_value_of_a_byte() {
    let mut rng = gen::seeded("tick_books::every_value_of_a_byte", SEED + 3);
    let (store, before) = (store_of(&ticking(4, &BETRAYS)), Lists::enough(&mut rng));
    let book = with_entries(BETRAYS_BOOK);
    let mut accepted = 0;
    for (p, q) in [(0, 2), (2, 0), (0, 3), (2, 7), (127, 2)] {
        let found = BETRAYS_BOOK
            .iter()
            .find(|&&entry| (entry.0, entry.1) == (p, q));
        let entry = found.map_or([1, SILENTLY, 3, 9], |entry| entry.2);
        for byte in 0..4 {
            for value in 0..=255 {
                let mut changed = entry;
                changed[byte] = value;
                let book = book.with(entry_number(p, q), changed);
                accepted += usize::from(CHECK.same((&store, &book), &before).0.is_ok());
            }
        }
    }
    assert!((500..4_000).contains(&accepted), "{accepted}");
}

// ---- beside the second checker

/// The model of this name at the limits.
fn at_the_limits(rng: &mut Rng, name: &str) -> Model {
    let mut models = gen::tick_limit_models(rng).into_iter();
    let found = models.find(|&(what, _)| what == name);
    found.expect("such a model").1
}

/// The model's own book: it is accepted, and has entries for just the pairs of a rank above 0, which is their depth.
#[test]
fn own_books() {
    let mut rng = gen::seeded("tick_books::own_books", SEED + 4);
    let (mut silent, mut low) = (0, 0);
    let mut models = shapes_at_the_limits(&mut rng);
    models.extend((0..400).map(|_| gen::tick_model(&mut rng)));
    for model in models {
        let (store, before) = (Store::of(&model), Lists::enough(&mut rng));
        let (answer, after) = BOOK.same(&store, &before);
        assert_eq!(answer, Ok(()), "{store}");
        let book = Book::of(&model, after.book[..BOOK_BYTES].to_vec());
        for (number, &rank) in after.table[..TABLE].iter().enumerate() {
            let entry = Entry::of(&book, number);
            assert_eq!(entry.is_absent(), rank == 0, "{number}, {store}");
            assert_eq!(entry.depth, rank, "{number}, {store}");
            match entry.action {
                SILENTLY => silent += 1,
                _ => low += usize::from(!entry.is_absent()),
            }
        }
        assert_eq!(CHECK.same((&store, &book), &before).0, Ok(()), "{store}");
    }
    assert!(silent > 100 && low > 10_000, "{silent} {low}");
}

/// Sound books of every kind, also with silent openings beside numbers that are no states.
#[test]
fn sound_books() {
    let mut rng = gen::seeded("tick_books::sound_books", SEED + 5);
    for round in 0..60 {
        let model = match round % 4 {
            0 => gen::any_model(&mut rng),
            _ => gen::tick_model(&mut rng),
        };
        let (store, before) = (Store::of(&model), Lists::enough(&mut rng));
        for (what, bytes) in gen::sound_books(&mut rng, &model) {
            let more = gen::with_silent_entries(&mut rng, &model, &bytes);
            for bytes in [bytes, more] {
                let book = Book::of(&model, bytes);
                let (answer, _) = CHECK.same((&store, &book), &before);
                assert_eq!(answer, Ok(()), "{what}, {book}");
            }
        }
    }
}

/// A sound book damaged at each kind of place gets the number of the first bad entry.
#[test]
fn damaged_books() {
    let mut rng = gen::seeded("tick_books::damaged_books", SEED + 6);
    let mut kinds: BTreeMap<&str, usize> = BTreeMap::new();
    let limits = [
        "every other step a tick",
        "star of ticks",
        "choices of ticks",
        "deep choices of ticks",
        "fewer choices of ticks",
        "zigzag of ticks",
    ];
    // Each twice: with its own book and with another.
    let mut models: Vec<Model> = limits
        .into_iter()
        .flat_map(|name| vec![at_the_limits(&mut rng, name); 2])
        .collect();
    models.extend((0..60).map(|_| gen::tick_model(&mut rng)));
    for (round, model) in models.iter().enumerate() {
        let (store, before) = (Store::of(model), Lists::enough(&mut rng));
        let sound = match round % 2 {
            0 => second::book_of(model),
            _ => {
                let sound = gen::sound_book(&mut rng, model);
                gen::with_silent_entries(&mut rng, model, &sound)
            }
        };
        for bad in gen::bad_books(&mut rng, model, &sound) {
            let book = Book::of(model, bad.book);
            let (answer, _) = CHECK.same((&store, &book), &before);
            assert_eq!(answer, Err(bad.refusal), "{}, {book}", bad.what);
            *kinds.entry(bad.what).or_default() += 1;
        }
    }
    assert_eq!(kinds.len(), 21, "{kinds:?}");
    assert!(kinds.values().all(|&count| count > 10), "{kinds:?}");
}

/// Books with random changes and of random bytes; some by the program too.
#[test]
fn changed_books() {
    let mut rng = gen::seeded("tick_books::changed_books", SEED + 7);
    let (mut accepted, mut refused) = (0, BTreeSet::new());
    for round in 0..800 {
        let model = gen::tick_model(&mut rng);
        let sound = gen::sound_book(&mut rng, &model);
        let book = match round % 16 {
            0 => gen::scrap_book(&mut rng),
            1..=8 => gen::mutated_book(&mut rng, &model, &sound),
            _ => {
                let more = gen::with_silent_entries(&mut rng, &model, &sound);
                gen::mutated_book(&mut rng, &model, &more)
            }
        };
        let (store, book) = (Store::of(&model), Book::of(&model, book));
        match CHECK.same((&store, &book), &Lists::enough(&mut rng)).0 {
            Ok(()) => accepted += 1,
            Err(refusal) => {
                refused.insert(refusal.place);
                assert_eq!(refusal.number, 34, "{book}");
            }
        }
        if round % 30 == 0 {
            TILL_CHECK.same(&[&book[..BOOK_BYTES], &model.to_text()].concat());
        }
    }
    let places = refused.len();
    assert!(accepted > 100 && places > 100, "{accepted} {places}");
}
