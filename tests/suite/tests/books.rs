//! Book, against the second checker, and Check on what it fills.
use second::book::Entry;
use second::gen::{self, Rng};
use second::store::{BOOK as LEAST_BOOK, MOST_ACTIONS, MOST_STATES, MOST_STEPS, TABLE};
use second::Refusal;
use std::collections::BTreeSet;
use suite::bench::{self, store_of, worked_table, WORKED};
use suite::books::Book;
use suite::lists::Lists;
use suite::operations::{BOOK, CHECK};
use suite::stores::Store;

const SEED: u64 = 7_900;

/// The model's own book: it is accepted, and has entries for just the pairs of a rank above 0, which is their depth.
fn own(rng: &mut Rng, store: &Store) -> Book {
    let before = Lists::enough(rng);
    let (answer, after) = BOOK.same(store, &before);
    assert_eq!(answer, Ok(()), "{store}");
    let book = Book::bytes(after.book[..LEAST_BOOK].to_vec());
    for (number, &rank) in after.table[..TABLE].iter().enumerate() {
        let entry = Entry::of(&book, number);
        assert_eq!(entry.is_absent(), rank == 0, "{number}, {store}");
        assert_eq!(entry.depth, rank, "{number}, {store}");
    }
    assert_eq!(CHECK.same((store, &book), &before).0, Ok(()), "{store}");
    book
}

#[test]
fn the_worked_example_in_full() {
    let mut rng = gen::seeded("books::the_worked_example_in_full", SEED);
    let (store, old) = (store_of(WORKED), Lists::enough(&mut rng));
    let mut expected = old.clone();
    expected.table[..TABLE].copy_from_slice(&worked_table());
    expected.book[..LEAST_BOOK].fill(0);
    // 0 and 1 scan for ever, 2 scans once and 3 never: the first state scans, or where it cannot the second.
    for (p, q, entry) in [
        (0, 2, [1, 0, 1, 2]),
        (0, 3, [1, 0, 1, 1]),
        (1, 2, [1, 0, 1, 2]),
        (1, 3, [1, 0, 1, 1]),
        (2, 0, [1, 0, 3, 2]),
        (2, 1, [1, 0, 3, 2]),
        (2, 3, [1, 0, 3, 1]),
        (3, 0, [2, 0, 1, 1]),
        (3, 1, [2, 0, 1, 1]),
        (3, 2, [2, 0, 3, 1]),
    ] {
        let place = 4 * (128 * p + q);
        expected.book[place..place + 4].copy_from_slice(&entry);
    }
    let mut lists = old.clone();
    assert_eq!(BOOK.told(&store, &mut lists), Ok(()));
    assert!(lists == expected, "{}", lists.difference(&expected));
    let book = Book::bytes(expected.book.to_vec());
    assert_eq!(CHECK.told((&store, &book), &mut lists), Ok(()));
    // 0 and 1 are alike: no entry for them is sound.
    for (number, side, target) in [(1, 1, 1), (1, 2, 1), (128, 1, 1), (128, 2, 1)] {
        let bad = book.with(number, [side, 0, target, 255]);
        let answer = CHECK.told((&store, &bad), &mut lists);
        assert_eq!(answer, Err(Refusal::new(34, number as u64)));
    }
    assert!(lists == expected, "{}", lists.difference(&expected));
}

#[test]
fn the_bench_models() {
    let mut rng = gen::seeded("books::the_bench_models", SEED + 1);
    for model in bench::models() {
        own(&mut rng, &model.store);
    }
}

#[test]
fn every_depth() {
    let mut rng = gen::seeded("books::every_depth", SEED + 2);
    let mut deepest = BTreeSet::new();
    for depth in 1..=127 {
        let models = [
            gen::deep_model(&mut rng, depth),
            gen::branching_deep_model(&mut rng, depth),
            gen::chain(depth as u16 + 1),
        ];
        for model in &models {
            let book = own(&mut rng, &Store::of(model));
            let depths = (0..TABLE).map(|number| Entry::of(&book, number).depth);
            deepest.extend(depths.max());
        }
    }
    assert!(
        (1..=127).all(|depth| deepest.contains(&depth)),
        "{deepest:?}"
    );
}

#[test]
fn models_at_the_limits() {
    let mut rng = gen::seeded("books::models_at_the_limits", SEED + 3);
    let mut full = 0;
    for (_, model) in gen::limit_models(&mut rng) {
        let (states, actions) = (usize::from(model.states), model.actions.len());
        let sizes = (states, actions, model.steps.len());
        full += usize::from(sizes == (MOST_STATES, MOST_ACTIONS, MOST_STEPS));
        own(&mut rng, &Store::of(&model));
    }
    assert!(full > 3, "{full} models have all states, actions and steps");
}

#[test]
fn random_models() {
    let mut rng = gen::seeded("books::random_models", SEED + 4);
    let (mut entries, mut sides) = (0, [0; 3]);
    for round in 0..3_000 {
        let model = match round % 4 {
            0 => gen::small_model(&mut rng, round % 8 == 0),
            _ => gen::any_model(&mut rng),
        };
        let book = own(&mut rng, &Store::of(&model));
        for number in 0..TABLE {
            let entry = Entry::of(&book, number);
            sides[usize::from(entry.side)] += 1;
            entries += usize::from(entry.depth > 1);
        }
    }
    assert!(sides.iter().all(|&count| count > 10_000), "{sides:?}");
    assert!(entries > 10_000, "{entries}");
}
