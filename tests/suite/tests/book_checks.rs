//! Check on sound, damaged and changed books, against the second checker.
use second::book::{entry_number, Entry};
use second::gen::{self, Rng};
use second::store::BOOK;
use second::{Model, Refusal};
use std::collections::{BTreeMap, BTreeSet};
use suite::bench;
use suite::books::Book;
use suite::lists::{lengths, Lists};
use suite::operations::CHECK;
use suite::stores::{self, Store};

const SEED: u64 = 8_100;

/// A sound book of a model, damaged at each kind of place; how often each kind is tried.
fn checked(rng: &mut Rng, model: &Model, sound: &Book) -> BTreeMap<&'static str, usize> {
    let (store, lists) = (Store::of(model), Lists::enough(rng));
    let mut kinds = BTreeMap::new();
    for bad in gen::bad_books(rng, model, sound) {
        let book = Book::of(model, bad.book);
        let (answer, _) = CHECK.same((&store, &book), &lists);
        assert_eq!(answer, Err(bad.refusal), "{}, {book}", bad.what);
        *kinds.entry(bad.what).or_default() += 1;
    }
    kinds
}

#[test]
fn sound_books() {
    let mut rng = gen::seeded("book_checks::sound_books", SEED);
    for _ in 0..300 {
        let model = gen::any_model(&mut rng);
        let (store, lists) = (Store::of(&model), Lists::enough(&mut rng));
        for (what, bytes) in gen::sound_books(&mut rng, &model) {
            let book = Book::of(&model, bytes);
            assert_eq!(
                CHECK.same((&store, &book), &lists).0,
                Ok(()),
                "{what}, {book}"
            );
        }
    }
}

#[test]
fn damaged_books_at_the_limits() {
    let mut rng = gen::seeded("book_checks::damaged_books_at_the_limits", SEED + 6);
    for (_, model) in gen::limit_models(&mut rng) {
        checked(&mut rng, &model, &Book::own(&model));
    }
}

#[test]
fn damaged_books() {
    let mut rng = gen::seeded("book_checks::damaged_books", SEED + 1);
    let mut kinds: BTreeMap<&str, usize> = BTreeMap::new();
    for round in 0..200 {
        let model = match round {
            0 => gen::chain(128),
            _ => gen::any_model(&mut rng),
        };
        let sound = gen::sound_book(&mut rng, &model);
        for book in [Book::own(&model), Book::of(&model, sound)] {
            for (what, count) in checked(&mut rng, &model, &book) {
                *kinds.entry(what).or_default() += count;
            }
        }
    }
    assert_eq!(kinds.len(), 20, "{kinds:?}");
    assert!(kinds.values().all(|&count| count > 50), "{kinds:?}");
}

/// Books with random changes and of random bytes.
#[test]
fn changed_books() {
    let mut rng = gen::seeded("book_checks::changed_books", SEED + 2);
    let (mut accepted, mut refused) = (0, BTreeSet::new());
    for round in 0..6_000 {
        let model = match round % 4 {
            0 => gen::any_model(&mut rng),
            _ => gen::small_model(&mut rng, round % 3 == 0),
        };
        let sound = gen::sound_book(&mut rng, &model);
        let book = match round % 16 {
            0 => gen::scrap_book(&mut rng),
            _ => gen::mutated_book(&mut rng, &model, &sound),
        };
        let (store, book) = (Store::of(&model), Book::of(&model, book));
        match CHECK.same((&store, &book), &Lists::enough(&mut rng)).0 {
            Ok(()) => accepted += 1,
            Err(refusal) => {
                refused.insert(refusal.place);
                assert_eq!(refusal.number, 34, "{book}");
            }
        }
    }
    assert!(
        accepted > 500 && refused.len() > 500,
        "{accepted} {}",
        refused.len()
    );
}

/// Each value of each byte of some entries: of states, of a state and a number that is none, and of two such numbers.
#[test]
fn every_value_of_a_byte() {
    let mut rng = gen::seeded("book_checks::every_value_of_a_byte", SEED + 3);
    let branching = bench::models().swap_remove(4).store;
    let model = second::store::good(&branching).expect("a good store");
    let (own, lists) = (Book::own(&model), Lists::enough(&mut rng));
    let mut accepted = 0;
    for (p, q) in [
        (0, 1),
        (3, 2),
        (2, 2),
        (0, 4),
        (4, 0),
        (127, 2),
        (5, 127),
        (127, 127),
    ] {
        let number = entry_number(p, q);
        let entry = match Entry::of(&own, number).bytes() {
            [0, ..] => [1, 0, 2, 255],
            present => present,
        };
        for byte in 0..4 {
            for value in 0..=255 {
                let mut changed = entry;
                changed[byte] = value;
                let book = own.with(number, changed);
                accepted += usize::from(CHECK.same((&branching, &book), &lists).0.is_ok());
            }
        }
    }
    assert!((500..4_000).contains(&accepted), "{accepted}");
}

/// 21 at the store or else at the book, then 22, then 34. What stands behind the 65,536 bytes is not looked at.
#[test]
fn refusals_in_order() {
    let mut rng = gen::seeded("book_checks::refusals_in_order", SEED + 4);
    for _ in 0..20 {
        let model = gen::any_model(&mut rng);
        let lists = Lists::enough(&mut rng);
        let good = Store::of(&model);
        let damaged = good.damaged("start not below states", &[(3, model.states)]);
        let own = Book::own(&model);
        for (book, sound) in [
            (&own, Ok(())),
            (&own.with(0, [3, 0, 0, 0]), Err(Refusal::new(34, 0))),
        ] {
            for store in [&good, &damaged] {
                for store in store.of_every_length(&mut rng) {
                    for length in lengths(BOOK) {
                        let expected = match () {
                            () if store.is_short() => Err(Refusal::new(21, 1)),
                            () if length < BOOK => Err(Refusal::new(21, 2)),
                            () if store.wrong.is_some() => Err(Refusal::new(22, 0)),
                            () => sound,
                        };
                        let book = book.of_length(length);
                        let (answer, _) = CHECK.same((&store, &book), &lists);
                        assert_eq!(answer, expected, "{store}, {book}");
                    }
                }
            }
        }
    }
}

/// 22 before 34 wherever the store is damaged, and whatever the book is.
#[test]
fn damage_comes_before_the_book() {
    let mut rng = gen::seeded("book_checks::damage_comes_before_the_book", SEED + 5);
    let not_good = Err(Refusal::new(22, 0));
    for _ in 0..10 {
        let (model, lists) = (gen::any_model(&mut rng), Lists::enough(&mut rng));
        for bad in gen::bad_store_books(&mut rng, &model) {
            let store = Store::made_of(&model, bad.store);
            let book = Book::of(&model, bad.book);
            assert_eq!(
                CHECK.same((&store, &book), &lists).0,
                not_good,
                "{}",
                bad.what
            );
        }
        for store in stores::damaged(&mut rng) {
            let book = Book::of(&model, gen::scrap_book(&mut rng));
            let (answer, _) = CHECK.same((&store, &book), &lists);
            assert!(store.wrong.is_none() || answer == not_good, "{store}");
        }
    }
}
