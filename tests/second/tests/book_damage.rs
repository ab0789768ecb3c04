//! Damaged books of plays (request (v) of document 02), on many models.

mod common;

use std::collections::BTreeMap;

use common::{accepted_book_holds, model_of, three, Lists, EXAMPLE};
use second::book::Entry;
use second::store::TABLE;
use second::{book, book_of, check, gen, meaning, Refusal};

/// Each kind of damage is told, with the first bad entry.
#[test]
fn damaged_books() {
    let mut rng = gen::seeded("second::book_laws::damaged_books", 504);
    let mut models = vec![model_of(EXAMPLE), model_of(&three()), gen::chain(128)];
    models.extend((0..150).map(|_| gen::any_model(&mut rng)));
    let mut kinds: BTreeMap<&str, usize> = BTreeMap::new();
    for model in &models {
        let store = model.to_store();
        for sound in [book_of(model), gen::sound_book(&mut rng, model)] {
            for bad in gen::bad_books(&mut rng, model, &sound) {
                let _case = gen::book_case(model, &bad.book);
                assert_eq!(check(&store, &bad.book), Err(bad.refusal), "{}", bad.what);
                if model.states <= 12 {
                    let first = meaning::first_bad_entry(model, &bad.book);
                    assert_eq!(first, Some(bad.refusal.place as usize));
                }
                *kinds.entry(bad.what).or_default() += 1;
            }
        }
    }
    assert_eq!(kinds.len(), 20, "{kinds:?}");
    assert!(kinds.values().all(|&count| count > 50), "{kinds:?}");
}

/// Books with random changes and of random bytes: Check tells the first entry
/// that has a fault, and what it accepts holds.
#[test]
fn changed_books() {
    let mut rng = gen::seeded("second::book_laws::changed_books", 505);
    let (mut accepted, mut refused) = (0, 0);
    for round in 0..4_000 {
        let model = match round % 8 {
            0 => gen::any_model(&mut rng),
            1 => gen::narrow_model(&mut rng, false),
            _ => gen::small_model(&mut rng, round % 3 == 0),
        };
        let sound = gen::sound_book(&mut rng, &model);
        let book = match round % 16 {
            0 => gen::scrap_book(&mut rng),
            _ => gen::mutated_book(&mut rng, &model, &sound),
        };
        let _case = gen::book_case(&model, &book);
        let answer = check(&model.to_store(), &book);
        let first = meaning::first_bad_entry(&model, &book);
        let expected = first.map_or(Ok(()), |n| Err(Refusal::new(34, n as u64)));
        assert_eq!(answer, expected);
        if answer.is_ok() && model.states <= 12 {
            accepted_book_holds(&model, &book);
            accepted += 1;
        }
        refused += usize::from(answer.is_err());
    }
    assert!(accepted > 500 && refused > 1_000, "{accepted} {refused}");
}

/// Depths make a book sound just if all its plays end: then their lengths do.
#[test]
fn depths_of_plays() {
    let mut rng = gen::seeded("second::book_laws::depths_of_plays", 506);
    let (mut ending, mut endless) = (0, 0);
    for round in 0..1_500 {
        let model = gen::small_model(&mut rng, round % 2 == 0);
        let sound = gen::sound_book(&mut rng, &model);
        let mut book = gen::mutated_book(&mut rng, &model, &sound);
        let _case = gen::book_case(&model, &sound);
        let plays = meaning::Plays::new(&model, &book);
        let mut all_end = true;
        for number in 0..TABLE {
            let longest = plays.longest((number / 128) as u16, (number % 128) as u16);
            let entry = Entry::of(&book, number);
            all_end = all_end && (entry.is_absent() || longest.is_some());
            let depth = longest.map_or(entry.depth, |longest| longest as u8);
            Entry { depth, ..entry }.put(&mut book, number);
        }
        assert_eq!(check(&model.to_store(), &book).is_ok(), all_end);
        ending += usize::from(all_end);
        endless += usize::from(!all_end);
    }
    assert!(ending > 200 && endless > 200, "{ending} {endless}");
}

/// 22 comes before 34, and nothing is changed.
#[test]
fn books_beside_bad_stores() {
    let mut rng = gen::seeded("second::book_laws::books_beside_bad_stores", 508);
    for _ in 0..10 {
        let model = gen::small_model(&mut rng, false);
        for bad in gen::bad_store_books(&mut rng, &model) {
            let _case = gen::case(|| gen::shown_store(&model, &bad.store));
            let refusal = Err(Refusal::new(22, 0));
            assert_eq!(check(&bad.store, &bad.book), refusal, "{}", bad.what);
            let (mut table, mut kept) = (Lists::new().table, bad.book.clone());
            assert_eq!(book(&bad.store, &mut table, &mut kept), refusal);
            assert!(kept == bad.book && table == Lists::new().table);
        }
    }
}
