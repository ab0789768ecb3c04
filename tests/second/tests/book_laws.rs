//! Laws of books of plays (request (v) of document 02), on many models.

mod common;

use std::collections::{BTreeMap, BTreeSet};

use common::{accepted_book_holds, pairs, Lists};
use second::book::{entry_number, Entry};
use second::store::{BOOK, TABLE};
use second::{book, book_of, check, gen, judge, meaning, rank, Model, Verdict};

/// Models at the limits, and models of any kind.
fn models(rng: &mut gen::Rng, count: usize) -> Vec<Model> {
    let limits = gen::limit_models(rng).into_iter();
    let mut models: Vec<Model> = limits.map(|(_, model)| model).collect();
    models.extend([1, 30, 127].map(|depth| gen::branching_deep_model(rng, depth)));
    models.extend((0..count).map(|_| gen::any_model(rng)));
    models
}

/// Our own book is accepted, has entries for just the pairs of nonzero rank,
/// and its depths are the ranks. Its other bytes are 0, and it is the one that
/// k-alike states give. The longest play is as long as the depth says. The pair
/// the other way round has the same depth.
#[test]
fn our_own_book() {
    let mut rng = gen::seeded("second::book_laws::our_own_book", 501);
    for model in models(&mut rng, 1_500) {
        let _case = gen::model_case(&model);
        let store = model.to_store();
        let mut lists = Lists::new();
        assert_eq!(book(&store, &mut lists.table, &mut lists.book), Ok(()));
        let mut ranked = Lists::new();
        rank(&store, &mut ranked.table).unwrap();
        assert_eq!(lists.table, ranked.table);
        assert_eq!(lists.book[..BOOK], book_of(&model));
        assert_eq!(lists.book[BOOK..], ranked.book[BOOK..]);
        assert_eq!(check(&store, &lists.book), Ok(()));
        let plays = meaning::Plays::new(&model, &lists.book);
        for number in 0..TABLE {
            let entry = Entry::of(&lists.book, number);
            let rank = lists.table[number];
            assert_eq!(entry.is_absent(), rank == 0);
            assert_eq!(entry.depth, rank);
            assert!(rank > 0 || entry.bytes() == [0; 4]);
            let (p, q) = (number / 128, number % 128);
            let longest = plays.longest(p as u16, q as u16);
            assert_eq!(longest, (rank > 0).then_some(u16::from(rank)));
            let turned = Entry::of(&lists.book, entry_number(q, p));
            assert_eq!(turned.depth, entry.depth);
        }
        assert_eq!(meaning::book_holds(&model, &lists.book), Ok(()));
    }
}

/// All kinds of sound books are accepted, and hold.
#[test]
fn sound_books() {
    let mut rng = gen::seeded("second::book_laws::sound_books", 502);
    let mut kinds: BTreeMap<&str, BTreeSet<usize>> = BTreeMap::new();
    for model in models(&mut rng, 300) {
        let store = model.to_store();
        let mut books = gen::sound_books(&mut rng, &model);
        books.push(("any", gen::sound_book(&mut rng, &model)));
        for (what, book) in &books {
            let _case = gen::book_case(&model, book);
            assert_eq!(check(&store, book), Ok(()), "{what}");
            if model.states <= 12 {
                accepted_book_holds(&model, book);
                assert_eq!(meaning::first_bad_entry(&model, book), None);
            }
            let depths = (0..TABLE).map(|number| Entry::of(book, number));
            let depths = depths.filter(|entry| !entry.is_absent());
            let deepest = depths.map(|entry| entry.depth).max().unwrap_or(0);
            kinds.entry(what).or_default().insert(usize::from(deepest));
        }
    }
    assert_eq!(kinds.len(), 12, "{kinds:?}");
    for what in ["depths raised", "other openings", "some entries", "any"] {
        assert!(
            kinds[what].contains(&255) || what == "some entries",
            "{what}"
        );
        assert!(kinds[what].len() > 15, "{what}: {kinds:?}");
    }
}

/// Where a model is refused, the entry of Judge's step and what it rests on are
/// a sound book.
#[test]
fn the_plays_of_a_leak() {
    let mut rng = gen::seeded("second::book_laws::the_plays_of_a_leak", 503);
    let (mut refused, mut branching) = (0, 0);
    for model in models(&mut rng, 600) {
        let _case = gen::model_case(&model);
        let store = model.to_store();
        let mut lists = Lists::new();
        let verdict = judge(&store, &mut lists.distances, &mut lists.table).unwrap();
        if let Verdict::Refused { step, depth } = verdict {
            let step = model.steps[usize::from(step)];
            let number = entry_number(usize::from(step.source), usize::from(step.target));
            let cut = gen::cut_book(&model, &book_of(&model), number);
            assert_eq!(check(&store, &cut), Ok(()));
            let entry = Entry::of(&cut, number);
            assert!(!entry.is_absent());
            assert_eq!(u16::from(entry.depth), depth);
            refused += 1;
            branching += usize::from(!meaning::deterministic(&model));
        }
    }
    assert!(refused > 200 && branching > 100, "{refused} {branching}");
}

/// Over each relation between three states, or fewer: none that is a low-view
/// bisimulation pairs two states of an entry, and each pair of rank 0 is in
/// one.
#[test]
fn over_each_relation() {
    let mut rng = gen::seeded("second::book_laws::over_each_relation", 507);
    for round in 0..300 {
        let (states, steps) = (rng.between(1, 3), rng.below(9));
        let actions = rng.between(2, 3);
        let model = gen::random_model(&mut rng, states, actions, steps, round % 4 == 0);
        let _case = gen::model_case(&model);
        let all: Vec<(u16, u16)> = (0..states * states)
            .map(|index| ((index / states) as u16, (index % states) as u16))
            .collect();
        let mut paired = BTreeSet::new();
        for chosen in 0..1_usize << all.len() {
            let relation = (0..all.len()).filter(|index| chosen >> index & 1 == 1);
            let relation: BTreeSet<(u16, u16)> = relation.map(|index| all[index]).collect();
            if meaning::is_bisimulation(&model, &relation) {
                paired.extend(relation);
            }
        }
        assert_eq!(paired, meaning::greatest_bisimulation(&model));
        let own = pairs(&model, &book_of(&model));
        assert!(own.is_disjoint(&paired));
        assert_eq!(own.len() + paired.len(), all.len());
        for _ in 0..20 {
            let sound = gen::sound_book(&mut rng, &model);
            assert!(pairs(&model, &sound).is_disjoint(&paired));
            let book = gen::mutated_book(&mut rng, &model, &sound);
            if check(&model.to_store(), &book).is_ok() {
                assert!(pairs(&model, &book).is_disjoint(&paired));
            }
        }
    }
}
