//! Word on models, against the second checker.
use std::collections::BTreeSet;

use second::gen::{self, Rng};
use second::meaning::{self, Deterministic};
use second::store::{DISTANCES, MOST_STATES, MOST_STEPS, TABLE};
use second::{End, Model, Refusal, Step, Verdict};
use suite::bench::{self, store_of, worked_distances, worked_table, WordTold, WORKED};
use suite::lists::Lists;
use suite::operations::{JUDGE, WORD};
use suite::stores::Store;

const SEED: u64 = 7_300;

/// Word on a store, with the letters that it fills in.
fn told_of(rng: &mut Rng, store: &Store) -> (WordTold, Lists) {
    let (answer, lists) = WORD.same(store, &Lists::enough(rng));
    let told = answer.map(|(length, end)| (lists.word[..length].to_vec(), end));
    (told, lists)
}

fn told(rng: &mut Rng, model: &Model) -> WordTold {
    told_of(rng, &Store::of(model)).0
}

/// Word and Judge on a model: they leave the same distances and table, and Word shows what it means.
fn told_beside_judge(rng: &mut Rng, model: &Model) -> WordTold {
    let _case = gen::model_case(model);
    let store = Store::of(model);
    let (told, word) = told_of(rng, &store);
    let (verdict, judge) = JUDGE.same(&store, &Lists::enough(rng));
    assert_eq!(word.distances[..DISTANCES], judge.distances[..DISTANCES]);
    assert_eq!(word.table[..TABLE], judge.table[..TABLE]);
    match (Deterministic::new(model), verdict.expect("good"), &told) {
        (Some(exact), Verdict::Refused { step, depth }, Ok((word, end))) => {
            assert_eq!(exact.word_holds(step, depth, word, *end), Ok(()));
        }
        (Some(_), Verdict::Passed { .. }, Err(refusal)) => assert_eq!(refusal.number, 24),
        (None, _, Err(refusal)) => assert_eq!(refusal.number, 23),
        (_, verdict, told) => panic!("{verdict:?} with {told:?}"),
    }
    told
}

#[test]
fn the_worked_example_in_full() {
    let mut rng = gen::seeded("words::the_worked_example_in_full", SEED + 6);
    let (store, old) = (store_of(WORKED), Lists::enough(&mut rng));
    let mut expected = old.clone();
    expected.distances[..DISTANCES].copy_from_slice(&worked_distances());
    expected.table[..TABLE].copy_from_slice(&worked_table());
    expected.word[..2].copy_from_slice(&[0, 0]);
    let mut lists = old;
    assert_eq!(WORD.told(&store, &mut lists), Ok((2, End::Source)));
    assert!(lists == expected, "{}", lists.difference(&expected));
}

#[test]
fn the_bench_models() {
    let mut rng = gen::seeded("words::the_bench_models", SEED);
    for model in bench::models() {
        let (told, _) = told_of(&mut rng, &model.store);
        assert_eq!(told, model.word, "{}", model.store);
    }
    let longest = Ok((vec![0; 127], End::Source));
    assert_eq!(told_beside_judge(&mut rng, &gen::chain(128)), longest);
}

#[test]
fn every_depth() {
    let mut rng = gen::seeded("words::every_depth", SEED + 1);
    let mut named = [0, 0];
    for depth in 1..=127 {
        for _ in 0..3 {
            let model = gen::deep_model(&mut rng, depth);
            let (word, end) = told_beside_judge(&mut rng, &model).expect("refused");
            assert_eq!(word.len(), depth);
            named[usize::from(end == End::Target)] += 1;
        }
        let branching = gen::branching_deep_model(&mut rng, depth);
        let refusal = told_beside_judge(&mut rng, &branching).expect_err("not deterministic");
        assert_eq!(refusal.number, 23);
    }
    for count in 2..=128 {
        let (word, end) = told(&mut rng, &gen::chain(count)).expect("refused");
        assert_eq!((word.len(), end), (usize::from(count) - 1, End::Source));
    }
    assert!(named[0] > 100 && named[1] > 100, "{named:?}");
}

#[test]
fn twins() {
    let mut rng = gen::seeded("words::twins", SEED + 5);
    let mut branching = 0;
    for depth in 1..=127 {
        let model = gen::deep_model(&mut rng, depth);
        let twin = gen::with_twin(&mut rng, &model);
        let twin = gen::shuffle(&mut rng, &twin);
        let refused = told_beside_judge(&mut rng, &twin).err();
        branching += usize::from(refused.is_some_and(|refusal| refusal.number == 23));
    }
    assert!(branching > 60, "{branching}");
}

#[test]
fn models_at_the_limits() {
    let mut rng = gen::seeded("words::models_at_the_limits", SEED + 2);
    for (_, model) in gen::limit_models(&mut rng) {
        let _ = told_beside_judge(&mut rng, &model);
    }
}

#[test]
fn random_models() {
    let mut rng = gen::seeded("words::random_models", SEED + 3);
    let (mut shown, mut passed, mut branching) = (0, 0, 0);
    let mut depths = BTreeSet::new();
    for round in 0..4_000 {
        let model = match round % 2 {
            0 => gen::deterministic_model(&mut rng),
            _ => gen::any_model(&mut rng),
        };
        let told = match round % 5 {
            0 => told_beside_judge(&mut rng, &model),
            _ => told(&mut rng, &model),
        };
        match told {
            Ok((word, _)) => {
                shown += 1;
                depths.insert(word.len());
            }
            Err(refusal) if refusal.number == 24 => passed += 1,
            Err(refusal) => {
                assert_eq!(refusal.number, 23);
                branching += 1;
            }
        }
    }
    assert!(
        shown > 800 && passed > 800 && branching > 400,
        "{shown} {passed} {branching}"
    );
    assert!(depths.len() > 60, "{depths:?}");
}

/// The model with one more state that branches, and if so asked with a step from the start to it; none if there is no
/// room.
fn with_branch(rng: &mut Rng, model: &Model, reachable: bool) -> Option<Model> {
    let state = model.states;
    if usize::from(state) == MOST_STATES || model.steps.len() + 3 > MOST_STEPS {
        return None;
    }
    let action = rng.below(model.actions.len()) as u16;
    let target = rng.below(usize::from(state)) as u16;
    let mut steps: BTreeSet<Step> = model.steps.iter().copied().collect();
    steps.insert(Step::new(state, action, target));
    steps.insert(Step::new(state, action, state));
    if reachable {
        steps.insert(Step::new(model.start, action, state));
    }
    let larger = Model {
        states: state + 1,
        steps: steps.into_iter().collect(),
        ..model.clone()
    };
    Some(gen::shuffle(rng, &larger))
}

#[test]
fn branching_states() {
    let mut rng = gen::seeded("words::branching_states", SEED + 4);
    let mut places = BTreeSet::new();
    let (mut shown, mut passed) = (0, 0);
    for _ in 0..1_500 {
        let model = gen::deterministic_model(&mut rng);
        if let Some(unreachable) = with_branch(&mut rng, &model, false) {
            let _case = gen::model_case(&unreachable);
            assert!(meaning::deterministic(&unreachable));
            match told(&mut rng, &unreachable) {
                Ok(_) => shown += 1,
                Err(refusal) => {
                    assert_eq!(refusal, Refusal::new(24, 0));
                    passed += 1;
                }
            }
        }
        if let Some(reachable) = with_branch(&mut rng, &model, true) {
            let _case = gen::model_case(&reachable);
            let refusal = told(&mut rng, &reachable).expect_err("branches");
            assert_eq!(refusal.number, 23);
            places.insert(refusal.place);
        }
    }
    assert!(shown > 300 && passed > 300, "{shown} {passed}");
    assert!(places.len() > 60, "{places:?}");
}
