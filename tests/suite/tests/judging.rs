//! Reach, Rank, Judge and Run on models, against the second checker.
use second::gen::{self, Rng};
use second::store::{DISTANCES, MOST_ACTIONS, MOST_STATES, MOST_STEPS, TABLE};
use second::{Refusal, Verdict};
use std::collections::BTreeSet;
use suite::bench::{self, store_of, worked_distances, worked_table, WORKED};
use suite::lists::Lists;
use suite::operations::{JUDGE, RANK, REACH, RUN};
use suite::stores::Store;

const SEED: u64 = 7_200;

/// The state numbers that Run is asked for: every one that a model can have, and some beyond.
fn states() -> impl Iterator<Item = u16> {
    (0..132).chain([255, 256, 32_768, 65_534, 65_535])
}

/// All four operations on a good store; Run for some of the states.
fn judged(rng: &mut Rng, store: &Store, states: impl Iterator<Item = u16>) -> Verdict {
    let before = Lists::enough(rng);
    assert_eq!(REACH.same(store, &before).0, Ok(()));
    let rank = RANK.same(store, &before).0.expect("the store is good");
    for state in states {
        let _ = RUN.same((store, state), &before);
    }
    let verdict = JUDGE.same(store, &before).0.expect("the store is good");
    match verdict {
        Verdict::Passed { rank: told } => assert_eq!(told, rank, "{store}"),
        Verdict::Refused { depth, .. } => assert!(0 < depth && depth <= rank, "{store}"),
    }
    verdict
}

#[test]
fn the_worked_example_in_full() {
    let mut rng = gen::seeded("judging::the_worked_example_in_full", SEED + 4);
    let (store, old) = (store_of(WORKED), Lists::enough(&mut rng));
    // Of distances and table nothing but what is told is changed, and of the other lists nothing.
    let mut expected = old.clone();
    expected.distances[..DISTANCES].copy_from_slice(&worked_distances());
    let mut lists = old.clone();
    assert_eq!(REACH.told(&store, &mut lists), Ok(()));
    assert!(lists == expected, "{}", lists.difference(&expected));

    let mut ranked = old.clone();
    ranked.table[..TABLE].copy_from_slice(&worked_table());
    let mut lists = old.clone();
    assert_eq!(RANK.told(&store, &mut lists), Ok(2));
    assert!(lists == ranked, "{}", lists.difference(&ranked));

    ranked.distances = expected.distances.clone();
    let mut lists = old.clone();
    let answer = JUDGE.told(&store, &mut lists);
    assert_eq!(answer, Ok(Verdict::Refused { step: 1, depth: 2 }));
    assert!(lists == ranked, "{}", lists.difference(&ranked));

    expected.run[..2].copy_from_slice(&[1, 3]);
    let mut lists = old.clone();
    assert_eq!(RUN.told((&store, 3), &mut lists), Ok(2));
    assert!(lists == expected, "{}", lists.difference(&expected));
    let no_state = RUN.told((&store, 4), &mut lists);
    assert_eq!(no_state, Err(Refusal::new(25, 4)));
}

#[test]
fn the_bench_models() {
    let mut rng = gen::seeded("judging::the_bench_models", SEED);
    for model in bench::models() {
        let verdict = judged(&mut rng, &model.store, states());
        assert_eq!(verdict, model.verdict, "{}", model.store);
    }
    let store = Store::of(&gen::chain(128));
    let (step, depth) = (1, 127);
    let verdict = judged(&mut rng, &store, states());
    assert_eq!(verdict, Verdict::Refused { step, depth });
    assert_eq!(RANK.same(&store, &Lists::enough(&mut rng)).0, Ok(127));
}

#[test]
fn every_depth() {
    let mut rng = gen::seeded("judging::every_depth", SEED + 1);
    for depth in 1..=127 {
        let deterministic = gen::deep_model(&mut rng, depth);
        let branching = gen::branching_deep_model(&mut rng, depth);
        for model in [deterministic, branching] {
            let store = Store::of(&model);
            match judged(&mut rng, &store, states().step_by(11)) {
                Verdict::Refused { depth: told, .. } => {
                    assert_eq!(usize::from(told), depth, "{store}");
                }
                passed => panic!("{passed:?}, {store}"),
            }
        }
    }
    for count in 2..=128 {
        let store = Store::of(&gen::chain(count));
        judged(&mut rng, &store, states().step_by(13));
    }
}

#[test]
fn models_at_the_limits() {
    let mut rng = gen::seeded("judging::models_at_the_limits", SEED + 2);
    let mut full = 0;
    for (_, model) in gen::limit_models(&mut rng) {
        let (states_used, actions) = (usize::from(model.states), model.actions.len());
        let sizes = (states_used, actions, model.steps.len());
        full += usize::from(sizes == (MOST_STATES, MOST_ACTIONS, MOST_STEPS));
        judged(&mut rng, &Store::of(&model), states());
    }
    assert!(full > 3, "{full} models have all states, actions and steps");
}

#[test]
fn random_models() {
    let mut rng = gen::seeded("judging::random_models", SEED + 3);
    let mut passed = 0;
    let mut depths = BTreeSet::new();
    for round in 0..4_000 {
        let model = gen::any_model(&mut rng);
        let most = model.states + 2;
        let some = (0..most).step_by(1 + usize::from(most) / 16);
        let asked: Vec<u16> = match round % 25 {
            0 => states().collect(),
            _ => some.collect(),
        };
        match judged(&mut rng, &Store::of(&model), asked.into_iter()) {
            Verdict::Passed { .. } => passed += 1,
            Verdict::Refused { depth, .. } => {
                depths.insert(depth);
            }
        }
    }
    assert!(passed > 1_000 && passed < 3_000, "{passed}");
    assert!(depths.len() > 60, "{depths:?}");
}
