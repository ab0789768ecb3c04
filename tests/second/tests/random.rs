//! The answers on many random models against their meaning.

mod common;

use std::collections::BTreeSet;

use common::Lists;
use second::gen;
use second::meaning::{self, possible, thin, Deterministic};
use second::{judge, program, rank, reach, run, word, End, Level, Model, Refusal, Verdict};

/// What Judge and Word tell of a model.
struct Told {
    verdict: Verdict,
    word: Result<(Vec<u16>, End), Refusal>,
}

fn told(model: &Model) -> Told {
    let store = model.to_store();
    let mut lists = Lists::new();
    let verdict = judge(&store, &mut lists.distances, &mut lists.table).unwrap();
    let word = word(
        &store,
        &mut lists.distances,
        &mut lists.table,
        &mut lists.word,
    )
    .map(|(length, end)| (lists.word[..length].to_vec(), end));
    Told { verdict, word }
}

/// Checks Judge and Word on a deterministic model by exploration.
fn check_meaning(model: &Model) -> Verdict {
    let _case = gen::model_case(model);
    let exact = Deterministic::new(model).expect("deterministic");
    let Told { verdict, word } = told(model);
    assert_eq!(exact.verdict_holds(verdict), Ok(()));
    match (verdict, word) {
        (Verdict::Refused { step, depth }, Ok((word, end))) => {
            assert_eq!(exact.word_holds(step, depth, &word, end), Ok(()));
        }
        (Verdict::Passed { .. }, Err(refusal)) => assert_eq!(refusal, Refusal::new(24, 0)),
        (verdict, word) => panic!("{verdict:?} with {word:?}"),
    }
    verdict
}

#[test]
fn deterministic_models_mean_what_is_told() {
    let mut rng = gen::seeded(
        "second::random::deterministic_models_mean_what_is_told",
        201,
    );
    let (mut passed, mut refused, mut small) = (0, 0, 0);
    let mut depths = BTreeSet::new();
    for _ in 0..3_000 {
        let model = gen::deterministic_model(&mut rng);
        small += usize::from(model.states <= 12);
        match check_meaning(&model) {
            Verdict::Passed { .. } => passed += 1,
            Verdict::Refused { depth, .. } => {
                refused += 1;
                depths.insert(depth);
            }
        }
    }
    assert!(passed > 800 && refused > 800, "{passed} {refused}");
    assert!(small > 2_000, "{small}");
    assert!(depths.len() > 60, "{depths:?}");
}

#[test]
fn every_depth_is_told() {
    let mut rng = gen::seeded("second::random::every_depth_is_told", 202);
    for depth in 1..=127 {
        for _ in 0..1 + usize::from(depth % 4 == 0) {
            let model = gen::deep_model(&mut rng, depth);
            let _case = gen::model_case(&model);
            match check_meaning(&model) {
                Verdict::Refused { depth: told, .. } => assert_eq!(usize::from(told), depth),
                verdict => panic!("{verdict:?} at {depth}"),
            }
        }
    }
}

#[test]
fn twins_keep_the_depth() {
    let mut rng = gen::seeded("second::random::twins_keep_the_depth", 212);
    let mut doubles = 0;
    for depth in (1..=126).step_by(5) {
        let model = gen::deep_model(&mut rng, depth);
        let model = gen::with_twin(&mut rng, &model);
        let _case = gen::model_case(&model);
        let Told { verdict, word } = told(&model);
        match verdict {
            Verdict::Refused { depth: told, .. } => assert_eq!(usize::from(told), depth),
            verdict => panic!("{verdict:?} at {depth}"),
        }
        doubles += usize::from(word.is_err_and(|refusal| refusal.number == 23));
    }
    assert!(doubles > 12, "{doubles}");
}

#[test]
fn passing_models_pass() {
    let mut rng = gen::seeded("second::random::passing_models_pass", 203);
    for round in 0..600 {
        let deterministic = round % 2 == 0;
        let states = if round % 20 == 0 {
            rng.between(13, 128)
        } else {
            rng.between(1, 12)
        };
        let model = gen::passing_model(&mut rng, states, deterministic);
        let _case = gen::model_case(&model);
        let verdict = told(&model).verdict;
        assert!(matches!(verdict, Verdict::Passed { .. }), "{verdict:?}");
        if deterministic {
            check_meaning(&model);
        }
    }
}

#[test]
fn limits_mean_what_is_told() {
    let mut rng = gen::seeded("second::random::limits_mean_what_is_told", 204);
    for (what, model) in gen::limit_models(&mut rng) {
        let _case = gen::model_case(&model);
        if meaning::deterministic(&model) {
            check_meaning(&model);
        }
        let page = program(&model.to_text());
        assert_eq!(
            meaning::page_holds(&model.to_text(), &page),
            Ok(()),
            "{what}"
        );
    }
}

/// All sequences over some actions, up to a length.
fn sequences(actions: &[u16], longest: usize) -> Vec<Vec<u16>> {
    let mut all = vec![Vec::new()];
    let mut from = 0;
    for _ in 0..longest {
        let to = all.len();
        for index in from..to {
            for &action in actions {
                let mut longer = all[index].clone();
                longer.push(action);
                all.push(longer);
            }
        }
        from = to;
    }
    all
}

/// The definitions taken at their word on tiny models: every sequence up to a
/// length is thinned and run from each start, with every low tail up to a
/// length. States that differ do so within 2 of these 3 low actions; and a pair
/// of states that differ, if there is one, is met within 6 actions in each model
/// here. Some models interfere from an extra start only.
#[test]
fn tiny_models_sequence_by_sequence() {
    let mut rng = gen::seeded("second::random::tiny_models_sequence_by_sequence", 205);
    let (mut seen, mut interfering, mut later) = (0, 0, 0);
    while seen < 1_500 {
        let states = rng.between(2, 3);
        let actions = rng.between(2, 3);
        let steps = rng.between(2, states * actions - 1);
        let mut model = gen::random_model(&mut rng, states, actions, steps, true);
        model.actions[0].level = Level::Low;
        model.actions[1].level = Level::High;
        let model = gen::shuffle(&mut rng, &model);
        let _case = gen::model_case(&model);
        seen += 1;
        let numbers: Vec<u16> = (0..actions as u16).collect();
        let low: Vec<u16> = numbers
            .iter()
            .copied()
            .filter(|&action| model.level(action) == Level::Low)
            .collect();
        let tails = sequences(&low, 3);
        let all = sequences(&numbers, 6);
        let interferes = |&start: &u16| {
            let interferes = |sequence: &Vec<u16>| interferes(&model, start, sequence, &tails);
            all.iter().any(interferes)
        };
        let starts = model.starts();
        let found = starts.iter().any(interferes);
        let verdict = check_meaning(&model);
        assert_eq!(found, matches!(verdict, Verdict::Refused { .. }));
        interfering += usize::from(found);
        later += usize::from(found && !interferes(&model.start));
    }
    assert!(interfering > 150, "{interfering}");
    assert!(later > 20, "{later}");
}

/// Whether a sequence interferes that can be run from a start: its thinned form
/// can't be run from the same start, or a low tail can follow just one of them.
fn interferes(model: &Model, start: u16, sequence: &[u16], tails: &[Vec<u16>]) -> bool {
    let thinned = thin(model, sequence);
    possible(model, start, sequence)
        && (!possible(model, start, &thinned)
            || tails.iter().any(|tail| {
                let full = [sequence, tail].concat();
                let short = [&thinned[..], tail].concat();
                assert_eq!(thin(model, &full), short);
                possible(model, start, &full) != possible(model, start, &short)
            }))
}

/// Word, found by trying all low sequences in order.
#[test]
fn tiny_words_by_trying_all() {
    let mut rng = gen::seeded("second::random::tiny_words_by_trying_all", 206);
    let mut words = 0;
    for _ in 0..3_000 {
        let states = rng.between(2, 5);
        let actions = rng.between(2, 4);
        let steps = rng.below(states * actions + 2);
        let model = gen::random_model(&mut rng, states, actions, steps, true);
        let _case = gen::model_case(&model);
        let Told { verdict, word } = told(&model);
        let Verdict::Refused { step, depth } = verdict else {
            continue;
        };
        let low: Vec<u16> = (0..actions as u16)
            .filter(|&action| model.level(action) == Level::Low)
            .collect();
        let step = model.steps[usize::from(step)];
        let all = sequences(&low, usize::from(depth));
        let first = all.iter().find_map(|sequence| {
            let source = possible(&model, step.source, sequence);
            let target = possible(&model, step.target, sequence);
            match (source, target) {
                (true, false) => Some((sequence.clone(), End::Source)),
                (false, true) => Some((sequence.clone(), End::Target)),
                _ => None,
            }
        });
        assert_eq!(word.ok(), first);
        words += 1;
    }
    assert!(words > 300, "{words}");
}

/// Checks the lists that Reach, Rank and Run fill; yields the greatest rank.
fn check_lists(model: &Model) -> u16 {
    let store = model.to_store();
    let mut lists = Lists::new();
    reach(&store, &mut lists.distances).unwrap();
    assert_eq!(meaning::distances_hold(model, &lists.distances), Ok(()));
    let greatest = rank(&store, &mut lists.table).unwrap();
    assert_eq!(meaning::ranks_hold(model, &lists.table, greatest), Ok(()));
    assert!(greatest < model.states);

    let reachable = meaning::reachable(model);
    for state in (0..model.states).filter(|state| state % 16 < 12) {
        let answer = run(&store, &mut lists.distances, &mut lists.run, state);
        if reachable.contains(&state) {
            let steps = &lists.run[..answer.unwrap()];
            let holds = meaning::run_holds(model, &lists.distances, steps, state);
            assert_eq!(holds, Ok(()));
        } else {
            assert_eq!(answer, Err(Refusal::new(26, u64::from(state))));
        }
    }
    greatest
}

#[test]
fn lists_hold_on_all_models() {
    let mut rng = gen::seeded("second::random::lists_hold_on_all_models", 207);
    let (mut doubles, mut passed) = (0, 0);
    for _ in 0..1_000 {
        let model = gen::any_model(&mut rng);
        let _case = gen::model_case(&model);
        let greatest = check_lists(&model);
        let Told { verdict, word } = told(&model);
        if model.states <= 40 {
            assert_eq!(verdict, meaning::verdict_of(&model));
        }
        if let Verdict::Passed { rank } = verdict {
            assert_eq!(rank, greatest);
            passed += 1;
        }
        let branches = word.is_err_and(|refusal| refusal.number == 23);
        assert_eq!(branches, !meaning::deterministic(&model));
        doubles += usize::from(branches);
    }
    assert!(doubles > 200 && passed > 200, "{doubles} {passed}");
}

#[test]
fn pages_hold() {
    let mut rng = gen::seeded("second::random::pages_hold", 208);
    for _ in 0..1_500 {
        let model = gen::any_model(&mut rng);
        let _case = gen::model_case(&model);
        if model.states <= 60 {
            let text = model.to_text();
            let page = program(&text);
            assert_eq!(meaning::page_holds(&text, &page), Ok(()));
        }
    }
}

fn refused(text: &[u8], page: &[u8]) {
    let holds = meaning::page_holds(text, page).is_ok();
    assert!(!holds, "page: {}", gen::shown(page));
}

/// A page in which any byte is changed, missing or added does not hold.
#[test]
fn changed_pages_do_not_hold() {
    let mut rng = gen::seeded("second::random::changed_pages_do_not_hold", 209);
    let mut tried = 0;
    while tried < 12 {
        let model = gen::small_model(&mut rng, tried % 5 != 0);
        let _case = gen::model_case(&model);
        let text = model.to_text();
        let page = program(&text);
        if !page.starts_with(b"V,refuse") && tried % 3 == 0 {
            continue;
        }
        tried += 1;
        for place in 0..page.len() {
            for byte in b"0123456789,-\nVCRWBNEabstz" {
                let mut changed = page.clone();
                changed[place] = *byte;
                if changed != page {
                    refused(&text, &changed);
                }
                let mut longer = page.clone();
                longer.insert(place, *byte);
                refused(&text, &longer);
            }
            let mut shorter = page.clone();
            shorter.remove(place);
            refused(&text, &shorter);
        }
    }
}

/// The checks of the meaning refuse every other answer.
#[test]
fn wrong_answers_do_not_hold() {
    let mut rng = gen::seeded("second::random::wrong_answers_do_not_hold", 210);
    let mut refused = 0;
    for _ in 0..400 {
        let model = gen::small_model(&mut rng, true);
        let _case = gen::model_case(&model);
        let exact = Deterministic::new(&model).expect("deterministic");
        let Told { verdict, word } = told(&model);
        let passes = matches!(verdict, Verdict::Passed { .. });
        let pass = Verdict::Passed { rank: 0 };
        assert_eq!(exact.verdict_holds(pass).is_ok(), passes);
        for step in 0..=model.steps.len() as u16 {
            for depth in 0..=model.states {
                let other = Verdict::Refused { step, depth };
                assert_eq!(exact.verdict_holds(other).is_ok(), other == verdict);
            }
        }
        let (Verdict::Refused { step, depth }, Ok((word, end))) = (verdict, word) else {
            continue;
        };
        refused += 1;
        let numbers: Vec<u16> = (0..model.actions.len() as u16).collect();
        for other in sequences(&numbers, usize::from(depth).min(3)) {
            for other_end in [End::Source, End::Target] {
                let holds = exact.word_holds(step, depth, &other, other_end).is_ok();
                assert_eq!(holds, other == word && other_end == end);
            }
        }
    }
    assert!(refused > 50, "{refused}");
}

/// Neither list can have a wrong number in it.
#[test]
fn wrong_lists_do_not_hold() {
    let mut rng = gen::seeded("second::random::wrong_lists_do_not_hold", 211);
    for _ in 0..60 {
        let model = gen::small_model(&mut rng, false);
        let _case = gen::model_case(&model);
        let store = model.to_store();
        let mut lists = Lists::new();
        reach(&store, &mut lists.distances).unwrap();
        let greatest = rank(&store, &mut lists.table).unwrap();
        for state in 0..128 {
            let right = lists.distances[state];
            for wrong in [0, 1, 2, 3, 11, 12, 65_534, 65_535] {
                lists.distances[state] = wrong;
                let holds = meaning::distances_hold(&model, &lists.distances).is_ok();
                assert_eq!(holds, wrong == right);
            }
            lists.distances[state] = right;
        }
        for p in 0..usize::from(model.states) + 1 {
            for q in 0..usize::from(model.states) + 1 {
                let place = 128 * p + q;
                let right = lists.table[place];
                for wrong in [0, 1, 2, 3, 12, 255] {
                    lists.table[place] = wrong;
                    let holds = meaning::ranks_hold(&model, &lists.table, greatest).is_ok();
                    assert_eq!(holds, wrong == right);
                }
                lists.table[place] = right;
            }
        }
        assert!(meaning::ranks_hold(&model, &lists.table, greatest + 1).is_err());
    }
}

/// The same model with one start.
fn from_start(model: &Model, start: u16) -> Model {
    model.with_starts(&BTreeSet::from([start]))
}

/// What a model's starts give, each taken alone.
struct Alone {
    /// The least of the distances.
    distances: Vec<u16>,
    /// Depth, step and start of each refusal.
    refused: BTreeSet<(u16, u16, u16)>,
}

/// Judges a model from each of its starts. Ranks don't depend on the starts.
fn alone(model: &Model, table: &[u8]) -> Alone {
    let mut distances = vec![65_535; 128];
    let mut refused = BTreeSet::new();
    for start in model.starts() {
        let store = from_start(model, start).to_store();
        let mut lists = Lists::new();
        let answer = judge(&store, &mut lists.distances, &mut lists.table).unwrap();
        assert_eq!(lists.table, table);
        for (distance, from_start) in distances.iter_mut().zip(&lists.distances) {
            *distance = *from_start.min(distance);
        }
        if let Verdict::Refused { step, depth } = answer {
            refused.insert((depth, step, start));
        }
    }
    Alone { distances, refused }
}

/// A model with several starts is told by what each start alone gives: a state
/// has the least distance, and the verdict is the least depth with its lowest
/// step (request (iii) of document 02).
#[test]
fn many_starts_are_told_by_each_alone() {
    let mut rng = gen::seeded("second::random::many_starts_are_told_by_each_alone", 213);
    let (mut passed, mut later, mut nearer) = (0, 0, 0);
    for _ in 0..3_000 {
        let model = gen::any_model(&mut rng);
        if model.extra_starts.is_empty() {
            continue;
        }
        let _case = gen::model_case(&model);
        let mut lists = Lists::new();
        let store = model.to_store();
        let verdict = judge(&store, &mut lists.distances, &mut lists.table).unwrap();
        let Alone { distances, refused } = alone(&model, &lists.table);
        assert_eq!(lists.distances[..128], distances);
        match (verdict, refused.first()) {
            (Verdict::Passed { .. }, None) => passed += 1,
            (Verdict::Refused { step, depth }, Some(&(least, lowest, start))) => {
                assert_eq!((depth, step), (least, lowest));
                let from_first = refused.iter().any(|&(.., start)| start == model.start);
                later += usize::from(!from_first);
                nearer += usize::from(from_first && start != model.start);
            }
            (verdict, _) => panic!("{verdict:?}, but {refused:?} alone"),
        }
    }
    // Refused from extra starts only, and with a lower depth or step from one.
    assert!(
        passed > 300 && later > 100 && nearer > 3,
        "{passed} {later} {nearer}"
    );
}

/// Runs of models with many starts begin at each kind of start.
#[test]
fn runs_begin_at_any_start() {
    let mut rng = gen::seeded("second::random::runs_begin_at_any_start", 214);
    let (mut first, mut extra) = (0, 0);
    for _ in 0..1_000 {
        let model = gen::any_model(&mut rng);
        let _case = gen::model_case(&model);
        let store = model.to_store();
        let mut lists = Lists::new();
        for state in meaning::reachable(&model) {
            let length = run(&store, &mut lists.distances, &mut lists.run, state).unwrap();
            let steps = &lists.run[..length];
            let holds = meaning::run_holds(&model, &lists.distances, steps, state);
            assert_eq!(holds, Ok(()));
            let Some(&number) = steps.first() else {
                assert!(model.starts().contains(&state));
                continue;
            };
            let begins = model.steps[usize::from(number)].source;
            first += usize::from(begins == model.start && !model.extra_starts.is_empty());
            extra += usize::from(model.extra_starts.contains(&begins));
        }
    }
    assert!(first > 300 && extra > 300, "{first} {extra}");
}
