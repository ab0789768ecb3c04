//! What a failing test shows can be run again.

mod common;

use std::collections::BTreeSet;
use std::process::Command;

use common::Lists;
use second::{gen, judge, meaning, Level, Model, Step, Verdict};

/// What a command prints.
fn printed(command: &str) -> Vec<u8> {
    let shell = Command::new("bash").args(["-c", command]).output();
    let output = shell.expect("the shell starts");
    assert!(output.status.success(), "{output:?}");
    output.stdout
}

#[test]
fn a_shown_text_is_printed_again() {
    let every_byte: Vec<u8> = (0..=255).chain((0..=255).rev()).collect();
    let texts = [
        &b""[..],
        b"\n",
        b"\n\n",
        b"%b\\n\\x41\\0'\\",
        b"\x001\0f\xffA",
        &every_byte,
    ];
    for text in texts {
        assert_eq!(printed(&gen::shown(text)), text);
    }
    let mut rng = gen::seeded("second::cases::a_shown_text_is_printed_again", 301);
    for _ in 0..200 {
        let text = gen::any_model(&mut rng).to_text();
        let text = gen::mutated_text(&mut rng, &text);
        assert_eq!(printed(&gen::shown(&text)), text);
    }
}

/// The numbers of the high actions.
fn high(model: &Model) -> Vec<u16> {
    let actions = 0..model.actions.len() as u16;
    let is_high = |&action: &u16| model.level(action) == Level::High;
    actions.filter(is_high).collect()
}

/// Every model that is made for the tests has a high action (request (vi) of
/// document 02).
#[test]
fn every_model_has_a_high_action() {
    let mut rng = gen::seeded("second::cases::every_model_has_a_high_action", 304);
    let mut models: Vec<Model> = (2..=128).map(gen::chain).collect();
    models.extend(
        gen::limit_models(&mut rng)
            .into_iter()
            .map(|(_, model)| model),
    );
    models.extend((1..=127).map(|depth| gen::branching_deep_model(&mut rng, depth)));
    models.extend((0..4_000).map(|_| gen::any_model(&mut rng)));
    models.extend((0..400).map(|round| gen::wide_model(&mut rng, round % 2 == 0)));
    models.extend((0..400).map(|round| gen::one_high_model(&mut rng, round % 2 == 0)));
    models.extend((0..400).map(|_| gen::tick_model(&mut rng)));
    let limits = gen::tick_limit_models(&mut rng).into_iter();
    models.extend(limits.map(|(_, model)| model));
    for model in models {
        let _case = gen::model_case(&model);
        assert!(!high(&model).is_empty() && model.has_high());
    }
}

/// Of the models that the tests draw some have one action, which is high; in many
/// one action alone is high, the first, the last or one in between, also of as
/// many as there may be; in some no step is high, or not of each high action.
#[test]
fn high_actions_are_few_and_anywhere() {
    let mut rng = gen::seeded("second::cases::high_actions_are_few_and_anywhere", 306);
    let models: Vec<Model> = (0..20_000).map(|_| gen::any_model(&mut rng)).collect();
    let count = |is: &dyn Fn(&Model) -> bool| models.iter().filter(|model| is(model)).count();
    let last = |model: &Model| model.actions.len() as u16 - 1;
    let unused = |model: &Model, action: u16| !model.steps.iter().any(|step| step.action == action);
    let all_unused = |model: &Model| high(model).iter().all(|&action| unused(model, action));
    let kinds = [
        count(&|model| model.actions.len() == 1),
        count(&|model| model.actions.len() > 2 && high(model) == [0]),
        count(&|model| model.actions.len() > 2 && high(model) == [last(model)]),
        count(&|model| high(model).len() == 1 && (1..last(model)).contains(&high(model)[0])),
        count(&|model| high(model).len() > 1),
        count(&|model| high(model).iter().any(|&action| unused(model, action))),
        count(&|model| all_unused(model)),
        count(&|model| all_unused(model) && model.steps.len() > 3),
    ];
    assert!(kinds.iter().all(|&count| count > 300), "{kinds:?}");
    let most: Vec<u16> = models
        .iter()
        .filter(|model| model.actions.len() == 64 && high(model).len() == 1)
        .map(|model| high(model)[0])
        .collect();
    let of = |action: u16| most.iter().filter(|&&high| high == action).count();
    let between: BTreeSet<u16> = most.iter().copied().collect();
    assert!(of(0) > 20 && of(63) > 20 && between.len() > 20, "{most:?}");
}

fn models(test: &str, seed: u64) -> Vec<Model> {
    let mut rng = gen::seeded(test, seed);
    (0..4_000).map(|_| gen::any_model(&mut rng)).collect()
}

/// The models that the tests draw are of every kind, and most are small.
#[test]
fn models_are_of_every_kind() {
    let models = models("second::cases::models_are_of_every_kind", 302);
    let count = |is: &dyn Fn(&Model) -> bool| models.iter().filter(|model| is(model)).count();
    let released = |model: &Model, step: &Step| model.level(step.action) == Level::Release;
    let kinds = [
        count(&|model| model.states <= 12),
        count(&|model| meaning::reachable(model).len() < usize::from(model.states)),
        count(&|model| model.steps.iter().any(|step| released(model, step))),
        count(&|model| meaning::deterministic(model)),
        count(&|model| !meaning::deterministic(model)),
        count(&|model| model.extra_starts.is_empty()),
        count(&|model| !model.extra_starts.is_empty()),
    ];
    assert!(kinds.iter().all(|&count| count > 1_000), "{kinds:?}");
    assert!(kinds[0] > 3_000 && kinds[0] < 4_000, "{kinds:?}");
}

/// Of the models with extra starts some have one, some many, and in some every
/// state is a start; in some a start leads to another.
#[test]
fn extra_starts_are_few_and_many() {
    let models = models("second::cases::extra_starts_are_few_and_many", 305);
    let count = |is: &dyn Fn(&Model) -> bool| models.iter().filter(|model| is(model)).count();
    let entered = |model: &Model, step: &Step| {
        let starts = model.starts();
        step.source != step.target && starts.contains(&step.source) && starts.contains(&step.target)
    };
    let kinds = [
        count(&|model| model.extra_starts.len() == 1),
        count(&|model| model.extra_starts.len() > 5),
        count(&|model| model.states > 1 && model.starts().len() == usize::from(model.states)),
        count(&|model| model.extra_starts.len() > 30),
        count(&|model| model.steps.iter().any(|step| entered(model, step))),
    ];
    let least = [400, 100, 100, 20, 400];
    assert!(
        kinds.iter().zip(least).all(|(&count, least)| count > least),
        "{kinds:?}"
    );
}

/// Many models are passed; the depths of the others are spread, of those that
/// are deterministic and of those that are not.
#[test]
fn depths_are_spread() {
    let mut depths = [BTreeSet::new(), BTreeSet::new()];
    let mut passed = 0;
    for model in models("second::cases::depths_are_spread", 303) {
        let mut lists = Lists::new();
        let verdict = judge(&model.to_store(), &mut lists.distances, &mut lists.table);
        match verdict.expect("the store is good") {
            Verdict::Passed { .. } => passed += 1,
            Verdict::Refused { depth, .. } => {
                depths[usize::from(meaning::deterministic(&model))].insert(depth);
            }
        }
    }
    assert!(passed > 1_000 && passed < 3_000, "{passed}");
    for depths in depths {
        for third in [1..=42, 43..=84, 85..=127] {
            assert!(depths.range(third).count() > 10, "{depths:?}");
        }
    }
}

#[test]
fn a_shown_store_tells_what_was_changed() {
    let model = gen::chain(2);
    let mut store = model.to_store();
    store[3] = 7;
    store.extend([0, 65_535]);
    let shown = gen::shown_store(&model, &store);
    assert!(shown.contains(&gen::shown(&model.to_text())), "{shown}");
    assert!(shown.ends_with("[(3, 7), (4101, 65535)]"), "{shown}");
    let numbers = gen::shown_numbers(&store[..5]);
    assert!(
        numbers.ends_with("[(0, 2), (1, 3), (2, 2), (3, 7)]"),
        "{numbers}"
    );
}
