//! Models at the limits.

use std::collections::BTreeSet;

use super::deep::{chain, chain_behind_releases, deep_model};
use super::models::{passing_model, random_model};
use super::parts::{named, Steps, NAME_BYTES};
use super::starts::with_all_starts;
use super::wide::greatest_roll;
use super::Rng;
use crate::store::{Action, Level, Model, Step, LONGEST_NAME, MOST_ACTIONS, MOST_STEPS};

/// Models at the limits, each with its name.
pub fn limit_models(rng: &mut Rng) -> Vec<(&'static str, Model)> {
    let actions = longest_actions(rng);
    let mut models = vec![
        ("longest text", longest_text(rng, &actions, false)),
        ("longest text, one way", longest_text(rng, &actions, true)),
    ];
    models.extend(random_models(rng));
    models.extend([
        ("one state", one_state(&actions)),
        ("star", star(&actions)),
        ("longest run", longest_run()),
        ("longest word", chain_behind_releases(0)),
        ("long run and word", chain_behind_releases(63)),
        ("greatest roll", greatest_roll()),
    ]);
    models.extend(all_starts(rng, &actions));
    models.extend([
        ("shortest text", shortest_text()),
        ("one high action, the first", one_high(&actions, 0)),
        ("one high action, the last", one_high(&actions, 63)),
        ("one high action, in between", one_high(&actions, 31)),
        ("one high action, no steps", unused_high(&actions)),
    ]);
    models
}

/// As many starts as there may be: 127 `I` lines.
fn all_starts(rng: &mut Rng, actions: &[Action]) -> [(&'static str, Model); 6] {
    [
        ("all starts, longest text", longest_text(rng, actions, true)),
        (
            "all starts, random",
            random_model(rng, 128, 64, MOST_STEPS, false),
        ),
        ("all starts, passing", passing_model(rng, 128, true)),
        ("all starts, chain", chain(128)),
        ("all starts, deepest", deep_model(rng, 127)),
        ("all starts, no steps", random_model(rng, 128, 64, 0, true)),
    ]
    .map(|(what, model)| (what, with_all_starts(&model)))
}

/// As many actions as there may be, with names as long as they may be.
fn longest_actions(rng: &mut Rng) -> Vec<Action> {
    let mut names = BTreeSet::new();
    while names.len() < MOST_ACTIONS {
        let name: Vec<u8> = (0..LONGEST_NAME).map(|_| *rng.pick(NAME_BYTES)).collect();
        names.insert(name);
    }
    let levels = [Level::Low, Level::High, Level::Low, Level::Release];
    let action = |(level, name): (&Level, Vec<u8>)| Action {
        level: *level,
        name,
    };
    levels.iter().cycle().zip(names).map(action).collect()
}

/// Every line is as long as it can be.
fn longest_text(rng: &mut Rng, actions: &[Action], deterministic: bool) -> Model {
    let mut steps = Steps::new(deterministic);
    while steps.steps.len() < MOST_STEPS {
        let (source, target) = (rng.between(100, 127), rng.between(100, 127));
        steps.add(source, rng.between(10, 63) as u16, target);
    }
    Model {
        states: 128,
        start: 127,
        extra_starts: Vec::new(),
        actions: actions.to_vec(),
        steps: steps.into_vec(),
    }
}

/// As many states as there may be.
fn random_models(rng: &mut Rng) -> [(&'static str, Model); 8] {
    let most = MOST_STEPS;
    [
        (
            "random, deterministic",
            random_model(rng, 128, 64, most, true),
        ),
        ("random", random_model(rng, 128, 64, most, false)),
        ("few actions", random_model(rng, 128, 3, most, false)),
        ("passing", passing_model(rng, 128, false)),
        ("passing, deterministic", passing_model(rng, 128, true)),
        ("chain", chain(128)),
        ("deepest", deep_model(rng, 127)),
        ("no steps", random_model(rng, 128, 64, 0, true)),
    ]
}

/// One state with all its 64 steps.
fn one_state(actions: &[Action]) -> Model {
    Model {
        states: 1,
        start: 0,
        extra_starts: Vec::new(),
        actions: actions.to_vec(),
        steps: (0..64).map(|action| Step::new(0, action, 0)).collect(),
    }
}

/// As little as a text may have: one action, which is high, and no step.
fn shortest_text() -> Model {
    Model {
        states: 1,
        start: 0,
        extra_starts: Vec::new(),
        actions: vec![named(Level::High, "a")],
        steps: Vec::new(),
    }
}

/// One state with all its 64 steps, of which just one is high.
fn one_high(actions: &[Action], high: usize) -> Model {
    let mut model = one_state(actions);
    for (action, entry) in model.actions.iter_mut().enumerate() {
        entry.level = match action {
            _ if action == high => Level::High,
            _ => [Level::Low, Level::Release][action % 2],
        };
    }
    model
}

/// The same with no steps.
fn unused_high(actions: &[Action]) -> Model {
    Model {
        steps: Vec::new(),
        ..one_high(actions, 31)
    }
}

/// One state with steps to all states.
fn star(actions: &[Action]) -> Model {
    let mut steps = Steps::new(false);
    for action in 0..8 {
        for target in 0..128 {
            steps.add(0, action, target);
        }
    }
    Model {
        states: 128,
        start: 0,
        extra_starts: Vec::new(),
        actions: actions.to_vec(),
        steps: steps.into_vec(),
    }
}

/// 127 releases lead to the high step.
fn longest_run() -> Model {
    let mut steps: Vec<Step> = (1..128).map(|i| Step::new(i - 1, 2, i)).collect();
    steps.push(Step::new(126, 0, 126));
    steps.push(Step::new(127, 1, 126));
    steps.sort();
    Model {
        steps,
        ..chain(128)
    }
}
