//! Random models of every kind.

use std::collections::BTreeSet;

use super::deep::deep_model;
use super::parts::{actions, actions_of, names, of_level, Steps};
use super::starts::with_some_starts;
use super::variants::{shuffle, with_twin, with_unreachable};
use super::Rng;
use crate::store::{Action, Level, Model, Step, MOST_ACTIONS, MOST_STEPS};

/// A model with random steps, at most as many as asked for.
pub fn random_model(
    rng: &mut Rng,
    states: usize,
    action_count: usize,
    step_count: usize,
    deterministic: bool,
) -> Model {
    let actions = actions(rng, action_count);
    let start = rng.below(states);
    let played: Vec<u16> = (0..action_count as u16).collect();
    let steps = random_steps(rng, states, &played, step_count, deterministic);
    let model = Model {
        states: states as u16,
        start: start as u16,
        extra_starts: Vec::new(),
        actions,
        steps: steps.into_vec(),
    };
    with_some_starts(rng, model)
}

/// Random steps of these actions, at most as many as asked for.
fn random_steps(
    rng: &mut Rng,
    states: usize,
    actions: &[u16],
    step_count: usize,
    deterministic: bool,
) -> Steps {
    let mut steps = Steps::new(deterministic);
    if actions.is_empty() {
        return steps;
    }
    // Some models get a tree of steps first, so that most states are reachable.
    if step_count + 1 >= states && rng.percent(50) {
        let order = rng.order(states);
        for (index, &target) in order.iter().enumerate().skip(1) {
            let source = order[rng.below(index)];
            steps.add(source, *rng.pick(actions), target);
        }
    }
    for _ in 0..2 * step_count {
        if steps.steps.len() >= step_count {
            break;
        }
        let (source, target) = (rng.below(states), rng.below(states));
        steps.add(source, *rng.pick(actions), target);
    }
    steps
}

/// A small model: at most 12 states and 6 actions.
pub fn small_model(rng: &mut Rng, deterministic: bool) -> Model {
    let states = rng.between(1, 12);
    let actions = rng.between(1, 6);
    let steps = rng.below(states * actions + 3);
    random_model(rng, states, actions, steps, deterministic)
}

/// A model of at most 12 states with one high action alone, which stands first,
/// last or in between and in many cases has no step. Some have no other action,
/// some as many as there may be.
pub fn one_high_model(rng: &mut Rng, deterministic: bool) -> Model {
    let levels = one_high(rng);
    let unused = rng.percent(40);
    let numbered = (0..).zip(&levels);
    let played = numbered.filter(|&(_, &level)| !unused || level != Level::High);
    let played: Vec<u16> = played.map(|(action, _)| action).collect();
    let states = rng.between(1, 12);
    let step_count = rng.below(states * levels.len().min(6) + 3);
    let steps = random_steps(rng, states, &played, step_count, deterministic);
    let model = Model {
        states: states as u16,
        start: rng.below(states) as u16,
        extra_starts: Vec::new(),
        actions: actions_of(rng, &levels),
        steps: steps.into_vec(),
    };
    with_some_starts(rng, model)
}

/// Levels of which one is high.
fn one_high(rng: &mut Rng) -> Vec<Level> {
    let count = match rng.below(4) {
        0 => 1,
        1 => MOST_ACTIONS,
        _ => rng.between(2, 12),
    };
    let high = match rng.below(3) {
        0 => 0,
        1 => count - 1,
        _ => rng.below(count),
    };
    let low = *rng.pick(&[0, 50, 80, 100]);
    let mut levels = Vec::new();
    for action in 0..count {
        levels.push(match rng.percent(low) {
            _ if action == high => Level::High,
            true => Level::Low,
            false => Level::Release,
        });
    }
    levels
}

/// A small model in which a low action is missing from few states, so that
/// states often differ only after some low actions.
pub fn narrow_model(rng: &mut Rng, deterministic: bool) -> Model {
    let states = rng.between(3, 12);
    let low = rng.between(1, 2) as u16;
    let levels = [
        &vec![Level::Low; usize::from(low)][..],
        &[Level::High, Level::Release],
    ]
    .concat();
    let actions = actions_of(rng, &levels);
    let mut steps = Steps::new(deterministic);
    for action in 0..low {
        let missing = rng.below(states);
        for source in (0..states).filter(|&state| state != missing) {
            steps.add(source, action, rng.below(states));
            if rng.percent(25) {
                steps.add(source, action, rng.below(states));
            }
        }
    }
    for _ in 0..rng.between(1, 2) {
        steps.add(rng.below(states), low, rng.below(states));
    }
    for _ in 0..rng.below(states) {
        steps.add(rng.below(states), low + 1, rng.below(states));
    }
    let model = Model {
        states: states as u16,
        start: rng.below(states) as u16,
        extra_starts: Vec::new(),
        actions,
        steps: steps.into_vec(),
    };
    let model = with_some_starts(rng, model);
    shuffle(rng, &model)
}

/// A model that passes, since its high steps stay inside classes of states
/// that take the same low steps to the same classes.
pub fn passing_model(rng: &mut Rng, states: usize, deterministic: bool) -> Model {
    // At most three steps of an action leave a state, so all steps fit.
    let most = (MOST_STEPS / states / 3).clamp(1, 8);
    let action_count = rng.between(1, most);
    let actions = actions(rng, action_count);
    let classes = classes(rng, states);
    let mut steps = Steps::new(deterministic);
    let per_action = if deterministic { 1 } else { 2 };
    let absent = *rng.pick(&[50, 10]);
    for class in &classes {
        for &action in &of_level(&actions, Level::Low) {
            let wanted = if rng.percent(absent) {
                0
            } else {
                rng.between(1, per_action)
            };
            add_to_classes(rng, &mut steps, class, action, &classes, wanted);
        }
        for &action in &of_level(&actions, Level::High) {
            add_at_random(rng, &mut steps, class, action, class, per_action);
        }
    }
    let all: Vec<usize> = (0..states).collect();
    for &action in &of_level(&actions, Level::Release) {
        add_at_random(rng, &mut steps, &all, action, &all, per_action);
    }
    let start = rng.below(states) as u16;
    let model = Model {
        states: states as u16,
        start,
        extra_starts: Vec::new(),
        actions,
        steps: steps.into_vec(),
    };
    let model = with_some_starts(rng, model);
    shuffle(rng, &model)
}

/// Up to six classes of states, each with some state.
fn classes(rng: &mut Rng, states: usize) -> Vec<Vec<usize>> {
    let mut classes = vec![Vec::new(); rng.between(1, states.min(6))];
    let count = classes.len();
    for state in 0..states {
        let class = if state < count {
            state
        } else {
            rng.below(count)
        };
        classes[class].push(state);
    }
    classes
}

/// Steps of an action to so many classes, the same from each of the sources.
fn add_to_classes(
    rng: &mut Rng,
    steps: &mut Steps,
    sources: &[usize],
    action: u16,
    classes: &[Vec<usize>],
    wanted: usize,
) {
    let targets: BTreeSet<usize> = (0..wanted).map(|_| rng.below(classes.len())).collect();
    for &source in sources {
        for &target in &targets {
            steps.add(source, action, *rng.pick(&classes[target]));
        }
    }
}

/// From each of the sources up to so many steps of an action to any of the
/// targets.
fn add_at_random(
    rng: &mut Rng,
    steps: &mut Steps,
    sources: &[usize],
    action: u16,
    targets: &[usize],
    most: usize,
) {
    for &source in sources {
        for _ in 0..rng.below(most + 1) {
            steps.add(source, action, *rng.pick(targets));
        }
    }
}

/// A passing model with one more high step, which often makes it refused.
pub fn nearly_passing_model(rng: &mut Rng, states: usize, deterministic: bool) -> Model {
    let mut model = passing_model(rng, states, deterministic);
    if model.actions.len() == MOST_ACTIONS || model.steps.len() == MOST_STEPS {
        return model;
    }
    let mut name = b"leak".to_vec();
    while model.actions.iter().any(|action| action.name == name) {
        name = names(rng, 1).remove(0);
    }
    let action = model.actions.len() as u16;
    let level = Level::High;
    model.actions.push(Action { level, name });
    let (source, target) = (rng.below(states) as u16, rng.below(states) as u16);
    model.steps.push(Step::new(source, action, target));
    model.steps.sort();
    shuffle(rng, &model)
}

/// A deterministic model of any kind; most have at most 12 states.
pub fn deterministic_model(rng: &mut Rng) -> Model {
    any_kind(rng, true)
}

/// A model of any kind, deterministic or not; most have at most 12 states.
pub fn any_model(rng: &mut Rng) -> Model {
    let deterministic = rng.percent(55);
    any_kind(rng, deterministic)
}

fn any_kind(rng: &mut Rng, deterministic: bool) -> Model {
    let model = match rng.below(100) {
        0..=20 => small_model(rng, deterministic),
        21..=24 => one_high_model(rng, deterministic),
        25..=49 => narrow_model(rng, deterministic),
        50..=64 => {
            let states = rng.between(1, 12);
            passing_model(rng, states, deterministic)
        }
        65..=84 => {
            let states = rng.between(2, 12);
            nearly_passing_model(rng, states, deterministic)
        }
        85..=91 => {
            let depth = rng.between(1, 10);
            deep_kind(rng, depth, deterministic)
        }
        92..=96 => {
            let depth = rng.between(11, 127);
            deep_kind(rng, depth, deterministic)
        }
        _ => {
            let (states, actions) = (rng.between(13, 128), rng.between(1, 64));
            let steps = rng.below(MOST_STEPS + 1);
            random_model(rng, states, actions, steps, deterministic)
        }
    };
    if rng.percent(20) {
        let larger = with_unreachable(rng, &model);
        shuffle(rng, &larger)
    } else {
        model
    }
}

fn deep_kind(rng: &mut Rng, depth: usize, deterministic: bool) -> Model {
    let model = deep_model(rng, depth);
    if deterministic {
        return model;
    }
    let model = with_twin(rng, &model);
    shuffle(rng, &model)
}
