//! Models that are refused with a given depth.

use std::collections::BTreeSet;

use super::parts::{named, of_level, Steps};
use super::starts::with_some_starts;
use super::variants::{shuffle, with_unreachable};
use super::Rng;
use crate::store::{Action, Level, Model, Step, LONGEST_NAME, MOST_STATES};

/// The chain of the bench: i scan i+1 up to the last state, and 0 print 1.
pub fn chain(states: u16) -> Model {
    let mut steps: Vec<Step> = (1..states).map(|i| Step::new(i - 1, 0, i)).collect();
    steps.push(Step::new(0, 1, 1));
    steps.sort();
    Model {
        states,
        start: 0,
        extra_starts: Vec::new(),
        actions: vec![
            named(Level::Low, "scan"),
            named(Level::High, "print"),
            named(Level::Release, "close"),
        ],
        steps,
    }
}

/// The chain of the bench with the longest names and behind so many releases,
/// each from one state to the next.
pub(super) fn chain_behind_releases(releases: u16) -> Model {
    let mut model = chain(128);
    let letter = |target: u16| if target <= releases { 2 } else { 0 };
    model.steps = (1..128)
        .map(|target| Step::new(target - 1, letter(target), target))
        .collect();
    model.steps.push(Step::new(releases, 1, releases + 1));
    model.steps.sort();
    for action in &mut model.actions {
        action.name.resize(LONGEST_NAME, b'9');
    }
    model
}

/// A deterministic model that is refused with a depth from 1 to 127.
///
/// Either one chain that a high step shifts by one, or two chains of the same
/// letters that differ in their last one. Release steps, high steps that go
/// nowhere, and a low step at every state change no rank; nor do states that
/// nothing leads to.
pub fn deep_model(rng: &mut Rng, depth: usize) -> Model {
    let two = depth <= 60 && rng.percent(50);
    let low_count = rng.between(1, 3);
    let mut actions = vec![named(Level::High, "print"), named(Level::Release, "close")];
    for low in 0..low_count {
        actions.push(named(Level::Low, &format!("scan{low}")));
    }
    let mut steps = Steps::new(true);
    let mut states = if two {
        two_chains(rng, &mut steps, depth, low_count)
    } else {
        one_chain(rng, &mut steps, depth)
    };
    add_idle_steps(rng, &mut steps, &mut actions, states);
    for _ in 0..rng.below(states) {
        steps.add(rng.below(states), CLOSE, rng.below(states));
    }
    // A few releases lead up to the chains.
    let mut start = 0;
    for _ in 0..rng.below((MOST_STATES - states).min(4) + 1) {
        steps.add(states, CLOSE, start);
        start = states;
        states += 1;
    }
    // The high step that shifts is reachable anyway, and the others go nowhere,
    // so further starts change no depth.
    let model = Model {
        states: states as u16,
        start: start as u16,
        extra_starts: Vec::new(),
        actions,
        steps: steps.into_vec(),
    };
    let mut model = with_some_starts(rng, model);
    if rng.percent(30) {
        model = with_unreachable(rng, &model);
    }
    shuffle(rng, &model)
}

/// The first actions of a deep model; the low ones come next.
const PRINT: u16 = 0;
const CLOSE: u16 = 1;
const FIRST_LOW: u16 = 2;

/// Two chains of the same letters, of which the second lacks the last; a high
/// step leads from one to the other. Answers the number of states.
fn two_chains(rng: &mut Rng, steps: &mut Steps, depth: usize, low_count: usize) -> usize {
    // 0 to depth-1 is one chain, depth to 2*depth-1 the other.
    for place in 0..depth {
        let letter = FIRST_LOW + rng.below(low_count) as u16;
        if place + 1 < depth {
            steps.add(place, letter, place + 1);
            steps.add(depth + place, letter, depth + place + 1);
        } else {
            steps.add(place, letter, place);
        }
    }
    if rng.percent(50) {
        steps.add(0, PRINT, depth);
    } else {
        steps.add(depth, PRINT, 0);
        steps.add(0, CLOSE, depth);
    }
    2 * depth
}

/// One chain that a high step shifts by one. Answers the number of states.
fn one_chain(rng: &mut Rng, steps: &mut Steps, depth: usize) -> usize {
    for place in 0..depth {
        steps.add(place, FIRST_LOW, place + 1);
    }
    if rng.percent(50) {
        steps.add(0, PRINT, 1);
    } else {
        steps.add(1, PRINT, 0);
    }
    depth + 1
}

/// Now and then a low step at every state, and high steps at some, all of
/// which stay where they are.
fn add_idle_steps(rng: &mut Rng, steps: &mut Steps, actions: &mut Vec<Action>, states: usize) {
    if rng.percent(40) {
        actions.push(named(Level::Low, "0beep"));
        let beep = actions.len() as u16 - 1;
        for state in 0..states {
            steps.add(state, beep, state);
        }
    }
    if rng.percent(40) {
        actions.push(named(Level::High, "print2"));
        let again = actions.len() as u16 - 1;
        for state in 0..states {
            if rng.percent(30) {
                steps.add(state, again, state);
            }
        }
    }
}

/// A model refused with a depth from 1 to 127 that is not deterministic: two
/// steps of a release leave a start, and lead to no state that was
/// unreachable.
pub fn branching_deep_model(rng: &mut Rng, depth: usize) -> Model {
    let mut model = deep_model(rng, depth);
    let release = of_level(&model.actions, Level::Release)[0];
    let starts = model.starts();
    let near = |step: &&Step| starts.contains(&step.source) && step.target != step.source;
    let near = *model.steps.iter().find(near).expect("a step leads on");
    let mut steps: BTreeSet<Step> = model.steps.iter().copied().collect();
    for target in [near.source, near.target] {
        steps.insert(Step::new(near.source, release, target));
    }
    model.steps = steps.into_iter().collect();
    model
}
