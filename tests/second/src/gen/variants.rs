//! A model made of another.

use std::collections::BTreeSet;

use super::parts::Steps;
use super::Rng;
use crate::store::{Model, Step, MOST_STATES, MOST_STEPS};

/// The same model with further states that nothing leads to, and with steps
/// of all kinds from them.
pub fn with_unreachable(rng: &mut Rng, model: &Model) -> Model {
    let extra = rng.below((MOST_STATES - usize::from(model.states)).min(5) + 1);
    let states = usize::from(model.states) + extra;
    let mut steps = Steps::new(false);
    steps.steps.extend(&model.steps);
    for source in usize::from(model.states)..states {
        for _ in 0..rng.below(5) {
            let action = rng.below(model.actions.len()) as u16;
            steps.add(source, action, rng.below(states));
        }
    }
    Model {
        states: states as u16,
        steps: steps.into_vec(),
        ..model.clone()
    }
}

/// The same model with a further state that shares all steps with a random
/// one: whatever leads to either leads to both. It changes no rank, and makes
/// the model not deterministic if a reachable step leads to the random state.
pub fn with_twin(rng: &mut Rng, model: &Model) -> Model {
    let twin = model.states;
    let state = rng.below(usize::from(model.states)) as u16;
    let both = |end: u16| {
        if end == state {
            vec![end, twin]
        } else {
            vec![end]
        }
    };
    let mut steps = BTreeSet::new();
    for step in &model.steps {
        for source in both(step.source) {
            for target in both(step.target) {
                steps.insert(Step::new(source, step.action, target));
            }
        }
    }
    if usize::from(twin) == MOST_STATES || steps.len() > MOST_STEPS {
        return model.clone();
    }
    Model {
        states: twin + 1,
        steps: steps.into_iter().collect(),
        ..model.clone()
    }
}

/// The same model with its states and actions numbered otherwise.
pub fn shuffle(rng: &mut Rng, model: &Model) -> Model {
    let state = rng.order(usize::from(model.states));
    let action = rng.order(model.actions.len());
    let mut actions = model.actions.clone();
    for (old, &new) in action.iter().enumerate() {
        actions[new] = model.actions[old].clone();
    }
    let renumber = |step: &Step| {
        Step::new(
            state[usize::from(step.source)] as u16,
            action[usize::from(step.action)] as u16,
            state[usize::from(step.target)] as u16,
        )
    };
    let mut steps: Vec<Step> = model.steps.iter().map(renumber).collect();
    steps.sort();
    let starts = model.starts().into_iter();
    let starts = starts.map(|start| state[usize::from(start)] as u16);
    let renumbered = Model {
        actions,
        steps,
        ..model.clone()
    };
    renumbered.with_starts(&starts.collect())
}
