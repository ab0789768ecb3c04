//! What models are made of: names, actions and steps.

use std::collections::BTreeSet;

use super::Rng;
use crate::store::{Action, Level, Step, LONGEST_NAME, MOST_STATES, MOST_STEPS};

pub(super) const NAME_BYTES: &[u8] = b"abcdefghijklmnopqrstuvwxyz0123456789";

/// Different names: of all lengths, often alike in their first bytes.
pub(super) fn names(rng: &mut Rng, count: usize) -> Vec<Vec<u8>> {
    let mut names: Vec<Vec<u8>> = Vec::new();
    while names.len() < count {
        let mut name = if !names.is_empty() && rng.percent(30) {
            rng.pick(&names).clone()
        } else {
            Vec::new()
        };
        let length = rng.between(1, LONGEST_NAME);
        name.truncate(length);
        while name.len() < length {
            name.push(*rng.pick(NAME_BYTES));
        }
        if !names.contains(&name) {
            names.push(name);
        }
    }
    names
}

/// Actions of random levels, of which one at least is high. Most lists have a
/// low action too.
pub(super) fn actions(rng: &mut Rng, count: usize) -> Vec<Action> {
    let (low, high) = *rng.pick(&[(50, 30), (50, 50), (60, 40), (70, 15), (0, 60), (60, 0)]);
    let mut actions = Vec::new();
    for name in names(rng, count) {
        let drawn = rng.below(100);
        let level = if drawn < low {
            Level::Low
        } else if drawn < low + high {
            Level::High
        } else {
            Level::Release
        };
        actions.push(Action { level, name });
    }
    let order = rng.order(count);
    if count > 1 && rng.percent(85) {
        actions[order[1]].level = Level::Low;
    }
    if of_level(&actions, Level::High).is_empty() {
        actions[order[0]].level = Level::High;
    }
    actions
}

/// Actions of these levels, with random names.
pub(super) fn actions_of(rng: &mut Rng, levels: &[Level]) -> Vec<Action> {
    let names = names(rng, levels.len()).into_iter();
    let actions = names.zip(levels);
    actions
        .map(|(name, &level)| Action { level, name })
        .collect()
}

pub(super) fn named(level: Level, name: &str) -> Action {
    Action {
        level,
        name: name.as_bytes().to_vec(),
    }
}

/// Action numbers of a level.
pub(super) fn of_level(actions: &[Action], level: Level) -> Vec<u16> {
    let has_level = |&action: &u16| actions[usize::from(action)].level == level;
    (0..actions.len() as u16).filter(has_level).collect()
}

/// Steps being collected: within the limit, and of one action from one state
/// at most once if so asked.
pub(super) struct Steps {
    deterministic: bool,
    pub(super) steps: BTreeSet<Step>,
}

impl Steps {
    pub(super) fn new(deterministic: bool) -> Steps {
        Steps {
            deterministic,
            steps: BTreeSet::new(),
        }
    }

    pub(super) fn add(&mut self, source: usize, action: u16, target: usize) {
        let to = |target: usize| Step::new(source as u16, action, target as u16);
        let taken = self.steps.range(to(0)..to(MOST_STATES)).next().is_some();
        if self.steps.len() < MOST_STEPS && !(self.deterministic && taken) {
            self.steps.insert(to(target));
        }
    }

    pub(super) fn into_vec(self) -> Vec<Step> {
        self.steps.into_iter().collect()
    }
}
