//! Moves (request (vii) of document 02), found by walking.

use std::collections::{BTreeMap, BTreeSet};

use super::sequences::{is_low, level};
use crate::store::{Level, Model};

/// What a book writes as the action of a silent move.
pub(super) const SILENT: u16 = 255;

/// For each state the targets of its moves by action, a silent move being of
/// action 255.
pub(super) struct Moves {
    by_state: Vec<BTreeMap<u16, Vec<u16>>>,
}

impl Moves {
    pub(super) fn new(model: &Model) -> Moves {
        let mut by_state = Vec::new();
        for moves in moves(model) {
            let mut by_action: BTreeMap<u16, Vec<u16>> = BTreeMap::new();
            for (action, target) in moves {
                by_action.entry(action).or_default().push(target);
            }
            by_state.push(by_action);
        }
        Moves { by_state }
    }

    pub(super) fn states(&self) -> usize {
        self.by_state.len()
    }

    /// Targets of the moves with an action. A number that is no state has none.
    pub(super) fn targets(&self, number: u16, action: u16) -> &[u16] {
        let by_action = self.by_state.get(usize::from(number));
        by_action
            .and_then(|moves| moves.get(&action))
            .map_or(&[], Vec::as_slice)
    }

    /// Each action of which a number has moves, and their targets.
    pub(super) fn by_action(&self, number: u16) -> impl Iterator<Item = (u16, &[u16])> + '_ {
        let by_action = self.by_state.get(usize::from(number)).into_iter().flatten();
        by_action.map(|(&action, targets)| (action, &targets[..]))
    }

    /// The moves of a number, as action and target.
    pub(super) fn of(&self, number: u16) -> impl Iterator<Item = (u16, u16)> + '_ {
        let by_action = self.by_action(number);
        by_action.flat_map(|(action, targets)| targets.iter().map(move |&t| (action, t)))
    }

    pub(super) fn has(&self, number: u16, (action, target): (u16, u16)) -> bool {
        self.targets(number, action).contains(&target)
    }
}

/// Action and target of each move of each state, rising.
pub fn moves(model: &Model) -> Vec<BTreeSet<(u16, u16)>> {
    let states: Vec<u16> = (0..model.states).collect();
    let silent: Vec<BTreeSet<u16>> = states.iter().map(|&p| silently(model, p)).collect();
    let mut low_steps = vec![Vec::new(); states.len()];
    for step in model.steps.iter().filter(|step| is_low(model, step.action)) {
        low_steps[usize::from(step.source)].push((step.action, step.target));
    }
    let mut moves = vec![BTreeSet::new(); states.len()];
    for state in states {
        let found = &mut moves[usize::from(state)];
        let before = &silent[usize::from(state)];
        found.extend(before.iter().map(|&target| (SILENT, target)));
        for &between in before {
            for &(action, target) in &low_steps[usize::from(between)] {
                // Where one such move leads, silent moves from there are found too.
                if !found.contains(&(action, target)) {
                    let after = &silent[usize::from(target)];
                    found.extend(after.iter().map(|&end| (action, end)));
                }
            }
        }
    }
    moves
}

/// Where zero or more silent steps lead from a state.
fn silently(model: &Model, state: u16) -> BTreeSet<u16> {
    let mut found = BTreeSet::from([state]);
    let mut open = vec![state];
    while let Some(here) = open.pop() {
        for step in &model.steps {
            let silent = level(model, step.action) == Some(Level::Silent);
            if silent && step.source == here && found.insert(step.target) {
                open.push(step.target);
            }
        }
    }
    found
}
