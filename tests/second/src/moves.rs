//! Moves: what is played on both sides (request (vii) of document 02).
//!
//! A silent move is zero or more silent steps. A low move is a silent move, one
//! low step, a silent move. Only states move.

use crate::store::{Level, Model};

/// The action that a silent move has in a book. Among openings it comes after
/// every action, of which there are at most 64.
pub const SILENT: u16 = 255;

/// A set of states, a bit for each.
pub type States = u128;

/// The set of one state.
pub fn single(state: u16) -> States {
    1 << state
}

/// The states of a set, rising.
pub fn states_of(set: States) -> impl Iterator<Item = u16> {
    let mut left = set;
    std::iter::from_fn(move || {
        let state = left.trailing_zeros();
        left &= left.wrapping_sub(1);
        (state < States::BITS).then_some(state as u16)
    })
}

/// The moves of each state, by action.
#[derive(Debug, Clone, PartialEq, Eq)]
pub struct Targets {
    by_state: Vec<Vec<(u16, States)>>,
}

impl Targets {
    pub fn new(model: &Model) -> Targets {
        let silent = silent_moves(model);
        let low = model.low_steps();
        let moves = |&reached: &States| {
            let mut sets = vec![0; model.actions.len()];
            for between in states_of(reached) {
                for &(action, target) in &low[usize::from(between)] {
                    sets[usize::from(action)] |= silent[usize::from(target)];
                }
            }
            let mut moves: Vec<(u16, States)> = (0..).zip(sets).collect();
            moves.retain(|&(_, targets)| targets != 0);
            moves.push((SILENT, reached));
            moves
        };
        Targets {
            by_state: silent.iter().map(moves).collect(),
        }
    }

    /// How many states there are.
    pub fn states(&self) -> usize {
        self.by_state.len()
    }

    /// Each action of which a number has moves, rising, and their targets. A
    /// number that is no state has none.
    pub fn of(&self, number: usize) -> &[(u16, States)] {
        self.by_state.get(number).map_or(&[], Vec::as_slice)
    }

    /// The targets of the moves of a number with an action.
    pub fn after(&self, number: usize, action: u16) -> States {
        let mut moves = self.of(number).iter();
        let found = moves.find(|&&(taken, _)| taken == action);
        found.map_or(0, |&(_, targets)| targets)
    }

    /// The moves of each state one by one, as action and target, rising.
    pub fn lists(&self) -> Vec<Vec<(u16, u16)>> {
        let listed = |moves: &Vec<(u16, States)>| {
            let one_by_one = moves.iter().flat_map(|&(action, targets)| {
                states_of(targets).map(move |target| (action, target))
            });
            one_by_one.collect()
        };
        self.by_state.iter().map(listed).collect()
    }
}

/// The targets of the silent moves of each state: itself, and what silent steps
/// lead to.
fn silent_moves(model: &Model) -> Vec<States> {
    let mut reached: Vec<States> = (0..model.states).map(single).collect();
    for step in &model.steps {
        if model.level(step.action) == Level::Silent {
            reached[usize::from(step.source)] |= single(step.target);
        }
    }
    // By way of the states up to each, one after the other.
    for between in 0..model.states {
        let further = reached[usize::from(between)];
        for targets in &mut reached {
            if *targets & single(between) != 0 {
                *targets |= further;
            }
        }
    }
    reached
}
