//! Low-view bisimulations, from their definition.

use std::collections::BTreeSet;

use super::moves::{Moves, SILENT};
use super::sequences::{is_low, level};
use crate::store::{Level, Model};

type Relation = BTreeSet<(u16, u16)>;

/// Openings of each state, as action and target.
type Openings = Vec<Vec<(u16, u16)>>;

/// Whether a relation between states is a low-view bisimulation: each move of
/// either state of a pair is answered inside the relation.
pub fn is_bisimulation(model: &Model, relation: &BTreeSet<(u16, u16)>) -> bool {
    let moves = Moves::new(model);
    all_answer(&whole_moves(&moves), &moves, relation)
}

/// The greatest low-view bisimulation.
pub fn greatest_bisimulation(model: &Model) -> BTreeSet<(u16, u16)> {
    let moves = Moves::new(model);
    greatest(&whole_moves(&moves), &moves)
}

/// Whether a relation is a weak bisimulation as source document 002 has it: an
/// opening is one low step, or one silent step, and the answer a move.
pub fn is_weak_bisimulation(model: &Model, relation: &BTreeSet<(u16, u16)>) -> bool {
    all_answer(&single_steps(model), &Moves::new(model), relation)
}

/// The greatest weak bisimulation as source document 002 has it.
pub fn greatest_weak_bisimulation(model: &Model) -> BTreeSet<(u16, u16)> {
    greatest(&single_steps(model), &Moves::new(model))
}

fn whole_moves(moves: &Moves) -> Openings {
    let states = 0..moves.states() as u16;
    states.map(|state| moves.of(state).collect()).collect()
}

/// The low steps, and the silent ones with the action of a silent move.
fn single_steps(model: &Model) -> Openings {
    let mut openings = vec![Vec::new(); usize::from(model.states)];
    for step in &model.steps {
        let action = match level(model, step.action) {
            Some(Level::Silent) => SILENT,
            _ if is_low(model, step.action) => step.action,
            _ => continue,
        };
        openings[usize::from(step.source)].push((action, step.target));
    }
    openings
}

fn all_answer(openings: &Openings, moves: &Moves, relation: &Relation) -> bool {
    relation
        .iter()
        .all(|&pair| answers(openings, moves, relation, pair))
}

/// What is left of all pairs when those that do not answer inside the rest are
/// taken out, until all do. A pair that is taken out is in no bisimulation, since
/// none has more pairs.
fn greatest(openings: &Openings, moves: &Moves) -> Relation {
    let states = 0..moves.states() as u16;
    let mut relation: Relation = states
        .clone()
        .flat_map(|p| states.clone().map(move |q| (p, q)))
        .collect();
    loop {
        let before = relation.clone();
        relation.retain(|&pair| answers(openings, moves, &before, pair));
        if relation == before {
            return relation;
        }
    }
}

/// Whether a pair answers both ways inside a relation.
fn answers(openings: &Openings, moves: &Moves, relation: &Relation, (p, q): (u16, u16)) -> bool {
    let of_p_answered = openings[usize::from(p)].iter().all(|&(action, target)| {
        let mut answers = moves.targets(q, action).iter();
        answers.any(|&answer| relation.contains(&(target, answer)))
    });
    let of_q_answered = openings[usize::from(q)].iter().all(|&(action, target)| {
        let mut answers = moves.targets(p, action).iter();
        answers.any(|&answer| relation.contains(&(answer, target)))
    });
    of_p_answered && of_q_answered
}
