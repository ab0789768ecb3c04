//! Distances and runs.

use super::sequences::reachable;
use super::{demand, Check};
use crate::store::{Model, MOST_STATES};

/// Checks all 128 distances: the starts alone have 0, no step leads further
/// than one on, and every other reachable state is entered from one less.
pub fn distances_hold(model: &Model, distances: &[u16]) -> Check {
    demand(distances.len() >= MOST_STATES, || {
        "the distances are too short".to_string()
    })?;
    let (reachable, starts) = (reachable(model), model.starts());
    let distance = |state: u16| u32::from(distances[usize::from(state)]);
    for state in 0..MOST_STATES as u16 {
        let right = if !reachable.contains(&state) {
            distance(state) == 65_535
        } else if starts.contains(&state) {
            distance(state) == 0
        } else {
            let mut entries = model.steps.iter().filter(|step| step.target == state);
            distance(state) > 0
                && distance(state) < u32::from(model.states)
                && entries.any(|step| distance(step.source) + 1 == distance(state))
        };
        demand(right, || format!("the distance of state {state} is wrong"))?;
    }
    for step in &model.steps {
        demand(
            !reachable.contains(&step.source) || distance(step.target) <= distance(step.source) + 1,
            || format!("{step:?} leads further than one on"),
        )?;
    }
    Ok(())
}

/// Checks a run to a reachable state, given distances that hold: it leads
/// there from a start, each step is one further on, and no lower-numbered
/// step would enter the same state from a distance one less.
pub fn run_holds(model: &Model, distances: &[u16], run: &[u16], state: u16) -> Check {
    let distance = |state: u16| u32::from(distances[usize::from(state)]);
    // A run of no steps begins where it ends.
    let first = run.first().map(|&number| usize::from(number));
    let first = first.and_then(|number| model.steps.get(number));
    let mut here = first.map_or(state, |step| step.source);
    demand(model.starts().contains(&here), || {
        format!("the run begins in {here}, which is no start")
    })?;
    for &number in run {
        let Some(step) = model.steps.get(usize::from(number)) else {
            return Err(format!("no step {number}"));
        };
        demand(step.source == here, || {
            format!("step {number} does not go on from {here}")
        })?;
        here = step.target;
        let enters =
            |source: u16, target: u16| target == here && distance(source) + 1 == distance(here);
        demand(enters(step.source, step.target), || {
            format!("step {number} is no way to {here} from a distance one less")
        })?;
        let lower = &model.steps[..usize::from(number)];
        demand(
            !lower.iter().any(|step| enters(step.source, step.target)),
            || format!("a step before {number} enters {here}"),
        )?;
    }
    demand(here == state, || {
        format!("the run ends in {here}, not in {state}")
    })
}
