//! Starts beside line 1's (request (iii) of document 02).

use std::collections::BTreeSet;

use super::Rng;
use crate::store::Model;

/// The same model, in half of the cases with further starts: a few, many, or
/// every state.
pub(super) fn with_some_starts(rng: &mut Rng, model: Model) -> Model {
    let states = usize::from(model.states);
    let mut starts = BTreeSet::from_iter(model.starts());
    match rng.below(100) {
        0..=49 => return model,
        50..=84 => {
            for _ in 0..rng.between(1, 3) {
                starts.insert(rng.below(states) as u16);
            }
        }
        85..=94 => {
            let chance = rng.between(10, 90);
            starts.extend((0..model.states).filter(|_| rng.percent(chance)));
        }
        _ => starts.extend(0..model.states),
    }
    model.with_starts(&starts)
}

/// The same model with every state a start.
pub fn with_all_starts(model: &Model) -> Model {
    model.with_starts(&(0..model.states).collect())
}
