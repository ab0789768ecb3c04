//! Models whose states offer many low actions, for receipt rolls.

use super::parts::{actions_of, named, Steps};
use super::starts::with_some_starts;
use super::variants::{shuffle, with_unreachable};
use super::Rng;
use crate::store::{Action, Level, Model, Step};

/// A model with many low actions. Their names have 1 to 12 bytes, and those of
/// most states take more than one line of a roll. Most have at most 12 states.
pub fn wide_model(rng: &mut Rng, deterministic: bool) -> Model {
    let states = if rng.percent(90) {
        rng.between(1, 12)
    } else {
        rng.between(13, 128)
    };
    let low = rng.between(4, 40);
    let levels = [
        &[Level::High, Level::Release][..],
        &vec![Level::Low; low][..],
    ]
    .concat();
    let mut steps = Steps::new(deterministic);
    for action in [0, 1] {
        for _ in 0..rng.below(states + 1) {
            steps.add(rng.below(states), action, rng.below(states));
        }
    }
    // With few offers many states are told apart late, or not at all.
    let offers: Vec<Vec<u16>> = (0..rng.between(1, 3)).map(|_| offer(rng, low)).collect();
    for source in 0..states {
        if rng.percent(5) {
            continue;
        }
        for &action in rng.pick(&offers) {
            // A name stands once, however many steps its action has there.
            for _ in 0..rng.between(1, 2) {
                steps.add(source, action, rng.below(states));
            }
        }
    }
    let model = Model {
        states: states as u16,
        start: rng.below(states) as u16,
        extra_starts: Vec::new(),
        actions: actions_of(rng, &levels),
        steps: steps.into_vec(),
    };
    let mut model = with_some_starts(rng, model);
    if rng.percent(20) {
        model = with_unreachable(rng, &model);
    }
    shuffle(rng, &model)
}

/// Some of the low actions of a wide model, few or many of them.
fn offer(rng: &mut Rng, low: usize) -> Vec<u16> {
    let chance = *rng.pick(&[10, 40, 70, 100]);
    (2..2 + low as u16)
        .filter(|_| rng.percent(chance))
        .collect()
}

/// The model with the greatest roll, of 832 lines.
///
/// A low ring with 9 names of 12 bytes at 63 of its states and 7 at the other
/// 65: 5 lines each, and 4. The run goes round from 2 to 1, and from 1 and 66,
/// about halfway round, it takes 127 letters to tell that the longer offers come at
/// different times.
pub fn greatest_roll() -> Model {
    let mut steps = Vec::new();
    for state in 0..128 {
        let longer = 63 * (state + 1) / 128 > 63 * state / 128;
        for action in 0..if longer { 9 } else { 7 } {
            steps.push(Step::new(state, action, (state + 1) % 128));
        }
    }
    steps.push(Step::new(1, 9, 66));
    steps.sort();
    let low = (1..=9).map(|number| named(Level::Low, &format!("scanbarcode{number}")));
    let mut actions: Vec<Action> = low.collect();
    actions.push(named(Level::High, "print"));
    Model {
        states: 128,
        start: 2,
        extra_starts: Vec::new(),
        actions,
        steps,
    }
}
