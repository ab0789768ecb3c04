//! Models in which states tick to choices of seven others, so that the targets of
//! nearly all their moves are different sets.

use std::ops::Range;

use super::parts::named;
use crate::store::{Action, Level, Model, Step};

const STATES: u16 = 128;

/// How many states are chosen from.
const HUBS: u16 = 7;

/// The most low actions beside a high one and a silent one.
const MOST_LOW: u16 = 62;

/// From each of 121 states ticks to a choice of its own of seven more, and from
/// each of these a step of each of 62 actions. All states are alike.
pub fn choices_of_ticks() -> Model {
    ticking_to(&Vec::from_iter(1..=STATES - HUBS), MOST_LOW, 0..STATES)
}

/// The same of 45 states, and a chain of the other 76, which are told apart one
/// after the other.
pub fn deep_choices_of_ticks() -> Model {
    ticking_to(&wide_choices(45), MOST_LOW, 0..STATES)
}

/// The same of 60 states with 22 actions, so that there are fewer moves.
pub fn fewer_choices_of_ticks() -> Model {
    ticking_to(&wide_choices(60), 22, 0..STATES)
}

/// The same of 42 states, and a chain of 39. The 40 others tick each to the next,
/// to and fro between the lowest numbers and the highest, and the last of them to
/// one of the seven. Each state also ticks to itself.
pub fn zigzag_of_ticks() -> Model {
    let (low, high) = (0..20, 108..STATES);
    let choices = wide_choices(42);
    let mut model = ticking_to(&choices, MOST_LOW, low.end..high.start);
    let tick = model.actions.len() as u16 - 1;
    let first_hub = low.end + choices.len() as u16;
    let mut zigzag: Vec<u16> = low.zip(high.rev()).flat_map(|(a, b)| [a, b]).collect();
    zigzag.push(first_hub);
    let ticks = zigzag.windows(2).map(|two| Step::new(two[0], tick, two[1]));
    let loops = (0..STATES).map(|state| Step::new(state, tick, state));
    model.steps.extend(ticks.chain(loops));
    model.steps.sort();
    model.states = STATES;
    model
}

/// Choices of three to six.
fn wide_choices(count: usize) -> Vec<u16> {
    let is_wide = |choice: &u16| (3..=6).contains(&choice.count_ones());
    (0..1 << HUBS).filter(is_wide).take(count).collect()
}

/// From each of the first of these states ticks to a choice of seven, given by its
/// bits. A step of each action leads from each of the seven to one of the others,
/// and the states behind them are a chain of the first action. Print leads from the
/// first state to the second.
fn ticking_to(choices: &[u16], low: u16, states: Range<u16>) -> Model {
    let (print, tick, start) = (low, low + 1, states.start);
    let first_hub = start + choices.len() as u16;
    let chain = first_hub + HUBS..states.end;
    let others: Vec<u16> = (start..first_hub).chain(chain.clone()).collect();
    let mut steps = vec![Step::new(start, print, start + 1)];
    for hub in 0..HUBS {
        let here = first_hub + hub;
        let is_chosen = |&(_, choice): &(u16, &u16)| choice >> hub & 1 == 1;
        let ticking = (start..).zip(choices).filter(is_chosen);
        steps.extend(ticking.map(|(state, _)| Step::new(state, tick, here)));
        let number = |action| usize::from(17 * hub + action * (hub + 1)) % others.len();
        steps.extend((0..low).map(|action| Step::new(here, action, others[number(action)])));
    }
    steps.extend(chain.skip(1).map(|state| Step::new(state - 1, 0, state)));
    steps.sort();
    let mut actions: Vec<Action> = (0..low)
        .map(|action| named(Level::Low, &format!("scan{action}")))
        .collect();
    actions.push(named(Level::High, "print"));
    actions.push(named(Level::Silent, "tick"));
    Model {
        states: states.end,
        start,
        extra_starts: Vec::new(),
        actions,
        steps,
    }
}
