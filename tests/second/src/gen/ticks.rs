//! Models with silent actions (request (vii) of document 02): with ticks that are
//! reachable, with ticks of unreachable states only, and with none.
//!
//! What adds a silent action to a model needs room for one. `with_ticks` and
//! `silenced` take any model.

use std::collections::BTreeSet;

use super::choices::zigzag_of_ticks;
use super::choices::{choices_of_ticks, deep_choices_of_ticks, fewer_choices_of_ticks};
use super::deep::chain;
use super::limits::limit_models;
use super::models::{any_model, deterministic_model, random_model};
use super::parts::{named, names, Steps};
use super::starts::with_all_starts;
use super::variants::shuffle;
use super::Rng;
use crate::reach::{distances_of, UNREACHABLE};
use crate::store::{Action, Level, Model, Step, MOST_ACTIONS, MOST_STATES, MOST_STEPS};

/// A model of any kind with a silent action; most have at most 12 states.
pub fn tick_model(rng: &mut Rng) -> Model {
    let model = any_model(rng);
    with_ticks(rng, &model)
}

/// A deterministic model of any kind with a silent action; most have at most 12
/// states.
pub fn deterministic_tick_model(rng: &mut Rng) -> Model {
    let model = deterministic_model(rng);
    let ticking = with_ticks(rng, &model);
    one_way(&ticking)
}

/// The same model with a silent action, with ticks of any kind or none.
pub fn with_ticks(rng: &mut Rng, model: &Model) -> Model {
    let ticking = match rng.below(100) {
        _ if model.actions.len() == MOST_ACTIONS => silenced(rng, model),
        0..=24 => silenced(rng, model),
        25..=44 => with_random_ticks(rng, model),
        45..=64 => with_delays(rng, model),
        65..=74 => with_tick_ring(rng, model),
        75..=92 => with_unreachable_ticks(rng, model),
        _ => with_tick(rng, model).0,
    };
    shuffle(rng, &ticking)
}

/// The same model without all but the first step of an action from each reachable
/// state, which is then the only one.
fn one_way(model: &Model) -> Model {
    let mut kept = model.clone();
    loop {
        let distances = distances_of(&kept);
        let reachable = |state: u16| distances[usize::from(state)] != UNREACHABLE;
        let mut before = None;
        let count = kept.steps.len();
        kept.steps.retain(|step| {
            let here = Some((step.source, step.action));
            let double = before == here && reachable(step.source);
            before = here;
            !double
        });
        if kept.steps.len() == count {
            return kept;
        }
    }
}

/// The same model with some of its actions silent, but not all high ones. If
/// there is no other action, one more is silent and has no step.
pub fn silenced(rng: &mut Rng, model: &Model) -> Model {
    let order = rng.order(model.actions.len());
    let is_high = |&&action: &&usize| model.actions[action].level == Level::High;
    let kept = order.iter().rfind(is_high);
    let others: Vec<&usize> = order
        .iter()
        .filter(|&action| Some(action) != kept)
        .collect();
    if others.is_empty() {
        return with_tick(rng, model).0;
    }
    let wanted = *rng.pick(&[1, 1, 2, MOST_ACTIONS]);
    let mut silenced = model.clone();
    for &action in others.into_iter().take(wanted) {
        silenced.actions[action].level = Level::Silent;
    }
    silenced
}

/// The same model with one more action, which is silent and has no step; and its
/// number, which is the last.
fn with_tick(rng: &mut Rng, model: &Model) -> (Model, u16) {
    assert!(model.actions.len() < MOST_ACTIONS, "room for an action");
    let used = |name: &[u8]| model.actions.iter().any(|action| action.name == name);
    let mut name = b"tick".to_vec();
    while used(&name) {
        name = names(rng, 1).remove(0);
    }
    let mut ticking = model.clone();
    let level = Level::Silent;
    ticking.actions.push(Action { level, name });
    (ticking, model.actions.len() as u16)
}

/// The same model with random ticks, few or many, of which some lead nowhere.
pub fn with_random_ticks(rng: &mut Rng, model: &Model) -> Model {
    let (mut ticking, tick) = with_tick(rng, model);
    let states = usize::from(model.states);
    let mut steps = collected(&ticking);
    let count = match rng.below(4) {
        0 => rng.between(1, 2),
        1 => rng.below(3 * states),
        _ => rng.between(1, states),
    };
    for _ in 0..count {
        let source = rng.below(states);
        let target = if rng.percent(15) {
            source
        } else {
            rng.below(states)
        };
        steps.add(source, tick, target);
    }
    ticking.steps = steps.into_vec();
    ticking
}

fn collected(model: &Model) -> Steps {
    let mut steps = Steps::new(false);
    steps.steps.extend(&model.steps);
    steps
}

/// The same model with ticks that go round a few states, or all.
pub fn with_tick_ring(rng: &mut Rng, model: &Model) -> Model {
    let (mut ticking, tick) = with_tick(rng, model);
    let states = usize::from(model.states);
    let length = match rng.below(4) {
        0 => states,
        _ => rng.between(1, states.min(4)),
    };
    let ring = &rng.order(states)[..length];
    let mut steps = collected(&ticking);
    for (index, &source) in ring.iter().enumerate() {
        steps.add(source, tick, ring[(index + 1) % length]);
    }
    ticking.steps = steps.into_vec();
    ticking
}

/// The same model with further states, each with one tick alone, which leads to
/// one of the states before it: some steps now lead to a state by way of such
/// ticks. It changes no rank of the states that there were, nor which of them are
/// reachable. The silent action is the last.
pub fn with_delays(rng: &mut Rng, model: &Model) -> Model {
    let (ticking, tick) = with_tick(rng, model);
    let (states, steps) = (usize::from(model.states), ticking.steps.len());
    let room = (MOST_STATES - states).min(MOST_STEPS - steps);
    let extra = rng.below(room.min(8) + 1);
    let mut delayed = ticking.steps.clone();
    let mut ticks = Vec::new();
    for added in 0..extra {
        let here = (states + added) as u16;
        let target = rng.below(usize::from(here)) as u16;
        let chance = *rng.pick(&[30, 100]);
        for step in &mut delayed {
            if step.target == target && rng.percent(chance) {
                step.target = here;
            }
        }
        ticks.push(Step::new(here, tick, target));
    }
    // Each step leads to another target at most, so no two become one.
    delayed.extend(ticks);
    let delayed: BTreeSet<Step> = delayed.into_iter().collect();
    Model {
        states: (states + extra) as u16,
        steps: delayed.into_iter().collect(),
        ..ticking
    }
}

/// The same model with further states that nothing leads to, from which alone
/// ticks lead to any. If there is no room for them, there are no ticks. It changes
/// no rank of the states that there were.
pub fn with_unreachable_ticks(rng: &mut Rng, model: &Model) -> Model {
    let (ticking, tick) = with_tick(rng, model);
    let states = usize::from(model.states);
    let room = (MOST_STATES - states).min(MOST_STEPS - ticking.steps.len());
    let extra = rng.between(room.min(1), room.min(5));
    let mut steps = collected(&ticking);
    for source in states..states + extra {
        steps.add(source, tick, rng.below(states + extra));
    }
    for _ in 0..rng.below(3 * extra + 1) {
        let source = rng.between(states, states + extra - 1);
        let action = if rng.percent(40) {
            tick
        } else {
            rng.below(ticking.actions.len()) as u16
        };
        steps.add(source, action, rng.below(states + extra));
    }
    Model {
        states: (states + extra) as u16,
        steps: steps.into_vec(),
        ..ticking
    }
}

/// The actions of the models below.
const SCAN: u16 = 0;
const PRINT: u16 = 1;
const CLOSE: u16 = 2;
const TICK: u16 = 3;

/// A till of so many states with the actions scan, print, close and tick.
fn ticking_till(states: u16, mut steps: Vec<Step>) -> Model {
    steps.sort();
    let mut model = chain(states);
    model.actions.push(named(Level::Silent, "tick"));
    Model { steps, ..model }
}

/// Models with silent actions at the limits, each with its name.
pub fn tick_limit_models(rng: &mut Rng) -> Vec<(&'static str, Model)> {
    let mut models = vec![
        ("ring of ticks", ring(&[])),
        ("ring of ticks and scans", ring(&[SCAN])),
        ("ring of ticks and releases", ring(&[CLOSE])),
        ("all starts, ring of ticks", with_all_starts(&ring(&[SCAN]))),
        ("chain of ticks", tick_chain()),
        ("every other step a tick", every_other()),
        ("deepest, ticks everywhere", deepest()),
        ("deepest, one tick", last_tick()),
        ("deepest, ticks unreached", deepest_unreached()),
        ("deepest, ticks back", deepest_back()),
        ("star of ticks", star()),
        ("ring of unreached ticks", unreached_ring()),
        ("one high action, all others silent", all_silent(rng)),
        ("ring of ticks, many scans", dense(rng)),
        ("choices of ticks", choices_of_ticks()),
        ("deep choices of ticks", deep_choices_of_ticks()),
        ("fewer choices of ticks", fewer_choices_of_ticks()),
        ("zigzag of ticks", zigzag_of_ticks()),
    ];
    for (_, model) in limit_models(rng) {
        models.push(("silenced", silenced(rng, &model)));
    }
    models
}

/// All states in a ring of ticks, and steps of these actions all the way round.
/// Each state has 128 silent moves. 0 print 64.
fn ring(actions: &[u16]) -> Model {
    let mut steps = vec![Step::new(0, PRINT, 64)];
    for &action in [&[TICK], actions].concat().iter() {
        steps.extend((0..128).map(|state| Step::new(state, action, (state + 1) % 128)));
    }
    ticking_till(128, steps)
}

/// 127 ticks lead to the only scan, from either end of the print.
fn tick_chain() -> Model {
    let mut steps: Vec<Step> = (1..128).map(|i| Step::new(i - 1, TICK, i)).collect();
    steps.push(Step::new(0, PRINT, 64));
    steps.push(Step::new(127, SCAN, 127));
    ticking_till(128, steps)
}

/// A scan and a tick by turns, and 0 print 2: 64 scans from 0, 63 from 2.
fn every_other() -> Model {
    let action = |target: u16| [TICK, SCAN][usize::from(target % 2)];
    let mut steps: Vec<Step> = (1..128)
        .map(|target| Step::new(target - 1, action(target), target))
        .collect();
    steps.push(Step::new(0, PRINT, 2));
    ticking_till(128, steps)
}

/// The chain of the bench with a tick at each state that stays there.
fn deepest() -> Model {
    let mut steps = chain(128).steps;
    steps.extend((0..128).map(|state| Step::new(state, TICK, state)));
    ticking_till(128, steps)
}

/// The chain of the bench with one state fewer and a tick at its end.
fn last_tick() -> Model {
    let mut steps = chain(127).steps;
    steps.push(Step::new(126, TICK, 127));
    ticking_till(128, steps)
}

/// The same with the tick in an unreachable state.
fn deepest_unreached() -> Model {
    let mut steps = chain(127).steps;
    steps.push(Step::new(127, TICK, 0));
    ticking_till(128, steps)
}

/// The chain of the bench with a tick from each state to the one before it, so that
/// states have many moves, and with a step of its own at the last state.
fn deepest_back() -> Model {
    let mut model = ticking_till(128, chain(128).steps);
    let beep = model.actions.len() as u16;
    model.actions.push(named(Level::Low, "beep"));
    let back = (1..128).map(|state| Step::new(state, TICK, state - 1));
    model.steps.extend(back);
    model.steps.push(Step::new(127, beep, 127));
    model.steps.sort();
    model
}

/// As many ticks as there may be lead from one state to all, and print leads to
/// the only one that scans.
fn star() -> Model {
    let mut model = ticking_till(128, Vec::new());
    let ticks = (0..8).map(|number| named(Level::Silent, &format!("tick{number}")));
    model.actions.extend(ticks);
    let mut steps = Steps::new(false);
    steps.add(0, PRINT, 127);
    steps.add(127, SCAN, 127);
    for action in TICK..model.actions.len() as u16 {
        for target in 0..128 {
            steps.add(0, action, target);
        }
    }
    model.steps = steps.into_vec();
    model
}

/// A print betrays itself at the start; all other states are in a ring of ticks
/// that nothing leads to.
fn unreached_ring() -> Model {
    let mut steps = vec![Step::new(0, PRINT, 1), Step::new(1, SCAN, 1)];
    steps.extend((2..127).map(|state| Step::new(state, TICK, state + 1)));
    steps.push(Step::new(127, TICK, 2));
    steps.push(Step::new(100, SCAN, 2));
    ticking_till(128, steps)
}

/// As many actions and steps as there may be, and all actions but one silent.
fn all_silent(rng: &mut Rng) -> Model {
    let mut model = random_model(rng, 128, MOST_ACTIONS, MOST_STEPS, false);
    for (number, action) in model.actions.iter_mut().enumerate() {
        action.level = if number == 40 {
            Level::High
        } else {
            Level::Silent
        };
    }
    model
}

/// A ring of ticks in which each state has steps of many actions, so that nearly
/// all moves that there can be are there.
fn dense(rng: &mut Rng) -> Model {
    let mut model = random_model(rng, 128, MOST_ACTIONS, MOST_STEPS - 128, false);
    for (number, action) in model.actions.iter_mut().enumerate() {
        action.level = match number {
            0 => Level::Silent,
            1 => Level::High,
            _ => Level::Low,
        };
    }
    let mut steps = collected(&model);
    for state in 0..128 {
        steps.add(state, 0, (state + 1) % 128);
    }
    model.steps = steps.into_vec();
    model
}
