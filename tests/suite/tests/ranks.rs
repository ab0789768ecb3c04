//! Rank on models that take many rounds, entry by entry against the second checker.
use second::gen::{self, Rng};
use second::store::{MOST_STATES, MOST_STEPS};
use second::{Action, Level, Model, Step};
use std::collections::BTreeSet;
use suite::lists::Lists;
use suite::operations::RANK;
use suite::stores::Store;

const SEED: u64 = 7_300;

/// The low actions that a model's shape is made of; a step aside may have one more.
const MOST_LOW: usize = 3;

/// Steps being collected, within the limit.
struct Steps(BTreeSet<Step>);

impl Steps {
    fn add(&mut self, source: usize, action: usize, target: usize) {
        if self.0.len() < MOST_STEPS {
            let [source, action, target] = [source, action, target].map(|n| n as u16);
            self.0.insert(Step::new(source, action, target));
        }
    }
}

/// How a model leads on, from each state but the last of a stretch. Stretches are chains, one behind the other.
const SHAPES: [&str; 8] = [
    "forward",
    "backward",
    "ring",
    "stretches",
    "fan",
    "on and back",
    "wide states",
    "both ways",
];

fn shaped(rng: &mut Rng, shape: &str, states: usize, low: usize, steps: &mut Steps) {
    let width = rng.between(2, 7);
    // Wide states stand behind the chain that they lead to.
    let (wide, length) = match shape {
        "wide states" => (rng.between(1, 8).min(states / 2), states),
        "stretches" => (0, rng.between(2, states / 2 + 2)),
        _ => (0, states),
    };
    let last = states - wide - 1;
    for i in (0..last).filter(|i| (i + 1) % length != 0) {
        for action in 0..low {
            match shape {
                "backward" => steps.add(i + 1, action, i),
                "fan" => (i + 1..=(i + width).min(last)).for_each(|t| steps.add(i, action, t)),
                _ => steps.add(i, action, i + 1),
            }
        }
        match shape {
            "on and back" => (0..width.min(states)).for_each(|t| steps.add(i, rng.below(low), t)),
            "both ways" => steps.add(i + 1, low, i),
            _ => (),
        }
    }
    if shape == "ring" {
        (0..low).for_each(|action| steps.add(last, action, 0));
    }
    for source in last + 1..states {
        let every = rng.between(1, 4);
        (0..=last)
            .step_by(every)
            .for_each(|t| steps.add(source, 0, t));
    }
}

/// A model of one of the shapes, with a few steps aside and one that is high; half of them are numbered otherwise.
fn long_model(rng: &mut Rng, shape: &str) -> Model {
    let states = match rng.below(4) {
        0 => rng.between(2, 20),
        1 => MOST_STATES,
        _ => rng.between(21, MOST_STATES),
    };
    let low = rng.between(1, MOST_LOW);
    let mut steps = Steps(BTreeSet::new());
    let (source, target) = (rng.below(states), rng.below(states));
    steps.add(source, MOST_LOW + 1, target);
    shaped(rng, shape, states, low, &mut steps);
    let most = *rng.pick(&[0, 1, 3, 8]);
    // A ring without them is one class.
    for _ in 0..rng.below(most + 1) + usize::from(shape == "ring") {
        steps.add(rng.below(states), rng.below(low + 1), rng.below(states));
    }
    let action = |i| Action {
        level: if i > MOST_LOW {
            Level::High
        } else {
            Level::Low
        },
        name: format!("a{i}").into_bytes(),
    };
    let model = Model {
        states: states as u16,
        start: rng.below(states) as u16,
        extra_starts: Vec::new(),
        actions: (0..=MOST_LOW + 1).map(action).collect(),
        steps: steps.0.into_iter().collect(),
    };
    match rng.percent(50) {
        true => gen::shuffle(rng, &model),
        false => model,
    }
}

#[test]
fn models_of_many_rounds() {
    let mut rng = gen::seeded("ranks::models_of_many_rounds", SEED);
    let before = Lists::enough(&mut rng);
    let mut ranks = BTreeSet::new();
    for shape in SHAPES {
        let mut many = 0;
        for _ in 0..60 {
            let store = Store::of(&long_model(&mut rng, shape));
            let rank = RANK.same(&store, &before).0.expect("the store is good");
            many += usize::from(rank > 16);
            ranks.insert(rank);
        }
        assert!(many > 20, "{shape}: {many} models take more than 16 rounds");
    }
    assert!(ranks.len() > 90, "{ranks:?}");
}
