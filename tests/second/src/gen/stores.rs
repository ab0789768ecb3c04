//! Damaged stores.

use super::parts::{of_level, NAME_BYTES};
use super::{some_of, Rng};
use crate::store::{
    action_place, extra_start_place, step_place, Level, Model, Step, EXTRA_STARTS, LONGEST_NAME,
    MOST_ACTIONS, MOST_EXTRA_STARTS, MOST_STEPS, STORE,
};

/// Stores that are not good, each with one thing wrong.
pub fn bad_stores(model: &Model) -> Vec<(&'static str, Vec<u16>)> {
    let mut list = BadStores {
        model,
        good: model.to_store(),
        stores: Vec::new(),
    };
    list.head();
    list.counts();
    let (actions, steps) = (model.actions.len(), model.steps.len());
    for i in some_of(0, actions) {
        list.action(i);
        list.name_bytes(i);
        for earlier in some_of(0, i) {
            list.name_used_before(earlier, i);
        }
    }
    for i in some_of(actions, MOST_ACTIONS) {
        for k in 0..14 {
            list.add("unused action", &[(action_place(i) + k, 1)]);
        }
    }
    list.no_high();
    some_of(0, steps).into_iter().for_each(|j| list.step(j));
    some_of(1, steps).into_iter().for_each(|j| list.order(j));
    for j in some_of(steps, MOST_STEPS) {
        for k in 0..3 {
            for number in [1, 65_535] {
                list.add("unused step", &[(step_place(j) + k, number)]);
            }
        }
    }
    list.start_counts();
    let starts = model.extra_starts.len();
    some_of(0, starts).into_iter().for_each(|k| list.start(k));
    for k in some_of(starts, MOST_EXTRA_STARTS) {
        for number in [1, model.states - 1, 127, 65_535] {
            if number > 0 {
                list.add("unused start", &[(extra_start_place(k), number)]);
            }
        }
    }
    list.stores.push(("all 0", vec![0; STORE]));
    list.stores.push(("all 1", vec![1; STORE]));
    list.stores.push(("all 65,535", vec![65_535; STORE]));
    list.stores
}

/// Numbers that are no byte of a name.
const NO_NAME_BYTES: [u16; 14] = [0, 10, 13, 32, 44, 47, 58, 65, 90, 96, 123, 128, 255, 256];

/// A model, its store, and the damaged ones made of it so far.
struct BadStores<'a> {
    model: &'a Model,
    good: Vec<u16>,
    stores: Vec<(&'static str, Vec<u16>)>,
}

impl BadStores<'_> {
    /// The good store with other numbers at some places.
    fn add(&mut self, what: &'static str, changes: &[(usize, u16)]) {
        let mut store = self.good.clone();
        for &(place, number) in changes {
            store[place] = number;
        }
        self.stores.push((what, store));
    }

    /// Numbers of the head outside their ranges.
    fn head(&mut self) {
        for count in [0, 129, 256, 65_535] {
            self.add("states out of range", &[(0, count)]);
        }
        for count in [0, 65, 256, 65_535] {
            self.add("actions out of range", &[(1, count)]);
        }
        for count in [1_025, 1_026, 32_768, 65_535] {
            self.add("steps out of range", &[(2, count)]);
        }
        for number in [self.model.states, 128, 65_535] {
            self.add("start out of range", &[(3, number)]);
        }
        self.add("states not above start", &[(0, self.model.start)]);
    }

    /// Counts of the head that do not fit what follows.
    fn counts(&mut self) {
        let model = self.model;
        let (actions, steps) = (model.actions.len() as u16, model.steps.len() as u16);
        if usize::from(actions) < MOST_ACTIONS {
            self.add("an action too few", &[(1, actions + 1)]);
        }
        self.add("an action too many", &[(1, actions - 1)]);
        if steps > 0 && usize::from(steps) < MOST_STEPS {
            self.add("a step too few", &[(2, steps + 1)]);
        }
        if model.steps.last().is_some_and(|&s| s != Step::new(0, 0, 0)) {
            self.add("a step too many", &[(2, steps - 1)]);
        }
    }

    /// A level, or the length of a name.
    fn action(&mut self, i: usize) {
        let place = action_place(i);
        let length = self.model.actions[i].name.len();
        for level in [4, 5, 256, 65_535, u16::from(b'L')] {
            self.add("no such level", &[(place, level)]);
        }
        for wrong in [0, 13, 14, 256 + length as u16, 65_535] {
            self.add("name length out of range", &[(place + 1, wrong)]);
        }
        self.add("name one shorter", &[(place + 1, length as u16 - 1)]);
        if length < LONGEST_NAME {
            self.add("name one longer", &[(place + 1, length as u16 + 1)]);
            for past in [place + 2 + length, place + 13] {
                for byte in [1, 97, 65_535] {
                    self.add("a byte past the name", &[(past, byte)]);
                }
            }
        }
    }

    /// The first and the last byte of a name.
    fn name_bytes(&mut self, i: usize) {
        let place = action_place(i);
        for at in [place + 2, place + 1 + self.model.actions[i].name.len()] {
            let past_255 = [256 + self.good[at], 65_535];
            for wrong in NO_NAME_BYTES.into_iter().chain(past_255) {
                self.add("no name byte", &[(at, wrong)]);
            }
        }
    }

    fn name_used_before(&mut self, earlier: usize, i: usize) {
        let (from, place) = (action_place(earlier), action_place(i));
        let good = &self.good;
        let copied: Vec<(usize, u16)> = (1..14).map(|k| (place + k, good[from + k])).collect();
        self.add("name used before", &copied);
    }

    /// Other levels in place of each high one (request (vi) of document 02).
    fn no_high(&mut self) {
        let high = of_level(&self.model.actions, Level::High);
        let places: Vec<usize> = high.into_iter().map(level_place).collect();
        let mut levels = vec![[0, 0], [1, 1], [0, 1], [1, 0]];
        if self.model.has_silent() {
            levels.extend([[3, 3], [0, 3], [3, 1]]);
        }
        for levels in levels {
            let levels = levels.into_iter().cycle();
            let lost: Vec<(usize, u16)> = places.iter().copied().zip(levels).collect();
            self.add("no high action", &lost);
        }
    }

    /// A step's numbers outside their ranges.
    fn step(&mut self, j: usize) {
        let place = step_place(j);
        let (states, actions) = (self.model.states, self.model.actions.len() as u16);
        for number in [states, 128, 256, 65_535] {
            self.add("no such source", &[(place, number)]);
            self.add("no such target", &[(place + 2, number)]);
        }
        for number in [actions, 64, 256, 65_535] {
            self.add("no such action", &[(place + 1, number)]);
        }
    }

    /// A step not above the one before it.
    fn order(&mut self, j: usize) {
        let (before, place) = (step_place(j - 1), step_place(j));
        let good = &self.good;
        let equal: Vec<(usize, u16)> = (0..3).map(|k| (place + k, good[before + k])).collect();
        let mut swapped = equal.clone();
        swapped.extend((0..3).map(|k| (before + k, good[place + k])));
        self.add("equal steps", &equal);
        self.add("steps swapped", &swapped);
    }

    /// Counts of extra starts outside their range, or that do not fit what
    /// follows: an unused place is 0, which no extra start is.
    fn start_counts(&mut self) {
        for count in [128, 129, 256, 65_535] {
            self.add("extra starts out of range", &[(EXTRA_STARTS, count)]);
        }
        let count = self.model.extra_starts.len();
        if count < MOST_EXTRA_STARTS {
            let more = [count as u16 + 1, MOST_EXTRA_STARTS as u16];
            for count in more {
                self.add("an extra start too few", &[(EXTRA_STARTS, count)]);
            }
        }
        if let [first, .., last] = self.model.starts()[..] {
            for count in [count as u16 - 1, 0] {
                self.add("an extra start too many", &[(EXTRA_STARTS, count)]);
            }
            let lowest = self.model.extra_starts[0];
            self.add("start not below the extra ones", &[(3, lowest)]);
            self.add("extra starts not above the start", &[(3, last)]);
            self.add("states not above the starts", &[(0, last)]);
            self.add("the start once more", &[(extra_start_place(0), first)]);
        }
    }

    /// An extra start outside its range, or not above the one before it.
    fn start(&mut self, k: usize) {
        let place = extra_start_place(k);
        for number in [self.model.states, 128, 256, 65_535] {
            self.add("no such start", &[(place, number)]);
        }
        let before = self.model.starts()[k];
        for number in [before, before.saturating_sub(1), 0] {
            self.add("start not above the one before", &[(place, number)]);
        }
        if k > 0 {
            let swapped = [(place - 1, self.good[place]), (place, before)];
            self.add("starts swapped", &swapped);
        }
    }
}

/// A store with a few random changes. It may still be a good one.
pub fn mutated_store(rng: &mut Rng, model: &Model) -> Vec<u16> {
    let mut store = model.to_store();
    if rng.percent(20) {
        add_start(rng, model, &mut store);
        if rng.percent(50) {
            return store;
        }
    }
    if rng.percent(15) {
        change_levels(rng, model, &mut store);
        if rng.percent(70) {
            return store;
        }
    }
    for _ in 0..rng.between(1, 2) {
        let place = match rng.below(11) {
            0 => rng.below(4),
            1 | 2 => action_place(rng.below(model.actions.len() + 1)) + rng.below(14),
            3..=6 => step_place(rng.below(model.steps.len() + 1)) + rng.below(3),
            7 => EXTRA_STARTS,
            8 | 9 => extra_start_place(rng.below(model.extra_starts.len() + 2)),
            _ => rng.below(STORE),
        };
        if place < STORE {
            store[place] = match rng.below(6) {
                0 => store[place].wrapping_add(1),
                1 => store[place].wrapping_sub(1),
                2 => 0,
                3 => rng.below(14) as u16,
                4 => u16::from(*rng.pick(NAME_BYTES)),
                _ => *rng.pick(&[64, 65, 128, 129, 256, 1_024, 1_025, 65_535]),
            };
        }
    }
    store
}

/// One more extra start, counted, which may be outside or not above the last.
fn add_start(rng: &mut Rng, model: &Model, store: &mut [u16]) {
    let count = model.extra_starts.len();
    if count < MOST_EXTRA_STARTS {
        store[EXTRA_STARTS] += 1;
        store[extra_start_place(count)] = rng.below(usize::from(model.states) + 2) as u16;
    }
}

/// Other levels in place of each high one, or in one place.
fn change_levels(rng: &mut Rng, model: &Model, store: &mut [u16]) {
    if rng.percent(50) {
        lose_high(rng, model, store);
    } else {
        let action = rng.below(model.actions.len()) as u16;
        store[level_place(action)] = rng.below(4) as u16;
    }
}

/// Other levels in place of each high one: all low, all releases, or some of
/// both.
fn lose_high(rng: &mut Rng, model: &Model, store: &mut [u16]) {
    let levels = *rng.pick(&[&[0][..], &[1], &[0, 1]]);
    for action in of_level(&model.actions, Level::High) {
        store[level_place(action)] = *rng.pick(levels);
    }
}

/// A store that has no high action, and nothing else wrong. It is not good
/// (request (vi) of document 02).
pub fn no_high_store(rng: &mut Rng, model: &Model) -> Vec<u16> {
    let mut store = model.to_store();
    lose_high(rng, model, &mut store);
    store
}

/// The same, with silent actions too in place of the high ones.
pub fn no_high_tick_store(rng: &mut Rng, model: &Model) -> Vec<u16> {
    let mut store = model.to_store();
    let levels = *rng.pick(&[&[3][..], &[0, 3], &[1, 3], &[0, 1, 3]]);
    for action in of_level(&model.actions, Level::High) {
        store[level_place(action)] = *rng.pick(levels);
    }
    store
}

/// A store with some levels changed, to that of a silent action or to a number
/// that is no level, and perhaps with other changes. It may still be a good one.
pub fn mutated_tick_store(rng: &mut Rng, model: &Model) -> Vec<u16> {
    let mut store = match rng.percent(60) {
        true => model.to_store(),
        false => mutated_store(rng, model),
    };
    for _ in 0..rng.between(1, 3) {
        let action = rng.below(model.actions.len()) as u16;
        store[level_place(action)] = match rng.below(10) {
            0..=5 => 3,
            6 => 4,
            7 => 2,
            8 => rng.below(4) as u16,
            _ => *rng.pick(&[5, 7, u16::from(b'T'), 255, 256, 259, 65_535]),
        };
    }
    store
}

/// Place of an action's level.
fn level_place(action: u16) -> usize {
    action_place(usize::from(action))
}

/// A store of random numbers.
pub fn scrap_store(rng: &mut Rng) -> Vec<u16> {
    let bound = *rng.pick(&[2, 4, 14, 129, 1_026, 65_536]);
    let mut store: Vec<u16> = (0..STORE).map(|_| rng.below(bound) as u16).collect();
    if rng.percent(50) {
        store[0] = rng.between(1, 128) as u16;
        store[1] = rng.between(1, 64) as u16;
        store[2] = rng.between(0, 1_024) as u16;
        store[3] = 0;
    }
    store
}
