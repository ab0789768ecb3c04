//! The moves of models with ticks in plain Rust, as sets of states. States that ticks join both ways have the same
//! moves, so that each such component is closed once, after those that its ticks lead to. Where the moves come from is
//! worked out in the same way from the steps turned round, with the components in the opposite order.
use second::store::{action_place, step_place};

use crate::plain::ROW;
use crate::sets::{least, members, only, Set};

/// The action of a silent move in a book.
pub const SILENT: u8 = 255;

/// No label.
const NONE: u8 = 255;

/// The levels that are played.
const LOW: u16 = 0;
const TICK: u16 = 3;

/// The low actions that have a step, rising, and silence after them.
pub struct Labels {
    /// The action of each label.
    pub actions: Vec<u8>,
    /// The label of each action in a book.
    pub in_book: [u8; 256],
    /// The label of each action of the model.
    in_model: [u8; 256],
}

impl Labels {
    fn of(store: &[u16], steps: &[[u16; 3]]) -> Labels {
        let used = steps.iter().fold(0u64, |used, step| used | 1 << step[1]);
        let (mut actions, mut ticks) = (Vec::new(), Vec::new());
        for action in members(Set::from(used)) {
            match store[action_place(action)] {
                LOW => actions.push(action as u8),
                TICK => ticks.push(action),
                _ => {}
            }
        }
        actions.push(SILENT);
        let mut in_book = [NONE; 256];
        for (label, &action) in actions.iter().enumerate() {
            in_book[usize::from(action)] = label as u8;
        }
        let mut in_model = in_book;
        for tick in ticks {
            in_model[tick] = in_book[usize::from(SILENT)];
        }
        Labels {
            actions,
            in_book,
            in_model,
        }
    }
}

/// The targets of each state by label: of its steps, and once they are closed, of its moves.
#[derive(Clone)]
pub struct Targets {
    labels: usize,
    sets: Vec<Set>,
}

impl Targets {
    fn none(labels: usize) -> Targets {
        Targets {
            labels,
            sets: vec![0; labels * ROW],
        }
    }

    /// The targets of a state, label by label.
    #[inline(always)]
    pub fn of(&self, p: usize) -> &[Set] {
        &self.sets[self.labels * p..][..self.labels]
    }

    #[inline(always)]
    fn of_mut(&mut self, p: usize) -> &mut [Set] {
        &mut self.sets[self.labels * p..][..self.labels]
    }

    /// The targets of a state's ticks.
    fn ticks(&self) -> [Set; ROW] {
        std::array::from_fn(|p| self.of(p)[self.labels - 1])
    }

    /// Makes the targets of steps those of moves. Each tick leads to its own component or one before it.
    fn close(&mut self, states: usize, components: impl Iterator<Item = Set> + Clone) {
        let ticks = self.ticks();
        let beyond = |component| join(&ticks, component) & !component;
        let mut silent = [0; ROW];
        for component in components.clone() {
            let mut reached = component;
            let mut left = beyond(component);
            while left != 0 {
                let further = silent[least(left)];
                reached |= further;
                left &= !further;
            }
            members(component).for_each(|p| silent[p] = reached);
        }
        for p in 0..states {
            let (last, low) = self.of_mut(p).split_last_mut().expect("silence");
            *last = silent[p];
            for targets in low {
                *targets = join(&silent, *targets);
            }
        }
        let mut joint = vec![0; self.labels];
        for component in components {
            let first = least(component);
            let others = component & !only(first);
            let mut left = beyond(component);
            if others | left == 0 {
                continue;
            }
            joint.copy_from_slice(self.of(first));
            members(others).for_each(|p| add(&mut joint, self.of(p)));
            while left != 0 {
                let next = least(left);
                add(&mut joint, self.of(next));
                left &= !silent[next];
            }
            members(component).for_each(|p| self.of_mut(p).copy_from_slice(&joint));
        }
    }
}

/// What the members of a set have together.
fn join(sets: &[Set; ROW], of: Set) -> Set {
    members(of).fold(0, |joint, member| joint | sets[member])
}

/// Joins a state's targets to others, label by label.
#[inline(always)]
pub fn add(joint: &mut [Set], targets: &[Set]) {
    for (set, more) in joint.iter_mut().zip(targets) {
        *set |= more;
    }
}

/// The states that ticks join both ways, each such set after those that its ticks lead to.
fn components(ticks: &[Set; ROW], back: &[Set; ROW], states: Set) -> Vec<Set> {
    // Depth first along the ticks turned round: of two components the one that leads to the other is left first.
    let (mut order, mut path) = (Vec::with_capacity(ROW), Vec::with_capacity(ROW));
    let mut left = states;
    while left != 0 {
        path.push(least(left));
        left &= left - 1;
        while let Some(&here) = path.last() {
            let next = back[here] & left;
            if next == 0 {
                order.push(here);
                path.pop();
            } else {
                path.push(least(next));
                left &= !only(least(next));
            }
        }
    }
    let mut components = Vec::with_capacity(ROW);
    let mut left = states;
    for &first in order.iter().rev() {
        let mut component = only(first) & left;
        let mut new = component;
        while new != 0 {
            left &= !new;
            new = join(ticks, new) & left;
            component |= new;
        }
        if component != 0 {
            components.push(component);
        }
    }
    components
}

/// The moves of a good store.
pub struct Moves {
    pub states: usize,
    pub labels: Labels,
    pub targets: Targets,
    /// The states from which moves lead to each state.
    pub sources: Targets,
}

impl Moves {
    pub fn of(store: &[u16]) -> Moves {
        let (moves, components) = Moves::forward(store);
        let mut sources = moves.sources;
        sources.close(moves.states, components.into_iter().rev());
        Moves { sources, ..moves }
    }

    /// The moves without their sources.
    pub fn targets_alone(store: &[u16]) -> Moves {
        Moves::forward(store).0
    }

    /// The moves with the sources of steps alone, and the components.
    fn forward(store: &[u16]) -> (Moves, Vec<Set>) {
        let states = usize::from(store[0]);
        let steps = &store[step_place(0)..step_place(usize::from(store[2]))];
        let (steps, _) = steps.as_chunks();
        let labels = Labels::of(store, steps);
        let count = labels.actions.len();
        let (mut targets, mut sources) = (Targets::none(count), Targets::none(count));
        for &[source, action, target] in steps {
            let label = usize::from(labels.in_model[usize::from(action)]);
            let [source, target] = [source, target].map(usize::from);
            if label < count {
                targets.of_mut(source)[label] |= only(target);
                sources.of_mut(target)[label] |= only(source);
            }
        }
        let all = Set::MAX >> (ROW - states);
        let components = components(&targets.ticks(), &sources.ticks(), all);
        targets.close(states, components.iter().copied());
        let moves = Moves {
            states,
            labels,
            targets,
            sources,
        };
        (moves, components)
    }
}
