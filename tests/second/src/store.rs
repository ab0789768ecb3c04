//! The model store, and the model as plain data.

use std::collections::BTreeSet;

use crate::moves::Targets;
use crate::text::{parse, read, spell};
use crate::Refusal;

/// Least length of a model store.
pub const STORE: usize = 4_100;
/// Least length of the distances.
pub const DISTANCES: usize = 128;
/// Least length of the rank table.
pub const TABLE: usize = 16_384;
/// Least length of a run.
pub const RUN: usize = 127;
/// Least length of a word.
pub const WORD: usize = 127;
/// Least length of the list that takes a page.
pub const PAGE: usize = 5_000;
/// Least length of the list that takes a receipt roll.
pub const ROLL: usize = 35_840;
/// Least length of a book of plays.
pub const BOOK: usize = 65_536;
/// Least length of the list that takes a written text.
pub const WRITTEN: usize = 15_182;

pub const MOST_STATES: usize = 128;
pub const MOST_ACTIONS: usize = 64;
pub const MOST_STEPS: usize = 1_024;
/// Starts beside line 1's, which they are all above.
pub const MOST_EXTRA_STARTS: usize = MOST_STATES - 1;
pub const LONGEST_NAME: usize = 12;

const ACTIONS_FROM: usize = 4;
const ACTION_PLACES: usize = 14;
const STEPS_FROM: usize = 900;
const STEP_PLACES: usize = 3;

/// Place of the count of extra starts (request (iii) of document 02).
pub const EXTRA_STARTS: usize = 3_972;

/// First place of an action in the store.
pub fn action_place(action: usize) -> usize {
    ACTIONS_FROM + ACTION_PLACES * action
}

/// First place of a step in the store.
pub fn step_place(step: usize) -> usize {
    STEPS_FROM + STEP_PLACES * step
}

/// Place of an extra start in the store.
pub fn extra_start_place(extra: usize) -> usize {
    EXTRA_STARTS + 1 + extra
}

#[derive(Debug, Clone, Copy, PartialEq, Eq)]
pub enum Level {
    Low,
    Release,
    High,
    /// Timer ticks nobody sees (request (vii) of document 02).
    Silent,
}

impl Level {
    /// All levels, in the order of their numbers.
    pub const ALL: [Level; 4] = [Level::Low, Level::Release, Level::High, Level::Silent];

    /// The letter of the level in a text.
    pub fn letter(self) -> u8 {
        match self {
            Level::Low => b'L',
            Level::Release => b'D',
            Level::High => b'H',
            Level::Silent => b'T',
        }
    }

    /// The number of the level in a store.
    pub fn number(self) -> u16 {
        match self {
            Level::Low => 0,
            Level::Release => 1,
            Level::High => 2,
            Level::Silent => 3,
        }
    }
}

#[derive(Debug, Clone, PartialEq, Eq)]
pub struct Action {
    pub level: Level,
    pub name: Vec<u8>,
}

/// A step. Steps are ordered by source, then action, then target.
#[derive(Debug, Clone, Copy, PartialEq, Eq, PartialOrd, Ord)]
pub struct Step {
    pub source: u16,
    pub action: u16,
    pub target: u16,
}

impl Step {
    pub fn new(source: u16, action: u16, target: u16) -> Step {
        Step {
            source,
            action,
            target,
        }
    }
}

/// A model as plain data. Read builds it only inside all limits and with a high
/// action.
#[derive(Debug, Clone, PartialEq, Eq)]
pub struct Model {
    pub states: u16,
    /// The start in line 1.
    pub start: u16,
    /// The starts in `I` lines, rising and above that one.
    pub extra_starts: Vec<u16>,
    pub actions: Vec<Action>,
    pub steps: Vec<Step>,
}

impl Model {
    /// The 4,100 numbers of a model that is inside the limits.
    pub fn to_store(&self) -> Vec<u16> {
        let mut store = vec![0; STORE];
        store[0] = self.states;
        store[1] = self.actions.len() as u16;
        store[2] = self.steps.len() as u16;
        store[3] = self.start;
        for (i, action) in self.actions.iter().enumerate() {
            let place = action_place(i);
            store[place] = action.level.number();
            store[place + 1] = action.name.len() as u16;
            for (k, &byte) in action.name.iter().enumerate() {
                store[place + 2 + k] = u16::from(byte);
            }
        }
        for (j, step) in self.steps.iter().enumerate() {
            let place = step_place(j);
            store[place] = step.source;
            store[place + 1] = step.action;
            store[place + 2] = step.target;
        }
        store[EXTRA_STARTS] = self.extra_starts.len() as u16;
        for (k, &start) in self.extra_starts.iter().enumerate() {
            store[extra_start_place(k)] = start;
        }
        store
    }

    /// The text that reads to this model, if any does.
    pub fn to_text(&self) -> Vec<u8> {
        spell(&self.to_store())
    }

    /// All starts, rising.
    pub fn starts(&self) -> Vec<u16> {
        [&[self.start], &self.extra_starts[..]].concat()
    }

    /// The same model with these starts, of which there is one at least. The
    /// lowest stands in line 1.
    pub fn with_starts(&self, starts: &BTreeSet<u16>) -> Model {
        let mut rising = starts.iter().copied();
        Model {
            start: rising.next().expect("a start"),
            extra_starts: rising.collect(),
            ..self.clone()
        }
    }

    /// Whether some action is high. A model without one is refused (request
    /// (vi) of document 02).
    pub fn has_high(&self) -> bool {
        let is_high = |action: &Action| action.level == Level::High;
        self.actions.iter().any(is_high)
    }

    /// Whether some action is silent, with steps or without.
    pub fn has_silent(&self) -> bool {
        let is_silent = |action: &Action| action.level == Level::Silent;
        self.actions.iter().any(is_silent)
    }

    pub fn level(&self, action: u16) -> Level {
        self.actions[usize::from(action)].level
    }

    pub fn name(&self, action: u16) -> String {
        let name = &self.actions[usize::from(action)].name;
        String::from_utf8_lossy(name).into_owned()
    }

    /// Action and target of each low step, listed by source.
    pub fn low_steps(&self) -> Vec<Vec<(u16, u16)>> {
        let mut lists = vec![Vec::new(); usize::from(self.states)];
        for step in &self.steps {
            if self.level(step.action) == Level::Low {
                lists[usize::from(step.source)].push((step.action, step.target));
            }
        }
        lists
    }

    /// Action and target of each move, listed by state: what is played on both
    /// sides. A silent move has an action that comes after all others.
    pub fn moves(&self) -> Vec<Vec<(u16, u16)>> {
        Targets::new(self).lists()
    }
}

/// The model in a good store, otherwise refusal 22.
///
/// The store is written out as it stands and that text is read back. If some
/// text reads to the store, this text does. A store without a high action is
/// written as a text without one, and no text reads to it.
pub fn good(store: &[u16]) -> Result<Model, Refusal> {
    let not_good = Refusal::new(22, 0);
    let numbers = store.get(..STORE).ok_or(not_good)?;
    let text = spell(numbers);
    let mut back = vec![0; STORE];
    read(&text, &mut back).map_err(|_| not_good)?;
    if back != numbers {
        return Err(not_good);
    }
    parse(&text).map_err(|_| not_good)
}
