//! Entries that are there, damaged.

use std::collections::BTreeSet;

use super::super::{pair_of, rests_on};
use super::BadBooks;
use crate::book::Entry;
use crate::gen::parts::of_level;
use crate::store::{Level, Step};

impl BadBooks<'_> {
    /// A side that is none, or the other one.
    pub(super) fn side(&mut self, number: usize) {
        self.no_side(number);
        let entry = self.entry(number);
        let side = 3 - entry.side;
        self.unless_opening("the other side", number, Entry { side, ..entry });
    }

    /// An action that is not low, has no such step, or does not exist; and a
    /// step of the opener that is not low.
    pub(super) fn action(&mut self, number: usize) {
        let entry = self.entry(number);
        let actions = &self.model.actions;
        let mut wrong = vec![
            ("no such action", actions.len() as u8),
            ("no such action", 64),
            ("no such action", 255),
        ];
        for (what, level) in [
            ("a low action without such a step", Level::Low),
            ("a release", Level::Release),
            ("a high action", Level::High),
            ("the number of a silent action", Level::Silent),
        ] {
            let actions = of_level(actions, level);
            let ends = actions.first().into_iter().chain(actions.last());
            wrong.extend(ends.map(|&action| (what, action as u8)));
        }
        for (what, action) in wrong {
            self.unless_opening(what, number, Entry { action, ..entry });
        }
        let (p, q) = pair_of(number);
        let opener = if entry.side == 1 { p } else { q };
        let not_low = |step: &&Step| {
            usize::from(step.source) == opener && self.model.level(step.action) != Level::Low
        };
        if let Some(step) = self.model.steps.iter().find(not_low) {
            let entry = Entry::new(entry.side, (step.action, step.target), entry.depth);
            self.own("a step that is not low", number, entry);
        }
    }

    /// A target that is no such step's, or no state.
    pub(super) fn target(&mut self, number: usize) {
        let entry = self.entry(number);
        let states = self.model.states as u8;
        for target in [0, states - 1, states, 127, 128, 255] {
            self.unless_opening("no such target", number, Entry { target, ..entry });
        }
        for target in [entry.target.wrapping_sub(1), entry.target + 1] {
            self.unless_opening("target off by one", number, Entry { target, ..entry });
        }
    }

    /// A depth lowered to that of an entry that it rests on, or further.
    pub(super) fn lowered(&mut self, number: usize) {
        let entry = self.entry(number);
        let next = rests_on(&self.moves, self.sound, number);
        let greatest = next.iter().map(|&next| self.entry(next).depth).max();
        if let Some(greatest) = greatest {
            for (what, depth) in [
                ("equal depth", greatest),
                ("lower depth", greatest.saturating_sub(1)),
                ("depth 0", 0),
            ] {
                self.own(what, number, Entry { depth, ..entry });
            }
        }
    }

    /// The first of many bad entries is told.
    pub(super) fn many(&mut self, present: &[usize]) {
        if let [first, .., last] = *present {
            for bad in [present, &[first, last], &[last]] {
                let side = 255;
                let entry = |&number: &usize| {
                    (
                        number,
                        Entry {
                            side,
                            ..self.entry(number)
                        },
                    )
                };
                let entries: Vec<(usize, Entry)> = bad.iter().map(entry).collect();
                self.add("many bad entries", &entries, bad[0]);
            }
        }
    }

    /// An entry that others rest on taken away.
    pub(super) fn taken_away(&mut self, number: usize, resting: &[usize]) {
        let side = 0;
        let absent = Entry {
            side,
            ..self.entry(number)
        };
        self.add("taken away", &[(number, absent)], resting[0]);
        let zero = Entry::new(0, (0, 0), 0);
        self.add("taken away whole", &[(number, zero)], resting[0]);
    }

    /// A depth raised to those of entries that rest on it, or further.
    pub(super) fn raised(&mut self, number: usize, resting: &[usize]) {
        let entry = self.entry(number);
        let depths: BTreeSet<u8> = resting.iter().map(|&n| self.entry(n).depth).collect();
        let least = *depths.first().expect("some entry rests on it");
        for depth in depths.into_iter().chain([255]) {
            let mut bad = resting.iter().filter(|&&n| self.entry(n).depth <= depth);
            let first = *bad.next().expect("one of the least depth");
            let what = if depth == least {
                "raised to equal"
            } else {
                "raised"
            };
            self.add(what, &[(number, Entry { depth, ..entry })], first);
        }
    }
}
