//! Entries that ought to be absent.

use std::collections::BTreeSet;

use super::super::pair_of;
use super::BadBooks;
use crate::book::{moves_of, Entry, Side};
use crate::moves::SILENT;

impl BadBooks<'_> {
    /// A side that is none, at an entry that is there or absent.
    pub(super) fn no_side(&mut self, number: usize) {
        let entry = self.entry(number);
        for side in [3, 4, 128, 255] {
            self.own("no such side", number, Entry { side, ..entry });
        }
    }

    /// An opening that is not there.
    pub(super) fn no_opening(&mut self, number: usize) {
        for side in [1, 2] {
            for action in [0, self.model.actions.len() as u16, 255] {
                for target in [0, 255] {
                    let entry = Entry::new(side, (action, target), 255);
                    self.unless_opening("no such opening", number, entry);
                }
            }
        }
    }

    /// An entry for two states of rank 0. Some answer to any opening leads to
    /// two such states, which have no entry, or to these two themselves.
    pub(super) fn alike(&mut self, number: usize) {
        for side in Side::ALL {
            let (opener, _) = side.turned(pair_of(number));
            for opening in ends_of_both_kinds(&self.moves[opener]) {
                let entry = Entry::new(side.byte(), opening, 255);
                self.own("two states of rank 0", number, entry);
            }
        }
    }

    /// An opener that is no state, with an opening that the other side has, or
    /// with a target that is no state either. It has no move of zero steps.
    pub(super) fn no_state(&mut self, number: usize) {
        for side in Side::ALL {
            let (opener, other) = side.turned(pair_of(number));
            if opener < self.moves.len() {
                continue;
            }
            let itself = opener as u16;
            let mut openings = vec![(0, 0), (0, itself), (SILENT, 0), (SILENT, itself)];
            let others = moves_of(&self.moves, other);
            openings.extend(others.iter().take(2).chain(others.last()));
            for opening in openings {
                let entry = Entry::new(side.byte(), opening, 255);
                self.own("an opener that is no state", number, entry);
            }
        }
    }
}

/// The first and the last low move of a state, and of its silent ones.
fn ends_of_both_kinds(moves: &[(u16, u16)]) -> BTreeSet<(u16, u16)> {
    let low = moves.partition_point(|&(action, _)| action != SILENT);
    let (low, silent) = moves.split_at(low);
    let ends = [low.first(), low.last(), silent.first(), silent.last()];
    ends.into_iter().flatten().copied().collect()
}
