//! Ranking in plain Rust for models with ticks, written for speed and not proved; the moves are sets of states. A round
//! splits classes by moves to what is new since the round before: by those to a part that was split off and, of states
//! with such a move, by those to the greatest part. Of states without one, either all members of a class have a move to
//! the greatest part or none has. Rows of the table are written where classes split.
use second::store::TABLE;

use crate::plain::ROW;
use crate::plain_mirror::mirror;
use crate::plain_moves::{add, Moves};
use crate::sets::{greatest, has_more, least, members, only, Set};

pub type Rows = [[u8; ROW]; ROW];

struct Classes {
    count: usize,
    class: [u8; ROW],
    members: [Set; ROW],
    /// The states whose class has another member.
    together: Set,
    /// The states of classes that this round has split.
    split: Set,
    before: Before,
}

/// The classes before a round.
pub struct Before {
    class: [u8; ROW],
    members: [Set; ROW],
}

impl Before {
    /// The states alike to a state.
    #[inline(always)]
    pub fn alike(&self, p: usize) -> Set {
        self.members[usize::from(self.class[p]) % ROW]
    }
}

impl Classes {
    /// All states in one class.
    fn one(states: Set) -> Classes {
        let (class, mut members) = ([0; ROW], [0; ROW]);
        members[0] = states;
        Classes {
            count: 1,
            class,
            members,
            together: if has_more(states) { states } else { 0 },
            split: 0,
            before: Before { class, members },
        }
    }

    fn of(&self, p: usize) -> usize {
        usize::from(self.class[p]) % ROW
    }

    /// Splits each class that has members inside of a set and outside of it.
    fn split_by(&mut self, set: Set) {
        let mut left = set & self.together;
        while left != 0 {
            let class = self.of(least(left));
            let whole = self.members[class];
            let part = whole & left;
            left &= !whole;
            if part != whole {
                self.split |= whole;
                self.divide(class, part, whole & !part);
            }
        }
    }

    /// Makes the one part, or the other if it is less, a class of its own.
    fn divide(&mut self, class: usize, part: Set, rest: Set) {
        let (moved, kept) = if part.count_ones() > rest.count_ones() {
            (rest, part)
        } else {
            (part, rest)
        };
        members(moved).for_each(|p| self.class[p] = self.count as u8);
        self.members[self.count % ROW] = moved;
        self.members[class] = kept;
        self.count += 1;
        for set in [moved, kept] {
            if !has_more(set) {
                self.together &= !set;
            }
        }
    }

    /// The parts of what was a class, a greatest one first.
    fn parts(&self, whole: Set, parts: &mut Vec<Set>) {
        parts.clear();
        let mut left = whole;
        while left != 0 {
            let part = self.members[self.of(least(left))];
            left &= !part;
            parts.push(part);
        }
        let sizes = parts.iter().map(|part| part.count_ones());
        let (most, _) = sizes
            .enumerate()
            .max_by_key(|&(_, size)| size)
            .expect("a part");
        parts.swap(0, most);
    }

    /// Makes these classes those before the next round.
    fn end_round(&mut self) {
        let mut left = self.split;
        while left != 0 {
            let first = least(left);
            let class = self.of(first);
            let part = self.members[class];
            left &= !part;
            self.before.members[class] = part;
            if self.before.class[first] != self.class[first] {
                members(part).for_each(|p| self.before.class[p] = class as u8);
            }
        }
        self.split = 0;
    }
}

/// Those of a set that have a move with a label to a goal. A target in the goal tells of all that lead to it.
fn leading(moves: &Moves, label: usize, set: Set, goal: Set) -> Set {
    let (mut left, mut found) = (set, 0);
    while left != 0 {
        let p = least(left);
        let met = moves.targets.of(p)[label] & goal;
        let told = match met {
            0 => only(p),
            _ => moves.sources.of(greatest(met))[label],
        };
        left &= !told;
        found |= if met == 0 { 0 } else { told };
    }
    found & set
}

/// Refines the classes of a model round by round, and yields the last round that separated two states. Each class that
/// a round has split is shown with its parts, a greatest one first, and with the classes before the round.
pub fn refine(moves: &Moves, mut show: impl FnMut(u8, Set, &[Set], &Before)) -> u8 {
    let all = Set::MAX >> (ROW - moves.states);
    let mut classes = Classes::one(all);
    // Each new class, and what the greatest part of the same class is, if there is one.
    let mut new = vec![(all, 0)];
    let mut from = vec![0; moves.labels.actions.len()];
    let mut parts = Vec::with_capacity(ROW);
    for round in 1.. {
        for &(part, rest) in &new {
            if classes.together == 0 {
                break;
            }
            from.fill(0);
            members(part).for_each(|p| add(&mut from, moves.sources.of(p)));
            for (label, &sources) in from.iter().enumerate() {
                let sources = sources & classes.together;
                classes.split_by(sources);
                if rest != 0 {
                    classes.split_by(leading(moves, label, sources & classes.together, rest));
                }
            }
        }
        if classes.split == 0 {
            return round - 1;
        }
        new.clear();
        let mut left = classes.split;
        while left != 0 {
            let whole = classes.before.alike(least(left));
            left &= !whole;
            classes.parts(whole, &mut parts);
            show(round, whole, &parts, &classes.before);
            new.extend(parts[1..].iter().map(|&part| (part, parts[0])));
        }
        classes.end_round();
    }
    unreachable!("no rank exceeds states minus 1")
}

/// A row with a value in the places of a set, else 0.
fn row(set: Set, value: u8) -> [u8; ROW] {
    const EACH: u64 = 0x0101_0101_0101_0101;
    const DIAGONAL: u64 = 0x8040_2010_0804_0201;
    let mut row = [0; ROW];
    for (eight, bits) in row.as_chunks_mut().0.iter_mut().zip(set.to_le_bytes()) {
        let apart = (u64::from(bits) * EACH) & DIAGONAL;
        let ones = ((apart + 0x7F * EACH) >> 7) & EACH;
        *eight = (ones * u64::from(value)).to_le_bytes();
    }
    row
}

/// Writes the round into the rows of all parts but the first.
pub fn write(rows: &mut Rows, round: u8, whole: Set, parts: &[Set]) {
    for &part in &parts[1..] {
        let row = row(whole & !part, round);
        for p in members(part) {
            rows[p]
                .iter_mut()
                .zip(row)
                .for_each(|(entry, value)| *entry |= value);
        }
    }
}

pub fn rows_of(table: &mut [u8]) -> &mut Rows {
    let (rows, _) = table[..TABLE].as_chunks_mut::<ROW>();
    let rows: &mut Rows = rows.try_into().expect("a row for each state");
    rows.fill([0; ROW]);
    rows
}

/// Fills the table of a good store, and yields the last round that separated two states.
pub fn rank(store: &[u16], table: &mut [u8]) -> u8 {
    let moves = Moves::of(store);
    let rows = rows_of(table);
    let rounds = refine(&moves, |round, whole, parts, _| {
        write(rows, round, whole, parts)
    });
    mirror(rows, moves.states);
    rounds
}
