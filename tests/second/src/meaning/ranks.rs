//! Ranks, from the definition of k-alike and by what each must be given the
//! others, and the verdict that follows from them.

use std::collections::BTreeMap;

use super::moves::Moves;
use super::sequences::{level, reachable};
use super::{demand, Check};
use crate::store::{Level, Model, MOST_STATES};
use crate::Verdict;

/// Which pairs of states are k-alike, found pair by pair for each k in turn, as
/// far as it is asked for.
pub struct Alike {
    moves: Moves,
    /// For each k so far, and for each pair.
    known: Vec<Vec<Vec<bool>>>,
    /// No pair is separated any more: all stays as for the last k.
    complete: bool,
}

impl Alike {
    pub fn new(model: &Model) -> Alike {
        let states = usize::from(model.states);
        Alike {
            moves: Moves::new(model),
            known: vec![vec![vec![true; states]; states]],
            complete: false,
        }
    }

    /// Whether two states are k-alike.
    pub fn alike(&mut self, p: u16, q: u16, k: u16) -> bool {
        let k = usize::from(k);
        while self.known.len() <= k && !self.complete {
            self.go_on();
        }
        let known = &self.known[k.min(self.known.len() - 1)];
        known[usize::from(p)][usize::from(q)]
    }

    /// Finds the pairs for the next k, if they are not those for the last.
    fn go_on(&mut self) {
        let last = &self.known[self.known.len() - 1];
        let states = self.moves.states() as u16;
        let mut next = Vec::new();
        for p in 0..states {
            let both_ways = |q: u16| self.one_way(p, q, last) && self.one_way(q, p, last);
            next.push((0..states).map(both_ways).collect());
        }
        if next == *last {
            self.complete = true;
        } else {
            self.known.push(next);
        }
    }

    fn one_way(&self, p: u16, q: u16, alike: &[Vec<bool>]) -> bool {
        self.moves.by_action(p).all(|(action, targets)| {
            let answers = self.moves.targets(q, action);
            targets.iter().all(|&target| {
                let row = &alike[usize::from(target)];
                answers.iter().any(|&answer| row[usize::from(answer)])
            })
        })
    }

    /// The rank: the least k for which the states are not k-alike, 0 if there
    /// is none up to the number of states, which no rank reaches.
    pub fn rank(&mut self, p: u16, q: u16) -> u16 {
        let states = self.moves.states() as u16;
        (1..=states).find(|&k| !self.alike(p, q, k)).unwrap_or(0)
    }

    /// The greatest rank of any two states.
    pub fn greatest(&mut self) -> u16 {
        let states = self.moves.states() as u16;
        let mut greatest = 0;
        for p in 0..states {
            for q in 0..states {
                greatest = greatest.max(self.rank(p, q));
            }
        }
        greatest
    }
}

/// The verdict on any model, from the definitions of rank and of Judge.
pub fn verdict_of(model: &Model) -> Verdict {
    let mut alike = Alike::new(model);
    let reachable = reachable(model);
    let mut ranked = Vec::new();
    for (number, step) in model.steps.iter().enumerate() {
        if level(model, step.action) == Some(Level::High) && reachable.contains(&step.source) {
            let rank = alike.rank(step.source, step.target);
            if rank > 0 {
                ranked.push((rank, number as u16));
            }
        }
    }
    match ranked.iter().min() {
        Some(&(depth, step)) => Verdict::Refused { step, depth },
        None => Verdict::Passed {
            rank: alike.greatest(),
        },
    }
}

/// What a play lasts that has no end: longer than any that has one.
const ENDLESS: u32 = 1_000;

/// Checks all 16,384 entries of a table of ranks, by what each entry must be
/// given the others, and that the greatest is as told.
///
/// Call a rank of 0 endless. A move of one state lasts one longer than the
/// longest-lasting answer of the other, and just one if there is no answer.
/// Then the rank of two states is the least of what the moves of both last,
/// endless if there is no move that ends. Only the ranks have this property:
/// the pairs of rank 0 form a low-view bisimulation, and by induction on k
/// those of rank k are not k-alike but (k-1)-alike.
pub fn ranks_hold(model: &Model, table: &[u8], greatest: u16) -> Check {
    let states = usize::from(model.states);
    demand(table.len() >= MOST_STATES * MOST_STATES, || {
        "the table is too short".to_string()
    })?;
    let lasts = |p: u16, q: u16| match table[MOST_STATES * usize::from(p) + usize::from(q)] {
        0 => ENDLESS,
        rank => u32::from(rank),
    };
    let least = least_lasting(&Moves::new(model), lasts);
    let mut most = 0;
    for p in 0..MOST_STATES {
        for q in 0..MOST_STATES {
            let entry = table[MOST_STATES * p + q];
            most = most.max(u16::from(entry));
            let holds = if p < states && q < states {
                lasts(p as u16, q as u16) == least[p][q].min(least[q][p])
            } else {
                entry == 0
            };
            demand(holds, || format!("the rank of {p} and {q} is not {entry}"))?;
        }
    }
    demand(most == greatest, || {
        format!("the greatest rank is {most}, told {greatest}")
    })
}

/// For each two states what the moves of the first last at least, answered by the
/// second, given what each pair lasts.
fn least_lasting(moves: &Moves, lasts: impl Fn(u16, u16) -> u32) -> Vec<Vec<u32>> {
    let states = moves.states() as u16;
    let mut least = vec![vec![ENDLESS; moves.states()]; moves.states()];
    for q in 0..states {
        // By action and target of a move: found once, for each state that has it.
        let mut found: BTreeMap<u16, Vec<Option<u32>>> = BTreeMap::new();
        for p in 0..states {
            for (action, targets) in moves.by_action(p) {
                let answers = moves.targets(q, action);
                let found = found
                    .entry(action)
                    .or_insert_with(|| vec![None; moves.states()]);
                for &target in targets {
                    let move_lasts = found[usize::from(target)].get_or_insert_with(|| {
                        let longest = answers.iter().map(|&answer| lasts(target, answer)).max();
                        (longest.unwrap_or(0) + 1).min(ENDLESS)
                    });
                    let so_far = &mut least[usize::from(p)][usize::from(q)];
                    *so_far = (*so_far).min(*move_lasts);
                }
            }
        }
    }
    least
}
