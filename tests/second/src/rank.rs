//! Rank.

use std::collections::HashMap;

use crate::moves::{single, states_of, States, Targets};
use crate::store::{good, Model, MOST_STATES, STORE, TABLE};
use crate::{lent, Refusal};

/// Fills the table of ranks, and answers the greatest rank.
pub fn rank(store: &[u16], table: &mut [u8]) -> Result<u16, Refusal> {
    lent(&[(store.len(), STORE), (table.len(), TABLE)])?;
    let model = good(store)?;
    Ok(fill_table(&model, table))
}

pub(crate) fn fill_table(model: &Model, table: &mut [u8]) -> u16 {
    let (ranks, greatest) = ranks_of(model);
    table[..TABLE].fill(0);
    for (p, row) in ranks.iter().enumerate() {
        for (q, &rank) in row.iter().enumerate() {
            table[MOST_STATES * p + q] = rank;
        }
    }
    greatest
}

/// The rank of each pair of states, and the last round that separated a pair.
///
/// Round k works out which states are k-alike from those that are (k-1)-alike,
/// over the moves of both. A round that separates no further pair leaves a
/// low-view bisimulation.
pub fn ranks_of(model: &Model) -> (Vec<Vec<u8>>, u16) {
    let moves = Targets::new(model);
    let states = moves.states();
    // States of one class are alike. Any two are 0-alike.
    let mut classes = vec![0; states];
    let mut ranks = vec![vec![0; states]; states];
    let mut round = 0;
    loop {
        let next = next_classes(&moves, &classes);
        let mut separated = false;
        for p in 0..states {
            for q in 0..states {
                if classes[p] == classes[q] && next[p] != next[q] {
                    ranks[p][q] = round + 1;
                    separated = true;
                }
            }
        }
        if !separated {
            return (ranks, u16::from(round));
        }
        round += 1;
        classes = next;
    }
}

/// The classes of (k+1)-alike states, given those of k-alike ones.
///
/// Each move of either of two states is answered by a move of the other with the
/// same action and a k-alike target just if their moves lead to the same classes
/// with each action. So each state gets the list of those, and states with equal
/// lists get one number.
fn next_classes(moves: &Targets, classes: &[u16]) -> Vec<u16> {
    let mut numbers: HashMap<Vec<(u16, States)>, u16> = HashMap::new();
    let led_to = |targets: States| {
        let classes = states_of(targets).map(|target| classes[usize::from(target)]);
        classes.fold(0, |led_to, class| led_to | single(class))
    };
    let mut next = Vec::new();
    for state in 0..moves.states() {
        let moves = moves.of(state).iter();
        let list = moves.map(|&(action, targets)| (action, led_to(targets)));
        let unused = numbers.len() as u16;
        next.push(*numbers.entry(list.collect()).or_insert(unused));
    }
    next
}
