//! Books in plain Rust, written for speed and not proved: an index finds the moves of a state with an action, and the
//! first opening of each side is sought once for both orders of a pair. Lists are arrays, and places are taken modulo
//! their lengths, which changes no place and spares a test of the bound.
use second::store::{BOOK, STORE, TABLE};

use crate::plain::{rank_moves, Moves, ROW};

const ACTIONS: usize = 64;
const ENTRY: usize = 4;
const PAIRS: usize = ROW * ROW;

/// Where the moves of each state with each action begin and end.
struct Index([[u16; 2]; ROW * ACTIONS]);

impl Index {
    fn of(moves: &Moves) -> Index {
        let mut index = Index([[0; 2]; ROW * ACTIONS]);
        for p in 0..moves.states {
            for i in moves.first[p]..moves.first[p + 1] {
                let [begin, end] = &mut index.0[ACTIONS * p + usize::from(moves.action[i])];
                if *end == 0 {
                    *begin = i as u16;
                }
                *end = i as u16 + 1;
            }
        }
        index
    }

    /// The targets of q's moves with an action.
    fn targets<'a>(&self, moves: &'a Moves, q: usize, action: u8) -> &'a [u8] {
        let place = ACTIONS * q + usize::from(action);
        let [begin, end] = self.0[place % (ROW * ACTIONS)];
        &moves.target[usize::from(begin)..usize::from(end)]
    }
}

/// The first move of p all of whose answers by q lead to a rank above 0 and below the depth.
fn opening(
    moves: &Moves,
    index: &Index,
    table: &[u8; TABLE],
    (p, q): (usize, usize),
    depth: u8,
) -> Option<usize> {
    (moves.first[p]..moves.first[p + 1]).find(|&i| {
        let row = ROW * usize::from(moves.target[i]);
        let mut answers = index.targets(moves, q, moves.action[i]).iter();
        // A rank of 0 wraps to 255.
        answers.all(|&u| table[(row + usize::from(u)) % PAIRS].wrapping_sub(1) < depth - 1)
    })
}

/// Fills table and book of a good store.
pub fn book(store: &[u16; STORE], table: &mut [u8; TABLE], book: &mut [u8; BOOK]) {
    let moves = Moves::of(store);
    rank_moves(&moves, table);
    let index = Index::of(&moves);
    let (entries, _) = book.as_chunks_mut::<ENTRY>();
    entries.fill([0; ENTRY]);
    for p in 0..moves.states {
        for q in p + 1..moves.states {
            let depth = table[ROW * p + q];
            if depth > 0 {
                let of_p = opening(&moves, &index, table, (p, q), depth);
                let of_q = opening(&moves, &index, table, (q, p), depth);
                let entry = |first: Option<usize>, second: Option<usize>| {
                    let side = if first.is_some() { 1 } else { 2 };
                    let i = first.or(second).expect("the two are told apart");
                    [side, moves.action[i], moves.target[i], depth]
                };
                entries[ROW * p + q] = entry(of_p, of_q);
                entries[ROW * q + p] = entry(of_q, of_p);
            }
        }
    }
}

/// The number of a book's first bad entry, for a good store.
pub fn check(store: &[u16; STORE], book: &[u8; BOOK]) -> Option<usize> {
    let moves = Moves::of(store);
    let index = Index::of(&moves);
    let (entries, _) = book.as_chunks::<ENTRY>();
    let targets = |p, action| index.targets(&moves, p, action).iter();
    let is_opening = |p, action, target| {
        usize::from(action) < ACTIONS && targets(p, action).any(|&t| t == target)
    };
    let is_lower = |place: usize, depth| {
        let [side, _, _, next] = entries[place % PAIRS];
        side != 0 && next < depth
    };
    // The two sides apart: neither needs to choose a place's row for each answer.
    let is_bad = |(number, &[side, action, t, depth]): (usize, &[u8; ENTRY])| {
        let (p, q) = (number / ROW, number % ROW);
        let by_first = |&u: &u8| is_lower(ROW * usize::from(t) + usize::from(u), depth);
        let by_second = |&u: &u8| is_lower(ROW * usize::from(u) + usize::from(t), depth);
        match side {
            0 => false,
            1 => !(is_opening(p, action, t) && targets(q, action).all(by_first)),
            2 => !(is_opening(q, action, t) && targets(p, action).all(by_second)),
            _ => true,
        }
    };
    entries.iter().enumerate().position(is_bad)
}
