//! Books in plain Rust for models with ticks, written for speed and not proved. Openings and answers are sets of
//! states: an entry is found in the round that tells its pair apart, while the classes before that round still stand. A
//! check takes the answers to an opening together: for each target it has the greatest depth that they lead to.
use second::store::{BOOK, STORE, TABLE};

use crate::plain::ROW;
use crate::plain_mirror::{mirror, transposed};
use crate::plain_moves::Moves;
use crate::plain_ticks::{refine, rows_of, write, Before};
use crate::sets::{has, has_more, least, members, Set};

const ENTRY: usize = 4;

/// Label and target of the first of some moves that no move of another state answers with a state alike.
#[inline(always)]
fn opening(moves: &[Set], others: &[Set], before: &Before) -> Option<(usize, usize)> {
    for (label, (&targets, &answers)) in moves.iter().zip(others).enumerate() {
        let mut left = targets & !answers;
        while left != 0 {
            let target = least(left);
            let alike = before.alike(target);
            if alike & answers == 0 {
                return Some((label, target));
            }
            left &= !alike;
        }
    }
    None
}

/// Fills table and book of a good store.
pub fn book(store: &[u16; STORE], table: &mut [u8; TABLE], book: &mut [u8; BOOK]) {
    let moves = Moves::of(store);
    let rows = rows_of(table);
    let (entries, _) = book.as_chunks_mut::<ENTRY>();
    entries.fill([0; ENTRY]);
    refine(&moves, |round, whole, parts, before| {
        write(rows, round, whole, parts);
        let mut entry = |pair: usize, first: Option<_>, second: Option<_>| {
            let side = if first.is_some() { 1 } else { 2 };
            let (label, target) = first.or(second).expect("the two are told apart");
            entries[pair] = [side, moves.labels.actions[label], target as u8, round];
        };
        let mut others = whole;
        for &part in parts {
            others &= !part;
            for p in members(part) {
                let moves_of_p = moves.targets.of(p);
                for q in members(others) {
                    let moves_of_q = moves.targets.of(q);
                    let of_p = opening(moves_of_p, moves_of_q, before);
                    let of_q = opening(moves_of_q, moves_of_p, before);
                    entry(ROW * p + q, of_p, of_q);
                    entry(ROW * q + p, of_q, of_p);
                }
            }
        }
    });
    mirror(rows, moves.states);
}

/// The depth of an absent entry: none is lower, and an entry of this depth is lower than none.
const ABSENT: u8 = 255;

const UNKNOWN: u16 = u16::MAX;

/// The greatest depths of the entries to which answers lead, by the opening's target.
struct Answers {
    /// For one answer: the depths of the pairs with each number as the second, then of those with it as the first.
    /// Behind them stands what is the greatest for more answers, or none.
    greatest: Vec<[u8; ROW]>,
    /// Where it stands for each label, side and answering state.
    places: Vec<[u16; 2 * ROW]>,
}

impl Answers {
    fn of(entries: &[[u8; ENTRY]], labels: usize) -> Answers {
        let mut depths = [[ABSENT; ROW]; ROW];
        for (depth, entry) in depths.as_flattened_mut().iter_mut().zip(entries) {
            let entry = u32::from_le_bytes(*entry);
            let absent = if entry & 0xFF == 0 { ABSENT } else { 0 };
            *depth = (entry >> 24) as u8 | absent;
        }
        let mut greatest = Vec::with_capacity(4 * ROW);
        greatest.extend(transposed(&depths));
        greatest.extend(depths);
        Answers {
            greatest,
            places: vec![[UNKNOWN; 2 * ROW]; labels],
        }
    }
}

/// Where the greatest depths of some answers stand from now on. Those for one answer to this side begin with the first.
#[inline(never)]
fn join(greatest: &mut Vec<[u8; ROW]>, first: usize, answers: Set) -> u16 {
    if answers != 0 && !has_more(answers) {
        return (first + least(answers)) as u16;
    }
    let mut depths = [0; ROW];
    for answer in members(answers) {
        let both = depths.iter_mut().zip(&greatest[first + answer]);
        both.for_each(|(depth, &other)| *depth = other.max(*depth));
    }
    greatest.push(depths);
    greatest.len() as u16 - 1
}

/// The number of a book's first bad entry, for a good store.
pub fn check(store: &[u16; STORE], book: &[u8; BOOK]) -> Option<usize> {
    let moves = Moves::targets_alone(store);
    let labels = moves.labels.actions.len();
    let (entries, _) = book.as_chunks::<ENTRY>();
    let mut answers = Answers::of(entries, labels);
    let is_bad = |(number, &[side, action, target, depth]): (usize, &[u8; ENTRY])| {
        if side == 0 {
            return false;
        }
        let (p, q) = (number / ROW, number % ROW);
        let (opener, other, first) = if side == 1 { (p, q, 0) } else { (q, p, ROW) };
        let label = usize::from(moves.labels.in_book[usize::from(action)]);
        let target = usize::from(target);
        if side > 2 || label >= labels || target >= ROW {
            return true;
        }
        if !has(moves.targets.of(opener)[label], target) {
            return true;
        }
        let place = &mut answers.places[label][first + other];
        if *place == UNKNOWN {
            *place = join(&mut answers.greatest, first, moves.targets.of(other)[label]);
        }
        let greatest = answers.greatest[usize::from(*place)][target];
        greatest >= depth && moves.targets.of(other)[label] != 0
    };
    entries.iter().enumerate().position(is_bad)
}
