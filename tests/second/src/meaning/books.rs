//! Books of plays: what our own must hold, and how any book is played.

use super::moves::Moves;
use super::ranks::Alike;
use super::{demand, Check};
use crate::store::{Model, MOST_STATES};

/// The bytes of a pair's entry.
fn entry_of(book: &[u8], p: u16, q: u16) -> [u8; 4] {
    let place = 4 * (MOST_STATES * usize::from(p) + usize::from(q));
    let bytes = &book[place..place + 4];
    [bytes[0], bytes[1], bytes[2], bytes[3]]
}

/// The pairs to which the answers to an opening lead, where it is of the first
/// state of a pair (side 1) or of the second (side 2).
fn led_to(moves: &Moves, p: u16, q: u16, side: u8, opening: (u16, u16)) -> Vec<(u16, u16)> {
    let (action, target) = opening;
    let other = if side == 1 { q } else { p };
    let mut pairs = Vec::new();
    for &answer in moves.targets(other, action) {
        pairs.push(if side == 1 {
            (target, answer)
        } else {
            (answer, target)
        });
    }
    pairs
}

/// Checks that a book is our own one, byte for byte.
///
/// Two states that are told apart have an entry, whose depth is their rank k.
/// An answer leads to a pair of a rank above 0 and below k just if that pair is
/// not (k-1)-alike. So of the openings all of whose answers lead to pairs that
/// are not (k-1)-alike, the first is in the entry: those of the first side come
/// first, and moves rise by action and then by target, with silent ones last.
pub fn book_holds(model: &Model, book: &[u8]) -> Check {
    let (mut alike, moves) = (Alike::new(model), Moves::new(model));
    for p in 0..MOST_STATES as u16 {
        for q in 0..MOST_STATES as u16 {
            let mut expected = [0; 4];
            if p < model.states && q < model.states {
                let rank = alike.rank(p, q);
                if rank > 0 {
                    expected = first_opening(&moves, &mut alike, p, q, rank)?;
                }
            }
            let entry = entry_of(book, p, q);
            demand(entry == expected, || {
                format!("the entry of {p} and {q} is {entry:?} and not {expected:?}")
            })?;
        }
    }
    Ok(())
}

fn first_opening(
    moves: &Moves,
    alike: &mut Alike,
    p: u16,
    q: u16,
    rank: u16,
) -> Result<[u8; 4], String> {
    for side in [1, 2] {
        let opener = if side == 1 { p } else { q };
        for (action, target) in moves.of(opener) {
            let mut pairs = led_to(moves, p, q, side, (action, target)).into_iter();
            if pairs.all(|(p, q)| !alike.alike(p, q, rank - 1)) {
                return Ok([side, action as u8, target as u8, rank as u8]);
            }
        }
    }
    Err(format!(
        "no opening tells {p} and {q} apart in {rank} rounds"
    ))
}

/// The number of the first entry that keeps a book from being sound, by asking
/// each entry for a fault: a side above 2, an opening that no move of that side
/// is, or an answer to a pair whose entry is absent or as deep.
pub fn first_bad_entry(model: &Model, book: &[u8]) -> Option<usize> {
    let moves = Moves::new(model);
    let faulty = |number: &usize| {
        let (p, q) = (number / MOST_STATES, number % MOST_STATES);
        let (p, q) = (p as u16, q as u16);
        let [side, action, target, depth] = entry_of(book, p, q);
        let opener = if side == 1 { p } else { q };
        let opening = (action.into(), target.into());
        let not_lower = |(p, q): (u16, u16)| {
            let [side, _, _, next] = entry_of(book, p, q);
            side == 0 || next >= depth
        };
        let unanswered = || {
            led_to(&moves, p, q, side, opening)
                .into_iter()
                .any(not_lower)
        };
        side > 0 && (side > 2 || !moves.has(opener, opening) || unanswered())
    };
    (0..MOST_STATES * MOST_STATES).find(faulty)
}

/// The plays of a book: from a pair the side of its entry opens, the other
/// answers as it likes, and so on from the pair that they come to. A play ends
/// where there is no answer.
pub struct Plays {
    /// For each pair whose plays all end, by whatever openings of the model the
    /// entries give: how many openings the longest has.
    lengths: Vec<Option<u16>>,
}

impl Plays {
    /// Depths are not looked at. Found one length after the other.
    pub fn new(model: &Model, book: &[u8]) -> Plays {
        let moves = Moves::new(model);
        let mut openings = Vec::new();
        for p in 0..MOST_STATES as u16 {
            for q in 0..MOST_STATES as u16 {
                let [side, action, target, _] = entry_of(book, p, q);
                let opener = if side == 1 { p } else { q };
                let opening = (action.into(), target.into());
                if (side == 1 || side == 2) && moves.has(opener, opening) {
                    openings.push((p, q, led_to(&moves, p, q, side, opening)));
                }
            }
        }
        let mut plays = Plays {
            lengths: vec![None; MOST_STATES * MOST_STATES],
        };
        for length in 1.. {
            let ended: Vec<(u16, u16)> = openings
                .iter()
                .filter(|(p, q, _)| plays.longest(*p, *q).is_none())
                .filter(|(_, _, next)| next.iter().all(|&(p, q)| plays.longest(p, q).is_some()))
                .map(|&(p, q, _)| (p, q))
                .collect();
            if ended.is_empty() {
                break;
            }
            for (p, q) in ended {
                plays.lengths[MOST_STATES * usize::from(p) + usize::from(q)] = Some(length);
            }
        }
        plays
    }

    /// How many openings the longest play from a pair has; none if the book has
    /// no opening there, or some play does not end or comes to such a pair.
    pub fn longest(&self, p: u16, q: u16) -> Option<u16> {
        self.lengths[MOST_STATES * usize::from(p) + usize::from(q)]
    }
}

/// Checks what an accepted book promises: from each pair that it has an entry
/// for, all plays end, with at most one opening more than the depth says.
pub fn plays_hold(model: &Model, book: &[u8]) -> Check {
    let plays = Plays::new(model, book);
    for p in 0..MOST_STATES as u16 {
        for q in 0..MOST_STATES as u16 {
            let [side, _, _, depth] = entry_of(book, p, q);
            let longest = plays.longest(p, q);
            let holds = longest.is_some_and(|longest| longest <= u16::from(depth) + 1);
            demand(side == 0 || holds, || {
                format!("the longest play from {p} and {q} has {longest:?} openings, not {depth}")
            })?;
        }
    }
    Ok(())
}
