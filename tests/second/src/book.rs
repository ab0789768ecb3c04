//! Book: how the scanner tells two states apart (request (v) of document 02).

use crate::moves::{single, states_of, States, Targets};
use crate::rank::fill_table;
use crate::store::{good, Model, BOOK, MOST_STATES, STORE, TABLE};
use crate::{lent, read, Refusal};

/// Fills table and book.
pub fn book(store: &[u16], table: &mut [u8], book: &mut [u8]) -> Result<(), Refusal> {
    lent(&[
        (store.len(), STORE),
        (table.len(), TABLE),
        (book.len(), BOOK),
    ])?;
    let model = good(store)?;
    fill_table(&model, table);
    fill_book(&model, table, book);
    Ok(())
}

/// The bytes of an entry.
pub const ENTRY: usize = 4;

/// The number of the entry of a pair.
pub fn entry_number(p: usize, q: usize) -> usize {
    MOST_STATES * p + q
}

/// An entry of a book, with its bytes in their order.
#[derive(Debug, Clone, Copy, PartialEq, Eq, PartialOrd, Ord)]
pub struct Entry {
    pub side: u8,
    pub action: u8,
    pub target: u8,
    pub depth: u8,
}

impl Entry {
    /// An entry with this action and target, both of which fit a byte.
    pub fn new(side: u8, (action, target): (u16, u16), depth: u8) -> Entry {
        Entry {
            side,
            action: u8::try_from(action).expect("a byte"),
            target: u8::try_from(target).expect("a byte"),
            depth,
        }
    }

    /// The entry of this number in a book.
    pub fn of(book: &[u8], number: usize) -> Entry {
        let bytes = &book[ENTRY * number..][..ENTRY];
        let step = (u16::from(bytes[1]), u16::from(bytes[2]));
        Entry::new(bytes[0], step, bytes[3])
    }

    /// Action and target.
    pub fn opening(self) -> (u16, u16) {
        (u16::from(self.action), u16::from(self.target))
    }

    pub fn bytes(self) -> [u8; ENTRY] {
        [self.side, self.action, self.target, self.depth]
    }

    /// Makes this the entry of this number.
    pub fn put(self, book: &mut [u8], number: usize) {
        book[ENTRY * number..][..ENTRY].copy_from_slice(&self.bytes());
    }

    /// Whether it counts as absent, whatever its other bytes are.
    pub fn is_absent(self) -> bool {
        self.side == 0
    }
}

/// The side that opens.
#[derive(Debug, Clone, Copy, PartialEq, Eq)]
pub enum Side {
    First,
    Second,
}

impl Side {
    /// In the order in which our own book prefers them.
    pub const ALL: [Side; 2] = [Side::First, Side::Second];

    /// The side that a byte of a book stands for.
    pub fn of(byte: u8) -> Option<Side> {
        Side::ALL.into_iter().find(|side| side.byte() == byte)
    }

    pub fn byte(self) -> u8 {
        match self {
            Side::First => 1,
            Side::Second => 2,
        }
    }

    /// Opener and other of a pair; and the pair of an opener and another.
    pub fn turned<T>(self, (p, q): (T, T)) -> (T, T) {
        match self {
            Side::First => (p, q),
            Side::Second => (q, p),
        }
    }
}

/// The moves of each state, as action and target, rising. What is said of them
/// is said of any such moves.
pub type Moves = [Vec<(u16, u16)>];

/// The moves of a number, which has none if it is no state.
pub fn moves_of(moves: &Moves, number: usize) -> &[(u16, u16)] {
    moves.get(number).map_or(&[], Vec::as_slice)
}

/// The pairs to which the answers lead if this side of a pair opens with this
/// action and target: the opening's target stays on the opener's side.
pub fn answers(
    moves: &Moves,
    pair: (usize, usize),
    side: Side,
    (action, target): (u16, u16),
) -> Vec<(usize, usize)> {
    let (_, other) = side.turned(pair);
    let moves = moves_of(moves, other);
    // A state may have thousands of moves, which rise.
    let first = moves.partition_point(|&(taken, _)| taken < action);
    let same_action = moves[first..]
        .iter()
        .take_while(|&&(taken, _)| taken == action);
    same_action
        .map(|&(_, answer)| side.turned((usize::from(target), usize::from(answer))))
        .collect()
}

/// All openings of a pair: first side, then lowest action, then lowest target.
pub fn openings(moves: &Moves, pair: (usize, usize)) -> Vec<(Side, (u16, u16))> {
    let mut openings = Vec::new();
    for side in Side::ALL {
        let (opener, _) = side.turned(pair);
        openings.extend(moves_of(moves, opener).iter().map(|&step| (side, step)));
    }
    openings
}

/// Our own book of a model.
pub fn book_of(model: &Model) -> Vec<u8> {
    let (mut table, mut book) = (vec![0; TABLE], vec![0; BOOK]);
    fill_table(model, &mut table);
    fill_book(model, &table, &mut book);
    book
}

/// Fills the book, given the table of ranks.
fn fill_book(model: &Model, table: &[u8], book: &mut [u8]) {
    book[..BOOK].fill(0);
    let moves = Targets::new(model);
    let greatest = *table[..TABLE].iter().max().expect("a table");
    for depth in 1..=greatest {
        let lower = lower_ranks(table, depth);
        for number in (0..TABLE).filter(|&number| table[number] == depth) {
            let pair = (number / MOST_STATES, number % MOST_STATES);
            let (side, opening) = first_opening(&moves, &lower, pair)
                .expect("some move is answered by no two states that are alike for so long");
            Entry::new(side.byte(), opening, depth).put(book, number);
        }
    }
}

/// For each number those of a rank to it above 0 and below this one. Ranks are
/// the same both ways round.
fn lower_ranks(table: &[u8], depth: u8) -> Vec<States> {
    let mut lower = vec![0; MOST_STATES];
    for (number, &rank) in table[..TABLE].iter().enumerate() {
        if 0 < rank && rank < depth {
            lower[number / MOST_STATES] |= single((number % MOST_STATES) as u16);
        }
    }
    lower
}

/// The first opening of a pair by which its entry can have the rank as depth:
/// each answer leads to a pair of a rank above 0 and below this one. First side,
/// then lowest action, then lowest target.
fn first_opening(
    moves: &Targets,
    lower: &[States],
    pair: (usize, usize),
) -> Option<(Side, (u16, u16))> {
    for side in Side::ALL {
        let (opener, other) = side.turned(pair);
        for &(action, targets) in moves.of(opener) {
            let answers = moves.after(other, action);
            let allows = |&target: &u16| answers & !lower[usize::from(target)] == 0;
            if let Some(target) = states_of(targets).find(allows) {
                return Some((side, (action, target)));
            }
        }
    }
    None
}

/// What the program writes for a text: its book, or the `F` line.
pub fn book_program(text: &[u8]) -> Vec<u8> {
    let mut store = vec![0; STORE];
    let mut filled = vec![0; BOOK];
    let answer = read(text, &mut store);
    match answer.and_then(|()| book(&store, &mut vec![0; TABLE], &mut filled)) {
        Ok(()) => filled,
        Err(refusal) => refusal.line(),
    }
}
