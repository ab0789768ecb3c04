//! Ranking in plain Rust, written for speed and not proved, which compares states by their moves: it looks again only
//! where something changed. A round compares the states with a move to one whose class changed in the round before,
//! each with a state of its class that has none, and with the first states of the parts that split off in this round;
//! two states are compared through marks, one place for each action and class. The untouched part of a class keeps its
//! number, or the greatest part where all are touched, and the table is written in the rows and columns of the states
//! whose number changed.
use second::store::{action_place, step_place, TABLE};

pub const ROW: usize = 128;
pub const MOVES: usize = 1_024;

/// The low steps of each state p: those from `first[p]` up to `first[p + 1]`.
pub struct Moves {
    pub states: usize,
    pub first: [usize; ROW + 1],
    pub action: [u8; MOVES],
    pub target: [u8; MOVES],
}

impl Moves {
    pub fn of(store: &[u16]) -> Moves {
        let mut moves = Moves {
            states: usize::from(store[0]),
            first: [0; ROW + 1],
            action: [0; MOVES],
            target: [0; MOVES],
        };
        let (mut count, mut state) = (0, 0);
        for j in 0..usize::from(store[2]) {
            let place = step_place(j);
            let (source, action) = (usize::from(store[place]), usize::from(store[place + 1]));
            while state < source {
                state += 1;
                moves.first[state] = count;
            }
            if store[action_place(action)] == 0 {
                moves.action[count] = action as u8;
                moves.target[count] = store[place + 2] as u8;
                count += 1;
            }
        }
        moves.first[state + 1..].fill(count);
        moves
    }

    /// Where the marks of p's moves stand.
    #[inline(always)]
    fn places<'a>(&'a self, class: &'a [u8; ROW], p: usize) -> impl Iterator<Item = usize> + 'a {
        let moves = self.first[p]..self.first[p + 1];
        let moves = self.action[moves.clone()].iter().zip(&self.target[moves]);
        moves.map(move |(&action, &target)| {
            ROW * usize::from(action % 64) + usize::from(class[usize::from(target) % ROW]) % ROW
        })
    }
}

/// The sources of the moves to each state q: those from `first[q]` up to `first[q + 1]`.
struct Converse {
    first: [usize; ROW + 1],
    source: [u8; MOVES],
}

impl Converse {
    fn of(moves: &Moves) -> Converse {
        let mut converse = Converse {
            first: [0; ROW + 1],
            source: [0; MOVES],
        };
        let all = moves.first[moves.states];
        for &target in &moves.target[..all] {
            converse.first[usize::from(target) + 1] += 1;
        }
        for q in 0..ROW {
            converse.first[q + 1] += converse.first[q];
        }
        let mut next = converse.first;
        for p in 0..moves.states {
            for &target in &moves.target[moves.first[p]..moves.first[p + 1]] {
                let place = &mut next[usize::from(target)];
                converse.source[*place % MOVES] = p as u8;
                *place += 1;
            }
        }
        converse
    }
}

/// No state.
const NONE: u8 = 255;

struct Ranking<'a> {
    moves: &'a Moves,
    marks: [u8; 64 * ROW],
    class: [u8; ROW],
    next: [u8; ROW],
    classes: usize,
    /// One state of each class.
    chosen: [u8; ROW],
    touched: [u8; ROW],
    touches: usize,
    is_touched: [bool; ROW],
    /// The first state of each touched state's part, and the first state of the part before it in its class.
    lead: [u8; ROW],
    before: [u8; ROW],
    last: [u8; ROW],
    sizes: [u8; ROW],
}

impl Ranking<'_> {
    /// Whether each of p and q answers the other. The moves of p are marked; if the answer is no, they stay so.
    #[inline(always)]
    fn answers(&mut self, p: usize, q: usize) -> bool {
        let (moves, class) = (self.moves, &self.class);
        if !moves.places(class, q).all(|place| self.marks[place] != 0) {
            return false;
        }
        moves
            .places(class, q)
            .for_each(|place| self.marks[place] = 2);
        if moves.places(class, p).all(|place| self.marks[place] == 2) {
            return true;
        }
        moves
            .places(class, q)
            .for_each(|place| self.marks[place] = 1);
        false
    }

    fn mark(&mut self, p: usize, value: u8) {
        self.moves
            .places(&self.class, p)
            .for_each(|place| self.marks[place] = value);
    }

    /// Sees to it that an untouched state is chosen for each class that has one.
    fn choose(&mut self) {
        let is_touched = |p: u8| self.is_touched[usize::from(p) % ROW];
        let chosen = |p: u8| self.chosen[usize::from(self.class[usize::from(p) % ROW]) % ROW];
        if self.touched[..self.touches]
            .iter()
            .any(|&p| is_touched(chosen(p)))
        {
            for p in (0..self.moves.states).filter(|&p| !self.is_touched[p]) {
                self.chosen[usize::from(self.class[p]) % ROW] = p as u8;
            }
        }
    }

    /// The first state of p's part.
    fn lead_of(&mut self, p: usize) -> usize {
        let class = usize::from(self.class[p]) % ROW;
        let chosen = usize::from(self.chosen[class]) % ROW;
        if chosen == p {
            return p;
        }
        self.mark(p, 1);
        let mut lead = p;
        if self.answers(p, chosen) {
            lead = chosen;
        } else {
            let mut other = self.last[class];
            while other != NONE {
                let state = usize::from(other) % ROW;
                if self.answers(p, state) {
                    lead = state;
                    break;
                }
                other = self.before[state];
            }
            if lead == p {
                self.before[p] = self.last[class];
                self.last[class] = p as u8;
            }
        }
        self.mark(p, 0);
        lead
    }

    /// Finds the parts, and gives those their numbers that do not keep the class's.
    fn refine(&mut self) {
        self.choose();
        self.last = [NONE; ROW];
        self.sizes = [0; ROW];
        for i in 0..self.touches {
            let p = usize::from(self.touched[i]) % ROW;
            let lead = self.lead_of(p);
            self.lead[p] = lead as u8;
            self.sizes[lead] += 1;
        }
        for i in 0..self.touches {
            let p = usize::from(self.touched[i]) % ROW;
            let class = usize::from(self.class[p]) % ROW;
            let chosen = usize::from(self.chosen[class]) % ROW;
            if self.is_touched[chosen] && self.sizes[p] > self.sizes[chosen] {
                self.chosen[class] = p as u8;
            }
        }
        let first = self.classes;
        for i in 0..self.touches {
            let p = usize::from(self.touched[i]) % ROW;
            if usize::from(self.lead[p]) == p
                && self.chosen[usize::from(self.class[p]) % ROW] != p as u8
            {
                self.chosen[self.classes % ROW] = p as u8;
                self.classes += 1;
            }
        }
        self.next = self.class;
        for number in first..self.classes {
            self.last[usize::from(self.chosen[number % ROW]) % ROW] = number as u8;
        }
        for i in 0..self.touches {
            let p = usize::from(self.touched[i]) % ROW;
            let lead = self.lead[p];
            if self.chosen[usize::from(self.class[p]) % ROW] != lead {
                self.next[p] = self.last[usize::from(lead) % ROW];
            }
        }
    }

    /// Writes the rows and columns of the states whose number changed, and touches the sources of moves to them.
    fn follow(&mut self, converse: &Converse, round: u8, table: &mut [u8; TABLE]) -> bool {
        let old = self.touched;
        let count = self.touches;
        self.is_touched = [false; ROW];
        self.touches = 0;
        let mut found = false;
        for &p in &old[..count] {
            let p = usize::from(p) % ROW;
            let (class, next) = (self.class[p], self.next[p]);
            if class == next {
                continue;
            }
            found = true;
            for q in 0..self.moves.states {
                if self.class[q] == class && self.next[q] != next {
                    table[ROW * p + q] = round;
                    table[ROW * q + p] = round;
                }
            }
            for &source in &converse.source[converse.first[p]..converse.first[p + 1]] {
                let source = usize::from(source) % ROW;
                if !self.is_touched[source] {
                    self.is_touched[source] = true;
                    self.touched[self.touches % ROW] = source as u8;
                    self.touches += 1;
                }
            }
        }
        self.class = self.next;
        found
    }
}

/// Fills the table of a good store, and yields the last round that separated two states.
pub fn rank(store: &[u16], table: &mut [u8]) -> u8 {
    rank_moves(&Moves::of(store), table)
}

pub fn rank_moves(moves: &Moves, table: &mut [u8]) -> u8 {
    let table: &mut [u8; TABLE] = table.first_chunk_mut().expect("a table");
    table.fill(0);
    let converse = Converse::of(moves);
    let mut ranking = Ranking {
        moves,
        marks: [0; 64 * ROW],
        class: [0; ROW],
        next: [0; ROW],
        classes: 1,
        chosen: [0; ROW],
        touched: std::array::from_fn(|p| p as u8),
        touches: moves.states,
        is_touched: [true; ROW],
        lead: [0; ROW],
        before: [0; ROW],
        last: [0; ROW],
        sizes: [0; ROW],
    };
    for round in 1.. {
        ranking.refine();
        if !ranking.follow(&converse, round, table) {
            return round - 1;
        }
    }
    unreachable!("no rank exceeds states minus 1")
}
