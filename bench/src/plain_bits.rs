//! Another ranking in plain Rust, over bit sets, for models whose moves are single steps; not proved. It shows how far
//! one can go where a set of states is the bits of one number: it keeps the classes that each state and action lead to,
//! and writes whole rows of the table, which is mirrored at the end. When a class splits, its greatest part keeps its
//! number. Some places are taken modulo the lengths of lists, which changes no place and spares a test of the bound.
use second::store::TABLE;

use crate::plain::{Moves, MOVES, ROW};
use crate::plain_mirror::mirror;
use crate::sets::{least, members, only, Set};

/// No link.
const END: u16 = u16::MAX;

/// The moves of each state by their actions: a bundle is all of them with one action. A bundle of one move has its
/// target's number, and any other a number of its own, from `ROW` and below `BUNDLES`.
struct Bundles {
    /// The actions of each state's moves.
    offers: [u64; ROW],
    /// The bundles of each state p: those from `first[p]` up to `first[p + 1]`.
    first: [u16; ROW + 1],
    name: [u16; MOVES],
    /// The states with a move to each state.
    sources: [Set; ROW],
    /// The targets of each bundle of more moves than one.
    targets: [Set; BUNDLES],
    /// Such bundles with a move to each state: the last one's link, which has the link before it and the bundle.
    last: [u16; ROW],
    links: [[u16; 2]; MOVES],
}

const BUNDLES: usize = ROW + MOVES / 2;

impl Bundles {
    fn of(moves: &Moves) -> Bundles {
        let mut bundles = Bundles {
            offers: [0; ROW],
            first: [0; ROW + 1],
            name: [0; MOVES],
            sources: [0; ROW],
            targets: [0; BUNDLES],
            last: [END; ROW],
            links: [[0; 2]; MOVES],
        };
        let (mut count, mut wide, mut links) = (0, ROW, 0);
        for p in 0..moves.states {
            let (mut i, end) = (moves.first[p], moves.first[p + 1]);
            let mut offer = 0;
            while i < end {
                let action = moves.action[i % MOVES];
                let is_more = |i: usize| i < end && moves.action[i % MOVES] == action;
                offer |= 1u64 << (action % 64);
                let target = usize::from(moves.target[i % MOVES]) % ROW;
                let name = if is_more(i + 1) {
                    while is_more(i) {
                        let target = usize::from(moves.target[i % MOVES]) % ROW;
                        bundles.sources[target] |= only(p);
                        bundles.targets[wide] |= only(target);
                        bundles.links[links % MOVES] = [bundles.last[target], wide as u16];
                        bundles.last[target] = links as u16;
                        links += 1;
                        i += 1;
                    }
                    wide += 1;
                    wide - 1
                } else {
                    bundles.sources[target] |= only(p);
                    i += 1;
                    target
                };
                bundles.name[count % MOVES] = name as u16;
                count += 1;
            }
            bundles.offers[p % ROW] = offer;
            bundles.first[p + 1] = count as u16;
        }
        bundles
    }

    fn names(&self, p: usize) -> &[u16] {
        &self.name[usize::from(self.first[p])..usize::from(self.first[p + 1])]
    }
}

/// The parts of a class in a round.
struct Parts {
    count: usize,
    members: [Set; ROW],
    sizes: [u8; ROW],
    /// One state of each.
    chosen: [u8; ROW],
    hashes: [u64; ROW],
    hashed: usize,
}

/// With fewer parts than this a state is compared with the chosen ones, and else first its hash with theirs.
const FEW: usize = 4;

struct Ranking<'a> {
    bundles: &'a Bundles,
    /// The class of each state, and -1 past the states.
    class: [i8; ROW],
    classes: usize,
    members: [Set; ROW],
    sizes: [u8; ROW],
    /// The classes that each bundle led to before this round.
    led: [Set; BUNDLES],
    /// The states whose class has another member.
    together: Set,
    /// The states whose number changed in this round, and their class before.
    changed: [(u8, u8); ROW],
    changes: usize,
}

impl Ranking<'_> {
    fn hash(&self, round: u8, p: usize) -> u64 {
        if round == 1 {
            return self.bundles.offers[p];
        }
        self.bundles.names(p).iter().fold(0, |hash: u64, &name| {
            let led = self.led[usize::from(name)];
            let both = led as u64 ^ ((led >> 64) as u64).rotate_left(32);
            (hash.rotate_left(5) ^ both).wrapping_mul(0x9E37_79B9_7F4A_7C15)
        })
    }

    /// Whether two states of a class stay together. From round 2 on such states offer the same actions.
    fn are_alike(&self, round: u8, p: usize, q: usize) -> bool {
        if round == 1 {
            return self.bundles.offers[p] == self.bundles.offers[q];
        }
        let led = |name: u16| self.led[usize::from(name)];
        let mut both = self.bundles.names(p).iter().zip(self.bundles.names(q));
        both.all(|(&a, &b)| a == b || led(a) == led(b))
    }

    /// The parts into which a class falls.
    fn part(&self, round: u8, class: usize, touched: Set, parts: &mut Parts) {
        let rest = self.members[class] & !touched;
        (parts.count, parts.hashed, parts.sizes[0]) = (0, 0, 0);
        if rest != 0 {
            parts.count = 1;
            parts.members[0] = rest;
            parts.chosen[0] = least(rest) as u8;
        }
        let mut left = self.sizes[class];
        for p in members(self.members[class] & touched) {
            left -= 1;
            let chosen = |parts: &Parts, k: usize| usize::from(parts.chosen[k % ROW]) % ROW;
            let mut k = 0;
            if parts.count < FEW {
                while k < parts.count && !self.are_alike(round, p, chosen(parts, k)) {
                    k += 1;
                }
            } else {
                while parts.hashed < parts.count {
                    let hash = self.hash(round, chosen(parts, parts.hashed));
                    parts.hashes[parts.hashed % ROW] = hash;
                    parts.hashed += 1;
                }
                let hash = self.hash(round, p);
                while k < parts.count
                    && !(parts.hashes[k % ROW] == hash
                        && self.are_alike(round, p, chosen(parts, k)))
                {
                    k += 1;
                }
            }
            let place = k % ROW;
            if k == parts.count {
                parts.count += 1;
                parts.members[place] = 0;
                parts.sizes[place] = 0;
                parts.chosen[place] = p as u8;
            }
            parts.members[place] |= only(p);
            parts.sizes[place] += 1;
        }
        parts.sizes[0] += left;
    }

    /// Makes a part a class.
    fn settle(&mut self, class: usize, members: Set, size: u8) {
        self.members[class % ROW] = members;
        self.sizes[class % ROW] = size;
        if size == 1 {
            self.together &= !members;
        }
    }

    /// Makes the parts classes, of which the greatest keeps the number, and writes the rows of the others.
    fn split(&mut self, round: u8, class: usize, parts: &Parts, rows: &mut [[u8; ROW]; ROW]) {
        let mut kept = 0;
        for k in 1..parts.count {
            if parts.sizes[k % ROW] > parts.sizes[kept % ROW] {
                kept = k;
            }
        }
        let first = self.classes;
        for k in (0..parts.count).filter(|&k| k != kept) {
            for p in members(parts.members[k]) {
                self.class[p] = self.classes as i8;
                self.changed[self.changes % ROW] = (p as u8, class as u8);
                self.changes += 1;
            }
            self.settle(self.classes, parts.members[k], parts.sizes[k]);
            self.classes += 1;
        }
        self.settle(class, parts.members[kept], parts.sizes[kept]);
        for number in first..self.classes {
            for p in members(self.members[number % ROW]) {
                for (entry, &of_q) in rows[p].iter_mut().zip(&self.class) {
                    let was_together = (of_q == class as i8) | (of_q >= first as i8);
                    let is_apart = was_together & (of_q != number as i8);
                    *entry |= if is_apart { round } else { 0 };
                }
            }
        }
    }

    /// Makes `led` that of the next round, and yields the states that it touches.
    fn follow(&mut self) -> Set {
        let mut touched = 0;
        for &(t, old) in &self.changed[..self.changes] {
            let t = usize::from(t) % ROW;
            let [old, new] = [usize::from(old) % ROW, self.class[t] as usize];
            self.led[t] = only(new);
            let sources = self.bundles.sources[t] & self.together;
            if sources == 0 {
                continue;
            }
            touched |= sources;
            let mut link = self.bundles.last[t];
            while link != END {
                let [before, name] = self.bundles.links[usize::from(link) % MOVES];
                let name = usize::from(name);
                let leads_still = self.bundles.targets[name] & self.members[old] != 0;
                let gone = if leads_still { 0 } else { only(old) };
                self.led[name] = (self.led[name] | only(new)) & !gone;
                link = before;
            }
        }
        self.changes = 0;
        touched
    }
}

/// Fills the table of a good store, and yields the last round that separated two states.
pub fn rank(store: &[u16], table: &mut [u8]) -> u8 {
    rank_moves(&Moves::of(store), table)
}

pub fn rank_moves(moves: &Moves, table: &mut [u8]) -> u8 {
    let (rows, _) = table[..TABLE].as_chunks_mut::<ROW>();
    let rows: &mut [[u8; ROW]; ROW] = rows.try_into().expect("a row for each state");
    rows.fill([0; ROW]);
    let all = Set::MAX >> (ROW - moves.states);
    let mut ranking = Ranking {
        bundles: &Bundles::of(moves),
        class: [-1; ROW],
        classes: 1,
        members: [0; ROW],
        sizes: [0; ROW],
        led: [1; BUNDLES],
        together: all,
        changed: [(0, 0); ROW],
        changes: 0,
    };
    ranking.class[..moves.states].fill(0);
    ranking.settle(0, all, moves.states as u8);
    let mut parts = Parts {
        count: 0,
        members: [0; ROW],
        sizes: [0; ROW],
        chosen: [0; ROW],
        hashes: [0; ROW],
        hashed: 0,
    };
    let mut touched = all;
    for round in 1.. {
        while touched != 0 {
            let class = ranking.class[least(touched)] as usize % ROW;
            ranking.part(round, class, touched, &mut parts);
            touched &= !ranking.members[class];
            if parts.count > 1 {
                ranking.split(round, class, &parts, rows);
            }
        }
        if ranking.changes == 0 {
            if round > 1 {
                mirror(rows, moves.states);
            }
            return round - 1;
        }
        touched = ranking.follow();
    }
    unreachable!("no rank exceeds states minus 1")
}
