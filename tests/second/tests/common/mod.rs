//! Lists to lend, and what the operations must leave in them.
#![allow(dead_code)]

pub mod operations;

use std::collections::BTreeSet;

use second::book::{entry_number, Entry};
use second::store::{BOOK, DISTANCES, PAGE, ROLL, RUN, STORE, TABLE, WORD, WRITTEN};
use second::{check, check_program, gen, meaning, page, program, read, roll, roll_program};
use second::{Model, Refusal};

/// How many elements more than need be each list has.
pub const LONGER: usize = 3;

/// All lists besides the store, longer than need be and full of old contents.
#[derive(Debug, Clone, PartialEq, Eq)]
pub struct Lists {
    pub distances: Vec<u16>,
    pub table: Vec<u8>,
    pub run: Vec<u16>,
    pub word: Vec<u16>,
    /// Page's out.
    pub out: Vec<u8>,
    /// Roll's out.
    pub paper: Vec<u8>,
    pub written: Vec<u8>,
    /// Its old entries all count as absent.
    pub book: Vec<u8>,
}

impl Lists {
    pub fn new() -> Lists {
        Lists {
            distances: vec![7_777; DISTANCES + LONGER],
            table: vec![77; TABLE + LONGER],
            run: vec![7_778; RUN + LONGER],
            word: vec![7_779; WORD + LONGER],
            out: vec![b'~'; PAGE + LONGER],
            paper: vec![b'^'; ROLL + LONGER],
            written: vec![b'!'; WRITTEN + LONGER],
            book: [0, 201, 202, 203].repeat(BOOK / 4 + 1)[..BOOK + LONGER].to_vec(),
        }
    }

    pub fn page(&mut self, store: &[u16]) -> Result<usize, Refusal> {
        page(
            store,
            &mut self.distances,
            &mut self.table,
            &mut self.run,
            &mut self.word,
            &mut self.out,
        )
    }

    pub fn roll(&mut self, store: &[u16]) -> Result<usize, Refusal> {
        roll(
            store,
            &mut self.distances,
            &mut self.table,
            &mut self.run,
            &mut self.word,
            &mut self.paper,
        )
    }
}

/// The store that a text reads to.
pub fn store_of(text: &[u8]) -> Vec<u16> {
    let mut store = vec![9_999; STORE];
    read(text, &mut store).expect("the text is good");
    store
}

/// Reads a text that must be refused, and checks that the store is kept and
/// that the program prints the refusal, for a roll too: its number and its
/// place.
pub fn refusal(text: &[u8]) -> (u16, u64) {
    let _case = gen::text_case(text);
    let old = vec![4_321; STORE + 1];
    let mut store = old.clone();
    let refusal = read(text, &mut store).expect_err("the text is bad");
    assert_eq!(store, old);
    let line = format!("F,{},{}\n", refusal.number, refusal.place);
    assert_eq!(program(text), line.as_bytes());
    assert_eq!(roll_program(text), line.as_bytes());
    (refusal.number, refusal.place)
}

/// A text with the actions scan (low), print (high) and close (release), and
/// with these steps: source, action, target.
pub fn till(states: u16, steps: &[(u16, u16, u16)]) -> Vec<u8> {
    waking_till(states, &[0], steps)
}

/// The same with these starts, of which the first stands in line 1.
pub fn waking_till(states: u16, starts: &[u16], steps: &[(u16, u16, u16)]) -> Vec<u8> {
    let mut text = format!("M,{states},3,{},{}\n", steps.len(), starts[0]);
    text += "A,L,scan\nA,H,print\nA,D,close\n";
    for start in &starts[1..] {
        text += &format!("I,{start}\n");
    }
    for (source, action, target) in steps {
        text += &format!("S,{source},{action},{target}\n");
    }
    (text + "E\n").into_bytes()
}

pub const SCAN: u16 = 0;
pub const PRINT: u16 = 1;
pub const CLOSE: u16 = 2;

pub const TICK: u16 = 3;

/// A text with the actions scan (low), print (high), close (release) and tick
/// (silent), and with these steps.
pub fn ticking_till(states: u16, steps: &[(u16, u16, u16)]) -> Vec<u8> {
    let mut text = format!("M,{states},4,{},0\n", steps.len());
    text += "A,L,scan\nA,H,print\nA,D,close\nA,T,tick\n";
    for (source, action, target) in steps {
        text += &format!("S,{source},{action},{target}\n");
    }
    (text + "E\n").into_bytes()
}

/// The text and the page of the worked example.
pub const EXAMPLE: &[u8] =
    b"M,4,3,4,0\nA,L,scan\nA,H,print\nA,D,close\nS,0,0,1\nS,0,1,2\nS,1,0,1\nS,2,0,3\nE\n";
pub const EXAMPLE_PAGE: &str =
    "V,refuse,1,2\nC,0,0,0\nC,1,1,0\nC,2,1,2\nC,3,2,3\nW,scan\nW,scan\nB,source\nE\n";

/// The model of a good text.
pub fn model_of(text: &[u8]) -> Model {
    second::text::parse(text).expect("the text is good")
}

/// Entries of a book: both states, and the bytes.
pub type Entries<'a> = &'a [(usize, usize, [u8; 4])];

/// The book with just these entries.
pub fn with_entries(entries: Entries) -> Vec<u8> {
    let mut book = vec![0; BOOK];
    for &(p, q, bytes) in entries {
        let place = 4 * (128 * p + q);
        book[place..place + 4].copy_from_slice(&bytes);
    }
    book
}

/// A text with the actions scan and show (low), print (high).
pub fn two_scanners(states: u16, steps: &[(u16, u16, u16)]) -> Vec<u8> {
    let mut text = format!(
        "M,{states},3,{},0\nA,L,scan\nA,L,show\nA,H,print\n",
        steps.len()
    );
    for (source, action, target) in steps {
        text += &format!("S,{source},{action},{target}\n");
    }
    (text + "E\n").into_bytes()
}

pub const SHOW: u16 = 1;

/// The first bad entry of the book with just these entries, as its pair.
pub fn bad(text: &[u8], entries: Entries) -> Option<(u64, u64)> {
    let (store, book) = (store_of(text), with_entries(entries));
    let answer = check(&store, &book);
    let line = match answer {
        Ok(()) => String::new(),
        Err(Refusal { number, place }) => format!("F,{number},{place}\n"),
    };
    assert_eq!(check_program(text, &book), line.as_bytes());
    let refusal = answer.err()?;
    assert_eq!(refusal.number, 34);
    Some((refusal.place / 128, refusal.place % 128))
}

/// 0 scan 1, 1 scan 2, and 2 has no step.
pub fn three() -> Vec<u8> {
    let steps = [(0, SCAN, 1), (0, PRINT, 2), (1, SCAN, 2), (1, CLOSE, 0)];
    till(3, &steps)
}

/// The pairs of states for which a book has an entry.
pub fn pairs(model: &Model, book: &[u8]) -> BTreeSet<(u16, u16)> {
    let states = 0..model.states;
    let pairs = states
        .clone()
        .flat_map(|p| states.clone().map(move |q| (p, q)));
    let number = |(p, q): (u16, u16)| entry_number(usize::from(p), usize::from(q));
    pairs
        .filter(|&pair| !Entry::of(book, number(pair)).is_absent())
        .collect()
}

/// No low-view bisimulation pairs two states that an accepted book has an entry
/// for; those are told apart by every play.
pub fn accepted_book_holds(model: &Model, book: &[u8]) {
    assert_eq!(meaning::plays_hold(model, book), Ok(()));
    let alike = meaning::greatest_bisimulation(model);
    assert!(pairs(model, book).is_disjoint(&alike));
}
