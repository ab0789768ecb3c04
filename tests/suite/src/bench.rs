//! The bench models of the scope document, and the examples.
use second::gen::Rng;
use second::store::{DISTANCES, TABLE};
use second::{text, End, Refusal, Verdict};
use std::fs;
use std::path::{Path, PathBuf};

use crate::lists::{Lists, LEAST};
use crate::operations::READ;
use crate::stores::Store;

/// The worked example.
pub const WORKED: &[u8] =
    b"M,4,3,4,0\nA,L,scan\nA,H,print\nA,D,close\nS,0,0,1\nS,0,1,2\nS,1,0,1\nS,2,0,3\nE\n";
pub const WORKED_PAGE: &[u8] =
    b"V,refuse,1,2\nC,0,0,0\nC,1,1,0\nC,2,1,2\nC,3,2,3\nW,scan\nW,scan\nB,source\nE\n";

/// Its roll: each line has 42 columns.
pub fn worked_roll() -> String {
    let lines = [
        "V,refuse,1,2",
        "  0   0   0 scan",
        "  1   1   0 scan",
        "  2   1   2 scan",
        "  3   2   3",
        "W,scan",
        "W,scan",
        "B,source",
        "E",
    ];
    lines.map(|line| format!("{line:<42}\n")).concat()
}

/// A till that wakes in two states, 0 and 4, and leaks from the second only: the example `two_starts`.
pub const TWO_STARTS: &[u8] = b"M,8,3,11,0\nA,L,scan\nA,H,print\nA,D,close\nI,4\n\
    S,0,0,1\nS,1,0,2\nS,2,0,3\nS,2,1,3\nS,3,0,3\nS,3,2,0\n\
    S,4,0,5\nS,4,2,3\nS,5,0,3\nS,5,1,6\nS,6,0,7\nE\n";
pub const TWO_STARTS_PAGE: &[u8] = b"V,refuse,9,2\n\
    C,0,0,0\nC,1,1,0\nC,2,2,0\nC,3,1,0\nC,4,0,0\nC,5,1,0\nC,6,2,6\nC,7,3,7\n\
    R,6\nW,scan\nW,scan\nB,source\nE\n";

/// The distances of the worked example.
pub fn worked_distances() -> Vec<u16> {
    let mut distances = vec![65_535; DISTANCES];
    distances[..4].copy_from_slice(&[0, 1, 1, 2]);
    distances
}

/// The ranks of the worked example: 0 and 1 scan for ever, 2 scans once, 3 never.
pub fn worked_table() -> Vec<u8> {
    let mut table = vec![0; TABLE];
    for (p, q, rank) in [(0, 2, 2), (0, 3, 1), (1, 2, 2), (1, 3, 1), (2, 3, 1)] {
        table[128 * p + q] = rank;
        table[128 * q + p] = rank;
    }
    table
}

/// The store of a text that both checkers read.
pub fn store_of(text: &[u8]) -> Store {
    let store = Store::of(&text::parse(text).expect("the text is good"));
    let mut lists = Lists::anything(&mut Rng::new(7), LEAST);
    assert_eq!(READ.told(text, &mut lists), Ok(()));
    assert_eq!(lists.store[..], store[..]);
    store
}

/// A text with start 0 and these action lines and steps.
pub fn text_of(states: u16, actions: &str, steps: &[(u16, u16, u16)]) -> Vec<u8> {
    waking_text(states, actions, &[0], steps)
}

/// A text with these starts, of which the first stands in line 1.
pub fn waking_text(
    states: u16,
    actions: &str,
    starts: &[u16],
    steps: &[(u16, u16, u16)],
) -> Vec<u8> {
    let (first, count) = (starts[0], actions.lines().count());
    let mut text = format!("M,{states},{count},{},{first}\n{actions}", steps.len());
    for start in &starts[1..] {
        text += &format!("I,{start}\n");
    }
    for (source, action, target) in steps {
        text += &format!("S,{source},{action},{target}\n");
    }
    (text + "E\n").into_bytes()
}

/// Action lines of the bench models: 0 is scan, 1 is print, 2 is close.
pub const ACTIONS: &str = "A,L,scan\nA,H,print\nA,D,close\n";
const CLOSE_IS_LOW: &str = "A,L,scan\nA,H,print\nA,L,close\n";

/// The letters that Word shows and the end that allows them, or its refusal.
pub type WordTold = Result<(Vec<u16>, End), Refusal>;

/// A bench model, what Judge tells of it and what Word does.
pub struct BenchModel {
    pub store: Store,
    pub verdict: Verdict,
    pub word: WordTold,
}

fn passed(rank: u16) -> (Verdict, WordTold) {
    (Verdict::Passed { rank }, Err(Refusal::new(24, 0)))
}

fn refused(step: u16, depth: u16, word: WordTold) -> (Verdict, WordTold) {
    (Verdict::Refused { step, depth }, word)
}

/// The bench models in the scope document's order, except for the long chain.
pub fn models() -> Vec<BenchModel> {
    let scanned_once: &[_] = &[(0, 0, 1), (0, 1, 2), (2, 0, 3), (2, 2, 0)];
    let released: &[_] = &[(0, 1, 1), (1, 2, 2), (2, 0, 2)];
    let branching: &[_] = &[(0, 0, 2), (0, 0, 3), (0, 1, 1), (1, 0, 2), (2, 0, 3)];
    let worked = refused(1, 2, Ok((vec![0, 0], End::Source)));
    let close_low = refused(0, 1, Ok((vec![2], End::Target)));
    let not_deterministic = refused(2, 2, Err(Refusal::new(23, 1)));
    [
        (WORKED.to_vec(), worked),
        (text_of(4, ACTIONS, scanned_once), passed(1)),
        (text_of(3, ACTIONS, released), passed(1)),
        (text_of(3, CLOSE_IS_LOW, released), close_low),
        (text_of(4, ACTIONS, branching), not_deterministic),
        (text_of(1, ACTIONS, &[]), passed(0)),
        (text_of(1, ACTIONS, &[(0, 1, 0)]), passed(0)),
        (text_of(3, ACTIONS, &[(1, 1, 2), (2, 0, 2)]), passed(1)),
    ]
    .into_iter()
    .map(|(text, (verdict, word))| BenchModel {
        store: store_of(&text),
        verdict,
        word,
    })
    .collect()
}

/// The repository's folder.
pub fn root() -> PathBuf {
    Path::new(env!("CARGO_MANIFEST_DIR")).join("../..")
}

/// The files of the examples with this ending, at least so many.
fn files(ending: &str, least: usize) -> Vec<PathBuf> {
    let folder = fs::read_dir(root().join("examples")).expect("the examples' folder");
    let mut files: Vec<PathBuf> = folder.map(|entry| entry.expect("a file").path()).collect();
    files.retain(|file| file.extension().is_some_and(|end| end == ending));
    files.sort();
    assert!(files.len() >= least, "{files:?}");
    files
}

/// The file, the text and the page of each example.
pub fn examples() -> Vec<(PathBuf, Vec<u8>, Vec<u8>)> {
    let with_page = |file: PathBuf| {
        let text = fs::read(&file).expect("a text");
        let page = fs::read(file.with_extension("page")).expect("a page beside each text");
        (file, text, page)
    };
    files("txt", 28).into_iter().map(with_page).collect()
}

/// The text and the page of an example.
pub fn example(name: &str) -> (Vec<u8>, Vec<u8>) {
    let mut examples = examples().into_iter();
    let found = examples.find(|(file, _, _)| file.file_stem().is_some_and(|stem| stem == name));
    let (_, text, page) = found.expect("an example");
    (text, page)
}

/// The file, the text and what the roll's program prints of each example that has a roll, and of each that is not read:
/// there it is the line of the page.
pub fn rolls() -> Vec<(PathBuf, Vec<u8>, Vec<u8>)> {
    let with_text = |roll: PathBuf| {
        let printed = fs::read(&roll).expect("a roll");
        let file = roll.with_extension("txt");
        let text = fs::read(&file).expect("a text beside each roll");
        (file, text, printed)
    };
    let mut rolls: Vec<_> = files("roll", 5).into_iter().map(with_text).collect();
    let not_read = examples().into_iter();
    rolls.extend(not_read.filter(|(_, _, page)| page.starts_with(b"F,")));
    rolls
}

/// A folder of a test's own, which goes with this value.
pub struct Folder(pub PathBuf);

impl Folder {
    pub fn new(name: &str) -> Folder {
        let folder = std::env::temp_dir().join(format!("till_{name}_{}", std::process::id()));
        fs::create_dir_all(&folder).expect("a folder");
        Folder(folder)
    }
}

impl Drop for Folder {
    fn drop(&mut self) {
        let _ = fs::remove_dir_all(&self.0);
    }
}
