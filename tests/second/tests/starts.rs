//! Tills that wake in several states (request (iii) of document 02), sentence
//! by sentence, with answers found by hand.

mod common;

use common::{model_of, refusal, store_of, till, waking_till};
use common::{Lists, CLOSE, EXAMPLE, EXAMPLE_PAGE, PRINT, SCAN};
use second::meaning::{self, Deterministic, Interference};
use second::store::{good, STORE, WRITTEN};
use second::{judge, page, program, rank, reach, read, roll, roll_program, run, word, write};
use second::{End, Refusal, Verdict};

fn passed(rank: u16) -> Verdict {
    Verdict::Passed { rank }
}

fn refused(step: u16, depth: u16) -> Verdict {
    Verdict::Refused { step, depth }
}

/// The page of a good text. It is checked besides, and so is the roll.
fn page_of(text: &[u8]) -> String {
    let (page, roll) = (program(text), roll_program(text));
    assert_eq!(meaning::page_holds(text, &page), Ok(()));
    assert_eq!(meaning::roll_holds(text, &page, &roll), Ok(()));
    String::from_utf8(page).expect("ASCII")
}

fn verdict(text: &[u8]) -> Verdict {
    let mut lists = Lists::new();
    page_of(text);
    judge(&store_of(text), &mut lists.distances, &mut lists.table).unwrap()
}

fn word_of(text: &[u8]) -> Result<(Vec<u16>, End), Refusal> {
    let mut lists = Lists::new();
    let (length, end) = word(
        &store_of(text),
        &mut lists.distances,
        &mut lists.table,
        &mut lists.word,
    )?;
    Ok((lists.word[..length].to_vec(), end))
}

/// The distances of a text's states.
fn distances(text: &[u8]) -> Vec<u16> {
    let mut lists = Lists::new();
    reach(&store_of(text), &mut lists.distances).unwrap();
    let states = usize::from(model_of(text).states);
    assert!(lists.distances[states..128].iter().all(|&d| d == 65_535));
    lists.distances[..states].to_vec()
}

fn run_of(text: &[u8], state: u16) -> Result<Vec<u16>, Refusal> {
    let mut lists = Lists::new();
    let length = run(&store_of(text), &mut lists.distances, &mut lists.run, state)?;
    assert!(lists.run[length..].iter().all(|&old| old == 7_778));
    Ok(lists.run[..length].to_vec())
}

/// The worked example, which has 4 states, with these lines after its actions.
/// The first of them is line 5.
fn example_with(lines: &[&str]) -> Vec<u8> {
    let place = EXAMPLE.windows(2).position(|two| two == b"S,");
    let (before, after) = EXAMPLE.split_at(place.expect("a step"));
    let lines = lines.iter().map(|line| format!("{line}\n"));
    let lines: String = lines.collect();
    [before, lines.as_bytes(), after].concat()
}

/// Lines after `I,1` in 4 states, each with its number. They stand in line 6.
const BAD: &[(&str, u16)] = &[
    // They begin with I, so they are I lines, whose form is wrong.
    ("I", 2),
    ("I2", 2),
    ("II,2", 2),
    ("IX,2", 2),
    ("IX,3", 2),
    ("I ,2", 2),
    ("I;2", 2),
    ("I\0,2", 2),
    ("I\r", 2),
    ("I,2,", 2),
    ("I,2,0", 2),
    ("I,,2", 2),
    ("I,2,3", 2),
    // A step is due in their place.
    ("", 2),
    ("i,2", 2),
    (" I,2", 2),
    (",2", 2),
    ("X,2", 2),
    ("S,2", 2),
    ("E", 2),
    ("A,L,beep", 2),
    // Digits.
    ("I,", 31),
    ("I,x", 31),
    ("I,02", 31),
    ("I,00", 31),
    ("I,+2", 31),
    ("I,-1", 31),
    ("I, 2", 31),
    ("I,2 ", 31),
    ("I,2\r", 31),
    ("I,2a", 31),
    ("I,100000", 31),
    ("I,000002", 31),
    // Not below states.
    ("I,4", 3),
    ("I,5", 3),
    ("I,128", 3),
    ("I,256", 3),
    ("I,65535", 3),
    ("I,65538", 3),
    ("I,99999", 3),
    // Not above the one before.
    ("I,1", 33),
    ("I,0", 33),
    // Two causes: 2 before 31, 3 and 33, and 31 before 33.
    ("IX", 2),
    ("IX,x", 2),
    ("IX,4", 2),
    ("IX,1", 2),
    ("I,x,0", 2),
    ("I,4,0", 2),
    ("I,1,0", 2),
    ("I,0,", 2),
    ("I,01", 31),
];

#[test]
fn wrong_lines() {
    for &(line, number) in BAD {
        assert_eq!(
            refusal(&example_with(&["I,1", line])),
            (number, 6),
            "{line}"
        );
        // The line decides before a later one.
        let later = example_with(&["I,1", line, "I,x"]);
        assert_eq!(refusal(&later), (number, 6), "{line}");
        // An earlier line decides before it.
        let earlier = example_with(&["I,4", line]);
        assert_eq!(refusal(&earlier), (3, 5), "{line}");
        let earlier = example_with(&["I,0", line]);
        assert_eq!(refusal(&earlier), (33, 5), "{line}");
    }
    assert_eq!(page_of(&example_with(&["I,1", "I,2"]))[..2], *"V,");
}

/// A line that has no line end gets 32, whatever else is wrong with it; and so
/// does the line after the last one that has.
#[test]
fn lines_that_are_absent_or_not_ended() {
    let text = example_with(&["I,1", "I,3"]);
    let ends_at = |line: &[u8]| text.windows(line.len()).position(|part| part == line);
    let before = &text[..ends_at(b"I,3").expect("the second start")];
    assert_eq!(refusal(before), (32, 6));
    for &(line, _) in BAD {
        let cut = [before, line.as_bytes()].concat();
        assert_eq!(refusal(&cut), (32, 6), "{line}");
    }
    for line in ["I,2", "I,3"] {
        let cut = [before, line.as_bytes()].concat();
        assert_eq!(refusal(&cut), (32, 6), "{line}");
        let ended = [before, line.as_bytes(), b"\n"].concat();
        assert_eq!(refusal(&ended), (32, 7), "{line}");
    }
    assert_eq!(refusal(b"M,2,1,0,0\nA,H,a\nI"), (32, 3));
    assert_eq!(refusal(b"M,2,1,0,0\nA,H,a\nI,1"), (32, 3));
    assert_eq!(refusal(b"M,2,1,0,0\nA,H,a\nI,1\n"), (32, 4));
    assert_eq!(refusal(b"M,2,1,0,0\nA,H,a\nI,1\nE"), (32, 4));
    assert_eq!(refusal(b"M,2,1,0,0\nA,H,a\nI,1\nE\nI,1\n"), (32, 5));
}

/// The first `I` line must be above line 1's start.
#[test]
fn the_first_is_above_the_start_in_line_1() {
    for start in 0..4 {
        for first in 0..4 {
            let text = waking_till(4, &[start, first], &[]);
            if first > start {
                assert_eq!(page_of(&text)[..9], *"V,pass,0\n");
            } else {
                assert_eq!(refusal(&text), (33, 5), "{first} after {start}");
            }
        }
    }
    // Above the start, and then not above the one before.
    assert_eq!(refusal(&waking_till(4, &[1, 3, 2], &[])), (33, 6));
    assert_eq!(refusal(&waking_till(4, &[1, 3, 3], &[])), (33, 6));
    assert_eq!(refusal(&waking_till(4, &[1, 2, 1], &[])), (33, 6));
    assert_eq!(refusal(&waking_till(4, &[1, 2, 3, 3], &[])), (33, 7));
    // Line 1 comes first.
    assert_eq!(refusal(&waking_till(4, &[4, 4], &[])), (3, 1));
}

#[test]
fn no_state_is_left_after_the_last() {
    let two = |first: u16, second: u16| refusal(&waking_till(128, &[0, first, second], &[]));
    assert_eq!(two(127, 128), (3, 6));
    assert_eq!(two(127, 127), (33, 6));
    assert_eq!(two(127, 126), (33, 6));
    assert_eq!(two(128, 127), (3, 5));
    assert_eq!(refusal(&waking_till(128, &[127, 128], &[])), (3, 5));
    assert_eq!(refusal(&waking_till(128, &[127, 127], &[])), (33, 5));
    assert_eq!(refusal(&waking_till(1, &[0, 0], &[])), (33, 5));
    assert_eq!(refusal(&waking_till(1, &[0, 1], &[])), (3, 5));
}

/// 127 extra starts are taken. A line more is an `I` line still.
#[test]
fn every_state_is_a_start() {
    let all: Vec<u16> = (0..128).collect();
    let text = waking_till(128, &all, &[(0, SCAN, 1)]);
    let store = store_of(&text);
    assert_eq!((store[3], store[3_972]), (0, 127));
    assert_eq!(store[3_973..], all[1..]);
    assert_eq!(distances(&text), [0; 128]);
    assert_eq!(run_of(&text, 127), Ok(Vec::new()));

    // M, 3 A, 127 I: the 128th stands in line 132.
    let head = &text[..text.len() - "S,0,0,1\nE\n".len()];
    for (line, number) in [
        ("I,128", 3),
        ("I,127", 33),
        ("I,0", 33),
        ("I,x", 31),
        ("I", 2),
        ("I,128,", 2),
        ("II,128", 2),
    ] {
        let longer = [head, line.as_bytes(), b"\nS,0,0,1\nE\n"].concat();
        assert_eq!(refusal(&longer), (number, 132), "{line}");
        let cut = [head, line.as_bytes()].concat();
        assert_eq!(refusal(&cut), (32, 132), "{line}");
    }
}

/// Before an action or after a step an `I` line has the wrong letter.
#[test]
fn lines_elsewhere() {
    let lines = |lines: &[&str]| lines.join("\n").into_bytes();
    for (text, place) in [
        (
            lines(&["I,1", "M,2,2,1,0", "A,L,a", "A,H,b", "S,0,0,1", "E", ""]),
            1,
        ),
        (
            lines(&["M,2,2,1,0", "I,1", "A,L,a", "A,H,b", "S,0,0,1", "E", ""]),
            2,
        ),
        (
            lines(&["M,2,2,1,0", "A,L,a", "I,1", "A,H,b", "S,0,0,1", "E", ""]),
            3,
        ),
        (
            lines(&["M,2,2,1,0", "A,L,a", "A,H,b", "S,0,0,1", "I,1", "E", ""]),
            5,
        ),
        // Two steps are told, or one that follows.
        (
            lines(&["M,2,2,2,0", "A,L,a", "A,H,b", "S,0,0,1", "I,1", "E", ""]),
            5,
        ),
        // A start more after a step, though it is above the one before.
        (
            lines(&["M,3,1,1,0", "A,H,b", "I,1", "S,0,0,1", "I,2", "E", ""]),
            5,
        ),
        // The line that ends the starts is refused itself.
        (lines(&["M,3,1,0,0", "A,H,b", "I,1", "", "I,2", "E", ""]), 4),
    ] {
        assert_eq!(refusal(&text), (2, place));
    }
    // An action more is told than there are.
    assert_eq!(refusal(b"M,2,2,0,0\nA,H,a\nI,1\nE\n"), (2, 3));
    // Bytes after `E`.
    assert_eq!(refusal(&[EXAMPLE, b"I,1\n"].concat()), (32, 10));
    // A step more is told than there are.
    assert_eq!(refusal(b"M,2,1,1,0\nA,H,a\nI,1\nE\n"), (2, 4));
    assert_eq!(
        page_of(b"M,2,1,0,0\nA,H,a\nI,1\nE\n"),
        "V,pass,0\nC,0,0,0\nC,1,0,0\nE\n"
    );
}

#[test]
fn a_text_without_such_lines_is_read_as_before() {
    let store = store_of(EXAMPLE);
    assert_eq!(store.len(), 4_100);
    assert!(store[3_972..].iter().all(|&number| number == 0));
    assert_eq!(page_of(EXAMPLE), EXAMPLE_PAGE);
    let mut lists = Lists::new();
    let length = write(&store, &mut lists.written).unwrap();
    assert_eq!(lists.written[..length], *EXAMPLE);
}

/// Five states, of which 1, 2 and 4 are starts.
const THREE_STARTS: &[u8] = b"M,5,1,1,1\nA,H,a\nI,2\nI,4\nS,0,0,0\nE\n";

/// Place 3,972 has the count, 3,973 and on the extra starts. Write puts them
/// back between the actions and the steps.
#[test]
fn stores_and_written_texts() {
    let mut expected = vec![0; 4_100];
    expected[..7].copy_from_slice(&[5, 1, 1, 1, 2, 1, 97]);
    expected[3_972..3_975].copy_from_slice(&[2, 2, 4]);
    assert_eq!(store_of(THREE_STARTS), expected);

    let old = Lists::new();
    let mut lists = old.clone();
    let length = write(&expected, &mut lists.written).unwrap();
    assert_eq!(lists.written[..length], *THREE_STARTS);
    assert_eq!(lists.written[length..], old.written[length..]);
}

/// The store of three starts with other numbers at some places.
fn changed(changes: &[(usize, u16)]) -> Vec<u16> {
    let mut store = store_of(THREE_STARTS);
    for &(place, number) in changes {
        store[place] = number;
    }
    store
}

#[test]
fn stores_that_are_not_good() {
    let bad: &[&[(usize, u16)]] = &[
        // The count exceeds 127, or does not fit.
        &[(3_972, 128)],
        &[(3_972, 65_535)],
        &[(3_972, 0)],
        &[(3_972, 1)],
        &[(3_972, 3)],
        &[(3_972, 127)],
        // Not above place 3.
        &[(3_973, 1)],
        &[(3_973, 0)],
        &[(3, 2)],
        &[(3, 3)],
        &[(3, 4)],
        // Not rising.
        &[(3_973, 4)],
        &[(3_974, 2)],
        &[(3_973, 4), (3_974, 2)],
        &[(3_974, 0)],
        // Not below states.
        &[(3_974, 5)],
        &[(3_974, 65_535)],
        &[(0, 4)],
        // Unused places that are not 0.
        &[(3_975, 1)],
        &[(3_975, 5)],
        &[(4_099, 1)],
        &[(4_099, 65_535)],
    ];
    for changes in bad {
        let store = changed(changes);
        assert_eq!(good(&store), Err(Refusal::new(22, 0)), "{changes:?}");
    }
    let rise: &[&[(usize, u16)]] = &[
        &[],
        &[(3, 0)],
        &[(3_973, 3)],
        &[(3_974, 3)],
        &[(0, 6), (3_974, 5)],
        &[(3_972, 1), (3_974, 0)],
        &[(3_972, 0), (3_973, 0), (3_974, 0)],
        &[(3_972, 3), (3_974, 3), (3_975, 4)],
        &[(0, 128), (3_972, 3), (3_975, 127)],
    ];
    for changes in rise {
        let model = good(&changed(changes)).expect("a good store");
        assert_eq!(model.to_store(), changed(changes), "{changes:?}");
    }
}

/// A store of 3,972 numbers is too short now, for each operation.
#[test]
fn least_lengths() {
    assert_eq!((STORE, WRITTEN), (4_100, 15_182));
    let full = store_of(EXAMPLE);
    let old = Lists::new();
    for length in [0, 3_971, 3_972, 3_973, 4_099] {
        let store = &full[..length];
        let mut l = old.clone();
        let refusals = [
            reach(store, &mut l.distances).err(),
            rank(store, &mut l.table).err(),
            judge(store, &mut l.distances, &mut l.table).err(),
            run(store, &mut l.distances, &mut l.run, 0).err(),
            word(store, &mut l.distances, &mut l.table, &mut l.word).err(),
            l.page(store).err(),
            l.roll(store).err(),
            write(store, &mut l.written).err(),
        ];
        assert_eq!(refusals, [Some(Refusal::new(21, 1)); 8]);
        assert_eq!(l, old);
        let mut short = vec![6; length];
        for text in [EXAMPLE, THREE_STARTS, b""] {
            assert_eq!(read(text, &mut short), Err(Refusal::new(21, 2)));
            assert!(short.iter().all(|&number| number == 6));
        }
    }
    for length in [14_420, 15_072, 15_181] {
        let mut out = vec![b'!'; length];
        assert_eq!(write(&full, &mut out), Err(Refusal::new(21, 2)));
        assert!(out.iter().all(|&byte| byte == b'!'));
    }
    assert_eq!(write(&full, &mut [b'!'; 15_182]), Ok(EXAMPLE.len()));
    // Page's lists are otherwise as before.
    let mut l = old.clone();
    let out = &mut l.out[..5_000];
    let answer = page(
        &full,
        &mut l.distances[..128],
        &mut l.table[..16_384],
        &mut l.run[..127],
        &mut l.word[..127],
        out,
    );
    assert_eq!(answer, Ok(EXAMPLE_PAGE.len()));
    let paper = &mut l.paper[..35_840];
    let answer = roll(
        &full,
        &mut l.distances[..128],
        &mut l.table[..16_384],
        &mut l.run[..127],
        &mut l.word[..127],
        paper,
    );
    assert_eq!(answer, Ok(9 * 43));
}

/// 4 is three steps from line 1's start and one from the other.
const NEARER: [(u16, u16, u16); 4] = [(0, SCAN, 1), (1, SCAN, 2), (2, SCAN, 4), (3, CLOSE, 4)];

#[test]
fn distances_are_from_the_nearest_start() {
    assert_eq!(distances(&till(5, &NEARER)), [0, 1, 2, 65_535, 3]);
    assert_eq!(run_of(&till(5, &NEARER), 4), Ok(vec![0, 1, 2]));
    let text = waking_till(5, &[0, 3], &NEARER);
    assert_eq!(distances(&text), [0, 1, 2, 0, 1]);
    assert_eq!(run_of(&text, 4), Ok(vec![3]));
    assert_eq!(run_of(&text, 2), Ok(vec![0, 1]));
    let page = "V,pass,3\nC,0,0,0\nC,1,1,1\nC,2,2,2\nC,3,0,3\nC,4,1,3\nE\n";
    assert_eq!(page_of(&text), page);

    // The same with line 1's start the nearer one.
    let steps = [(0, CLOSE, 4), (1, SCAN, 2), (2, SCAN, 3), (3, SCAN, 4)];
    let text = waking_till(5, &[0, 1], &steps);
    assert_eq!(distances(&text), [0, 0, 1, 2, 1]);
    assert_eq!(run_of(&text, 4), Ok(vec![0]));
    assert_eq!(run_of(&text, 3), Ok(vec![1, 2]));
}

/// A start that another leads to has distance 0, and its run is empty.
#[test]
fn starts_that_lead_to_each_other() {
    let steps = [(0, SCAN, 1), (1, SCAN, 2), (2, SCAN, 3), (3, SCAN, 0)];
    let text = waking_till(4, &[0, 2], &steps);
    assert_eq!(distances(&text), [0, 1, 0, 1]);
    for (state, run) in [(0, vec![]), (1, vec![0]), (2, vec![]), (3, vec![2])] {
        assert_eq!(run_of(&text, state), Ok(run));
    }
    let text = waking_till(4, &[1, 2, 3], &steps);
    assert_eq!(distances(&text), [1, 0, 0, 0]);
    assert_eq!(run_of(&text, 0), Ok(vec![3]));
}

/// Run goes back by its rule alone. Two starts are two steps from 4, and the
/// lowest step into 4 comes from 2, which the later start leads to.
#[test]
fn a_run_begins_where_its_rule_leads_back_to() {
    let steps = [(0, SCAN, 3), (1, SCAN, 2), (2, SCAN, 4), (3, SCAN, 4)];
    let text = waking_till(5, &[0, 1], &steps);
    assert_eq!(distances(&text), [0, 0, 1, 1, 2]);
    assert_eq!(run_of(&text, 4), Ok(vec![1, 2]));
    assert_eq!(run_of(&till(5, &steps), 4), Ok(vec![0, 3]));
    // Both lead to 2 in a step, of which line 1's has the lower number.
    let text = waking_till(3, &[0, 1], &[(0, CLOSE, 2), (1, SCAN, 2)]);
    assert_eq!(run_of(&text, 2), Ok(vec![0]));
    // No start leads to 1.
    let text = waking_till(4, &[0, 2], &[(1, SCAN, 0), (2, SCAN, 3)]);
    assert_eq!(run_of(&text, 1), Err(Refusal::new(26, 1)));
    assert_eq!(run_of(&text, 4), Err(Refusal::new(25, 4)));
}

/// The example of a till that wakes in two states. 0 to 5 scan for ever, 6
/// scans once, 7 never. Line 1's start leads to 3 in three steps, the other in
/// one, and the other alone leads to the print from 5 to 6.
#[test]
fn a_till_that_leaks_from_its_second_start_only() {
    let text = include_bytes!("../../../examples/two_starts.txt");
    let steps = [
        (0, SCAN, 1),
        (1, SCAN, 2),
        (2, SCAN, 3),
        (2, PRINT, 3),
        (3, SCAN, 3),
        (3, CLOSE, 0),
        (4, SCAN, 5),
        (4, CLOSE, 3),
        (5, SCAN, 3),
        (5, PRINT, 6),
        (6, SCAN, 7),
    ];
    assert_eq!(text[..], waking_till(8, &[0, 4], &steps));
    let page = "V,refuse,9,2\n\
        C,0,0,0\nC,1,1,0\nC,2,2,0\nC,3,1,0\nC,4,0,0\nC,5,1,0\nC,6,2,6\nC,7,3,7\n\
        R,6\nW,scan\nW,scan\nB,source\nE\n";
    assert_eq!(page_of(text), page);
    assert_eq!(word_of(text), Ok((vec![SCAN, SCAN], End::Source)));

    let alone = till(8, &steps);
    let page = "V,pass,2\n\
        C,0,0,0\nC,1,1,0\nC,2,2,0\nC,3,3,0\nC,4,-,0\nC,5,-,0\nC,6,-,6\nC,7,-,7\nE\n";
    assert_eq!(page_of(&alone), page);
    assert_eq!(word_of(&alone), Err(Refusal::new(24, 0)));
    // From its second start alone it leaks as well.
    assert_eq!(verdict(&waking_till(8, &[4], &steps)), refused(9, 2));

    let model = model_of(text);
    let exact = Deterministic::new(&model).expect("deterministic");
    let found = exact.interference().expect("it interferes");
    assert_eq!(found.start, 4);
}

/// The bench model whose print step is unreachable, with its source a start.
#[test]
fn a_high_step_reachable_from_an_extra_start_only() {
    let steps = [(1, PRINT, 2), (2, SCAN, 2)];
    assert_eq!(verdict(&till(3, &steps)), passed(1));
    let text = waking_till(3, &[0, 1], &steps);
    let page = "V,refuse,0,1\nC,0,0,0\nC,1,0,0\nC,2,1,2\nW,scan\nB,target\nE\n";
    assert_eq!(page_of(&text), page);
    // Its target as a start leads to no print.
    let text = waking_till(3, &[0, 2], &steps);
    let page = "V,pass,1\nC,0,0,0\nC,1,-,0\nC,2,0,2\nE\n";
    assert_eq!(page_of(&text), page);
}

/// The worked example leaks at depth 2 from line 1's start. The other start
/// prints from a state that scans to one that does not: a later step, but a
/// lower depth.
#[test]
fn the_least_depth_from_any_start() {
    let steps = [
        (0, SCAN, 1),
        (0, PRINT, 2),
        (1, SCAN, 1),
        (2, SCAN, 3),
        (4, SCAN, 1),
        (4, PRINT, 3),
    ];
    assert_eq!(verdict(&till(5, &steps)), refused(1, 2));
    let text = waking_till(5, &[0, 4], &steps);
    let page = "V,refuse,5,1\n\
        C,0,0,0\nC,1,1,0\nC,2,1,2\nC,3,1,3\nC,4,0,0\nW,scan\nB,source\nE\n";
    assert_eq!(page_of(&text), page);
}

/// Two scans of a state that only an extra start is or leads to.
#[test]
fn deterministic_from_every_start() {
    let steps = [(0, PRINT, 3), (1, SCAN, 2), (1, SCAN, 3), (3, SCAN, 3)];
    let text = till(4, &steps);
    assert_eq!(verdict(&text), refused(0, 1));
    assert_eq!(word_of(&text), Ok((vec![SCAN], End::Target)));
    let text = waking_till(4, &[0, 1], &steps);
    assert_eq!(verdict(&text), refused(0, 1));
    assert_eq!(word_of(&text), Err(Refusal::new(23, 2)));
    let page = "V,refuse,0,1\nC,0,0,0\nC,1,0,1\nC,2,1,0\nC,3,1,3\nN\nE\n";
    assert_eq!(page_of(&text), page);
    // The starts each offer a scan, to different states: that is no branching.
    let text = waking_till(3, &[0, 1], &[(0, SCAN, 1), (1, SCAN, 2)]);
    assert_eq!(word_of(&text), Err(Refusal::new(24, 0)));
}

/// A thinned sequence begins in the same start as the full one. Scan is
/// possible from the other start, and this helps neither.
#[test]
fn thinned_sequences_begin_in_the_same_start() {
    let steps = [(0, PRINT, 1), (1, SCAN, 2), (3, SCAN, 4)];
    let text = waking_till(5, &[0, 3], &steps);
    let page = "V,refuse,0,1\n\
        C,0,0,0\nC,1,1,1\nC,2,2,0\nC,3,0,1\nC,4,1,0\nW,scan\nB,target\nE\n";
    assert_eq!(page_of(&text), page);
    let model = model_of(&text);
    let exact = Deterministic::new(&model).expect("deterministic");
    let interference = |start: u16| Interference {
        start,
        sequence: vec![PRINT],
        low: vec![SCAN],
    };
    assert_eq!(exact.interference(), Some(interference(0)));
    assert_eq!(verdict(&waking_till(5, &[3], &steps)), passed(1));

    let steps = [(0, SCAN, 1), (2, PRINT, 3), (3, SCAN, 4)];
    let text = waking_till(5, &[0, 2], &steps);
    assert_eq!(verdict(&text), refused(1, 1));
    let model = model_of(&text);
    let exact = Deterministic::new(&model).expect("deterministic");
    assert_eq!(exact.interference(), Some(interference(2)));
    assert_eq!(verdict(&till(5, &steps)), passed(1));
}

/// The starts need not be alike for a model to pass.
#[test]
fn a_till_that_passes_from_both_starts() {
    // 0 and 1 scan for ever, 2 and 3 never.
    let steps = [
        (0, SCAN, 1),
        (0, PRINT, 1),
        (1, SCAN, 0),
        (2, PRINT, 3),
        (3, CLOSE, 0),
    ];
    let text = waking_till(4, &[0, 2], &steps);
    let page = "V,pass,1\nC,0,0,0\nC,1,1,0\nC,2,0,2\nC,3,1,2\nE\n";
    assert_eq!(page_of(&text), page);
    let model = model_of(&text);
    let exact = Deterministic::new(&model).expect("deterministic");
    assert_eq!(exact.interference(), None);
}

/// The example of an `I` line equal to the one before.
#[test]
fn a_start_given_twice() {
    let text = include_bytes!("../../../examples/start_twice.txt");
    assert_eq!(text[..], example_with(&["I,2", "I,2"]));
    assert_eq!(refusal(text), (33, 6));
    assert_eq!(
        include_bytes!("../../../examples/start_twice.page"),
        b"F,33,6\n"
    );
}

/// The example in which every state is a start. State i scans i times, so no
/// two are alike; a print leads each back to itself, but the last to the one
/// before it. From line 1's start nothing can be done but print.
#[test]
fn a_till_that_wakes_in_128_states() {
    let text = include_bytes!("../../../examples/starts_128.txt");
    let mut steps = vec![(0, PRINT, 0)];
    for state in 1..128 {
        steps.push((state, SCAN, state - 1));
        steps.push((state, PRINT, if state < 127 { state } else { 126 }));
    }
    let all: Vec<u16> = (0..128).collect();
    assert_eq!(text[..], waking_till(128, &all, &steps));

    // The last of 255 steps. 127 scans tell the last state from the one before,
    // there is no `R` line, and each state has its own class.
    let mut page = "V,refuse,254,127\n".to_string();
    for state in 0..128 {
        page += &format!("C,{state},0,{state}\n");
    }
    page += &"W,scan\n".repeat(127);
    page += "B,source\nE\n";
    assert_eq!(page_of(text), page);
    let kept = include_str!("../../../examples/starts_128.page");
    assert_eq!(kept, page);

    // Without the last `I` line no start leads to the step that leaks.
    let fewer = waking_till(128, &all[..127], &steps);
    assert_eq!(verdict(&fewer), passed(127));
    assert_eq!(distances(&fewer)[127], 65_535);
    assert_eq!(verdict(&till(128, &steps)), passed(127));
}
