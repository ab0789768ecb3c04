//! The worked example and the bench models, with answers found by hand.

mod common;

use common::{model_of, store_of, till, Lists, CLOSE, EXAMPLE, EXAMPLE_PAGE, PRINT, SCAN};
use second::meaning::{self, possible, thin, Deterministic};
use second::store::{RUN, STORE, WORD};
use second::{judge, program, rank, reach, run, word, write, End, Refusal, Verdict};

fn passed(rank: u16) -> Verdict {
    Verdict::Passed { rank }
}

fn refused(step: u16, depth: u16) -> Verdict {
    Verdict::Refused { step, depth }
}

/// Judges a text, and checks its page besides.
fn verdict(text: &[u8]) -> Verdict {
    let mut lists = Lists::new();
    let store = store_of(text);
    let verdict = judge(&store, &mut lists.distances, &mut lists.table).unwrap();
    let page = program(text);
    let first = match verdict {
        Verdict::Passed { rank } => format!("V,pass,{rank}\n"),
        Verdict::Refused { step, depth } => format!("V,refuse,{step},{depth}\n"),
    };
    assert!(page.starts_with(first.as_bytes()));
    assert_eq!(meaning::page_holds(text, &page), Ok(()));
    verdict
}

fn word_of(text: &[u8]) -> Result<(Vec<u16>, End), Refusal> {
    let mut lists = Lists::new();
    let (length, end) = word(
        &store_of(text),
        &mut lists.distances,
        &mut lists.table,
        &mut lists.word,
    )?;
    Ok((lists.word[..length].to_vec(), end))
}

#[test]
fn example_store() {
    let mut expected = vec![0; STORE];
    expected[..4].copy_from_slice(&[4, 3, 4, 0]);
    for (place, level, name) in [(4, 0, "scan"), (18, 2, "print"), (32, 1, "close")] {
        expected[place] = level;
        expected[place + 1] = name.len() as u16;
        for (k, byte) in name.bytes().enumerate() {
            expected[place + 2 + k] = u16::from(byte);
        }
    }
    expected[900..912].copy_from_slice(&[0, 0, 1, 0, 1, 2, 1, 0, 1, 2, 0, 3]);
    assert_eq!(store_of(EXAMPLE), expected);

    let mut longer = vec![5; STORE + 2];
    assert_eq!(second::read(EXAMPLE, &mut longer), Ok(()));
    expected.extend([5, 5]);
    assert_eq!(longer, expected);
}

/// The distances and the table of the example, with the old contents after
/// them.
fn example_lists() -> (Vec<u16>, Vec<u8>) {
    let mut distances = vec![65_535; 128];
    distances[..4].copy_from_slice(&[0, 1, 1, 2]);
    distances.extend([7_777; 3]);
    let mut table = vec![0; 16_384];
    // 0 and 1 scan for ever, 2 scans once, 3 never scans.
    for (p, q, rank) in [(0, 2, 2), (0, 3, 1), (1, 2, 2), (1, 3, 1), (2, 3, 1)] {
        table[128 * p + q] = rank;
        table[128 * q + p] = rank;
    }
    table.extend([77; 3]);
    (distances, table)
}

#[test]
fn example_judged() {
    let store = store_of(EXAMPLE);
    let (distances, table) = example_lists();

    let mut lists = Lists::new();
    assert_eq!(reach(&store, &mut lists.distances), Ok(()));
    assert_eq!(lists.distances, distances);
    assert_eq!(rank(&store, &mut lists.table), Ok(2));
    assert_eq!(lists.table, table);

    let mut lists = Lists::new();
    let answer = judge(&store, &mut lists.distances, &mut lists.table);
    assert_eq!(answer, Ok(refused(1, 2)));
    assert_eq!(lists.distances, distances);
    assert_eq!(lists.table, table);

    let old = Lists::new();
    for (state, steps) in [(0, vec![]), (1, vec![0]), (2, vec![1]), (3, vec![1, 3])] {
        let mut lists = old.clone();
        let answer = run(&store, &mut lists.distances, &mut lists.run, state);
        assert_eq!(answer, Ok(steps.len()));
        assert_eq!(lists.distances, distances);
        assert_eq!(&lists.run[..steps.len()], steps);
        assert_eq!(lists.run[steps.len()..], old.run[steps.len()..]);
    }
}

#[test]
fn example_shown() {
    let (store, old) = (store_of(EXAMPLE), Lists::new());
    let (distances, table) = example_lists();
    let shown = |lists: &Lists| {
        assert_eq!(lists.distances, distances);
        assert_eq!(lists.table, table);
        assert_eq!(lists.run, old.run);
        assert_eq!(lists.word[..2], [SCAN, SCAN]);
        assert_eq!(lists.word[2..], old.word[2..]);
    };

    let mut lists = old.clone();
    let answer = word(
        &store,
        &mut lists.distances,
        &mut lists.table,
        &mut lists.word,
    );
    assert_eq!(answer, Ok((2, End::Source)));
    shown(&lists);

    let mut lists = old.clone();
    let length = lists.page(&store).unwrap();
    assert_eq!(&lists.out[..length], EXAMPLE_PAGE.as_bytes());
    assert_eq!(lists.out[length..], old.out[length..]);
    shown(&lists);

    let mut lists = old.clone();
    let length = write(&store, &mut lists.written).unwrap();
    assert_eq!(&lists.written[..length], EXAMPLE);
    assert_eq!(lists.written[length..], old.written[length..]);
}

#[test]
fn example_page() {
    assert_eq!(program(EXAMPLE), EXAMPLE_PAGE.as_bytes());
    assert_eq!(verdict(EXAMPLE), refused(1, 2));
}

#[test]
fn printing_behind_a_release_passes() {
    let text = till(
        4,
        &[(0, SCAN, 1), (0, PRINT, 2), (2, SCAN, 3), (2, CLOSE, 0)],
    );
    assert_eq!(verdict(&text), passed(1));
    assert_eq!(word_of(&text), Err(Refusal::new(24, 0)));
    // 0 and 2 scan once, 1 and 3 never.
    let page = "V,pass,1\nC,0,0,0\nC,1,1,1\nC,2,1,0\nC,3,2,1\nE\n";
    assert_eq!(program(&text), page.as_bytes());
}

/// The starred model with a release, with close low.
fn close_low() -> Vec<u8> {
    let text = till(3, &[(0, PRINT, 1), (1, CLOSE, 2), (2, SCAN, 2)]);
    let text = String::from_utf8(text).expect("ASCII");
    text.replace("A,D,close", "A,L,close").into_bytes()
}

#[test]
fn a_release_shows_and_a_low_step_tells() {
    let text = till(3, &[(0, PRINT, 1), (1, CLOSE, 2), (2, SCAN, 2)]);
    assert_eq!(verdict(&text), passed(1));

    let text = close_low();
    assert_eq!(verdict(&text), refused(0, 1));
    assert_eq!(word_of(&text), Ok((vec![CLOSE], End::Target)));
    let page = "V,refuse,0,1\nC,0,0,0\nC,1,1,1\nC,2,2,2\nW,close\nB,target\nE\n";
    assert_eq!(program(&text), page.as_bytes());
}

#[test]
fn same_words_but_not_alike() {
    let text = till(
        4,
        &[
            (0, SCAN, 2),
            (0, SCAN, 3),
            (0, PRINT, 1),
            (1, SCAN, 2),
            (2, SCAN, 3),
        ],
    );
    assert_eq!(verdict(&text), refused(2, 2));
    assert_eq!(word_of(&text), Err(Refusal::new(23, 1)));
    let page = "V,refuse,2,2\nC,0,0,0\nC,1,1,1\nC,2,1,2\nC,3,1,3\nN\nE\n";
    assert_eq!(program(&text), page.as_bytes());

    let model = model_of(&text);
    assert!(!meaning::deterministic(&model));
    for length in 0..6 {
        let scans = vec![SCAN; length];
        assert_eq!(possible(&model, 0, &scans), possible(&model, 1, &scans));
    }
}

#[test]
fn one_state() {
    for text in [till(1, &[]), till(1, &[(0, PRINT, 0)])] {
        assert_eq!(verdict(&text), passed(0));
        assert_eq!(word_of(&text), Err(Refusal::new(24, 0)));
        assert_eq!(program(&text), b"V,pass,0\nC,0,0,0\nE\n");
    }
}

#[test]
fn an_unreachable_print_passes() {
    let text = till(3, &[(1, PRINT, 2), (2, SCAN, 2)]);
    assert_eq!(verdict(&text), passed(1));
    let page = "V,pass,1\nC,0,0,0\nC,1,-,0\nC,2,-,2\nE\n";
    assert_eq!(program(&text), page.as_bytes());
}

#[test]
fn thinning() {
    let model = model_of(EXAMPLE);
    let sequence = [PRINT, SCAN, CLOSE, PRINT, SCAN];
    assert_eq!(thin(&model, &sequence), [PRINT, SCAN, CLOSE, SCAN]);
    assert_eq!(thin(&model, &[]), Vec::<u16>::new());
    assert_eq!(thin(&model, &[PRINT, PRINT]), Vec::<u16>::new());
    assert_eq!(thin(&model, &[PRINT, CLOSE]), [PRINT, CLOSE]);
}

#[test]
fn chain_of_128() {
    let mut steps: Vec<(u16, u16, u16)> = (0..127).map(|i| (i, SCAN, i + 1)).collect();
    steps.insert(1, (0, PRINT, 1));
    let text = till(128, &steps);
    assert_eq!(verdict(&text), refused(1, 127));
    assert_eq!(word_of(&text), Ok((vec![SCAN; 127], End::Source)));

    let mut page = "V,refuse,1,127\n".to_string();
    for state in 0..128 {
        page += &format!("C,{state},{state},{state}\n");
    }
    page += &"W,scan\n".repeat(127);
    page += "B,source\nE\n";
    assert_eq!(program(&text), page.as_bytes());

    let mut lists = Lists::new();
    let store = store_of(&text);
    let answer = run(&store, &mut lists.distances, &mut lists.run, 127);
    assert_eq!(answer, Ok(RUN));
    let run: Vec<u16> = (0..128).filter(|&step| step != 1).collect();
    assert_eq!(lists.run[..RUN], run);
    assert_eq!(rank(&store, &mut lists.table), Ok(127));
    assert_eq!(WORD, 127);

    let mut steps: Vec<(u16, u16, u16)> = (0..128).map(|i| (i, SCAN, i + 1)).collect();
    steps.insert(1, (0, PRINT, 1));
    assert_eq!(program(&till(129, &steps)), b"F,3,1\n");
}

#[test]
fn run_takes_the_lowest_step_from_one_nearer() {
    // Two ways to 3; the step into 3 with the lower number comes from 1. The
    // step into 1 with the lower number is scan, and print leads there too.
    let text = till(
        4,
        &[
            (0, SCAN, 1),
            (0, SCAN, 2),
            (0, PRINT, 1),
            (1, SCAN, 3),
            (2, SCAN, 3),
            (3, CLOSE, 1),
        ],
    );
    let store = store_of(&text);
    for (state, steps) in [(0, vec![]), (1, vec![0]), (2, vec![1]), (3, vec![0, 3])] {
        let mut lists = Lists::new();
        let answer = run(&store, &mut lists.distances, &mut lists.run, state);
        assert_eq!(answer, Ok(steps.len()));
        assert_eq!(lists.run[..steps.len()], steps);
    }

    // Going forward by the lowest step would enter 3 by way of 1; the lowest
    // step into 3 comes from 2, whose number the start is above.
    let text = String::from_utf8(till(4, &[(1, SCAN, 3), (2, SCAN, 1), (2, SCAN, 3)]))
        .unwrap()
        .replace("M,4,3,3,0", "M,4,3,3,2");
    let store = store_of(text.as_bytes());
    let mut lists = Lists::new();
    let answer = run(&store, &mut lists.distances, &mut lists.run, 3);
    assert_eq!(answer, Ok(1));
    assert_eq!(lists.run[0], 2);
}

#[test]
fn word_is_the_first_by_action_numbers() {
    // From 0 the words a b and b a are possible, from 1 only a and b; the
    // high step is action 0, so a is 1 and b is 2.
    let text = b"M,4,3,7,0\nA,H,h\nA,L,a\nA,L,b\n\
        S,0,0,1\nS,0,1,2\nS,0,2,2\nS,1,1,3\nS,1,2,3\nS,2,1,3\nS,2,2,3\nE\n";
    assert_eq!(verdict(text), refused(0, 2));
    assert_eq!(word_of(text), Ok((vec![1, 1], End::Source)));

    // The same, but a after a is gone at 2: the first word is now a b.
    let text = b"M,4,3,6,0\nA,H,h\nA,L,a\nA,L,b\n\
        S,0,0,1\nS,0,1,2\nS,0,2,2\nS,1,1,3\nS,1,2,3\nS,2,2,3\nE\n";
    assert_eq!(verdict(text), refused(0, 2));
    assert_eq!(word_of(text), Ok((vec![1, 2], End::Source)));

    // The target allows the first word, the source a later one.
    let text = b"M,3,3,3,0\nA,L,a\nA,L,b\nA,H,h\n\
        S,0,1,2\nS,0,2,1\nS,1,0,2\nE\n";
    assert_eq!(verdict(text), refused(1, 1));
    assert_eq!(word_of(text), Ok((vec![0], End::Target)));
}

#[test]
fn judge_takes_the_least_rank_then_the_lowest_step() {
    // 0 scans three times, 1 twice, 2 once, 3 never. Print leads from 0 to 1
    // (rank 3), from 1 to 2 (rank 2), from 2 to 1 (rank 2).
    let text = till(
        4,
        &[
            (0, SCAN, 1),
            (0, PRINT, 1),
            (1, SCAN, 2),
            (1, PRINT, 2),
            (2, SCAN, 3),
            (2, PRINT, 1),
        ],
    );
    assert_eq!(verdict(&text), refused(3, 2));
    assert_eq!(word_of(&text), Ok((vec![SCAN, SCAN], End::Source)));
    let page = "V,refuse,3,2\nC,0,0,0\nC,1,1,1\nC,2,2,2\nC,3,3,3\n\
        R,0\nW,scan\nW,scan\nB,source\nE\n";
    assert_eq!(program(&text), page.as_bytes());
}

#[test]
fn doubles_count_only_where_they_are_reachable() {
    // State 2 has two scans, but nothing leads to it.
    let text = till(
        3,
        &[(0, PRINT, 1), (1, SCAN, 1), (2, SCAN, 0), (2, SCAN, 1)],
    );
    assert_eq!(word_of(&text), Ok((vec![SCAN], End::Target)));
    // Two prints from a reachable state are enough, whatever is played.
    let text = till(2, &[(0, PRINT, 0), (0, PRINT, 1), (1, SCAN, 1)]);
    assert_eq!(word_of(&text), Err(Refusal::new(23, 1)));
    // So are two closes; 23 comes before 24.
    let text = till(2, &[(0, CLOSE, 0), (0, CLOSE, 1)]);
    assert_eq!(word_of(&text), Err(Refusal::new(23, 1)));
}

#[test]
fn the_starred_passes_and_refusals_mean_what_they_say() {
    for text in [
        EXAMPLE.to_vec(),
        till(
            4,
            &[(0, SCAN, 1), (0, PRINT, 2), (2, SCAN, 3), (2, CLOSE, 0)],
        ),
        till(3, &[(0, PRINT, 1), (1, CLOSE, 2), (2, SCAN, 2)]),
        close_low(),
        till(1, &[]),
        till(1, &[(0, PRINT, 0)]),
        till(3, &[(1, PRINT, 2), (2, SCAN, 2)]),
    ] {
        let model = model_of(&text);
        let exact = Deterministic::new(&model).expect("deterministic");
        assert_eq!(exact.verdict_holds(verdict(&text)), Ok(()));
    }
}
