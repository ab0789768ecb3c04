//! The programs that print pages and rolls, against the second checker.
use std::time::Duration;

use second::gen::{self, Fault};
use suite::bench::{examples, rolls, worked_roll, WORKED, WORKED_PAGE};
use suite::program::{cut, Program, LONGEST, TILL, TILL_ROLL};
use suite::texts::{models_to_damage, one_of_each};

const SEED: u64 = 7_500;

const BOTH: [Program; 2] = [TILL, TILL_ROLL];

#[test]
fn the_examples() {
    for (file, text, page) in examples() {
        assert_eq!(TILL.same(&text), page, "{}", file.display());
        TILL_ROLL.same(&text);
    }
    for (file, text, roll) in rolls() {
        assert_eq!(TILL_ROLL.same(&text), roll, "{}", file.display());
    }
}

#[test]
fn sizes() {
    for program in BOTH {
        sizes_of(&program);
    }
}

fn sizes_of(program: &Program) {
    let same = |text: &[u8]| program.same(text);
    assert_eq!(same(b""), b"F,32,1\n");
    for (byte, line) in [
        (b'\n', &b"F,2,1\n"[..]),
        (b'E', b"F,32,1\n"),
        (0, b"F,32,1\n"),
        (255, b"F,32,1\n"),
    ] {
        assert_eq!(same(&[byte; LONGEST]), line);
        assert_eq!(same(&[byte; LONGEST + 1]), b"F,1,0\n");
        assert_eq!(same(&[byte; 20_000]), b"F,1,0\n");
    }
    let mut rng = gen::seeded("program::sizes", SEED);
    let limits = gen::limit_models(&mut rng).into_iter();
    let mut longest = 0;
    for (_, model) in limits {
        let mut text = model.to_text();
        longest = longest.max(text.len());
        let printed = same(&text);
        assert!(printed.starts_with(b"V,"));
        let starts = model.extra_starts.len();
        let after_end = 1 + model.actions.len() + starts + model.steps.len() + 2;
        text.resize(LONGEST, b'\n');
        assert_eq!(same(&text), format!("F,32,{after_end}\n").into_bytes());
        for length in [LONGEST + 1, 20_000, 200_000] {
            text.resize(length, b'\n');
            assert_eq!(same(&text), b"F,1,0\n");
        }
    }
    assert_eq!(longest, 15_072, "the most bytes of a model's text");
}

#[test]
fn a_slow_pipe() {
    slow_pipe_to(&TILL, WORKED_PAGE);
    slow_pipe_to(&TILL_ROLL, worked_roll().as_bytes());
}

fn slow_pipe_to(program: &Program, worked: &[u8]) {
    let same_in_pieces = |pieces: &[&[u8]], pause| program.same_in_pieces(pieces, pause);
    let mut rng = gen::seeded("program::a_slow_pipe", SEED + 1);
    let pause = Duration::from_millis(7);
    let mut texts: Vec<Vec<u8>> = [LONGEST, LONGEST + 1, 20_000]
        .map(|length| vec![b'\n'; length])
        .to_vec();
    texts.extend((0..10).map(|_| gen::any_model(&mut rng).to_text()));
    let limits = gen::limit_models(&mut rng).into_iter().take(4);
    texts.extend(limits.map(|(_, model)| model.to_text()));
    for text in texts {
        let pieces = cut(&mut rng, &text, 1 + text.len() / 8);
        same_in_pieces(&pieces, pause);
    }
    // nothing at all, each byte by itself, and bytes that come after all else
    assert_eq!(same_in_pieces(&[b"", b""], pause), b"F,32,1\n");
    let bytes: Vec<&[u8]> = WORKED.chunks(1).collect();
    assert_eq!(same_in_pieces(&bytes, pause), worked);
    assert_eq!(same_in_pieces(&[WORKED, b"\n"], pause), b"F,32,10\n");
    let full = [b'\n'; LONGEST];
    assert_eq!(same_in_pieces(&[&full, b"\n"], pause), b"F,1,0\n");
    let (first, last) = WORKED.split_at(WORKED.len() - 1);
    assert_eq!(same_in_pieces(&[first, last], pause), worked);
}

/// The depth that a page tells, 0 if it is a page of a passed model.
fn depth(page: &[u8]) -> usize {
    let page = String::from_utf8(page.to_vec()).expect("a page is ASCII");
    let first: Vec<&str> = page.lines().next().expect("a line").split(',').collect();
    match first[..] {
        ["V", "refuse", _, depth] => depth.parse().expect("a depth"),
        ["V", "pass", _] => 0,
        _ => panic!("no verdict: {page}"),
    }
}

#[test]
fn random_models() {
    let mut rng = gen::seeded("program::random_models", SEED + 2);
    let mut depths = [0; 128];
    for round in 0..4_000 {
        let model = match round % 8 {
            0 => gen::deep_model(&mut rng, 1 + round / 8 % 127),
            1 => gen::branching_deep_model(&mut rng, 1 + round / 8 % 127),
            2..=4 => gen::deterministic_model(&mut rng),
            _ => gen::any_model(&mut rng),
        };
        depths[depth(&TILL.same(&model.to_text()))] += 1;
    }
    assert!(depths[0] > 800, "{} are passed", depths[0]);
    assert!(depths.iter().all(|&count| count > 3), "{depths:?}");
}

#[test]
fn random_rolls() {
    let mut rng = gen::seeded("program::random_rolls", SEED + 5);
    let mut refused = 0;
    for round in 0..2_000 {
        let model = match round % 4 {
            0 => gen::deep_model(&mut rng, 1 + round / 4 % 127),
            1 => gen::any_model(&mut rng),
            _ => gen::wide_model(&mut rng, round % 4 == 2),
        };
        let roll = TILL_ROLL.same(&model.to_text());
        refused += usize::from(roll.starts_with(b"V,refuse,"));
    }
    assert!((800..1_900).contains(&refused), "{refused}");
}

#[test]
fn damaged_texts() {
    let mut rng = gen::seeded("program::damaged_texts", SEED + 3);
    for round in 0..4_000 {
        let text = gen::any_model(&mut rng).to_text();
        let text = match round % 5 {
            0 => gen::scrap_text(&mut rng),
            _ => gen::mutated_text(&mut rng, &text),
        };
        TILL.same(&text);
        if round % 4 == 0 {
            TILL_ROLL.same(&text);
        }
    }
}

/// Both programs print the same line, which is not padded.
fn refused(fault: &Fault) {
    let _case = gen::text_case(&fault.text);
    let line = format!("F,{},{}\n", fault.refusal.number, fault.refusal.place);
    for program in BOTH {
        let printed = String::from_utf8(program.printed(&fault.text)).expect("a line");
        assert_eq!(printed, line, "{}: {}", program.name, fault.what);
    }
}

/// Every fault of two texts, and one of each kind at each kind of line of many more.
#[test]
fn every_fault_of_a_text() {
    let mut rng = gen::seeded("program::every_fault_of_a_text", SEED + 4);
    for model in [gen::small_model(&mut rng, false), gen::chain(3)] {
        gen::faults(&model).iter().for_each(refused);
    }
    let mut tried = 0;
    for model in models_to_damage(&mut rng, 30) {
        let faults = one_of_each(&mut rng, &model);
        faults.iter().for_each(refused);
        tried += faults.len();
    }
    assert!(tried > 3_000, "{tried}");
}
