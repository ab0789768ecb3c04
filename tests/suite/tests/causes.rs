//! What is told of a text that is not read: the number and the place of its first bad line. In a line 32 is tested
//! first, then 2, then 31, then 3, then 4, 5 or 33, each over the whole line; in the last `A` line 35 comes last, and
//! `high.rs` has more of it. By the operations, the programs and the script.
use std::collections::BTreeSet;
use std::fs;

use second::gen::{self, BadLine};
use second::text::{self, Cause};
use second::Refusal;
use suite::bench::{root, waking_text, ACTIONS, TWO_STARTS, WORKED};
use suite::lists::Lists;
use suite::not_read;
use suite::operations::READ;
use suite::texts::models_to_damage;

const SEED: u64 = 7_900;

/// Texts of the causes that requests (i), (iii) and (vi) name, and of 4 and 5, each with its number and its place.
const REQUESTED: &[(&str, u16, u64)] = &[
    // the empty text
    ("", 32, 1),
    // an empty field, six digits, a sign, a blank; five digits are too large a number
    ("M,1,1,1,0\nA,H,print\nS,0,,0\nE\n", 31, 3),
    ("M,1,1,1,0\nA,H,print\nS,0,0,100000\nE\n", 31, 3),
    ("M,1,1,1,0\nA,H,print\nS,0,0,99999\nE\n", 3, 3),
    ("M,1,1,1,0\nA,H,print\nS,-0,0,0\nE\n", 31, 3),
    ("M,1,1,1,0\nA,H,print\nS,0, 0,0\nE\n", 31, 3),
    // a leading zero
    ("M,01,1,0,0\nA,H,print\nE\n", 31, 1),
    // a line that is absent, one that has no line end
    ("M,1,1,0,0\nA,H,print\n", 32, 3),
    ("M,1,1,0,0\nA,H,print\nE", 32, 3),
    // bytes after `E`, a lone line end too
    ("M,1,1,0,0\nA,H,print\nE\nx", 32, 4),
    ("M,1,1,0,0\nA,H,print\nE\n\n", 32, 4),
    // letter, field count, level and name stay
    ("M,1,1,0,0\na,H,print\nE\n", 2, 2),
    ("M,1,1,0,0\nA,print\nE\n", 2, 2),
    ("M,1,1,0,0\nA,h,print\nE\n", 2, 2),
    ("M,1,1,0,0\nA,H,Print\nE\n", 2, 2),
    // 32 first, then 2, then 31, then 3, each over the whole line
    ("M,1,1,0,0\nA,X", 32, 2),
    ("M,2,1,1,0\nA,H,print\nS,1,x\nE\n", 2, 3),
    ("M,200,3,4,x\n", 31, 1),
    ("M,200,3,4,0\n", 3, 1),
    // the first bad line decides, also where a later one is absent or bytes stand after `E`
    ("M,1,1,1,0\nA,H,print\nS,0,,0\n", 31, 3),
    ("M,1,1,0,0\nA,h,print\nE\nx", 2, 2),
    // a name used before, a step not above the one before it
    ("M,1,2,0,0\nA,L,scan\nA,H,scan\nE\n", 4, 3),
    ("M,1,1,2,0\nA,H,print\nS,0,0,0\nS,0,0,0\nE\n", 5, 4),
    // an `I` line equal to the one before it and one below, the first equal to line 1's start and below
    ("M,3,1,0,0\nA,H,print\nI,1\nI,1\nE\n", 33, 4),
    ("M,3,1,0,0\nA,H,print\nI,2\nI,1\nE\n", 33, 4),
    ("M,3,1,0,1\nA,H,print\nI,1\nE\n", 33, 3),
    ("M,3,1,0,2\nA,H,print\nI,1\nE\n", 33, 3),
    // where no state is left: 3 comes before 33
    ("M,3,1,0,0\nA,H,print\nI,2\nI,3\nE\n", 3, 4),
    ("M,1,1,0,0\nA,H,print\nI,1\nE\n", 3, 3),
    ("M,1,1,0,0\nA,H,print\nI,0\nE\n", 33, 3),
    // elsewhere its letter is wrong: before line 1, before an action, after a step
    ("I,1\nM,2,1,0,0\nA,H,print\nE\n", 2, 1),
    ("M,2,1,0,0\nI,1\nA,H,print\nE\n", 2, 2),
    ("M,2,2,0,0\nA,H,print\nI,1\nA,L,scan\nE\n", 2, 3),
    ("M,2,1,1,0\nA,H,print\nS,0,0,1\nI,1\nE\n", 2, 4),
    ("M,2,1,2,0\nA,H,a\nS,0,0,0\nI,1\nS,0,0,1\nE\n", 2, 4),
    ("M,3,1,1,0\nA,H,print\nI,1\nS,0,0,1\nI,2\nE\n", 2, 5),
    // no line end; bytes after `E`
    ("M,2,1,0,0\nA,H,print\nI,1", 32, 3),
    ("M,2,1,0,0\nA,H,print\nI,1\n", 32, 4),
    ("M,2,1,0,0\nA,H,print\nE\nI,1\n", 32, 4),
    // no action is high: at the last `A` line, after its other causes and before those of a later line
    ("M,1,1,0,0\nA,L,print\nE\n", 35, 2),
    ("M,1,2,0,0\nA,L,scan\nA,D,print\nE\n", 35, 3),
    ("M,1,2,0,0\nA,L,scan\nA,L,print", 32, 3),
    ("M,1,2,0,0\nA,L,scan\nA,L,Print\nE\n", 2, 3),
    ("M,1,2,0,0\nA,L,scan\nA,L,scan\nE\n", 4, 3),
    ("M,1,2,0,0\nA,L,scan\nA,L,print\n", 35, 3),
    ("M,1,2,1,0\nA,L,scan\nA,L,print\nS,0,2,x\nE\n", 35, 3),
];

/// Another line in place of one of the worked example's: its place, which is the refusal's, and the number.
const LINES: &[(usize, &str, u16)] = &[
    // in each field of a number: not 1 to 5 digits, and not in its range
    (1, "M,,3,4,0", 31),
    (1, "M,4,+3,4,0", 31),
    (1, "M,4,3,000004,0", 31),
    (1, "M,4,3,4,00", 31),
    (1, "M,129,3,4,0", 3),
    (1, "M,4,65,4,0", 3),
    (1, "M,4,3,1025,0", 3),
    (1, "M,4,3,4,4", 3),
    (6, "S,a,1,2", 31),
    (6, "S,0,1 ,2", 31),
    (6, "S,0,1,2\r", 31),
    (6, "S,4,1,2", 3),
    (6, "S,0,3,2", 3),
    (6, "S,0,1,4", 3),
    // a blank or a sign alone, a sign or a tab before a digit
    (1, "M, ,3,4,0", 31),
    (1, "M,4,-,4,0", 31),
    (1, "M,4,3,+0,0", 31),
    (1, "M,4,3,4,\t1", 31),
    (6, "S, ,1,2", 31),
    (6, "S,0,-,2", 31),
    (6, "S,0,1,+0", 31),
    (6, "S,\t1,1,2", 31),
    // five digits, and six
    (1, "M,99999,3,4,0", 3),
    (1, "M,100000,3,4,0", 31),
    (1, "M,65540,3,4,0", 3),
    (1, "M,4,3,4,65536", 3),
    (6, "S,65536,1,2", 3),
    (6, "S,0,65537,2", 3),
    // 31 before 3, whichever stands first
    (1, "M,x,3,4,4", 31),
    (1, "M,200,3,4,x", 31),
    (6, "S,99999,1,100000", 31),
    (6, "S,100000,1,99999", 31),
    // both before 5
    (6, "S,0,0,1", 5),
    (6, "S,0,0,x", 31),
    (6, "S,0,0,4", 3),
    // 2 before all of them
    (1, "M,200,3,x", 2),
    (1, "M,200,3,4,x,", 2),
    (1, "X,200,3,4,x", 2),
    (6, "S,0,x", 2),
    (6, "S,4,x,0,", 2),
    (6, "S,0,0,1,0", 2),
    (6, "X,0,0,1", 2),
    (6, "", 2),
    // no field of an action is a number; 2 before 4
    (3, "A,0,print", 2),
    (3, "A,H,", 2),
    (3, "A,H,-1", 2),
    (3, "A,H,scan", 4),
    (3, "A,X,scan", 2),
    (3, "A,H,scan,", 2),
    (3, "A,X", 2),
    // the last line has no field
    (9, "e", 2),
    (9, "E,", 2),
    (9, "E\r", 2),
    (9, "S,2,0,x", 2),
];

/// A line after `I,1` in the worked example, which has 4 states, with its number. Its place is 6.
const STARTS: &[(&str, u16)] = &[
    // it begins with `I`, and has a wrong letter field or field count
    ("I", 2),
    ("I2", 2),
    ("II,2", 2),
    ("IX,2", 2),
    ("I ,2", 2),
    ("I,2,", 2),
    ("I,2,3", 2),
    ("I,,", 2),
    // it does not, and a step is due
    ("", 2),
    ("i,2", 2),
    (" I,2", 2),
    (",I,2", 2),
    ("A,H,void", 2),
    ("M,4,3,4,0", 2),
    ("E", 2),
    // not 1 to 5 digits
    ("I,", 31),
    ("I,x", 31),
    ("I,02", 31),
    ("I,+2", 31),
    ("I, 2", 31),
    ("I,2\r", 31),
    ("I,100000", 31),
    // not below states, also where 16 bits or 8 would hold a 2
    ("I,4", 3),
    ("I,128", 3),
    ("I,258", 3),
    ("I,65538", 3),
    ("I,99999", 3),
    // not above the one before it
    ("I,1", 33),
    ("I,0", 33),
    // 2 before all others, and 31 before 33
    ("IX,x", 2),
    ("IX,4", 2),
    ("IX,1", 2),
    ("I,x,2", 2),
    ("I,4,", 2),
    ("I,1,2", 2),
    ("I,01", 31),
];

/// A 128th `I` line, with its number. Its place is 132, after line 1, 3 actions and 127 starts.
const PAST_THE_LAST: &[(&str, u16)] = &[
    ("I,128", 3),
    ("I,99999", 3),
    ("I,127", 33),
    ("I,1", 33),
    ("I,0", 33),
    ("I,x", 31),
    ("I,128,", 2),
    ("IX,128", 2),
    ("I", 2),
];

/// What stands after `E` has no part in the number.
const AFTER_END: &[&[u8]] = &[
    b"\n",
    b"\n\n",
    b"\0",
    b" ",
    b"E",
    b"E\n",
    b"A,X",
    b"M,200,3,4,x\n",
];

/// The worked example with other bytes in place of a line, which is counted from 1; or ending with them.
fn worked_with(place: usize, bytes: &str, goes_on: bool) -> Vec<u8> {
    let lines: Vec<&[u8]> = WORKED.split_inclusive(|&byte| byte == b'\n').collect();
    let rest = if goes_on { &lines[place..] } else { &[] };
    [
        &lines[..place - 1].concat(),
        bytes.as_bytes(),
        &rest.concat(),
    ]
    .concat()
}

/// One line of 16,384 bytes, the most that a text may have: a number field of thousands of digits, or `M` and commas.
/// Without its line end it gets 32.
fn long_lines() -> Vec<(Vec<u8>, Refusal)> {
    let mut cases = Vec::new();
    for (start, byte, end, number) in [
        ("M,", b'9', ",3,4,0\n", 31),
        ("M,4,3,4,", b'0', "\n", 31),
        ("M", b',', "\n", 2),
    ] {
        let bytes = vec![byte; 16_384 - start.len() - end.len()];
        let text = [start.as_bytes(), &bytes, end.as_bytes()].concat();
        let without_end = text[..text.len() - 1].to_vec();
        cases.push((without_end, Refusal::new(32, 1)));
        cases.push((text, Refusal::new(number, 1)));
    }
    cases
}

/// Each line of `STARTS` and of `PAST_THE_LAST` in its place; without its line end it gets 32.
fn starts() -> Vec<(Vec<u8>, Refusal)> {
    let mut cases = Vec::new();
    let mut add = |before: &[u8], line: &str, after: &[u8], number: u16, place: u64| {
        let unended = [before, line.as_bytes()].concat();
        let ended = [&unended[..], b"\n", after].concat();
        cases.push((unended, Refusal::new(32, place)));
        cases.push((ended, Refusal::new(number, place)));
    };
    let steps = WORKED.windows(2).position(|two| two == b"S,");
    let (before, after) = WORKED.split_at(steps.expect("a step"));
    for &(line, number) in STARTS {
        add(&[before, b"I,1\n"].concat(), line, after, number, 6);
    }
    let all: Vec<u16> = (0..128).collect();
    let text = waking_text(128, ACTIONS, &all, &[]);
    let before = text.strip_suffix(b"E\n").expect("the last line");
    for &(line, number) in PAST_THE_LAST {
        add(before, line, b"E\n", number, 132);
    }
    cases
}

/// Texts with their refusals.
fn cases() -> Vec<(Vec<u8>, Refusal)> {
    let mut cases = Vec::new();
    for &(text, number, place) in REQUESTED {
        cases.push((text.as_bytes().to_vec(), Refusal::new(number, place)));
    }
    for &(place, line, number) in LINES {
        let told = |number| Refusal::new(number, place as u64);
        let ended = worked_with(place, &format!("{line}\n"), true);
        cases.push((ended, told(number)));
        cases.push((worked_with(place, line, false), told(32)));
    }
    // A text that is cut off is told at the line where it ends.
    let mut place = 1;
    for (length, &byte) in WORKED.iter().enumerate() {
        cases.push((WORKED[..length].to_vec(), Refusal::new(32, place)));
        place += u64::from(byte == b'\n');
    }
    for bytes in AFTER_END {
        cases.push(([WORKED, bytes].concat(), Refusal::new(32, 10)));
    }
    cases.extend(starts());
    cases.extend(long_lines());
    cases
}

#[test]
fn by_the_operations() {
    let mut rng = gen::seeded("causes::by_the_operations", SEED);
    for (text, expected) in cases() {
        not_read::by_the_operations(&text, expected, &Lists::enough(&mut rng));
    }
}

#[test]
fn by_the_programs() {
    for (text, expected) in cases() {
        not_read::by_the_programs(&text, expected);
    }
}

/// Each text of `REQUESTED`, on standard input, gets its line and status 2. They have every number but 1, which an
/// example in `script.rs` has.
#[test]
fn by_the_script() {
    for &(text, number, place) in REQUESTED {
        not_read::by_the_script(&[], text.as_bytes(), Refusal::new(number, place));
    }
}

/// For each number, those that a line can have besides and that are tested later. No line has both a number field and a
/// name, and the one number of an `I` line has one cause alone; 35 is told at an `A` line.
const LATER: &[(u16, &[u16])] = &[
    (32, &[2, 31, 3, 4, 5, 33, 35]),
    (2, &[2, 31, 3, 4, 5, 33, 35]),
    (31, &[3, 5]),
    (3, &[5]),
    (4, &[35]),
    (5, &[]),
    (33, &[]),
    (35, &[]),
];

/// Each number alone and with each other of one line.
fn all_numbers() -> BTreeSet<(u16, Option<u16>)> {
    let mut all = BTreeSet::new();
    for &(number, later) in LATER {
        all.insert((number, None));
        all.extend(later.iter().map(|&other| (number, Some(other))));
    }
    all
}

/// The numbers of a bad line: the one that it gets, and the one that it gets when that is mended.
fn numbers(bad: &BadLine, before: &Lists) -> (u16, Option<u16>) {
    let Refusal { number, place } = bad.fault.refusal;
    let _case = gen::text_case(&bad.mended);
    let other = READ.same(&bad.mended, before).0.err();
    assert_eq!(other.map(|other| other.place), bad.also.map(|_| place));
    (number, other.map(|other| other.number))
}

/// Each cause that a line can have, and each two that it can have together, at lines of each kind.
#[test]
fn every_cause_and_every_pair() {
    let mut rng = gen::seeded("causes::every_cause_and_every_pair", SEED + 1);
    let mut seen = BTreeSet::new();
    for model in models_to_damage(&mut rng, 20) {
        let before = Lists::enough(&mut rng);
        for bad in gen::bad_lines(&model) {
            not_read::by_the_operations(&bad.fault.text, bad.fault.refusal, &before);
            seen.insert(numbers(&bad, &before));
        }
    }
    assert_eq!(seen, all_numbers());
}

#[test]
fn every_cause_and_every_pair_by_the_programs() {
    let model = text::parse(TWO_STARTS).expect("the text is good");
    let bad_lines = gen::bad_lines(&model);
    for bad in &bad_lines {
        not_read::by_the_programs(&bad.fault.text, bad.fault.refusal);
    }
    let number = |bad: &BadLine| (bad.fault.refusal.number, bad.also.map(|also| also.number()));
    let seen: BTreeSet<_> = bad_lines.iter().map(number).collect();
    assert_eq!(seen, all_numbers());
}

/// Each number that a text can get has a row under "Refusals" that names texts of `examples/` that get it.
#[test]
fn the_readme_names_a_text_for_each_number() {
    let readme = fs::read_to_string(root().join("README.md")).expect("the README");
    let (_, refusals) = readme.split_once("\n## Refusals\n").expect("the heading");
    for number in BTreeSet::from(Cause::ALL.map(Cause::number)) {
        let start = format!("| {number} |");
        let rows = refusals.lines().filter(|line| line.starts_with(&start));
        let names = rows
            .flat_map(|row| row.split('`'))
            .filter(|name| name.ends_with(".txt"));
        let names: Vec<&str> = names.collect();
        assert!(!names.is_empty(), "{number}");
        for name in names {
            let page = root().join("examples").join(name).with_extension("page");
            let page = fs::read_to_string(page).expect("a page");
            assert!(
                page.starts_with(&format!("F,{number},")),
                "{number}: {name}"
            );
        }
    }
}
