//! What is told of a bad line: each cause alone, each two of one line, and bad
//! lines beside each other. In a line 32 is tested first, then 2, then 31,
//! then 3, then 4, 5 or 33, then 35. What `I` lines get is in `starts.rs` too,
//! and what a text without a high action gets in `high.rs`.

mod common;

use std::collections::BTreeSet;

use common::{model_of, refusal, till, waking_till, EXAMPLE, PRINT, SCAN};
use second::gen::{self, BadLine, Kind};
use second::text::{parse_or_cause, Cause};
use second::{program, Model};

/// The last line of the example.
const LAST: usize = 9;

/// The lines of the example.
fn lines() -> Vec<Vec<u8>> {
    let lines = EXAMPLE.split_inclusive(|&byte| byte == b'\n');
    lines.map(<[u8]>::to_vec).collect()
}

/// The example with another line at a place, counted from 1.
fn with_line(place: usize, line: &str) -> Vec<u8> {
    with_lines(&[(place, line)])
}

fn with_lines(changed: &[(usize, &str)]) -> Vec<u8> {
    let mut lines = lines();
    for (place, line) in changed {
        lines[place - 1] = format!("{line}\n").into_bytes();
    }
    lines.concat()
}

/// The example up to a place, where it ends with a line that has no line end.
fn ending_in(place: usize, line: &str) -> Vec<u8> {
    let before = lines()[..place - 1].concat();
    [&before[..], line.as_bytes()].concat()
}

/// Each of these lines of the example, by its place, gets its number there.
fn told(bad: &[(usize, &str, u16)]) {
    for &(place, line, number) in bad {
        let answer = refusal(&with_line(place, line));
        assert_eq!(answer, (number, place as u64), "{line}");
    }
}

/// Lines with one cause each.
const ALONE: &[(usize, &str, u16)] = &[
    // The first line: letter, field count, digits, range.
    (1, "", 2),
    (1, "X,4,3,4,0", 2),
    (1, "M", 2),
    (1, "M,4,3,4", 2),
    (1, "M,4,3,4,0,0", 2),
    (1, "M,4,3,4,0,", 2),
    (1, "M,4,x,4,0", 31),
    (1, "M,4,3,4,", 31),
    (1, "M,4,3,4,0\r", 31),
    (1, "M,0,3,4,0", 3),
    (1, "M,129,3,4,0", 3),
    (1, "M,4,0,4,0", 3),
    (1, "M,4,65,4,0", 3),
    (1, "M,4,3,1025,0", 3),
    (1, "M,4,3,4,4", 3),
    // An action: letter, field count, level, name, name used before. None of
    // its fields is a number.
    (2, "", 2),
    (2, "X,L,scan", 2),
    (2, "A,L", 2),
    (2, "A,L,scan,", 2),
    (2, "A,X,scan", 2),
    (2, "A,,scan", 2),
    (2, "A,00,scan", 2),
    (2, "A,L,", 2),
    (2, "A,L,Scan", 2),
    (2, "A,L,-1", 2),
    (2, "A,L,scan\r", 2),
    (3, "A,H,scan", 4),
    (4, "A,D,print", 4),
    // A step: letter, field count, digits, range, order.
    (6, "", 2),
    (6, "X,0,1,2", 2),
    (6, "S,0,1", 2),
    (6, "S,0,1,2,", 2),
    (6, "S,,1,2", 31),
    (6, "S,0,x,2", 31),
    (6, "S,0,1,02", 31),
    (6, "S,0,1,2\r", 31),
    (6, "S,4,1,2", 3),
    (6, "S,0,3,2", 3),
    (6, "S,0,1,4", 3),
    (6, "S,0,0,1", 5),
    (6, "S,0,0,0", 5),
    (8, "S,0,2,3", 5),
    // The last line: letter, field count.
    (9, "", 2),
    (9, "e", 2),
    (9, "EE", 2),
    (9, "E\r", 2),
    (9, "S,3,0,0", 2),
    (9, "E,", 2),
    (9, "E,0", 2),
];

#[test]
fn each_cause_alone() {
    told(ALONE);
}

/// A line that is absent or has no line end, after each line of the text.
#[test]
fn a_text_that_ends_too_early() {
    let all = lines();
    for place in 1..=LAST {
        let absent = all[..place - 1].concat();
        assert_eq!(refusal(&absent), (32, place as u64));
        for length in 1..all[place - 1].len() {
            let begun = [&absent[..], &all[place - 1][..length]].concat();
            assert_eq!(refusal(&begun), (32, place as u64));
        }
    }
    assert_eq!(program(&all.concat())[0], b'V');
}

/// A line that has no line end gets 32, whatever else is wrong with it.
#[test]
fn no_line_end_beside_anything() {
    for &(place, line, _) in ALONE.iter().chain(TOGETHER) {
        let answer = refusal(&ending_in(place, line));
        assert_eq!(answer, (32, place as u64), "{line}");
    }
}

/// Lines with two causes or more.
const TOGETHER: &[(usize, &str, u16)] = &[
    // The first line. Letter or field count, which come first.
    (1, "X,4,3,4", 2),
    (1, "X,x,3,4,0", 2),
    (1, "X,129,3,4,0", 2),
    (1, "M,x,3,4", 2),
    (1, "M,4,3,x", 2),
    (1, "M,,,", 2),
    (1, "M,x,3,4,0,0", 2),
    (1, "M,4,3,4,0,x", 2),
    (1, "M,129,3,4", 2),
    (1, "M,129,3,4,0,0", 2),
    (1, "M,4,3,4,0,99999", 2),
    (1, "M,129,x,4", 2),
    // Digits and range, either of them first in the line.
    (1, "M,0,3,4,x", 31),
    (1, "M,129,03,4,0", 31),
    (1, "M,4,65,1a,0", 31),
    (1, "M,4,3,1025,", 31),
    (1, "M,x,3,4,4", 31),
    (1, "M,4,100000,1025,0", 31),
    (1, "M,4,3,-4,99999", 31),
    (1, "M,99999,99999,99999,00", 31),
    (1, "M,00,99999,99999,99999", 31),
    // An action.
    (2, "X,X,scan", 2),
    (2, "X,L,Scan", 2),
    (2, "X,L", 2),
    (2, "A,X", 2),
    (2, "A,L,Scan,", 2),
    (2, "A,X,Scan", 2),
    // A name used before comes last.
    (3, "X,H,scan", 2),
    (3, "A,X,scan", 2),
    (3, "A,,scan", 2),
    (3, "A,H,scan,", 2),
    // A step. Letter or field count.
    (8, "X,2,0", 2),
    (8, "X,x,0,3", 2),
    (8, "X,4,0,3", 2),
    (8, "X,0,0,0", 2),
    (8, "S,2,x", 2),
    (8, "S,2,0,3,x", 2),
    (8, "S,4,0", 2),
    (8, "S,4,0,3,0", 2),
    (8, "S,0,0", 2),
    (8, "S,1,0,1,0", 2),
    // Digits and range.
    (8, "S,4,0,x", 31),
    (8, "S,2,3,", 31),
    (8, "S,x,0,4", 31),
    (8, "S,2,00,4", 31),
    (8, "S,100000,3,4", 31),
    (8, "S,99999,99999,+3", 31),
    // Digits or range, and an order that falls in an earlier field.
    (8, "S,0,x,3", 31),
    (8, "S,0,0,03", 31),
    (8, "S,1,0,01", 31),
    (8, "S,0,3,3", 3),
    (8, "S,0,0,4", 3),
    (8, "S,0,0,99999", 3),
    (8, "S,0,3,x", 31),
    (8, "S,0,x,4", 31),
    (8, "X,0,3,x,", 2),
    // The last line.
    (9, "e,", 2),
    (9, "S,4,x,0", 2),
];

#[test]
fn causes_of_one_line() {
    told(TOGETHER);
}

/// Fields that aren't 1 to 5 digits without a leading zero: empty, too long, a
/// leading zero, a sign, a blank, a letter, a dot.
const BAD_DIGITS: &[&str] = &[
    "", "100000", "123456", "000001", "00", "01", "00000", "+1", "-1", "-", "+0", " 1", "1 ", " ",
    "\t1", "1\0", "a", "1a2", "1O", "0x1", "1e1", "1.0", "1_0",
];

/// Digits that every range leaves out.
const OUT_OF_RANGE: &[&str] = &["1025", "9999", "10000", "65535", "65536", "65537", "99999"];

/// In each number field of the first line and of a step.
#[test]
fn fields_of_numbers() {
    for (place, fields) in [
        (1, ["M", "4", "3", "4", "0"].to_vec()),
        (8, vec!["S", "2", "0", "3"]),
    ] {
        for field in 1..fields.len() {
            let with = |new: &str| {
                let mut fields = fields.clone();
                fields[field] = new;
                refusal(&with_line(place, &fields.join(",")))
            };
            for bad in BAD_DIGITS {
                assert_eq!(with(bad), (31, place as u64), "{bad} in {field}");
            }
            let zero_first = format!("0{}", fields[field]);
            assert_eq!(with(&zero_first), (31, place as u64), "{zero_first}");
            for out in OUT_OF_RANGE {
                assert_eq!(with(out), (3, place as u64), "{out} in {field}");
            }
        }
    }
}

/// Every byte that is no digit, as a field of its own and within digits.
#[test]
fn bytes_that_are_no_digits() {
    for byte in (0..=255_u8).filter(|byte| !byte.is_ascii_digit()) {
        // A comma makes one field more; a line end leaves one field.
        let number = match byte {
            b',' | b'\n' => 2,
            _ => 31,
        };
        for field in [&[byte][..], &[b'1', byte, b'0']] {
            let text = with_line(5, "S,?,0,1");
            let place = text.iter().position(|&byte| byte == b'?').expect("a field");
            let text = [&text[..place], field, &text[place + 1..]].concat();
            assert_eq!(refusal(&text), (number, 5), "{byte}");
        }
    }
}

/// Bytes after `E` are told at the line after it, with a line end and without.
#[test]
fn bytes_after_the_last_line() {
    for bytes in [
        "\n",
        "\n\n",
        "x",
        "x\n",
        "E",
        "E\n",
        "\0",
        " ",
        "\r\n",
        ",",
        "M,4,3,4,0\n",
        "S,9,x,0,\n",
    ] {
        let longer = [EXAMPLE, bytes.as_bytes()].concat();
        assert_eq!(refusal(&longer), (32, 10), "{bytes:?}");
        // What stands in the line of `E` comes before it.
        let bad = [&with_line(LAST, "e")[..], bytes.as_bytes()].concat();
        assert_eq!(refusal(&bad), (2, 9), "{bytes:?}");
        let bad = [&with_line(LAST, "E,")[..], bytes.as_bytes()].concat();
        assert_eq!(refusal(&bad), (2, 9), "{bytes:?}");
    }
    assert_eq!(refusal(&ending_in(LAST, "E")), (32, 9));
    assert_eq!(refusal(&ending_in(LAST, "E\r")), (32, 9));
    assert_eq!(refusal(&ending_in(LAST, "Ex")), (32, 9));
    // All bytes that a text may have.
    let mut full = EXAMPLE.to_vec();
    full.resize(16_384, b'\n');
    assert_eq!(refusal(&full), (32, 10));
    full.push(b'\n');
    assert_eq!(refusal(&full), (1, 0));
    assert_eq!(refusal(&[b'M'; 16_384]), (32, 1));
    assert_eq!(refusal(&[b'M'; 16_385]), (1, 0));
}

/// A line is absent if the text ends before it. Where another stands in its
/// place, that one has the wrong letter.
#[test]
fn another_line_in_place_of_one() {
    // A step, an action more than there are.
    assert_eq!(refusal(&with_line(1, "M,4,3,5,0")), (2, 9));
    assert_eq!(refusal(&with_line(1, "M,4,4,4,0")), (2, 5));
    // One fewer.
    assert_eq!(refusal(&with_line(1, "M,4,3,3,0")), (2, 8));
    assert_eq!(refusal(&with_line(1, "M,4,2,4,0")), (2, 4));
    // A step more than there are, and no `E`.
    let text = with_line(1, "M,4,3,5,0");
    assert_eq!(refusal(&text[..text.len() - 2]), (32, 9));
    assert_eq!(refusal(b"E\n"), (2, 1));
    // A line end gone within the text makes one line of two.
    assert_eq!(refusal(b"M,1,1,0,0A,H,a\nE\n"), (2, 1));
    assert_eq!(refusal(b"M,1,1,0,0\nA,H,aE\n"), (2, 2));
    assert_eq!(refusal(b"M,1,1,1,0\nA,H,a\nS,0,0,0E\n"), (31, 3));
}

/// One bad line for each number in each kind of line.
const BAD: &[(usize, &str, u16)] = &[
    (1, "X,4,3,4,0", 2),
    (1, "M,4,x,4,0", 31),
    (1, "M,4,65,4,0", 3),
    (2, "A,X,scan", 2),
    (3, "A,H,scan", 4),
    (5, "S,0,0", 2),
    (5, "S,0,0,x", 31),
    (6, "S,0,1,4", 3),
    (7, "S,0,1,2", 5),
    (8, "S,02,0,3", 31),
    (8, "S,2,3,3", 3),
    (9, "e", 2),
];

/// The first bad line decides, whatever the later one has.
#[test]
fn the_first_bad_line_decides() {
    for &(place, line, number) in BAD {
        let answer = (number, place as u64);
        for &(later, other, _) in BAD.iter().filter(|bad| bad.0 > place) {
            let text = with_lines(&[(place, line), (later, other)]);
            assert_eq!(refusal(&text), answer, "{line} and {other}");
        }
        let text = with_line(place, line);
        let ends = lines()[..place - 1].concat().len() + line.len() + 1;
        assert_eq!(refusal(&text[..ends]), answer, "{line}, then nothing");
        if place < LAST {
            let unended = &text[..text.len() - 1];
            assert_eq!(refusal(unended), answer, "{line}, no last line end");
        }
        let longer = [&text[..], b"x"].concat();
        assert_eq!(refusal(&longer), answer, "{line}, bytes after E");
    }
    // A range in the first line, bad digits in a later one, and the other way.
    let text = with_lines(&[(1, "M,129,3,4,0"), (5, "S,x,0,1")]);
    assert_eq!(refusal(&text), (3, 1));
    let text = with_lines(&[(1, "M,4,3,4,00"), (5, "S,4,0,1")]);
    assert_eq!(refusal(&text), (31, 1));
    assert_eq!(refusal(&till(2, &[(0, SCAN, 2), (0, SCAN, 0)])), (3, 5));
}

/// The causes that a line of a kind can have.
fn causes_of(kind: Kind) -> &'static [Cause] {
    use Cause::*;
    match kind {
        Kind::Model => &[NoLine, Letter, FieldCount, Digits, Range],
        Kind::Action => &[NoLine, Letter, FieldCount, Level, Name, NameUsed, NoHigh],
        Kind::Start => &[NoLine, Letter, FieldCount, Digits, Range, StartOrder],
        Kind::Step => &[NoLine, Letter, FieldCount, Digits, Range, Order],
        Kind::End => &[NoLine, Letter, FieldCount],
        Kind::AfterEnd => &[AfterEnd],
    }
}

/// Each cause in each kind of line, alone and with each other that the line can
/// have. A name used before is no wrong name, and the one number of an `I` line
/// has bad digits, is outside its range, or is inside it and not above.
fn all_bad_lines() -> BTreeSet<(Kind, Cause, Option<Cause>)> {
    let mut all = BTreeSet::new();
    for kind in [
        Kind::Model,
        Kind::Action,
        Kind::Start,
        Kind::Step,
        Kind::End,
        Kind::AfterEnd,
    ] {
        let causes = causes_of(kind);
        for (index, &told) in causes.iter().enumerate() {
            all.insert((kind, told, None));
            for &also in &causes[index + 1..] {
                all.insert((kind, told, Some(also)));
            }
        }
    }
    all.remove(&(Kind::Action, Cause::Name, Some(Cause::NameUsed)));
    for (told, also) in [
        (Cause::Digits, Cause::Range),
        (Cause::Digits, Cause::StartOrder),
        (Cause::Range, Cause::StartOrder),
    ] {
        all.remove(&(Kind::Start, told, Some(also)));
    }
    all
}

/// The turn of a cause in the tests of a line.
fn turn(cause: Cause) -> Option<usize> {
    let turns = [32, 2, 31, 3, 4, 5, 33, 35];
    turns.iter().position(|&number| number == cause.number())
}

/// Both causes are there: the one told, and the other once the first is mended.
fn check_bad_line(bad: &BadLine) {
    let BadLine {
        fault,
        also,
        mended,
        ..
    } = bad;
    let _case = gen::text_case(&fault.text);
    let place = fault.refusal.place;
    assert_eq!(refusal(&fault.text), (fault.cause.number(), place));
    assert_eq!(
        parse_or_cause(&fault.text).err(),
        Some((fault.cause, place))
    );
    let other = parse_or_cause(mended).err();
    assert_eq!(other, also.map(|also| (also, place)));
    assert!(also.is_none_or(|also| turn(fault.cause) <= turn(also)));
}

/// The faults made for the tests have each cause in each kind of line, alone
/// and with each other that the line can have.
#[test]
fn the_faults_have_each_cause_and_each_pair() {
    let mut rng = gen::seeded(
        "second::causes::the_faults_have_each_cause_and_each_pair",
        41,
    );
    let mut models: Vec<Model> = (0..20).map(|_| gen::any_model(&mut rng)).collect();
    models.push(model_of(&till(1, &[])));
    models.push(model_of(&till(2, &[(0, SCAN, 0), (0, SCAN, 1)])));
    models.push(model_of(&till(2, &[(0, PRINT, 1), (1, SCAN, 0)])));
    let mut seen = BTreeSet::new();
    for model in &models {
        let bad_lines = gen::bad_lines(model);
        let faults: BTreeSet<Vec<u8>> = gen::faults(model)
            .into_iter()
            .map(|fault| fault.text)
            .collect();
        for bad in &bad_lines {
            check_bad_line(bad);
            assert!(faults.contains(&bad.fault.text));
            seen.insert((bad.kind, bad.fault.cause, bad.also));
        }
    }
    assert_eq!(seen, all_bad_lines());
}

/// One model is enough for all of them, if it has two actions, an extra start
/// and a step before another whose source can fall.
#[test]
fn one_model_has_each_cause_and_each_pair() {
    let steps = [(0, SCAN, 1), (1, PRINT, 0), (1, PRINT, 1)];
    let bad_lines = gen::bad_lines(&model_of(&waking_till(2, &[0, 1], &steps)));
    let seen: BTreeSet<_> = bad_lines
        .iter()
        .map(|bad| (bad.kind, bad.fault.cause, bad.also))
        .collect();
    assert_eq!(seen, all_bad_lines());
}
