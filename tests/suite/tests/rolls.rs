//! Roll against the second checker, and beside Page: both leave the same in the lists that they share, and the roll
//! tells the page.
use std::fs;

use second::gen::{self, Rng};
use second::meaning;
use second::store::{DISTANCES, TABLE};
use second::{text, Model};
use suite::bench::{rolls, root, text_of, worked_distances, worked_roll, worked_table, WORKED};
use suite::lists::{Lists, LEAST};
use suite::operations::{PAGE, ROLL};
use suite::stores::Store;

const SEED: u64 = 8_000;

/// The blanks before the names of a line that goes on with those of a state.
const INDENT: &str = "            ";

/// Page and Roll of a model, with the same lists before.
fn both(model: &Model, before: &Lists) -> (String, String) {
    let _case = gen::model_case(model);
    let store = Store::of(model);
    let (answer, paged) = PAGE.same(&store, before);
    let page = &paged.page[..answer.expect("the store is good")];
    let (answer, rolled) = ROLL.same(&store, before);
    let roll = &rolled.roll[..answer.expect("the store is good")];
    assert_eq!(meaning::roll_holds(&model.to_text(), page, roll), Ok(()));
    let shared = |lists: &Lists| Lists {
        page: before.page.clone(),
        roll: before.roll.clone(),
        ..lists.clone()
    };
    assert!(shared(&paged) == shared(&rolled), "the shared lists");
    let lines = |bytes: &[u8]| String::from_utf8(bytes.to_vec()).expect("lines are ASCII");
    (lines(page), lines(roll))
}

/// Roll with lists that are long enough.
fn told(rng: &mut Rng, model: &Model) -> String {
    both(model, &Lists::enough(rng)).1
}

/// How many lines go on with the names of a state.
fn wrapped(roll: &str) -> usize {
    roll.lines().filter(|line| line.starts_with(INDENT)).count()
}

#[test]
fn the_worked_example_in_full() {
    let mut rng = gen::seeded("rolls::the_worked_example_in_full", SEED);
    let model = text::parse(WORKED).expect("the text is good");
    let before = Lists::anything(&mut rng, LEAST.map(|least| least + 1));
    let (answer, lists) = ROLL.same(&Store::of(&model), &before);
    let expected = worked_roll();
    let length = expected.len();
    assert_eq!(answer, Ok(length));
    assert_eq!(String::from_utf8_lossy(&lists.roll[..length]), expected);
    assert_eq!(lists.roll[length..], before.roll[length..]);
    assert_eq!(lists.distances[..DISTANCES], worked_distances());
    assert_eq!(lists.table[..TABLE], worked_table());
    assert_eq!(&lists.word[..2], &[0, 0]);
    assert_eq!(lists.word[2..], before.word[2..]);
    assert!(lists.run == before.run, "the source of step 1 is the start");
}

/// The examples that have a roll; some of them have names that go to a next line, and states that cannot be reached.
#[test]
fn the_examples() {
    let mut rng = gen::seeded("rolls::the_examples", SEED + 1);
    let (mut wraps, mut unreached) = (0, 0);
    for (file, text, roll) in rolls() {
        if let Ok(model) = text::parse(&text) {
            let expected = String::from_utf8(roll).expect("a roll is ASCII");
            assert_eq!(told(&mut rng, &model), expected, "{}", file.display());
            wraps += usize::from(wrapped(&expected) > 0);
            unreached += usize::from(expected.contains("   - "));
        }
    }
    assert!(wraps > 1 && unreached > 0, "{wraps} {unreached}");
}

/// The README shows the worked roll, and lines of another whose names go to next lines. What stands past the 42 columns
/// are remarks.
#[test]
fn the_readme() {
    let readme = fs::read_to_string(root().join("README.md")).expect("the README");
    let readme: Vec<String> = readme.lines().map(|line| format!("{line:<46}")).collect();
    for (name, shown) in [("worked.roll", 0..9), ("wrapping.roll", 2..7)] {
        let roll = fs::read_to_string(root().join("examples").join(name)).expect("a roll");
        let lines: Vec<String> = roll.lines().map(|line| format!("    {line}")).collect();
        let lines = &lines[shown];
        let same =
            |part: &[String]| (part.iter().zip(lines)).all(|(part, line)| part.starts_with(line));
        assert!(readme.windows(lines.len()).any(same), "{name}");
    }
}

/// The names of a state in rows, each with the lengths of its names.
fn rows(rng: &mut Rng, lengths: &[usize]) -> Vec<Vec<usize>> {
    let letters = ('a'..='z').chain('0'..='9');
    let names = letters.zip(lengths).map(|(letter, &length)| {
        let name = letter.to_string().repeat(length);
        format!("A,L,{name}\n")
    });
    let actions = names.collect::<String>() + "A,H,print\n";
    let steps: Vec<_> = (0..lengths.len() as u16).map(|a| (0, a, 0)).collect();
    let model = text::parse(&text_of(1, &actions, &steps)).expect("the text is good");
    let roll = told(rng, &model);
    let lines: Vec<&str> = roll.lines().collect();
    let (first, rest) = lines[1..lines.len() - 1].split_first().expect("a line");
    let row = |line: &str, before| -> Vec<usize> {
        let names = line.strip_prefix(before).expect("12 columns before");
        names.split_whitespace().map(str::len).collect()
    };
    let rest = rest.iter().map(|line| row(line, INDENT));
    [row(first, "  0   0   0 ")]
        .into_iter()
        .chain(rest)
        .collect()
}

/// 30 columns for names: the last that fits fills them, and one with a column more goes to the next line.
#[test]
fn names_that_just_fit() {
    let mut rng = gen::seeded("rolls::names_that_just_fit", SEED + 2);
    let expected: &[&[&[usize]]] = &[
        &[&[]],
        &[&[1]],
        &[&[12]],
        &[&[12, 12, 4]],
        &[&[12, 12], &[5]],
        &[&[12, 12, 4], &[1]],
        &[&[12, 12], &[5, 12, 11]],
        &[&[12, 12], &[12, 12], &[12]],
        &[&[9, 9, 10]],
        &[&[9, 10], &[10, 9, 9]],
        &[&[10, 9], &[10, 10, 8], &[1]],
        &[&[2; 10], &[2]],
        &[&[1; 15], &[1; 15], &[1; 6]],
        &[&[1, 12, 12, 2], &[12, 12]],
    ];
    for expected in expected {
        assert_eq!(rows(&mut rng, &expected.concat()), *expected);
    }
}

/// 832 lines, and out no longer than need be.
#[test]
fn the_greatest() {
    let mut rng = gen::seeded("rolls::the_greatest", SEED + 3);
    let model = gen::greatest_roll();
    let (page, roll) = both(&model, &Lists::anything(&mut rng, LEAST));
    assert_eq!((roll.lines().count(), roll.len()), (832, 35_776));
    let count = |letter| page.lines().filter(|line| line.starts_with(letter)).count();
    assert_eq!(['C', 'R', 'W', 'B'].map(count), [128, 127, 127, 1]);
    assert_eq!(wrapped(&roll), 832 - page.lines().count());
}

#[test]
fn every_depth() {
    let mut rng = gen::seeded("rolls::every_depth", SEED + 4);
    for depth in 1..=127 {
        let model = gen::deep_model(&mut rng, depth);
        told(&mut rng, &model);
        let model = gen::branching_deep_model(&mut rng, depth);
        told(&mut rng, &model);
    }
}

#[test]
fn models_at_the_limits() {
    let mut rng = gen::seeded("rolls::models_at_the_limits", SEED + 5);
    for (what, model) in gen::limit_models(&mut rng) {
        let lines = told(&mut rng, &model).lines().count();
        assert!(lines <= 832, "{what}: {lines}");
    }
}

#[test]
fn random_models() {
    let mut rng = gen::seeded("rolls::random_models", SEED + 6);
    let (mut passed, mut shown, mut branching) = (0, 0, 0);
    for round in 0..2_000 {
        let model = match round % 2 {
            0 => gen::deterministic_model(&mut rng),
            _ => gen::any_model(&mut rng),
        };
        let roll = told(&mut rng, &model);
        let has = |start| usize::from(roll.lines().any(|line| line.starts_with(start)));
        passed += has("V,pass,");
        shown += has("B,");
        branching += has("N ");
    }
    assert!(
        passed > 400 && shown > 400 && branching > 130,
        "{passed} {shown} {branching}"
    );
}

/// Models with many low actions, whose names go to next lines.
#[test]
fn wide_models() {
    let mut rng = gen::seeded("rolls::wide_models", SEED + 7);
    let (mut wraps, mut whole) = (0, 0);
    for round in 0..2_000 {
        let model = gen::wide_model(&mut rng, round % 2 == 0);
        let roll = told(&mut rng, &model);
        wraps += usize::from(wrapped(&roll) > 0);
        whole += roll.lines().filter(|line| !line.ends_with(' ')).count();
    }
    assert!(wraps > 1_000 && whole > 1_000, "{wraps} {whole}");
}
