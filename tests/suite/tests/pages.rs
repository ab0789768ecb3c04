//! Page, and the path from a text to its page, against the second checker.
use std::collections::BTreeSet;
use std::fs;

use second::gen::{self, Rng};
use second::store::{DISTANCES, TABLE};
use second::{Level, Model, Refusal, Verdict};
use suite::bench::{examples, root, store_of, worked_distances, worked_table, WORKED, WORKED_PAGE};
use suite::lists::{Lists, LEAST};
use suite::operations::{JUDGE, PAGE, PRINT, READ};
use suite::stores::Store;
use suite::texts::models_to_damage;

const SEED: u64 = 7_400;

/// Page on a good store, with lists that are long enough.
fn page_of(rng: &mut Rng, store: &Store) -> String {
    let (answer, lists) = PAGE.same(store, &Lists::enough(rng));
    let length = answer.expect("the store is good");
    String::from_utf8(lists.page[..length].to_vec()).expect("a page is ASCII")
}

fn told(rng: &mut Rng, model: &Model) -> String {
    page_of(rng, &Store::of(model))
}

/// From a text to what is printed.
fn printed(text: &[u8], before: &Lists) -> String {
    let (answer, lists) = PRINT.same(text, before);
    let length = answer.expect("the lists are long enough");
    String::from_utf8(lists.page[..length].to_vec()).expect("a page is ASCII")
}

/// How many lines begin with a letter.
fn count(page: &str, letter: char) -> usize {
    page.lines().filter(|line| line.starts_with(letter)).count()
}

#[test]
fn the_worked_example_in_full() {
    let mut rng = gen::seeded("pages::the_worked_example_in_full", SEED);
    let store = store_of(WORKED);
    let before = Lists::anything(&mut rng, LEAST.map(|least| least + 1));
    let (answer, lists) = PAGE.same(&store, &before);
    let length = WORKED_PAGE.len();
    assert_eq!(answer, Ok(length));
    assert_eq!(&lists.page[..length], WORKED_PAGE);
    assert_eq!(lists.page[length..], before.page[length..]);
    assert_eq!(lists.distances[..DISTANCES], worked_distances());
    assert_eq!(lists.table[..TABLE], worked_table());
    assert_eq!(&lists.word[..2], &[0, 0]);
    assert_eq!(lists.word[2..], before.word[2..]);
    assert!(lists.run == before.run, "the source of step 1 is the start");
}

/// Every example from its text to its page, and by Page where it is read.
#[test]
fn the_examples() {
    let mut rng = gen::seeded("pages::the_examples", SEED + 8);
    let mut refused = 0;
    for (file, text, page) in examples() {
        let _case = gen::text_case(&text);
        let expected = String::from_utf8(page).expect("a page is ASCII");
        let name = file.display();
        assert_eq!(printed(&text, &Lists::enough(&mut rng)), expected, "{name}");
        if expected.starts_with("F,") {
            refused += 1;
            let before = Lists::enough(&mut rng);
            let (answer, after) = READ.same(&text, &before);
            let refusal = answer.expect_err("not read");
            let line = format!("F,{},{}\n", refusal.number, refusal.place);
            assert_eq!(line, expected, "{name}");
            assert!(after == before, "{name}");
        } else {
            assert_eq!(page_of(&mut rng, &store_of(&text)), expected, "{name}");
        }
    }
    assert!(refused > 2, "{refused}");
}

/// What an indented line of the README shows of a file: a line of a text or a page ends before the first blank and one
/// of a roll in column 42, and past some blanks there may be a remark.
fn shown(line: &str, is_roll: bool) -> Option<&str> {
    let line = line.strip_prefix("    ")?;
    let end = if is_roll {
        line.char_indices().nth(42).map(|(index, _)| index)
    } else {
        line.find(' ')
    };
    Some(line[..end.unwrap_or(line.len())].trim_end())
}

/// The README reads texts, pages and rolls line by line: from this line of the file on, counted from 1, so many make a
/// block of their own.
#[test]
fn the_readme() {
    let readme = fs::read_to_string(root().join("README.md")).expect("the README");
    for (name, first, count) in [
        ("worked.txt", 1, 9),
        ("worked.page", 1, 9),
        ("worked.roll", 1, 9),
        ("close_low.page", 5, 3),
        ("leak_later.page", 10, 6),
        ("two_starts.txt", 1, 5),
        ("two_starts.page", 1, 14),
        ("wrapping.roll", 3, 5),
        ("ticks_before_scan.txt", 1, 11),
        ("ticks_before_scan.page", 1, 6),
        ("tick_betrays.page", 1, 7),
    ] {
        let file = fs::read_to_string(root().join("examples").join(name)).expect("an example");
        let lines = file.lines().skip(first - 1).take(count);
        let lines: Vec<Option<&str>> = lines.map(|line| Some(line.trim_end())).collect();
        assert_eq!(lines.len(), count, "{name}");
        let is_roll = name.ends_with(".roll");
        let mut blocks = readme.split("\n\n");
        let is_shown = |block: &str| {
            let block = block.lines().map(|line| shown(line, is_roll));
            block.eq(lines.iter().copied())
        };
        assert!(blocks.any(is_shown), "{name}");
    }
}

#[test]
fn every_depth() {
    let mut rng = gen::seeded("pages::every_depth", SEED + 1);
    for depth in 1..=127 {
        let model = gen::deep_model(&mut rng, depth);
        let _case = gen::model_case(&model);
        let page = told(&mut rng, &model);
        assert_eq!((count(&page, 'W'), count(&page, 'B')), (depth, 1));
        assert_eq!(printed(&model.to_text(), &Lists::enough(&mut rng)), page);
    }
    for depth in 1..=127 {
        let model = gen::branching_deep_model(&mut rng, depth);
        let _case = gen::model_case(&model);
        let page = told(&mut rng, &model);
        let verdict = page.lines().next().expect("a first line");
        assert!(verdict.ends_with(&format!(",{depth}")), "{verdict}");
        let letters = (count(&page, 'W'), count(&page, 'B'), count(&page, 'N'));
        assert_eq!(letters, (0, 0, 1));
        assert_eq!(printed(&model.to_text(), &Lists::enough(&mut rng)), page);
    }
    for states in 2..=128 {
        let page = told(&mut rng, &gen::chain(states));
        assert_eq!(count(&page, 'W'), usize::from(states) - 1);
    }
}

#[test]
fn twins() {
    let mut rng = gen::seeded("pages::twins", SEED + 5);
    let mut branching = 0;
    for depth in 1..=127 {
        let model = gen::deep_model(&mut rng, depth);
        let twin = gen::with_twin(&mut rng, &model);
        let twin = gen::shuffle(&mut rng, &twin);
        branching += count(&told(&mut rng, &twin), 'N');
    }
    assert!(branching > 60, "{branching}");
}

#[test]
fn models_at_the_limits() {
    let mut rng = gen::seeded("pages::models_at_the_limits", SEED + 2);
    let mut most = [0; 3];
    for (what, model) in gen::limit_models(&mut rng) {
        let page = told(&mut rng, &model);
        assert_eq!(count(&page, 'C'), usize::from(model.states), "{what}");
        let text = model.to_text();
        assert_eq!(printed(&text, &Lists::enough(&mut rng)), page, "{what}");
        let sizes = [page.len(), count(&page, 'R'), count(&page, 'W')];
        most = [0, 1, 2].map(|index| most[index].max(sizes[index]));
    }
    // 3,393 bytes: a verdict of 15, 1,462 for the states, 127 letters of 15, 11 for the end
    assert!(most[0] >= 3_393 && most[1..] == [127, 127], "{most:?}");
}

#[test]
fn random_models() {
    let mut rng = gen::seeded("pages::random_models", SEED + 3);
    let (mut passed, mut shown, mut branching) = (0, 0, 0);
    let (mut runs, mut words) = (BTreeSet::new(), BTreeSet::new());
    for round in 0..3_000 {
        let model = match round % 2 {
            0 => gen::deterministic_model(&mut rng),
            _ => gen::any_model(&mut rng),
        };
        let page = told(&mut rng, &model);
        passed += usize::from(page.starts_with("V,pass,"));
        shown += count(&page, 'B');
        branching += count(&page, 'N');
        runs.insert(count(&page, 'R'));
        words.insert(count(&page, 'W'));
    }
    assert!(
        passed > 600 && shown > 600 && branching > 200,
        "{passed} {shown} {branching}"
    );
    assert!(words.len() > 60 && runs.len() > 4, "{words:?} {runs:?}");
}

/// A model with these levels alone. If H is one of them, an action has it.
fn of_levels(rng: &mut Rng, levels: &[Level]) -> Model {
    let mut model = gen::any_model(rng);
    for action in &mut model.actions {
        action.level = *rng.pick(levels);
    }
    if levels.contains(&Level::High) {
        let action = rng.below(model.actions.len());
        model.actions[action].level = Level::High;
    }
    model
}

/// Models whose actions have some of the levels only, H among them.
#[test]
fn levels_that_are_missing() {
    use Level::{High, Low, Release, Silent};
    let mut rng = gen::seeded("pages::levels_that_are_missing", SEED + 10);
    let choices: [&[Level]; 8] = [
        &[High],
        &[Low, High],
        &[Release, High],
        &[Low, Release, High],
        &[High, Silent],
        &[Low, High, Silent],
        &[Release, High, Silent],
        &[Low, Release, High, Silent],
    ];
    for levels in choices {
        let mut passed = 0;
        for _ in 0..100 {
            let model = of_levels(&mut rng, levels);
            let page = told(&mut rng, &model);
            assert_eq!(printed(&model.to_text(), &Lists::enough(&mut rng)), page);
            passed += usize::from(page.starts_with("V,pass,"));
        }
        // Nothing is to be seen.
        let all_pass = !levels.contains(&Low);
        assert_eq!(passed == 100, all_pass, "{levels:?}");
    }
}

/// Without H there is no page: nothing is to be kept out of sight.
#[test]
fn no_level_is_high() {
    use Level::{Low, Release, Silent};
    let mut rng = gen::seeded("pages::no_level_is_high", SEED + 11);
    for levels in [
        &[Low][..],
        &[Release],
        &[Low, Release],
        &[Silent],
        &[Low, Release, Silent],
    ] {
        for _ in 0..100 {
            let model = of_levels(&mut rng, levels);
            let before = Lists::enough(&mut rng);
            let line = format!("F,35,{}\n", model.actions.len() + 1);
            assert_eq!(printed(&model.to_text(), &before), line);
            let (answer, after) = PAGE.same(&Store::of(&model), &before);
            assert_eq!(answer, Err(Refusal::new(22, 0)));
            assert!(after == before, "{}", after.difference(&before));
        }
    }
}

/// The line that tells a verdict.
fn verdict_line(verdict: Verdict) -> String {
    match verdict {
        Verdict::Passed { rank } => format!("V,pass,{rank}"),
        Verdict::Refused { step, depth } => format!("V,refuse,{step},{depth}"),
    }
}

/// Judge's verdict is what the first line of Page tells, and of what is printed of the text.
#[test]
fn the_verdict_is_judges() {
    let mut rng = gen::seeded("pages::the_verdict_is_judges", SEED + 9);
    let mut models: Vec<Model> = (0..1_000).map(|_| gen::any_model(&mut rng)).collect();
    models.extend(
        gen::limit_models(&mut rng)
            .into_iter()
            .map(|(_, model)| model),
    );
    models.extend(
        (1..=127)
            .step_by(6)
            .map(|depth| gen::deep_model(&mut rng, depth)),
    );
    let mut passed = 0;
    for model in &models {
        let _case = gen::model_case(model);
        let store = Store::of(model);
        let mut lists = Lists::enough(&mut rng);
        let verdict = JUDGE.told(&store, &mut lists).expect("the store is good");
        passed += usize::from(matches!(verdict, Verdict::Passed { .. }));
        let line = verdict_line(verdict);
        let page = told(&mut rng, model);
        assert_eq!(page.lines().next(), Some(&line[..]));
        let page = printed(&model.to_text(), &lists);
        assert_eq!(page.lines().next(), Some(&line[..]));
    }
    assert!(passed > 200 && models.len() - passed > 200, "{passed}");
}

#[test]
fn from_texts_to_pages() {
    let mut rng = gen::seeded("pages::from_texts_to_pages", SEED + 6);
    let (mut pages, mut faults) = (0, 0);
    for round in 0..6_000 {
        let text = gen::any_model(&mut rng).to_text();
        let text = match round % 6 {
            0 => gen::scrap_text(&mut rng),
            1 | 2 => gen::mutated_text(&mut rng, &text),
            _ => text,
        };
        let page = printed(&text, &Lists::enough(&mut rng));
        pages += count(&page, 'V');
        faults += count(&page, 'F');
    }
    assert!(pages > 3_000 && faults > 1_500, "{pages} {faults}");
}

#[test]
fn every_fault_of_a_text() {
    let mut rng = gen::seeded("pages::every_fault_of_a_text", SEED + 7);
    for model in models_to_damage(&mut rng, 40) {
        let before = Lists::enough(&mut rng);
        for fault in gen::faults(&model) {
            let _case = gen::text_case(&fault.text);
            let line = format!("F,{},{}\n", fault.refusal.number, fault.refusal.place);
            assert_eq!(printed(&fault.text, &before), line, "{}", fault.what);
        }
    }
}
