//! Models without a high action: by hand what a text without one gets, and that one is enough, wherever it stands and
//! though it has no step. By the operations, the programs and the script. Stores without one are in `refusals.rs` and
//! `pages.rs` as well.
use std::collections::BTreeMap;

use second::gen::{self, Fault, Rng};
use second::store::{action_place, BOOK, STORE};
use second::{Level, Model, Refusal, Step, Verdict};
use suite::bench::{store_of, text_of, WORKED};
use suite::lists::Lists;
use suite::not_read;
use suite::operations::{on_stores, JUDGE, PAGE, PRINT, READ, WORD, WRITE};
use suite::program::{LONGEST, TILL};
use suite::script::with_book;
use suite::stores::{Store, HIGH};

const SEED: u64 = 8_200;

const STEPS: &str = "S,0,0,1\nS,0,1,2\nS,1,0,1\nS,2,0,3\n";

/// The worked example with these lines of its actions.
fn worked_with(scan: &str, print: &str, close: &str) -> String {
    format!("M,4,3,4,0\n{scan}\n{print}\n{close}\n{STEPS}E\n")
}

/// The same as the exporter wrote it that lost the level of `print`. It would pass, with nothing to check.
fn lost() -> String {
    worked_with("A,L,scan", "A,L,print", "A,D,close")
}

/// The last `A` line of a text whose other actions are low, with its number: 35 where the line is otherwise good. Its
/// place is 4.
const LAST: &[(&str, u16)] = &[
    ("A,L,close", 35),
    ("A,D,close", 35),
    ("A,T,close", 35),
    // wrong letter, field count, level or name
    ("", 2),
    ("X,D,close", 2),
    ("a,D,close", 2),
    ("AA,D,close", 2),
    ("I,1", 2),
    ("S,0,0,1", 2),
    ("E", 2),
    ("A", 2),
    ("A,D", 2),
    ("A,D,close,", 2),
    ("A,,close", 2),
    ("A,X,close", 2),
    ("A,h,close", 2),
    ("A,t,close", 2),
    ("A,HH,close", 2),
    ("A,D,", 2),
    ("A,D,Close", 2),
    ("A,D,close\r", 2),
    ("A,D,thirteenbytes", 2),
    // a name used before; 2 comes before it
    ("A,D,scan", 4),
    ("A,L,print", 4),
    ("A,X,scan", 2),
    ("A,D,scan,", 2),
    // it would be the high one
    ("A,H,scan", 4),
    ("A,H,", 2),
    ("A,H,close,", 2),
];

/// What follows the `A` lines of the worked example, with the number and the place that it gets where an action is
/// high. Where none is, 35 comes first.
const FOLLOWING: &[(&str, u16, u64)] = &[
    // the next line is absent, or has no line end
    ("", 32, 5),
    ("S", 32, 5),
    ("S,0,0,1", 32, 5),
    ("I,1", 32, 5),
    // it has a wrong letter or field count
    ("\n", 2, 5),
    ("s,0,0,1\n", 2, 5),
    ("S,0,0\n", 2, 5),
    ("S,0,0,1,\n", 2, 5),
    ("IX,1\n", 2, 5),
    ("I,1,\n", 2, 5),
    ("E\n", 2, 5),
    // a further action, high or not
    ("A,H,void\n", 2, 5),
    ("A,L,scan\n", 2, 5),
    // not 1 to 5 digits
    ("S,x,0,1\n", 31, 5),
    ("S,0,00,1\n", 31, 5),
    ("S,0,0,\n", 31, 5),
    ("I,100000\n", 31, 5),
    // not in its range
    ("S,4,0,1\n", 3, 5),
    ("S,0,3,1\n", 3, 5),
    ("S,0,0,99999\n", 3, 5),
    ("I,4\n", 3, 5),
    // a start or a step not above the one before it
    ("I,0\n", 33, 5),
    ("I,1\nI,1\n", 33, 6),
    ("S,0,0,1\nS,0,0,1\n", 5, 6),
    // later ones
    ("S,0,0,1\nS,0,1,2\nS,1,0,1\nS,2,0,3\n", 32, 9),
    ("S,0,0,1\nS,0,1,2\nS,1,0,1\nS,2,0,3\nE", 32, 9),
    ("S,0,0,1\nS,0,1,2\nS,1,0,1\nS,2,0,3\nE,\n", 2, 9),
    ("S,0,0,1\nS,0,1,2\nS,1,0,1\nS,2,0,3\nE\n\n", 32, 10),
    ("S,0,0,1\nS,0,1,2\nS,1,0,1\nS,2,0,3\nE\nA,H,void\n", 32, 10),
];

/// Another line in place of one before the last `A` line's: its place, which is the refusal's, and the number.
const EARLIER: &[(usize, &str, u16)] = &[
    (1, "X,4,3,4,0", 2),
    (1, "M,4,3,4", 2),
    (1, "M,4,3,4,00", 31),
    (1, "M,4,65,4,0", 3),
    (1, "M,4,3,4,4", 3),
    (2, "", 2),
    (2, "A,X,scan", 2),
    (2, "A,L,Scan", 2),
    (2, "I,1", 2),
    (3, "A,L", 2),
    (3, "A,L,print,", 2),
    (3, "A,L,scan", 4),
];

/// Line 1 counts the `A` lines, and so says which is the last.
const COUNTED: &[(&str, u16, u64)] = &[
    ("M,1,1,0,0\nA,L,print\nE\n", 35, 2),
    ("M,1,1,0,0\nA,D,print\nE\n", 35, 2),
    ("M,1,1,0,0\nA,T,print\nE\n", 35, 2),
    ("M,1,1,1,0\nA,L,print\nS,0,0,0\nE\n", 35, 2),
    // the high one is not counted
    ("M,1,1,0,0\nA,L,scan\nA,H,print\nE\n", 35, 2),
    ("M,1,2,0,0\nA,L,scan\nA,D,close\nA,H,print\nE\n", 35, 3),
    // it is, and one more stands behind it
    ("M,1,1,0,0\nA,H,print\nA,L,scan\nE\n", 2, 3),
    // one too few: the last is none, or absent
    ("M,1,3,0,0\nA,L,scan\nA,D,close\nE\n", 2, 4),
    ("M,2,3,0,0\nA,L,scan\nA,D,close\nI,1\nE\n", 2, 4),
    ("M,1,3,0,0\nA,L,scan\nA,D,close\n", 32, 4),
];

/// One state and 64 actions of these levels, with the longest names.
fn of_64_actions(level: impl Fn(usize) -> char) -> Vec<u8> {
    let action = |i| format!("A,{},scanbarcod{i:02}\n", level(i));
    text_of(1, &(0..64).map(action).collect::<String>(), &[])
}

/// Texts of the most bytes, and one more.
fn long_texts() -> Vec<(Vec<u8>, Refusal)> {
    let mut cases = Vec::new();
    for (text, last) in [(lost().into_bytes(), 4), (of_64_actions(|_| 'L'), 65)] {
        let padded = |length| {
            let mut text = text.clone();
            text.resize(length, b'\n');
            text
        };
        cases.push((padded(LONGEST), Refusal::new(35, last)));
        cases.push((padded(LONGEST + 1), Refusal::new(1, 0)));
    }
    // The last action's line ends with the text: its name is too long, or it has no line end.
    let mut text = b"M,4,2,4,0\nA,L,scan\nA,L,".to_vec();
    text.resize(LONGEST, b'a');
    cases.push((text.clone(), Refusal::new(32, 3)));
    text[LONGEST - 1] = b'\n';
    cases.push((text, Refusal::new(2, 3)));
    cases
}

/// Texts with their refusals.
fn cases() -> Vec<(Vec<u8>, Refusal)> {
    let mut cases = long_texts();
    let mut add = |text: &str, number: u16, place: u64| {
        cases.push((text.as_bytes().to_vec(), Refusal::new(number, place)));
    };
    add(&lost(), 35, 4);
    for &(last, number) in LAST {
        let before = "M,4,3,4,0\nA,L,scan\nA,L,print";
        add(&format!("{before}\n{last}\n{STEPS}E\n"), number, 4);
        // The same where the text ends with this line, and where the line does not end.
        add(&format!("{before}\n{last}\n"), number, 4);
        add(&format!("{before}\n{last}"), 32, 4);
    }
    for &(following, number, place) in FOLLOWING {
        for (scan, print, close) in [('L', 'L', 'D'), ('L', 'D', 'L'), ('D', 'D', 'D')] {
            let actions = format!("A,{scan},scan\nA,{print},print\nA,{close},close");
            add(&format!("M,4,3,4,0\n{actions}\n{following}"), 35, 4);
        }
        for actions in ["A,H,scan\nA,L,print", "A,L,scan\nA,H,print"] {
            let text = format!("M,4,3,4,0\n{actions}\nA,D,close\n{following}");
            add(&text, number, place);
        }
    }
    for &(place, line, number) in EARLIER {
        let text = lost();
        let mut lines: Vec<&str> = text.lines().collect();
        lines[place - 1] = line;
        add(&(lines.join("\n") + "\n"), number, place as u64);
        add(&lines[..place].join("\n"), 32, place as u64);
    }
    for &(text, number, place) in COUNTED {
        add(text, number, place);
    }
    // Cut off anywhere: the line at hand has no end, until the last action's line has its own.
    let lost = lost().into_bytes();
    for length in 0..lost.len() {
        let ended = lost[..length].iter().filter(|&&b| b == b'\n').count() as u64;
        let (number, place) = if ended < 4 { (32, ended + 1) } else { (35, 4) };
        cases.push((lost[..length].to_vec(), Refusal::new(number, place)));
    }
    cases.push((of_64_actions(|_| 'L'), Refusal::new(35, 65)));
    cases.push((of_64_actions(|_| 'D'), Refusal::new(35, 65)));
    let either = |i| if i % 3 == 0 { 'D' } else { 'L' };
    cases.push((of_64_actions(either), Refusal::new(35, 65)));
    cases
}

#[test]
fn by_the_operations() {
    let mut rng = gen::seeded("high::by_the_operations", SEED);
    for (text, expected) in cases() {
        not_read::by_the_operations(&text, expected, &Lists::enough(&mut rng));
    }
}

#[test]
fn by_the_programs() {
    for (text, expected) in cases() {
        not_read::by_the_programs(&text, expected);
    }
}

/// Page, roll, book and the check of a book: the line of the text, and the status of a text that is not read.
#[test]
fn by_the_script() {
    let (_folder, book) = with_book("high", &[7; BOOK]);
    let book = book.to_str().expect("a path");
    for words in [&[][..], &["--roll"], &["--book"], &["--check", book]] {
        for (text, last) in [(lost().into_bytes(), 4), (of_64_actions(|_| 'D'), 65)] {
            not_read::by_the_script(words, &text, Refusal::new(35, last));
        }
    }
}

/// Read takes the text, and Write gives it back.
fn read_and_written(rng: &mut Rng, text: &[u8]) -> Store {
    let _case = gen::text_case(text);
    let store = store_of(text);
    let before = Lists::enough(rng);
    let (answer, after) = WRITE.same(&store, &before);
    assert_eq!(answer, Ok(text.len()));
    assert_eq!(&after.written[..text.len()], text);
    store
}

/// One high action is enough, whichever it is.
#[test]
fn every_choice_of_levels() {
    let mut rng = gen::seeded("high::every_choice_of_levels", SEED + 1);
    let levels = ['L', 'D', 'H', 'T'];
    let chosen = |i: usize| (levels[i / 16], levels[i / 4 % 4], levels[i % 4]);
    let mut refused = 0;
    for (scan, print, close) in (0..64).map(chosen) {
        let [scan, print, close] = [(scan, "scan"), (print, "print"), (close, "close")]
            .map(|(level, name)| format!("A,{level},{name}"));
        let text = worked_with(&scan, &print, &close);
        if text.contains("A,H,") {
            read_and_written(&mut rng, text.as_bytes());
        } else {
            let before = Lists::enough(&mut rng);
            not_read::by_the_operations(text.as_bytes(), Refusal::new(35, 4), &before);
            refused += 1;
        }
    }
    assert_eq!(refused, 27);
}

/// The only high one of 64 actions first, last and at each place between.
#[test]
fn one_high_action_of_64() {
    let mut rng = gen::seeded("high::one_high_action_of_64", SEED + 2);
    for high in 0..64 {
        let level = |i| match i {
            _ if i == high => 'H',
            _ if i % 2 == 0 => 'L',
            _ => 'D',
        };
        let store = read_and_written(&mut rng, &of_64_actions(level));
        let is_high = |&i: &usize| store[action_place(i)] == HIGH;
        assert!((0..64).filter(is_high).eq([high]));
        let (verdict, _) = JUDGE.same(&store, &Lists::enough(&mut rng));
        assert_eq!(verdict, Ok(Verdict::Passed { rank: 0 }));
    }
}

/// Texts in which a high action has no step, with their rank and their page.
const UNUSED: &[(&str, u16, &str)] = &[
    // one action alone
    ("M,1,1,0,0\nA,H,print\nE\n", 0, "V,pass,0\nC,0,0,0\nE\n"),
    // no step at all
    (
        "M,2,3,0,0\nA,L,scan\nA,H,print\nA,D,close\nE\n",
        0,
        "V,pass,0\nC,0,0,0\nC,1,-,0\nE\n",
    ),
    // a scan, after which there is none
    (
        "M,2,3,1,0\nA,L,scan\nA,H,print\nA,D,close\nS,0,0,1\nE\n",
        1,
        "V,pass,1\nC,0,0,0\nC,1,1,1\nE\n",
    ),
    // releases
    (
        "M,2,3,2,0\nA,L,scan\nA,H,print\nA,D,close\nS,0,2,1\nS,1,2,0\nE\n",
        0,
        "V,pass,0\nC,0,0,0\nC,1,1,0\nE\n",
    ),
    // another high action has one, whose ends cannot be told apart
    (
        "M,2,3,1,0\nA,H,print\nA,L,scan\nA,H,drawer\nS,0,0,1\nE\n",
        0,
        "V,pass,0\nC,0,0,0\nC,1,1,0\nE\n",
    ),
];

/// It is read, passes and is written back.
#[test]
fn a_high_action_without_a_step() {
    let mut rng = gen::seeded("high::a_high_action_without_a_step", SEED + 3);
    for &(text, rank, page) in UNUSED {
        let store = read_and_written(&mut rng, text.as_bytes());
        let before = Lists::enough(&mut rng);
        let verdict = JUDGE.same(&store, &before).0;
        assert_eq!(verdict, Ok(Verdict::Passed { rank }), "{text}");
        assert_eq!(WORD.same(&store, &before).0, Err(Refusal::new(24, 0)));
        let (paged, printed) = (
            PAGE.same(&store, &before),
            PRINT.same(text.as_bytes(), &before),
        );
        for (length, after) in [paged, printed] {
            assert_eq!(length, Ok(page.len()), "{text}");
            assert_eq!(&after.page[..page.len()], page.as_bytes(), "{text}");
        }
        assert_eq!(TILL.same(text.as_bytes()), page.as_bytes(), "{text}");
    }
}

/// Models with one high action, first, last or in between, with steps of it and without: each is read, and passes where
/// there are none.
#[test]
fn models_with_one_high_action() {
    let mut rng = gen::seeded("high::models_with_one_high_action", SEED + 4);
    let (mut unused, mut refused) = (0, 0);
    for round in 0..600 {
        let model = gen::one_high_model(&mut rng, round % 2 == 0);
        let store = read_and_written(&mut rng, &model.to_text());
        let before = Lists::enough(&mut rng);
        let passes = match JUDGE.same(&store, &before).0.expect("the store is good") {
            Verdict::Passed { .. } => true,
            Verdict::Refused { .. } => false,
        };
        assert!(PAGE.same(&store, &before).0.is_ok(), "{store}");
        let is_high = |step: &Step| model.level(step.action) == Level::High;
        if !model.steps.iter().any(is_high) {
            assert!(passes, "{store}");
            unused += 1;
        }
        refused += usize::from(!passes);
    }
    assert!(unused > 100 && refused > 30, "{unused} {refused}");
}

/// Without a high action, and most with another fault: in an earlier line, in the last action's or in a later one.
#[test]
fn texts_without_a_high_action() {
    let mut rng = gen::seeded("high::texts_without_a_high_action", SEED + 5);
    let mut numbers = BTreeMap::new();
    for round in 0..3_000 {
        let model = gen::any_model(&mut rng);
        let Fault { text, refusal, .. } = gen::no_high_text(&mut rng, &model);
        not_read::by_the_operations(&text, refusal, &Lists::enough(&mut rng));
        if round % 10 == 0 {
            not_read::by_the_programs(&text, refusal);
        }
        *numbers.entry(refusal.number).or_insert(0) += 1;
    }
    assert!(numbers.keys().eq(&[2, 3, 4, 31, 32, 35]), "{numbers:?}");
    assert!(numbers.values().all(|&count| count > 20), "{numbers:?}");
}

/// The model as an exporter that has lost the level H writes it.
fn without_high(rng: &mut Rng, model: &Model) -> Model {
    let mut lost = model.clone();
    for action in &mut lost.actions {
        if action.level == Level::High {
            action.level = *rng.pick(&[Level::Low, Level::Release]);
        }
    }
    lost
}

/// Archived texts, the stores that were made of them, and what mends them: an action that is high, whichever it is.
#[test]
fn models_that_lost_the_level() {
    let mut rng = gen::seeded("high::models_that_lost_the_level", SEED + 6);
    let mut models: Vec<Model> = (0..600).map(|_| gen::any_model(&mut rng)).collect();
    let limits = gen::limit_models(&mut rng).into_iter();
    models.extend(limits.map(|(_, model)| model));
    let mut longest = 0;
    for model in models {
        let model = without_high(&mut rng, &model);
        let _case = gen::model_case(&model);
        let (text, before) = (model.to_text(), Lists::enough(&mut rng));
        let last = model.actions.len() as u64 + 1;
        not_read::by_the_operations(&text, Refusal::new(35, last), &before);
        let store = Store::of(&model);
        for operation in on_stores() {
            let (refusal, after) = operation.refusal(&(&store).into(), &before);
            let name = operation.name();
            assert_eq!(refusal, Some(Refusal::new(22, 0)), "{name}");
            assert!(after == before, "{name}");
        }
        let (mut mended, action) = (model.clone(), rng.below(model.actions.len()));
        mended.actions[action].level = Level::High;
        read_and_written(&mut rng, &mended.to_text());
        longest = longest.max(text.len());
    }
    assert_eq!(longest, 15_072, "the most bytes of a model's text");
}

/// A store that holds a model keeps it, and can be judged still.
#[test]
fn what_the_store_held_stays() {
    let mut rng = gen::seeded("high::what_the_store_held_stays", SEED + 7);
    let kept = worked_with("A,L,scan", "A,H,print", "A,D,close");
    assert_eq!(kept.as_bytes(), WORKED);
    let mut lists = Lists::enough(&mut rng);
    assert_eq!(READ.told(WORKED, &mut lists), Ok(()));
    let held = lists.clone();
    let answer = READ.told(lost().as_bytes(), &mut lists);
    assert_eq!(answer, Err(Refusal::new(35, 4)));
    assert!(lists == held, "{}", lists.difference(&held));
    assert_eq!(lists.store[..STORE], store_of(WORKED)[..]);
}
