//! Models without a high action (request (vi) of document 02), sentence by
//! sentence, with answers found by hand; at the end on random models.

mod common;

use std::collections::BTreeMap;

use common::operations::ON_STORES;
use common::{model_of, refusal, store_of, Lists, EXAMPLE};
use second::store::{good, BOOK, STORE};
use second::text::{parse_or_cause, Cause};
use second::{book_program, check_program, gen, meaning, page, program, read, write};
use second::{Level, Refusal};

/// The worked example with the level of `print` lost.
const LOST: &[u8] =
    b"M,4,3,4,0\nA,L,scan\nA,L,print\nA,D,close\nS,0,0,1\nS,0,1,2\nS,1,0,1\nS,2,0,3\nE\n";

/// These lines, each ended.
fn text(lines: &[&str]) -> Vec<u8> {
    let ended = lines.iter().map(|line| format!("{line}\n"));
    ended.collect::<String>().into_bytes()
}

/// These lines, of which the last is not ended.
fn unended(lines: &[&str]) -> Vec<u8> {
    lines.join("\n").into_bytes()
}

/// The page of a good text. It is checked besides.
fn page_of(text: &[u8]) -> String {
    let page = program(text);
    assert_eq!(meaning::page_holds(text, &page), Ok(()));
    String::from_utf8(page).expect("ASCII")
}

/// The number is 35, its place the last `A` line, for every program.
#[test]
fn the_level_of_print_is_lost() {
    assert_eq!(refusal(LOST), (35, 4));
    assert_eq!(parse_or_cause(LOST), Err((Cause::NoHigh, 4)));
    assert_eq!(program(LOST), b"F,35,4\n");
    assert_eq!(book_program(LOST), b"F,35,4\n");
    assert_eq!(check_program(LOST, &[0; BOOK]), b"F,35,4\n");
    let release = text(&["M,1,2,0,0", "A,L,scan", "A,D,print", "E"]);
    assert_eq!(refusal(&release), (35, 3));
    assert_eq!(page_of(EXAMPLE)[..9], *"V,refuse,");
}

/// The example of a till whose scanner stops while it prints: with its level the
/// print leaks, without it there is nothing to check.
#[test]
fn an_exporter_that_lost_the_level() {
    let lines = [
        "M,3,3,5,0",
        "A,L,scan",
        "A,L,print",
        "A,D,close",
        "S,0,0,1",
        "S,1,0,1",
        "S,1,1,2",
        "S,1,2,0",
        "S,2,2,0",
        "E",
    ];
    let lost = include_bytes!("../../../examples/no_high.txt");
    assert_eq!(lost[..], text(&lines));
    assert_eq!(refusal(lost), (35, 4));
    assert_eq!(
        include_bytes!("../../../examples/no_high.page"),
        b"F,35,4\n"
    );
    let mut mended = lines;
    mended[2] = "A,H,print";
    let page = "V,refuse,2,1\nC,0,0,0\nC,1,1,0\nC,2,2,2\nR,0\nW,scan\nB,source\nE\n";
    assert_eq!(page_of(&text(&mended)), page);
}

/// The example of the same till without its print step, which leaves nothing
/// that leads to state 2. It has a high action, and is read as before.
#[test]
fn a_high_action_without_a_step() {
    let lines = [
        "M,3,3,4,0",
        "A,L,scan",
        "A,H,print",
        "A,D,close",
        "S,0,0,1",
        "S,1,0,1",
        "S,1,2,0",
        "S,2,2,0",
        "E",
    ];
    let unused = include_bytes!("../../../examples/unused_high.txt");
    assert_eq!(unused[..], text(&lines));
    let page = "V,pass,1\nC,0,0,0\nC,1,1,0\nC,2,-,2\nE\n";
    assert_eq!(page_of(unused), page);
    let kept = include_str!("../../../examples/unused_high.page");
    assert_eq!(kept, page);

    // No step at all, none but low ones, none but releases.
    for steps in [&[][..], &["S,0,0,1"], &["S,0,2,1", "S,1,2,0"]] {
        let head = format!("M,2,3,{},0", steps.len());
        let actions = ["A,L,scan", "A,H,print", "A,D,close"];
        let text = text(&[&[&head[..]][..], &actions, steps, &["E"]].concat());
        assert_eq!(page_of(&text)[..7], *"V,pass,");
        let mut lists = Lists::new();
        let length = write(&store_of(&text), &mut lists.written).unwrap();
        assert_eq!(lists.written[..length], text);
    }
}

/// One action, which is then high.
#[test]
fn one_action() {
    for (level, step) in [("L", true), ("D", true), ("L", false), ("D", false)] {
        let action = format!("A,{level},print");
        let lines = match step {
            true => vec!["M,1,1,1,0", &action, "S,0,0,0", "E"],
            false => vec!["M,1,1,0,0", &action, "E"],
        };
        assert_eq!(refusal(&text(&lines)), (35, 2), "{level}");
    }
    for lines in [
        &["M,1,1,1,0", "A,H,print", "S,0,0,0", "E"][..],
        &["M,1,1,0,0", "A,H,print", "E"],
    ] {
        assert_eq!(page_of(&text(lines)), "V,pass,0\nC,0,0,0\nE\n");
    }
}

/// One state and 64 actions, of these levels.
fn many_actions(level: impl Fn(usize) -> char) -> Vec<u8> {
    let mut text = "M,1,64,0,0\n".to_string();
    for action in 0..64 {
        text += &format!("A,{},a{action}\n", level(action));
    }
    (text + "E\n").into_bytes()
}

/// The last of 64 `A` lines is line 65. One high action is enough, wherever it
/// stands.
#[test]
fn sixty_four_actions() {
    for others in ['L', 'D'] {
        assert_eq!(refusal(&many_actions(|_| others)), (35, 65));
        for high in 0..64 {
            let one = many_actions(|action| if action == high { 'H' } else { others });
            assert_eq!(page_of(&one), "V,pass,0\nC,0,0,0\nE\n", "{high}");
        }
    }
    let mixed = many_actions(|action| if action % 3 == 0 { 'D' } else { 'L' });
    assert_eq!(refusal(&mixed), (35, 65));
    assert_eq!(page_of(&many_actions(|_| 'H'))[..9], *"V,pass,0\n");
}

/// High first, last, in between, and more than once.
#[test]
fn where_the_high_action_stands() {
    for levels in ["HLD", "LHD", "LDH", "HHL", "HLH", "LHH", "HHH"] {
        let mut text = "M,1,3,0,0\n".to_string();
        for (action, level) in levels.chars().enumerate() {
            text += &format!("A,{level},a{action}\n");
        }
        text += "E\n";
        assert_eq!(page_of(text.as_bytes())[..9], *"V,pass,0\n", "{levels}");
    }
}

/// Last `A` lines with another fault, each with its number: tested when that
/// line is otherwise good.
#[test]
fn other_faults_of_the_last_action_come_first() {
    let before = ["M,2,2,1,0", "A,L,scan"];
    let after = ["S,0,0,1", "E"];
    for (last, number) in [
        // Letter, field count, level, name.
        ("", 2),
        ("X,L,print", 2),
        ("a,L,print", 2),
        ("AA,L,print", 2),
        ("I,1", 2),
        ("S,0,0,1", 2),
        ("E", 2),
        ("A", 2),
        ("A,L", 2),
        ("A,L,print,", 2),
        ("A,L,print,0", 2),
        ("A,,print", 2),
        ("A,h,print", 2),
        ("A,HH,print", 2),
        ("A,X,print", 2),
        ("A,LH,print", 2),
        ("A,L,", 2),
        ("A,D,Print", 2),
        ("A,L,printprintpri", 2),
        ("A,L,print\r", 2),
        // A name used before.
        ("A,L,scan", 4),
        ("A,D,scan", 4),
        // A level that is wrong, and the name of the first action.
        ("A,X,scan", 2),
        // Otherwise good.
        ("A,L,print", 35),
        ("A,D,print", 35),
    ] {
        let lines = [&before[..], &[last], &after].concat();
        assert_eq!(refusal(&text(&lines)), (number, 3), "{last}");
        // Then nothing.
        let ends = [&before[..], &[last]].concat();
        assert_eq!(refusal(&text(&ends)), (number, 3), "{last}");
        // No line end.
        assert_eq!(refusal(&unended(&ends)), (32, 3), "{last}");
    }
    assert_eq!(refusal(&text(&before)), (32, 3));
    // A high action in this line, were it not for the fault; and an earlier one.
    for (last, number) in [("A,H,scan", 4), ("A,H,", 2), ("A,H,print,", 2)] {
        let lines = [&before[..], &[last], &after].concat();
        assert_eq!(refusal(&text(&lines)), (number, 3), "{last}");
    }
    for (last, number) in [("A,L,print", 4), ("A,L,", 2), ("A,X,scan", 2)] {
        let lines = ["M,2,2,1,0", "A,H,print", last, "S,0,0,1", "E"];
        assert_eq!(refusal(&text(&lines)), (number, 3), "{last}");
    }
}

/// What may stand after the last `A` line, in a text of 3 states and 2 steps:
/// wrong lines of each kind, with the number and the place that each gets in a
/// model with a high action. Without one all get 35.
#[test]
fn later_faults_do_not_count() {
    for (later, fault) in [
        // Nothing, and a line that is not ended.
        ("", (32, 4)),
        ("S", (32, 4)),
        ("S,0,0,1", (32, 4)),
        ("I,1", (32, 4)),
        ("E", (32, 4)),
        ("x", (32, 4)),
        ("S,0,0,1\n", (32, 5)),
        ("I,1\n", (32, 5)),
        // 2: letter, field count, an action or a step more than there are.
        ("\n", (2, 4)),
        ("E\n", (2, 4)),
        ("x\n", (2, 4)),
        ("A,H,third\nS,0,0,1\nS,0,1,1\nE\n", (2, 4)),
        ("S,0,0\nS,0,1,1\nE\n", (2, 4)),
        ("S,0,0,1,0\nS,0,1,1\nE\n", (2, 4)),
        ("I\nS,0,0,1\nS,0,1,1\nE\n", (2, 4)),
        ("IX,1\nS,0,0,1\nS,0,1,1\nE\n", (2, 4)),
        ("I,1,\nS,0,0,1\nS,0,1,1\nE\n", (2, 4)),
        ("S,0,0,1\nE\n", (2, 5)),
        ("S,0,0,1\nS,0,1,1\nS,1,1,1\nE\n", (2, 6)),
        ("S,0,0,1\nS,0,1,1\ne\n", (2, 6)),
        // 31.
        ("S,x,0,1\nS,0,1,1\nE\n", (31, 4)),
        ("S,0,00,1\nS,0,1,1\nE\n", (31, 4)),
        ("S,0,0,\nS,0,1,1\nE\n", (31, 4)),
        ("I,\nS,0,0,1\nS,0,1,1\nE\n", (31, 4)),
        ("I,01\nS,0,0,1\nS,0,1,1\nE\n", (31, 4)),
        // 3.
        ("S,3,0,1\nS,0,1,1\nE\n", (3, 4)),
        ("S,0,2,1\nS,0,1,1\nE\n", (3, 4)),
        ("S,0,0,99999\nS,0,1,1\nE\n", (3, 4)),
        ("I,3\nS,0,0,1\nS,0,1,1\nE\n", (3, 4)),
        // 33.
        ("I,0\nS,0,0,1\nS,0,1,1\nE\n", (33, 4)),
        ("I,1\nI,1\nS,0,0,1\nS,0,1,1\nE\n", (33, 5)),
        // 5: the first step has none before it.
        ("S,0,1,1\nS,0,1,1\nE\n", (5, 5)),
        ("S,0,1,1\nS,0,0,1\nE\n", (5, 5)),
        // Bytes after E.
        ("S,0,0,1\nS,0,1,1\nE\n\n", (32, 7)),
        ("S,0,0,1\nS,0,1,1\nE\nx", (32, 7)),
        ("S,0,0,1\nS,0,1,1\nE\nA,H,third\n", (32, 7)),
    ] {
        for (scan, print) in [("L", "L"), ("L", "D"), ("D", "L"), ("D", "D")] {
            let head = format!("M,3,2,2,0\nA,{scan},scan\nA,{print},print\n{later}");
            assert_eq!(refusal(head.as_bytes()), (35, 3), "{later:?}");
        }
        for (scan, print) in [("L", "H"), ("H", "D"), ("H", "H")] {
            let head = format!("M,3,2,2,0\nA,{scan},scan\nA,{print},print\n{later}");
            assert_eq!(refusal(head.as_bytes()), fault, "{later:?}");
        }
    }
    // An action alone, and then the end of the text.
    assert_eq!(refusal(b"M,1,1,0,0\nA,L,a\n"), (35, 2));
    assert_eq!(refusal(b"M,1,1,0,0\nA,L,a\nE"), (35, 2));
    assert_eq!(refusal(b"M,1,1,0,0\nA,L,a"), (32, 2));
}

/// An earlier line's fault decides, and so do too many bytes.
#[test]
fn earlier_faults_come_first() {
    for (first, second, fault) in [
        ("X,1,3,0,0", "A,L,a", (2, 1)),
        ("M,1,3,0", "A,L,a", (2, 1)),
        ("M,1,3,0,00", "A,L,a", (31, 1)),
        ("M,0,3,0,0", "A,L,a", (3, 1)),
        ("M,1,3,0,1", "A,L,a", (3, 1)),
        ("M,1,0,0,0", "A,L,a", (3, 1)),
        ("M,1,65,0,0", "A,L,a", (3, 1)),
        ("M,1,3,0,0", "", (2, 2)),
        ("M,1,3,0,0", "A,L", (2, 2)),
        ("M,1,3,0,0", "A,X,a", (2, 2)),
        ("M,1,3,0,0", "A,L,A", (2, 2)),
        ("M,1,3,0,0", "A,L,b", (4, 3)),
        ("M,1,3,0,0", "A,L,a", (35, 4)),
    ] {
        let lines = [first, second, "A,D,b", "A,L,c", "E"];
        assert_eq!(refusal(&text(&lines)), fault, "{first} {second}");
        // Whatever the last action's line has.
        for last in ["A,X,c", "A,L,c,", "A,L,C", "x"] {
            let lines = [first, second, "A,D,b", last, "E"];
            let fault = if fault.0 == 35 { (2, 4) } else { fault };
            assert_eq!(refusal(&text(&lines)), fault, "{first} {second} {last}");
        }
    }
    let mut long = LOST.to_vec();
    long.resize(16_384, b'\n');
    assert_eq!(refusal(&long), (35, 4));
    long.push(b'\n');
    assert_eq!(refusal(&long), (1, 0));
    assert_eq!(refusal(b"M,1,2,0,0\nA,L,a\n"), (32, 3));
    assert_eq!(refusal(b"M,1,2,0,0\nA,L,a\nA"), (32, 3));
}

/// Line 1 counts the `A` lines, and so says which is the last.
#[test]
fn the_last_action_is_that_of_line_1() {
    // A high action past the last is none.
    let lines = ["M,1,2,0,0", "A,L,a", "A,D,b", "A,H,c", "E"];
    assert_eq!(refusal(&text(&lines)), (35, 3));
    let lines = ["M,1,1,0,0", "A,L,a", "A,H,b", "E"];
    assert_eq!(refusal(&text(&lines)), (35, 2));
    let lines = ["M,1,1,0,0", "A,H,a", "A,L,b", "E"];
    assert_eq!(refusal(&text(&lines)), (2, 3));
    // The last is absent, or another stands in its place.
    let lines = ["M,1,3,0,0", "A,L,a", "A,D,b", "E"];
    assert_eq!(refusal(&text(&lines)), (2, 4));
    assert_eq!(refusal(&text(&lines[..3])), (32, 4));
    let lines = ["M,2,3,0,0", "A,L,a", "A,D,b", "I,1", "E"];
    assert_eq!(refusal(&text(&lines)), (2, 4));
}

/// The store of the worked example with other numbers at some places: the level
/// of scan is place 4, of print 18, of close 32.
fn changed(changes: &[(usize, u16)]) -> Vec<u16> {
    let mut store = store_of(EXAMPLE);
    for &(place, number) in changes {
        store[place] = number;
    }
    store
}

/// Every operation on stores gives 22 and changes nothing; 21 still comes before
/// it, for each list.
#[test]
fn stores_made_from_such_texts() {
    let not_good = Some(Refusal::new(22, 0));
    for store in [changed(&[(18, 0)]), changed(&[(18, 1)])] {
        let old = Lists::new();
        for operation in ON_STORES {
            let name = operation.name;
            let mut lists = old.clone();
            assert_eq!((operation.refusal)(&store, &mut lists), not_good, "{name}");
            assert!(lists == old, "{name}");
            let longer = [&store[..], &[2; 20]].concat();
            assert_eq!((operation.refusal)(&longer, &mut lists), not_good, "{name}");
            assert!(lists == old, "{name}");

            let least = (operation.least)();
            for short in 0..least.len() {
                let mut lengths = least.clone();
                lengths[short] -= 1;
                let mut lists = old.clone();
                (operation.shorten)(&mut lists, &lengths);
                let before = lists.clone();
                let refusal = (operation.refusal)(&store[..lengths[0]], &mut lists);
                let too_short = Refusal::new(21, short as u64 + 1);
                assert_eq!(refusal, Some(too_short), "{name}");
                assert!(lists == before, "{name}");
            }
        }
    }
}

/// The same for stores of many models.
#[test]
fn stores_made_without_a_high_action() {
    let mut rng = gen::seeded("second::high::stores_made_without_a_high_action", 603);
    let old = Lists::new();
    for _ in 0..200 {
        let model = gen::any_model(&mut rng);
        let store = gen::no_high_store(&mut rng, &model);
        let _case = gen::case(|| gen::shown_store(&model, &store));
        let mut lists = old.clone();
        for operation in ON_STORES {
            let refusal = (operation.refusal)(&store, &mut lists);
            assert_eq!(refusal, Some(Refusal::new(22, 0)), "{}", operation.name);
        }
        assert!(lists == old);
    }
}

/// 22 comes before 25 of Run and 34 of Check, and nothing is told of the rest.
#[test]
fn refusals_after_22() {
    let store = changed(&[(18, 0)]);
    let not_good = Refusal::new(22, 0);
    for state in [0, 3, 4, 65_535] {
        let mut l = Lists::new();
        let answer = second::run(&store, &mut l.distances, &mut l.run, state);
        assert_eq!(answer, Err(not_good));
    }
    assert_eq!(second::check(&store, &[3; BOOK]), Err(not_good));
    assert_eq!(second::check(&store, &[0; BOOK]), Err(not_good));
    let mut l = Lists::new();
    let answer = page(
        &store,
        &mut l.distances,
        &mut l.table,
        &mut l.run,
        &mut l.word,
        &mut l.out,
    );
    assert_eq!(answer, Err(not_good));
    assert!(l == Lists::new());
}

/// A store with one high action, and changes of one level.
#[test]
fn one_level_of_a_store_changed() {
    let is_good = |changes: &[(usize, u16)]| match good(&changed(changes)) {
        Ok(model) => {
            assert_eq!(model.to_store(), changed(changes));
            true
        }
        Err(refusal) => {
            assert_eq!(refusal, Refusal::new(22, 0));
            false
        }
    };
    assert!(is_good(&[]));
    assert!(!is_good(&[(18, 0)]) && !is_good(&[(18, 1)]));
    // Each level of the others, beside the high one and without it.
    for (scan, close) in [(0, 0), (0, 1), (1, 0), (1, 1)] {
        assert!(is_good(&[(4, scan), (32, close)]));
        assert!(!is_good(&[(4, scan), (18, 0), (32, close)]));
        assert!(!is_good(&[(4, scan), (18, 1), (32, close)]));
    }
    // High is the first, the last, two of them or all.
    assert!(is_good(&[(4, 2), (18, 0)]) && is_good(&[(18, 1), (32, 2)]));
    for two in [[4, 18], [18, 32], [4, 32]] {
        let high = |place: usize| (place, if two.contains(&place) { 2 } else { 0 });
        let levels = [high(4), high(18), high(32)];
        assert!(is_good(&levels));
        for (lost, kept) in [(two[0], two[1]), (two[1], two[0])] {
            for level in [0, 1] {
                assert!(is_good(&[&levels[..], &[(lost, level)]].concat()));
                let none = [&levels[..], &[(lost, level), (kept, level)]].concat();
                assert!(!is_good(&none));
            }
        }
    }
    assert!(is_good(&[(4, 2), (18, 2), (32, 2)]));
    // A 2 in the place of an unused action's level is no high action.
    assert!(!is_good(&[(18, 0), (46, 2)]) && !is_good(&[(46, 2)]));
    // Nor is a name of two bytes, whose length is 2.
    let named_2 = text(&["M,1,1,0,0", "A,H,ab", "E"]);
    let mut store = store_of(&named_2);
    assert_eq!(store[4..8], [2, 2, 97, 98]);
    assert!(good(&store).is_ok());
    store[4] = 0;
    assert_eq!(good(&store), Err(Refusal::new(22, 0)));
}

/// With 64 actions, of which one is high wherever it stands.
#[test]
fn one_level_of_many_changed() {
    for high in 0..64 {
        let level = |action: usize| match action {
            _ if action == high => 'H',
            _ => ['L', 'D'][action % 2],
        };
        let store = store_of(&many_actions(level));
        for action in 0..64 {
            for number in [0, 1, 2] {
                let mut changed = store.clone();
                changed[4 + 14 * action] = number;
                let kept = action != high || number == 2;
                assert_eq!(good(&changed).is_ok(), kept, "{high} {action} {number}");
            }
        }
    }
}

/// Texts that were read before get the new number, and the stores made from them
/// get 22.
#[test]
fn archived_texts_and_stores() {
    let mut rng = gen::seeded("second::high::archived_texts_and_stores", 601);
    for _ in 0..500 {
        let mut model = gen::any_model(&mut rng);
        for action in &mut model.actions {
            if action.level == Level::High {
                action.level = *rng.pick(&[Level::Low, Level::Release]);
            }
        }
        let _case = gen::model_case(&model);
        let last = model.actions.len() as u64 + 1;
        assert_eq!(refusal(&model.to_text()), (35, last));
        assert_eq!(good(&model.to_store()), Err(Refusal::new(22, 0)));
    }
}

/// After 35 the store holds what it held, and Read takes one of any contents.
#[test]
fn the_store_is_kept() {
    for old in [0, 2, 65_535] {
        let mut store = vec![old; STORE + 3];
        assert_eq!(read(LOST, &mut store), Err(Refusal::new(35, 4)));
        assert!(store.iter().all(|&number| number == old));
        let short = &mut store[..STORE - 1];
        assert_eq!(read(LOST, short), Err(Refusal::new(21, 2)));
    }
    let mut store = store_of(EXAMPLE);
    let old = store.clone();
    assert_eq!(read(LOST, &mut store), Err(Refusal::new(35, 4)));
    assert_eq!(store, old);
    assert_eq!(model_of(EXAMPLE).to_store(), old);
}

/// A text in which the first action is high.
fn with_first_high(text: &[u8]) -> Vec<u8> {
    let mut text = text.to_vec();
    let first = text.iter().position(|&byte| byte == b'\n').expect("line 1");
    let level = first + "\nA,".len();
    assert!(matches!(text[level], b'L' | b'D'));
    text[level] = b'H';
    text
}

/// Texts made for the tests: each gets what it must, with each number that comes
/// before 35, in an earlier line or the same, and beside each that comes later.
#[test]
fn texts_made_without_a_high_action() {
    let mut rng = gen::seeded("second::high::texts_made_without_a_high_action", 602);
    let mut counts: [BTreeMap<u16, usize>; 3] = Default::default();
    for _ in 0..20_000 {
        let model = gen::small_model(&mut rng, false);
        let fault = gen::no_high_text(&mut rng, &model);
        let _case = gen::text_case(&fault.text);
        let (number, place) = refusal(&fault.text);
        assert_eq!(fault.refusal, Refusal::new(number, place), "{}", fault.what);
        let cause = parse_or_cause(&fault.text).err();
        assert_eq!(cause, Some((fault.cause, place)));
        let last = model.actions.len() as u64 + 1;
        let (turn, number) = match number {
            35 => {
                assert_eq!(place, last);
                let later = parse_or_cause(&with_first_high(&fault.text)).err();
                assert!(later.is_none_or(|(_, place)| place > last));
                (2, later.map_or(0, |(cause, _)| cause.number()))
            }
            _ => {
                assert!(place <= last);
                (usize::from(place == last), number)
            }
        };
        *counts[turn].entry(number).or_default() += 1;
    }
    // In an earlier line, in the same, and later; 0 where nothing else is wrong.
    let numbers = [
        &[2, 3, 4, 31, 32][..],
        &[2, 4, 32],
        &[0, 2, 3, 5, 31, 32, 33],
    ];
    for (counts, numbers) in counts.iter().zip(numbers) {
        assert!(counts.keys().eq(numbers), "{counts:?}");
        assert!(counts.values().all(|&count| count > 150), "{counts:?}");
    }
}
