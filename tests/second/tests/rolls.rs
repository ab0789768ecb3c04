//! Receipt rolls (request (ii) of document 02), sentence by sentence.

mod common;

use std::collections::BTreeSet;

use common::{model_of, store_of, till, Lists, CLOSE, EXAMPLE, PRINT, SCAN};
use second::store::ROLL;
use second::{gen, judge, meaning, program, roll_program};
use second::{Action, Level, Model, Step, Verdict};

/// The lines of a text's roll. Its page and the roll are checked besides.
fn lines_of(text: &[u8]) -> Vec<String> {
    let (page, roll) = (program(text), roll_program(text));
    assert_eq!(meaning::page_holds(text, &page), Ok(()));
    assert_eq!(meaning::roll_holds(text, &page, &roll), Ok(()));
    let roll = String::from_utf8(roll).expect("ASCII");
    let body = roll.strip_suffix('\n').expect("the last line is ended");
    body.split('\n').map(str::to_string).collect()
}

/// Written by hand from the documents. 0, 1 and 2 have a scan step, 3 has
/// none; print is high.
#[test]
fn example() {
    let expected = [
        "V,refuse,1,2                              ",
        "  0   0   0 scan                          ",
        "  1   1   0 scan                          ",
        "  2   1   2 scan                          ",
        "  3   2   3                               ",
        "W,scan                                    ",
        "W,scan                                    ",
        "B,source                                  ",
        "E                                         ",
    ];
    assert!(expected.iter().all(|line| line.len() == 42));
    assert_eq!(lines_of(EXAMPLE), expected);
    let roll = expected.map(|line| line.to_string() + "\n").concat();
    assert_eq!(roll_program(EXAMPLE), roll.as_bytes());
}

/// Written by hand. Two names of 12 and one of 4 take all 30 columns; after
/// the two one of 5 does not fit. Neither print nor close is named, and 4 has
/// no name.
#[test]
fn names_that_wrap() {
    let expected = [
        "V,refuse,9,1                              ",
        "  0   0   0 enterbarcode weighproduce scan",
        "  1   1   1 enterbarcode weighproduce scan",
        "            clear total                   ",
        "  2   2   2 cash card                     ",
        "  3   2   3 enterbarcode weighproduce     ",
        "            clear total                   ",
        "  4   1   4                               ",
        "R,0                                       ",
        "W,scan                                    ",
        "B,source                                  ",
        "E                                         ",
    ];
    let text = include_bytes!("../../../examples/wrapping.txt");
    assert_eq!(lines_of(text), expected);
}

#[test]
fn unreachable_states() {
    let text = till(3, &[(1, PRINT, 2), (2, SCAN, 2)]);
    let expected = [
        "V,pass,1                                  ",
        "  0   0   0                               ",
        "  1   -   0                               ",
        "  2   -   2 scan                          ",
        "E                                         ",
    ];
    assert_eq!(lines_of(&text), expected);
}

/// A name stands once, though its action has two steps there.
#[test]
fn not_deterministic() {
    let steps = [(0, CLOSE, 1), (1, PRINT, 2), (2, SCAN, 1), (2, SCAN, 2)];
    let expected = [
        "V,refuse,1,1                              ",
        "  0   0   0                               ",
        "  1   1   0                               ",
        "  2   2   2 scan                          ",
        "R,0                                       ",
        "N                                         ",
        "E                                         ",
    ];
    assert_eq!(lines_of(&till(3, &steps)), expected);
}

#[test]
fn numbers_are_flush_right() {
    let lines = lines_of(&gen::chain(128).to_text());
    for (state, expected) in [
        (0, "  0   0   0 scan                          "),
        (9, "  9   9   9 scan                          "),
        (10, " 10  10  10 scan                          "),
        (99, " 99  99  99 scan                          "),
        (100, "100 100 100 scan                          "),
        (127, "127 127 127                               "),
    ] {
        assert_eq!(lines[1 + state], expected);
    }
    assert_eq!(lines[0], format!("{:42}", "V,refuse,1,127"));
    assert_eq!(lines.len(), 1 + 128 + 127 + 2);
}

/// The line of a refused text is no line of the page and is not padded.
#[test]
fn refusals_are_not_padded() {
    assert_eq!(roll_program(b""), b"F,32,1\n");
    assert_eq!(roll_program(&till(129, &[])), b"F,3,1\n");
    assert_eq!(roll_program(&[b'\n'; 16_385]), b"F,1,0\n");
}

/// One state that steps of all these actions lead back to.
fn one_state(actions: Vec<Action>) -> Vec<u8> {
    let steps = (0..actions.len() as u16).map(|action| Step::new(0, action, 0));
    let model = Model {
        states: 1,
        start: 0,
        extra_starts: Vec::new(),
        steps: steps.collect(),
        actions,
    };
    model.to_text()
}

fn action(level: Level, name: &str) -> Action {
    let name = name.as_bytes().to_vec();
    Action { level, name }
}

/// Columns 13 to 42 of the lines of one state whose low actions have names of
/// these lengths. Beside them are a high and a release action.
fn rows(lengths: &[usize]) -> Vec<String> {
    let mut actions = vec![action(Level::High, "print")];
    let bytes = b"abcdefghijklmnopqrstuvwxyz0123456789";
    for (index, &length) in lengths.iter().enumerate() {
        let mut name = vec![bytes[index % 36]; length];
        if index >= 36 {
            name[0] = bytes[(index + 1) % 36];
        }
        let name = String::from_utf8(name).expect("ASCII");
        actions.push(action(Level::Low, &name));
    }
    if actions.len() < 64 {
        actions.push(action(Level::Release, "close"));
    }
    let lines = lines_of(&one_state(actions));
    let (last, states) = lines[1..].split_last().expect("a last line");
    assert_eq!((&lines[0][..9], last.trim_end()), ("V,pass,0 ", "E"));
    assert_eq!(&states[0][..12], "  0   0   0 ");
    assert!(states[1..].iter().all(|line| line[..12] == *"            "));
    states.iter().map(|line| line[12..].to_string()).collect()
}

#[test]
fn names_fill_thirty_columns() {
    for (lengths, expected) in [
        (&[][..], &["                              "][..]),
        (&[1], &["a                             "]),
        (&[12], &["aaaaaaaaaaaa                  "]),
        (&[12, 12], &["aaaaaaaaaaaa bbbbbbbbbbbb     "]),
        (&[12, 12, 3], &["aaaaaaaaaaaa bbbbbbbbbbbb ccc "]),
        (&[12, 12, 4], &["aaaaaaaaaaaa bbbbbbbbbbbb cccc"]),
        (
            &[12, 12, 5],
            &[
                "aaaaaaaaaaaa bbbbbbbbbbbb     ",
                "ccccc                         ",
            ],
        ),
        // 29 columns leave no room for a blank and a byte; 28 do.
        (
            &[12, 12, 3, 1],
            &[
                "aaaaaaaaaaaa bbbbbbbbbbbb ccc ",
                "d                             ",
            ],
        ),
        (&[12, 12, 2, 1], &["aaaaaaaaaaaa bbbbbbbbbbbb cc d"]),
        // A later name does not go back to a line where it would fit.
        (
            &[12, 12, 5, 4],
            &[
                "aaaaaaaaaaaa bbbbbbbbbbbb     ",
                "ccccc dddd                    ",
            ],
        ),
        // A line that is full, then one more.
        (
            &[12, 12, 4, 12, 5, 11, 1],
            &[
                "aaaaaaaaaaaa bbbbbbbbbbbb cccc",
                "dddddddddddd eeeee fffffffffff",
                "g                             ",
            ],
        ),
        (
            &[1; 16],
            &[
                "a b c d e f g h i j k l m n o ",
                "p                             ",
            ],
        ),
    ] {
        assert_eq!(rows(lengths), expected, "{lengths:?}");
    }
}

/// Names of 12 go two to a line; a state with none has one line.
#[test]
fn lines_of_long_names() {
    for count in 0..=63_usize {
        assert_eq!(rows(&vec![12; count]).len(), count.div_ceil(2).max(1));
    }
}

/// The order is that of the actions, not of the names.
#[test]
fn low_actions_in_action_order() {
    let text = one_state(vec![
        action(Level::Low, "scan"),
        action(Level::High, "print"),
        action(Level::Low, "beep"),
        action(Level::Release, "close"),
        action(Level::Low, "9"),
        action(Level::Low, "add"),
        action(Level::High, "z"),
    ]);
    let line = "  0   0   0 scan beep 9 add               ";
    assert_eq!(lines_of(&text)[1], line);
}

/// A name stands where a step of the action begins, not where one ends, and
/// an action without steps is named nowhere.
#[test]
fn names_stand_at_the_source() {
    let text = b"M,2,4,2,0\nA,L,scan\nA,L,beep\nA,L,add\nA,H,print\nS,0,0,1\nS,1,1,0\nE\n";
    let lines = lines_of(text);
    assert_eq!(lines[1], "  0   0   0 scan                          ");
    assert_eq!(lines[2], "  1   1   1 beep                          ");
}

/// The ring as its text in the examples.
#[test]
fn the_greatest_roll() {
    let model = gen::greatest_roll();
    let text = model.to_text();
    assert_eq!(text, include_bytes!("../../../examples/roll_832.txt"));
    assert_eq!(
        (model.states, model.start, model.steps.len()),
        (128, 2, 1_023)
    );
    for state in 0..128_u16 {
        let longer = 63 * (state + 1) / 128 > 63 * state / 128;
        let low = model.low_steps()[usize::from(state)].clone();
        let actions = if longer { 0..9 } else { 0..7 };
        let ring: Vec<_> = actions.map(|a| (a, (state + 1) % 128)).collect();
        assert_eq!(low, ring);
    }

    let mut lists = Lists::new();
    let store = store_of(&text);
    let verdict = judge(&store, &mut lists.distances, &mut lists.table).unwrap();
    let print = model.steps.binary_search(&Step::new(1, 9, 66)).unwrap() as u16;
    let (step, depth) = (print, 127);
    assert_eq!(verdict, Verdict::Refused { step, depth });

    assert_eq!(lists.roll(&store), Ok(832 * 43));
    assert_eq!((ROLL, ROLL / 43), (35_840, 833));
    let lines = lines_of(&text);
    assert_eq!(lines.len(), 832);
    let count = |letter: &str| lines.iter().filter(|line| line.starts_with(letter)).count();
    let counts = ["V", "R", "W", "B", "E"].map(count);
    assert_eq!(counts, [1, 127, 127, 1, 1]);
    // 63 states with 5 lines, 65 with 4.
    assert_eq!(lines.len() - counts.iter().sum::<usize>(), 575);
}

/// Roll fills Page's lists as Page does, and nothing past its answer. Both go by
/// one function here; `tests/suite` holds the proved two to each other.
#[test]
fn lists_are_filled_as_by_page() {
    let mut rng = gen::seeded("second::rolls::lists_are_filled_as_by_page", 401);
    let mut models: Vec<Model> = (0..300).map(|_| gen::any_model(&mut rng)).collect();
    models.extend((0..100).map(|round| gen::wide_model(&mut rng, round % 2 == 0)));
    let limits = gen::limit_models(&mut rng).into_iter();
    models.extend(limits.map(|(_, model)| model));
    models.push(model_of(EXAMPLE));
    for model in models {
        let _case = gen::model_case(&model);
        let store = model.to_store();
        let old = Lists::new();
        let (mut paged, mut rolled) = (old.clone(), old.clone());
        paged.page(&store).unwrap();
        let length = rolled.roll(&store).unwrap();
        assert_eq!(rolled.paper[..length], roll_program(&model.to_text()));
        assert_eq!(rolled.paper[length..], old.paper[length..]);
        rolled.paper.clone_from(&old.paper);
        paged.out.clone_from(&old.out);
        assert!(paged == rolled);
    }
}

#[test]
fn rolls_hold() {
    let mut rng = gen::seeded("second::rolls::rolls_hold", 402);
    let limits = gen::limit_models(&mut rng).into_iter();
    let mut models: Vec<Model> = limits.map(|(_, model)| model).collect();
    models.extend((0..1_500).map(|_| gen::any_model(&mut rng)));
    for model in models {
        let _case = gen::model_case(&model);
        let text = model.to_text();
        let (page, roll) = (program(&text), roll_program(&text));
        assert_eq!(meaning::roll_holds(&text, &page, &roll), Ok(()));
    }
}

/// What the rolls of wide models show: names on further lines, lines that are
/// full, names that miss by one column, and names of each length.
#[test]
fn wide_rolls_hold() {
    let mut rng = gen::seeded("second::rolls::wide_rolls_hold", 403);
    let (mut passed, mut branching, mut further, mut full, mut missed) = (0, 0, 0, 0, 0);
    let mut lengths = BTreeSet::new();
    let rounds = 1_500;
    for round in 0..rounds {
        let model = gen::wide_model(&mut rng, round % 2 == 0);
        let _case = gen::model_case(&model);
        let text = model.to_text();
        let (page, roll) = (program(&text), roll_program(&text));
        if model.states <= 12 && round % 4 < 2 {
            assert_eq!(meaning::page_holds(&text, &page), Ok(()));
        }
        assert_eq!(meaning::roll_holds(&text, &page, &roll), Ok(()));
        let roll = String::from_utf8(roll).expect("ASCII");
        passed += usize::from(roll.starts_with("V,pass"));
        branching += usize::from(!meaning::deterministic(&model));
        let lines: Vec<&str> = roll.lines().collect();
        further += usize::from(lines.iter().any(|line| line[..12] == *"            "));
        full += usize::from(lines.iter().any(|line| !line.ends_with(' ')));
        let misses = |pair: &[&str]| {
            let next = pair[1][12..].split(' ').next().unwrap_or_default();
            pair[1][..12] == *"            "
                && pair[0].trim_end().len() + " ".len() + next.len() == 43
        };
        missed += usize::from(lines.windows(2).any(misses));
        for action in &model.actions {
            lengths.insert((action.level.number(), action.name.len()));
        }
    }
    for count in [passed, branching, further, full, missed] {
        assert!(
            count > rounds / 5,
            "{passed} {branching} {further} {full} {missed}"
        );
    }
    assert!(rounds - passed > 300 && rounds - branching > 300);
    assert_eq!(lengths.len(), 3 * 12);
}

/// A roll in which any byte is changed, missing or added does not hold; nor
/// does one in which a line is missing, stands twice or is padded more.
#[test]
fn changed_rolls_do_not_hold() {
    let mut rng = gen::seeded("second::rolls::changed_rolls_do_not_hold", 404);
    for round in 0..16 {
        let model = match round % 4 {
            0 => gen::wide_model(&mut rng, round % 8 == 0),
            _ => gen::small_model(&mut rng, round % 5 != 0),
        };
        let _case = gen::model_case(&model);
        let text = model.to_text();
        let (page, roll) = (program(&text), roll_program(&text));
        let refused = |roll: &[u8]| {
            let holds = meaning::roll_holds(&text, &page, roll).is_ok();
            assert!(!holds, "roll: {}", gen::shown(roll));
        };
        // In long rolls each seventh byte, which comes to each column.
        let apart = if roll.len() < 1_000 { 1 } else { 7 };
        for place in (0..roll.len()).step_by(apart) {
            for byte in b"07-, \nVCEaz" {
                let mut changed = roll.clone();
                changed[place] = *byte;
                if changed != roll {
                    refused(&changed);
                }
                let mut longer = roll.clone();
                longer.insert(place, *byte);
                refused(&longer);
            }
            let mut shorter = roll.clone();
            shorter.remove(place);
            refused(&shorter);
        }
        let lines: Vec<&[u8]> = roll.split_inclusive(|&byte| byte == b'\n').collect();
        for place in 0..lines.len() {
            let (before, after) = (lines[..place].concat(), lines[place..].concat());
            refused(&[&before[..], &lines[place + 1..].concat()].concat());
            refused(&[&before[..], lines[place], &after].concat());
            refused(&[&before[..], b"\n", &after].concat());
            refused(&[&before[..], &[b' '; 42], b"\n", &after].concat());
        }
        refused(&page);
        refused(b"");
    }
}

/// A roll with a high action among the names, flush left, of 41 columns, with
/// a name cut at the last column or standing past it, with a name on the next
/// line though it fits, or with names out of order, apart or twice.
#[test]
fn wrong_rolls_do_not_hold() {
    let text = include_bytes!("../../../examples/wrapping.txt");
    let page = program(text);
    let roll = String::from_utf8(roll_program(text)).expect("ASCII");
    for (right, wrong) in [
        (
            "\n            clear total                   \n  2",
            "\n            clear total print             \n  2",
        ),
        ("  4   1   4 ", "4   1   4   "),
        (" \nE", "\nE"),
        (
            "weighproduce     \n            clear total",
            "weighproduce clea\n            r total    ",
        ),
        (
            "weighproduce scan\n            clear",
            "weighproduce scan clear\n",
        ),
        (
            "cash card                     ",
            "cash                          \n            card                          ",
        ),
        ("cash card", "card cash"),
        ("cash card ", "cash  card"),
        (" cash card", "  cash card"),
        (" cash card", " cash cash"),
    ] {
        assert!(roll.contains(right), "{right:?}");
        let wrong = roll.replacen(right, wrong, 1);
        assert!(meaning::roll_holds(text, &page, wrong.as_bytes()).is_err());
    }
}

/// The rolls and pages among the examples are those of their texts.
#[test]
fn examples() {
    macro_rules! example {
        ($name:literal) => {
            include_bytes!(concat!("../../../examples/", $name))
        };
    }
    assert_eq!(
        roll_program(example!("worked.txt")),
        example!("worked.roll")
    );
    let text = example!("unreached_print.txt");
    assert_eq!(roll_program(text), example!("unreached_print.roll"));
    let text = example!("wrapping.txt");
    assert_eq!(roll_program(text), example!("wrapping.roll"));
    assert_eq!(program(text), example!("wrapping.page"));
    let text = example!("roll_832.txt");
    assert_eq!(roll_program(text), example!("roll_832.roll"));
    assert_eq!(program(text), example!("roll_832.page"));
    let text = example!("two_starts.txt");
    assert_eq!(roll_program(text), example!("two_starts.roll"));
    assert_eq!(program(text), example!("two_starts.page"));
}
