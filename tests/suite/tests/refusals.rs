//! Every refusal because of the state in its turn, with the numbers that the scope document gives, and with what it
//! leaves in the lists. Each call is also compared with the second checker's.
use std::collections::BTreeMap;

use second::gen;
use second::store::{action_place, BOOK, DISTANCES, STORE};
use second::{Model, Refusal};
use suite::bench::{store_of, text_of, waking_text, ACTIONS, TWO_STARTS, WORKED};
use suite::books::Book;
use suite::input::Input;
use suite::lists::{every_length, with_length, Lengths, List, Lists, LEAST};
use suite::operations::{on_stores, AnyOperation, CHECK, PRINT, READ, RUN, TELL, WORD};
use suite::stores::{self, Store, HIGH, LOW, RELEASE, SILENT};

const SEED: u64 = 7_600;

const NOT_GOOD: Refusal = Refusal {
    number: 22,
    place: 0,
};

/// 21 at the first list of an operation that is too short. What it reads is long enough.
fn first_short(operation: &dyn AnyOperation, lengths: &Lengths) -> Option<Refusal> {
    let short = |&list: &List| lengths[list as usize] < LEAST[list as usize];
    let index = operation.lent().iter().position(short)?;
    let read = operation.reads().len();
    Some(Refusal::new(21, (read + index + 1) as u64))
}

/// The call is refused so, and leaves every list as it was.
fn refuses(
    operation: &dyn AnyOperation,
    input: impl Into<Input>,
    lists: &Lists,
    expected: Refusal,
) {
    let input = input.into();
    let (answer, after) = operation.refusal(&input, lists);
    let (name, state, store) = (operation.name(), input.state, &input.store);
    let _case = gen::case(|| {
        let lists = lists.shown(operation.lent());
        format!("{name}, state {state}, {store}\n{lists}")
    });
    assert_eq!(answer, Some(expected));
    assert!(after == *lists, "a list was changed");
}

/// The call is refused with 21 where one of the lists is one element too short.
fn refuses_short_lists(operation: &dyn AnyOperation, store: &Store, lists: &Lists, state: u16) {
    for &list in operation.lent() {
        let short = with_length(LEAST, list, LEAST[list as usize] - 1);
        let expected = first_short(operation, &short).expect("a list is short");
        refuses(
            operation,
            (store, state),
            &lists.of_lengths(short),
            expected,
        );
    }
}

/// Lists of every length, for a store of any length.
fn with_every_length(operation: &dyn AnyOperation, store: &Store, lists: &Lists) {
    for lengths in every_length(operation.lent()) {
        let lists = lists.of_lengths(lengths);
        let short_store = store.is_short().then_some(Refusal::new(21, 1));
        let short = short_store.or(first_short(operation, &lengths));
        let not_good = store.wrong.map(|_| NOT_GOOD);
        match short.or(not_good) {
            Some(expected) => refuses(operation, (store, NO_STATE), &lists, expected),
            None => {
                let (refusal, _) = operation.refusal(&store.into(), &lists);
                let number = refusal.map(|refusal| refusal.number);
                assert!(
                    matches!(number, None | Some(23 | 24 | 26)),
                    "{number:?}, {store}"
                );
            }
        }
    }
}

/// A state that no model has.
const NO_STATE: u16 = 128;

/// A damaged store of a model: its first action has a level that is none.
fn damaged(model: &Model) -> Store {
    Store::of(model).damaged("no such level", &[(action_place(0), 4)])
}

/// 21 before all else, at the first list that is too short.
#[test]
fn lists_of_every_length() {
    let mut rng = gen::seeded("refusals::lists_of_every_length", SEED);
    for round in 0..6 {
        let model = match round % 3 {
            0 => gen::deep_model(&mut rng, 1 + 25 * round),
            1 => gen::branching_deep_model(&mut rng, 1 + 9 * round),
            _ => gen::any_model(&mut rng),
        };
        let lists = Lists::anything(&mut rng, LEAST);
        for store in [Store::of(&model), damaged(&model)] {
            for store in store.of_every_length(&mut rng) {
                for operation in on_stores() {
                    with_every_length(operation, &store, &lists);
                }
            }
        }
    }
}

/// 22 at stores that are damaged at every kind of place, and before 23 to 26.
#[test]
fn damaged_stores() {
    let mut rng = gen::seeded("refusals::damaged_stores", SEED + 1);
    let (mut good, mut bad) = (0, 0);
    for _ in 0..60 {
        let lists = Lists::enough(&mut rng);
        for store in stores::damaged(&mut rng) {
            let state = *rng.pick(&[0, 1, NO_STATE, 65_535]);
            let input = Input::from((&store, state));
            for operation in on_stores() {
                if store.wrong.is_some() {
                    refuses(operation, input.clone(), &lists, NOT_GOOD);
                    bad += 1;
                } else if operation.refusal(&input, &lists).0.is_none() {
                    good += 1;
                }
            }
        }
    }
    assert!(good > 500 && bad > 30_000, "{good} {bad}");
}

/// 22 where any one number of a store is too large for its place.
#[test]
fn damage_at_every_place() {
    let mut rng = gen::seeded("refusals::damage_at_every_place", SEED + 7);
    let full = gen::limit_models(&mut rng).swap_remove(0).1;
    let models = [gen::chain(3), gen::any_model(&mut rng), full];
    let operations: Vec<&dyn AnyOperation> = on_stores().collect();
    for (round, model) in models.iter().enumerate() {
        let (store, lists) = (Store::of(model), Lists::enough(&mut rng));
        for place in 0..STORE {
            let damaged = store.damaged("a number too large", &[(place, 65_535)]);
            let operation = operations[(place + round) % operations.len()];
            refuses(operation, &damaged, &lists, NOT_GOOD);
        }
    }
}

/// What no store of these starts has at a place of the extra starts: a count past 127 or of more or fewer starts than
/// there are; a start not above the one before it, not below states, or one that is not counted.
fn wrong_numbers(states: u16, starts: &[u16], place: usize) -> Vec<u16> {
    let count = starts.len() as u16 - 1;
    if place == 3_972 {
        let other = [count.saturating_sub(1), count + 1, 127, 128, 256 + count];
        return other
            .into_iter()
            .filter(|&number| number != count)
            .collect();
    }
    match starts.get(place - 3_972) {
        Some(_) => {
            let before = starts[place - 3_973];
            vec![0, before, states, 128, 256 + before + 1]
        }
        None => vec![1, states - 1, states, 127],
    }
}

/// 22 at each place of the extra starts: with none, with a few and with all.
#[test]
fn damage_at_every_extra_start() {
    let mut rng = gen::seeded("refusals::damage_at_every_extra_start", SEED + 8);
    let every: Vec<u16> = (0..128).collect();
    let choices: [(u16, &[u16]); 5] = [
        (4, &[0]),
        (4, &[1, 3]),
        (128, &[0, 1, 64, 127]),
        (100, &every[..100]),
        (128, &every),
    ];
    for (states, starts) in choices {
        let store = store_of(&waking_text(states, ACTIONS, starts, &[(0, 0, 1)]));
        let lists = Lists::enough(&mut rng);
        for place in 3_972..4_100 {
            for number in wrong_numbers(states, starts, place) {
                let damaged = store.damaged("an extra start", &[(place, number)]);
                for operation in on_stores() {
                    refuses(operation, &damaged, &lists, NOT_GOOD);
                }
            }
        }
    }
}

/// 22 where line 1's start or the number of states does not fit the extra starts. They just fit before.
#[test]
fn damage_beside_the_extra_starts() {
    let mut rng = gen::seeded("refusals::damage_beside_the_extra_starts", SEED + 9);
    let store = store_of(&waking_text(6, ACTIONS, &[1, 2, 5], &[]));
    let lists = Lists::enough(&mut rng);
    let bad: [&[(usize, u16)]; 7] = [
        &[(3, 2)],
        &[(3, 3)],
        &[(3, 5)],
        &[(0, 5)],
        &[(0, 2)],
        &[(3_973, 5), (3_974, 2)],
        &[(3, 5), (3_974, 1)],
    ];
    for changes in bad {
        let damaged = store.damaged("extra starts", changes);
        for operation in on_stores() {
            refuses(operation, &damaged, &lists, NOT_GOOD);
        }
    }
    for operation in on_stores() {
        let (refusal, _) = operation.refusal(&(&store).into(), &lists);
        assert!(refusal.is_none_or(|refusal| refusal.number > 22));
    }
}

/// A store of 3,972 numbers, as it was before there were `I` lines, gets 21 from every operation, and no list changes.
/// The text reads to such numbers with 128 zeros behind them.
#[test]
fn stores_of_one_start() {
    let mut rng = gen::seeded("refusals::stores_of_one_start", SEED + 10);
    let lists = Lists::anything(&mut rng, LEAST);
    for text in [WORKED, TWO_STARTS] {
        let store = store_of(text);
        for length in [3_971, 3_972, 3_973, 4_099] {
            let mut short = store.clone();
            short.numbers.truncate(length);
            for operation in on_stores() {
                refuses(operation, &short, &lists, Refusal::new(21, 1));
            }
            let lists = lists.of_lengths(with_length(LEAST, List::store, length));
            refuses(&READ, text, &lists, Refusal::new(21, 2));
            refuses(&PRINT, text, &lists, Refusal::new(21, 2));
            let (told, after) = TELL.same(text, &lists);
            let told = told.expect("an answer for each of the three");
            assert_eq!(told.read, Err(Refusal::new(21, 2)));
            assert!(told.judged.is_none() && after == lists, "tell");
        }
    }
    assert_eq!(store_of(WORKED)[3_972..], [0; 128]);
}

/// The places of the levels in the worked example's store, and of one past its actions.
const SCAN: usize = 4;
const PRINTING: usize = 18;
const CLOSE: usize = 32;
const UNUSED: usize = 46;

/// 22 from every operation where the only high action was made low, release or silent, whatever the state and the book
/// are; 21 comes before it, for each list, and no list changes.
#[test]
fn stores_without_a_high_action() {
    let mut rng = gen::seeded("refusals::stores_without_a_high_action", SEED + 11);
    let worked = store_of(WORKED);
    let lists = Lists::enough(&mut rng);
    let choices: [&[(usize, u16)]; 7] = [
        &[(PRINTING, LOW)],
        &[(PRINTING, RELEASE)],
        &[(PRINTING, SILENT)],
        &[(SCAN, RELEASE), (PRINTING, RELEASE)],
        &[(PRINTING, LOW), (CLOSE, LOW)],
        // a high level where no action is
        &[(PRINTING, LOW), (UNUSED, HIGH)],
        &[(PRINTING, RELEASE), (action_place(63), HIGH)],
    ];
    for changes in choices {
        let store = worked.damaged("no high action", changes);
        for operation in on_stores() {
            refuses(operation, &store, &lists, NOT_GOOD);
            refuses_short_lists(operation, &store, &lists, 0);
            for length in [0, 3_972, STORE - 1] {
                let mut short = store.clone();
                short.numbers.truncate(length);
                refuses(operation, &short, &lists, Refusal::new(21, 1));
            }
        }
        for state in [3, 4, NO_STATE, 65_535] {
            refuses(&RUN, (&store, state), &lists, NOT_GOOD);
        }
        let sound = Book::without_entries();
        for book in [&sound, &sound.with(0, [3, 0, 0, 0])] {
            refuses(&CHECK, (&store, book), &lists, NOT_GOOD);
            let short = book.of_length(BOOK - 1);
            refuses(&CHECK, (&store, &short), &lists, Refusal::new(21, 2));
        }
    }
}

/// The only high action of 64 made low, release or silent, wherever it stands. With two of them one is left, and the
/// store is good.
#[test]
fn one_level_of_a_store() {
    let mut rng = gen::seeded("refusals::one_level_of_a_store", SEED + 12);
    let lists = Lists::enough(&mut rng);
    let of_levels = |high: &[usize]| {
        let level = |i| if high.contains(&i) { 'H' } else { 'L' };
        let action = |i| format!("A,{},a{i}\n", level(i));
        store_of(&text_of(1, &(0..64).map(action).collect::<String>(), &[]))
    };
    for high in [0, 1, 31, 62, 63] {
        let (one, two) = (of_levels(&[high]), of_levels(&[high, (high + 7) % 64]));
        let place = action_place(high);
        for level in [LOW, RELEASE, SILENT] {
            let lost = one.damaged("no high action", &[(place, level)]);
            let mut kept = two.clone();
            kept.numbers[place] = level;
            for operation in on_stores() {
                refuses(operation, &lost, &lists, NOT_GOOD);
                let (refusal, _) = operation.refusal(&(&kept).into(), &lists);
                assert!(refusal.is_none_or(|refusal| refusal.number > 22), "{kept}");
            }
        }
    }
}

/// The distances and the table are as Judge leaves them; the rest is as it was.
fn as_judged(store: &Store, before: &Lists, after: &Lists) {
    let mut expected = before.clone();
    let verdict = second::judge(store, &mut expected.distances, &mut expected.table);
    assert!(verdict.is_ok(), "{store}");
    assert!(*after == expected, "{store}");
}

/// Word: 22 before 23 and 24, and 23 before 24; tests/ticks.rs has 36 between 23 and 24.
#[test]
fn word_in_order() {
    let mut rng = gen::seeded("refusals::word_in_order", SEED + 2);
    let branching_and_passed = text_of(2, ACTIONS, &[(0, 2, 0), (0, 2, 1)]);
    let branching_and_refused = text_of(2, ACTIONS, &[(0, 0, 0), (0, 0, 1), (0, 1, 1)]);
    let deterministic_and_passed = text_of(2, ACTIONS, &[(0, 0, 1)]);
    for (text, number, place) in [
        (branching_and_passed, 23, 1),
        (branching_and_refused, 23, 1),
        (deterministic_and_passed, 24, 0),
    ] {
        let (store, lists) = (store_of(&text), Lists::enough(&mut rng));
        let (answer, after) = WORD.same(&store, &lists);
        assert_eq!(answer, Err(Refusal::new(number, place)), "{store}");
        as_judged(&store, &lists, &after);
        let damaged = store.damaged("unused start", &[(STORE - 1, 1)]);
        refuses(&WORD, &damaged, &lists, NOT_GOOD);
        refuses_short_lists(&WORD, &store, &lists, 0);
        refuses_short_lists(&WORD, &damaged, &lists, 0);
    }
}

/// Run: 21 before 22, 22 before 25 and 26, and 25 before 26; after 26 the distances are as Reach leaves them.
#[test]
fn run_in_order() {
    let mut rng = gen::seeded("refusals::run_in_order", SEED + 3);
    // nothing leads to state 2
    let store = store_of(&text_of(3, ACTIONS, &[(0, 0, 1), (2, 0, 0)]));
    let lists = Lists::enough(&mut rng);
    let damaged = store.damaged("start not below states", &[(3, 3)]);
    for state in [2, 3, 4, 127, 128, 129, 32_768, 65_535] {
        if state > 2 {
            let expected = Refusal::new(25, u64::from(state));
            refuses(&RUN, (&store, state), &lists, expected);
        }
        refuses(&RUN, (&damaged, state), &lists, NOT_GOOD);
        refuses_short_lists(&RUN, &store, &lists, state);
        refuses_short_lists(&RUN, &damaged, &lists, state);
    }
    let (answer, after) = RUN.same((&store, 2), &lists);
    assert_eq!(answer, Err(Refusal::new(26, 2)));
    let mut expected = lists.clone();
    expected.distances[..DISTANCES].fill(65_535);
    expected.distances[..2].copy_from_slice(&[0, 1]);
    assert!(after == expected);
}

/// 22 before 25 wherever the store is damaged, for states below the damaged number and not.
#[test]
fn damage_comes_before_the_state() {
    let mut rng = gen::seeded("refusals::damage_comes_before_the_state", SEED + 4);
    for _ in 0..10 {
        let lists = Lists::enough(&mut rng);
        for store in stores::damaged(&mut rng) {
            if store.wrong.is_some() {
                for state in [0, store.numbers[0], NO_STATE, 65_535] {
                    refuses(&RUN, (&store, state), &lists, NOT_GOOD);
                }
            }
        }
    }
}

/// Read: 21 before every number of a text.
#[test]
fn a_short_store_comes_before_every_fault() {
    let mut rng = gen::seeded("refusals::a_short_store_comes_before_every_fault", SEED + 5);
    let mut numbers = BTreeMap::new();
    for _ in 0..4 {
        let model = gen::any_model(&mut rng);
        for length in [0, 3_972, STORE - 1] {
            let before = Lists::anything(&mut rng, with_length(LEAST, List::store, length));
            for fault in gen::faults(&model) {
                let _case = gen::text_case(&fault.text);
                let (answer, after) = READ.same(&fault.text, &before);
                assert_eq!(answer, Err(Refusal::new(21, 2)), "{}", fault.what);
                assert!(after == before);
                *numbers.entry(fault.refusal.number).or_insert(0) += 1;
            }
        }
    }
    let all = [1, 2, 3, 4, 5, 31, 32, 33, 35];
    assert!(numbers.keys().eq(&all), "{numbers:?}");
    assert!(numbers.values().all(|&count| count > 10), "{numbers:?}");
}

/// From a text to its page: 21 at the first list that is too short, whatever the text is.
#[test]
fn from_a_text_with_lists_of_every_length() {
    let mut rng = gen::seeded("refusals::from_a_text_with_lists_of_every_length", SEED + 6);
    let texts = [
        WORKED.to_vec(),
        gen::branching_deep_model(&mut rng, 9).to_text(),
        b"M,1,1,0,0\nA,H,a\nE".to_vec(),
        vec![b'0'; 16_385],
    ];
    for text in texts {
        let _case = gen::text_case(&text);
        let lists = Lists::anything(&mut rng, LEAST);
        for choice in every_length(PRINT.lent) {
            let before = lists.of_lengths(choice);
            let (answer, after) = PRINT.same(&text, &before);
            let short = first_short(&PRINT, &choice);
            assert_eq!(answer.err(), short, "{choice:?}");
            assert!(short.is_none() || after == before, "{choice:?}");
        }
    }
}
