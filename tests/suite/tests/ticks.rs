//! Timer ticks nobody sees: by hand what the documents say of them, and many models with silent actions through every
//! operation and the programs beside the second checker. Texts of level T without a high action are in `high.rs` as
//! well, such stores in `refusals.rs`, and what is checked of books in `tick_books.rs`.
use std::collections::{BTreeMap, BTreeSet};

use second::gen::{self, Fault, Rng};
use second::meaning;
use second::store::{action_place, BOOK as BOOK_BYTES, DISTANCES, STORE, TABLE};
use second::store::{MOST_ACTIONS, MOST_STATES, MOST_STEPS};
use second::{Action, Level, Model, Refusal, Step, Verdict};
use suite::bench::{example, store_of, waking_text};
use suite::books::Book;
use suite::input::Input;
use suite::lists::{with_length, List, Lists, LEAST};
use suite::not_read;
use suite::operations::{on_stores, ALL, BOOK, CHECK, JUDGE, PAGE, PRINT, RANK, REACH, READ};
use suite::operations::{ROLL, RUN, WORD, WRITE};
use suite::program::{TILL, TILL_BOOK, TILL_CHECK, TILL_ROLL};
use suite::stores::{Store, HIGH, LOW, RELEASE, SILENT};
use suite::texts::one_of_each;
use suite::ticks::{shapes_at_the_limits, ticking, with_entries, ACTIONS, BETRAYS, BETRAYS_BOOK};
use suite::ticks::{CLOSE, PRINTING, SCAN, TICK};

const SEED: u64 = 8_300;

const NOT_GOOD: Refusal = Refusal {
    number: 22,
    place: 0,
};

// ---- by hand

fn betrays_roll() -> String {
    let lines = [
        "V,refuse,1,2",
        "  0   0   0 scan",
        "  1   1   1",
        "  2   1   2 scan",
        "  3   2   1",
        "N",
        "E",
    ];
    lines.map(|line| format!("{line:<42}\n")).concat()
}

/// Every operation on the till with the tick that betrays. With `N` on the page the word is as it was, and the run too:
/// the print is the start's.
#[test]
fn a_tick_betrays_in_full() {
    let mut rng = gen::seeded("ticks::a_tick_betrays_in_full", SEED);
    let (text, page) = example("tick_betrays");
    assert_eq!(text, ticking(4, &BETRAYS));
    let (store, before) = (store_of(&text), Lists::enough(&mut rng));
    let levels = [0, 1, 2, 3].map(|action| store[action_place(action)]);
    assert_eq!(levels, [LOW, HIGH, RELEASE, SILENT]);
    let mut read = before.clone();
    read.store[..STORE].copy_from_slice(&store);
    READ.fills(&text, &before, (), &read);
    let mut written = before.clone();
    written.written[..text.len()].copy_from_slice(&text);
    WRITE.fills(&store, &before, text.len(), &written);

    let mut reached = before.clone();
    reached.distances[..DISTANCES].fill(65_535);
    reached.distances[..4].copy_from_slice(&[0, 1, 1, 2]);
    REACH.fills(&store, &before, (), &reached);
    let mut run = reached.clone();
    run.run[..2].copy_from_slice(&[1, 4]);
    RUN.fills((&store, 3), &before, 2, &run);

    let mut ranked = before.clone();
    ranked.table[..TABLE].fill(0);
    for (p, q, rank) in [(0, 1, 1), (0, 2, 2), (0, 3, 1), (1, 2, 1), (2, 3, 1)] {
        ranked.table[128 * p + q] = rank;
        ranked.table[128 * q + p] = rank;
    }
    RANK.fills(&store, &before, 2, &ranked);
    let mut judged = reached;
    judged.table = ranked.table.clone();
    JUDGE.fills(
        &store,
        &before,
        Verdict::Refused { step: 1, depth: 2 },
        &judged,
    );
    let mut lists = before.clone();
    assert_eq!(WORD.told(&store, &mut lists), Err(Refusal::new(36, 4)));
    assert!(lists == judged, "{}", lists.difference(&judged));

    let book = with_entries(BETRAYS_BOOK);
    let mut booked = ranked;
    booked.book[..BOOK_BYTES].copy_from_slice(&book);
    BOOK.fills(&store, &before, (), &booked);
    CHECK.fills((&store, &book), &before, (), &before);

    let roll = betrays_roll();
    let mut paged = judged.clone();
    paged.page[..page.len()].copy_from_slice(&page);
    PAGE.fills(&store, &before, page.len(), &paged);
    let mut rolled = judged;
    rolled.roll[..roll.len()].copy_from_slice(roll.as_bytes());
    ROLL.fills(&store, &before, roll.len(), &rolled);
}

/// The four examples with their pages, and with what Word says: by the operations and by each program.
#[test]
fn the_examples() {
    let mut rng = gen::seeded("ticks::the_examples", SEED + 1);
    for (name, word) in [
        ("ticks_before_scan", Err(Refusal::new(36, 3))),
        ("tick_betrays", Err(Refusal::new(36, 4))),
        ("tick_depth_one", Err(Refusal::new(36, 1))),
        ("ticks_unreached", Ok(vec![SCAN])),
    ] {
        let (text, page) = example(name);
        let (store, before) = (store_of(&text), Lists::enough(&mut rng));
        let (answer, after) = WORD.same(&store, &before);
        let letters = answer.map(|(length, _)| after.word[..length].to_vec());
        assert_eq!(letters, word, "{name}");
        let (paged, printed) = (PAGE.same(&store, &before), PRINT.same(&text, &before));
        for (length, after) in [paged, printed] {
            assert_eq!(length, Ok(page.len()), "{name}");
            assert_eq!(after.page[..page.len()], page, "{name}");
        }
        assert_eq!(by_the_programs(&text), page, "{name}");
    }
}

/// The page, after each program has printed what the second checker prints. The book is accepted.
fn by_the_programs(text: &[u8]) -> Vec<u8> {
    TILL_ROLL.same(text);
    let book = TILL_BOOK.same(text);
    assert_eq!(TILL_CHECK.same(&[&book, text].concat()), b"");
    TILL.same(text)
}

/// Numbers past 3 are no levels, at any action, and letters beside T are none.
#[test]
fn no_other_level() {
    let mut rng = gen::seeded("ticks::no_other_level", SEED + 2);
    let text = ticking(4, &BETRAYS);
    let (store, before) = (store_of(&text), Lists::enough(&mut rng));
    for action in 0..4 {
        for number in [4, 5, 84, 255, 256, 259, 65_535] {
            let damaged = store.damaged("no such level", &[(action_place(action), number)]);
            for operation in on_stores() {
                let (refusal, after) = operation.refusal(&(&damaged).into(), &before);
                assert_eq!(refusal, Some(NOT_GOOD), "{damaged}");
                assert!(after == before, "{}", operation.name());
            }
        }
    }
    // All but one may be silent, whichever it is.
    for high in 0..4 {
        let mut silent = store.clone();
        for action in 0..4 {
            silent.numbers[action_place(action)] = if action == high { HIGH } else { SILENT };
        }
        for operation in on_stores() {
            let (refusal, _) = operation.refusal(&(&silent).into(), &before);
            let number = refusal.map(|refusal| refusal.number);
            assert!(matches!(number, None | Some(36)), "{number:?}, {silent}");
        }
    }
    let text = String::from_utf8(text).expect("ASCII");
    for level in ["t", "TT", "TH", " T", "T ", "3", "S", "U", "X", ""] {
        let wrong = text.replace("A,T,", &format!("A,{level},"));
        not_read::by_the_operations(wrong.as_bytes(), Refusal::new(2, 5), &before);
    }
}

/// Word refuses the model so, with distances and table as Judge leaves them and all else as it was.
fn word_refuses(store: &Store, before: &Lists, expected: Refusal) {
    let (answer, after) = WORD.same(store, before);
    assert_eq!(answer, Err(expected), "{store}");
    let (verdict, judged) = JUDGE.same(store, before);
    assert!(verdict.is_ok(), "{store}");
    assert!(after == judged, "{store}: {}", after.difference(&judged));
}

/// Models with a tick, each with the number and the place that Word gives.
fn words() -> Vec<(Vec<u8>, u16, u64)> {
    // Ticks of unreachable states are passed over.
    let late: &[_] = &[
        (0, TICK, 1),
        (1, TICK, 0),
        (2, PRINTING, 3),
        (3, CLOSE, 2),
        (3, TICK, 3),
    ];
    let unreached: &[_] = &[(0, PRINTING, 0), (1, TICK, 2), (2, SCAN, 2)];
    vec![
        // passed, and refused
        (ticking(1, &[(0, TICK, 0)]), 36, 0),
        (
            ticking(
                2,
                &[(0, SCAN, 0), (0, PRINTING, 1), (1, SCAN, 1), (1, TICK, 0)],
            ),
            36,
            3,
        ),
        (
            ticking(2, &[(0, PRINTING, 1), (1, SCAN, 1), (1, TICK, 1)]),
            36,
            2,
        ),
        // 23 comes first: with a scan before the tick or after it, and with the tick itself
        (
            ticking(2, &[(0, SCAN, 0), (0, SCAN, 1), (0, TICK, 0), (1, SCAN, 1)]),
            23,
            1,
        ),
        (
            ticking(2, &[(0, TICK, 1), (1, SCAN, 0), (1, SCAN, 1)]),
            23,
            2,
        ),
        (ticking(2, &[(0, TICK, 0), (0, TICK, 1)]), 23, 1),
        // two steps of one action in an unreachable state are none
        (
            ticking(2, &[(0, TICK, 0), (1, TICK, 0), (1, TICK, 1)]),
            36,
            0,
        ),
        (waking_text(4, ACTIONS, &[2], late), 36, 4),
        (waking_text(4, ACTIONS, &[2, 3], late), 36, 4),
        (waking_text(4, ACTIONS, &[1, 2], late), 36, 0),
        // reached from an extra start only
        (ticking(3, unreached), 24, 0),
        (waking_text(3, ACTIONS, &[0, 2], unreached), 24, 0),
        (waking_text(3, ACTIONS, &[0, 1], unreached), 36, 1),
    ]
}

/// 36 after 23 and before 24, at the first silent step that can be reached; 21 and 22 come before it.
#[test]
fn where_36_stands() {
    let mut rng = gen::seeded("ticks::where_36_stands", SEED + 3);
    for (text, number, place) in words() {
        let (store, before) = (store_of(&text), Lists::enough(&mut rng));
        word_refuses(&store, &before, Refusal::new(number, place));
        let damaged = store.damaged("unused start", &[(STORE - 1, 1)]);
        assert_eq!(WORD.same(&damaged, &before).0, Err(NOT_GOOD));
        for (index, &list) in WORD.lent.iter().enumerate() {
            let short = with_length(LEAST, list, LEAST[list as usize] - 1);
            let short = before.of_lengths(short);
            for store in [&store, &damaged] {
                let (answer, after) = WORD.same(store, &short);
                assert_eq!(answer, Err(Refusal::new(21, index as u64 + 2)));
                assert!(after == short, "{store}");
            }
        }
        let short = before.of_lengths(with_length(LEAST, List::word, 127));
        word_refuses(&store, &short, Refusal::new(number, place));
    }
}

/// Page and Roll end with `N` and `E` where a refused model has a silent step that can be reached, after the run to the
/// print. The passed have neither `N` nor `W`.
#[test]
fn pages_and_rolls_with_n() {
    let mut rng = gen::seeded("ticks::pages_and_rolls_with_n", SEED + 4);
    let before = Lists::enough(&mut rng);
    let steps = [(0, TICK, 1), (1, TICK, 2), (2, PRINTING, 3), (3, SCAN, 3)];
    let page = "V,refuse,2,1\nC,0,0,0\nC,1,1,0\nC,2,2,0\nC,3,3,3\nR,0\nR,1\nN\nE\n";
    let lines = [
        "V,refuse,2,1",
        "  0   0   0",
        "  1   1   0",
        "  2   2   0",
        "  3   3   3 scan",
        "R,0",
        "R,1",
        "N",
        "E",
    ];
    let roll = lines.map(|line| format!("{line:<42}\n")).concat();
    let store = store_of(&ticking(4, &steps));
    let (length, after) = PAGE.same(&store, &before);
    assert_eq!(length, Ok(page.len()));
    assert_eq!(&after.page[..page.len()], page.as_bytes());
    assert_eq!(after.run[..2], [0, 1]);
    assert!(after.word == before.word, "no word is shown");
    let (length, after) = ROLL.same(&store, &before);
    assert_eq!(length, Ok(roll.len()));
    assert_eq!(&after.roll[..roll.len()], roll.as_bytes());
    assert!(after.word == before.word, "no word is shown");
    let page = "V,pass,0\nC,0,0,0\nE\n";
    let (length, after) = PAGE.same(&store_of(&ticking(1, &[(0, TICK, 0)])), &before);
    assert_eq!(length, Ok(page.len()));
    assert_eq!(&after.page[..page.len()], page.as_bytes());
}

// ---- beside the second checker

/// Every operation on a model, from its store or its text, with its own book and a state of it.
fn by_every_operation(rng: &mut Rng, model: &Model, before: &Lists) {
    let input = Input {
        store: Store::of(model),
        book: Book::own(model),
        state: rng.below(usize::from(model.states)) as u16,
        ..Input::from(&model.to_text())
    };
    for operation in ALL {
        let (refusal, _) = operation.refusal(&input, before);
        let (name, number) = (operation.name(), refusal.map(|refusal| refusal.number));
        let expected = match number {
            None => true,
            Some(23 | 24 | 36) => name == "Word",
            Some(number) => number == 26 && name == "Run",
        };
        assert!(expected, "{name}: {number:?}");
    }
}

/// What Word answers by the meaning of the model and its verdict: 23, 36 with its place, 24, or none.
fn word_of(model: &Model, verdict: Verdict) -> Option<(u16, Option<u64>)> {
    let silent = meaning::first_silent_step(model);
    match verdict {
        _ if !meaning::deterministic(model) => Some((23, None)),
        _ if silent.is_some() => Some((36, silent.map(u64::from))),
        Verdict::Passed { .. } => Some((24, Some(0))),
        Verdict::Refused { .. } => None,
    }
}

/// Judge, Word, Page and Roll of a model, held to their meaning; Word's number.
fn held(model: &Model, before: &Lists) -> Option<u16> {
    let store = Store::of(model);
    let (verdict, judged) = JUDGE.same(&store, before);
    let verdict = verdict.expect("the store is good");
    if model.states <= 40 {
        assert_eq!(verdict, meaning::verdict_of(model));
    }
    let (word, after) = WORD.same(&store, before);
    let expected = word_of(model, verdict);
    if let Err(refusal) = word {
        let place = Some(refusal.place);
        let (number, at) = expected.expect("no word");
        assert_eq!((refusal.number, place), (number, at.or(place)));
        assert!(after == judged, "{}", after.difference(&judged));
    }
    assert_eq!(word.is_err(), expected.is_some());
    let (length, paged) = PAGE.same(&store, before);
    let page = &paged.page[..length.expect("the store is good")];
    let (length, rolled) = ROLL.same(&store, before);
    let roll = &rolled.roll[..length.expect("the store is good")];
    assert_eq!(meaning::roll_holds(&model.to_text(), page, roll), Ok(()));
    let refused = matches!(verdict, Verdict::Refused { .. });
    assert_eq!(page.ends_with(b"\nN\nE\n"), refused && word.is_err());
    assert!(
        word.is_ok() || paged.word == before.word,
        "no word is shown"
    );
    expected.map(|(number, _)| number)
}

/// Whether ticks can be reached, or are there at all.
fn ticks(model: &Model) -> &'static str {
    let is_tick = |step: &Step| model.level(step.action) == Level::Silent;
    match meaning::first_silent_step(model) {
        Some(_) => "reachable",
        None if model.steps.iter().any(is_tick) => "unreachable",
        None => "none",
    }
}

#[test]
fn random_models() {
    let mut rng = gen::seeded("ticks::random_models", SEED + 5);
    let mut kinds = BTreeMap::new();
    for round in 0..500 {
        let model = match round % 2 {
            0 => gen::deterministic_tick_model(&mut rng),
            _ => gen::tick_model(&mut rng),
        };
        let _case = gen::model_case(&model);
        let before = Lists::enough(&mut rng);
        by_every_operation(&mut rng, &model, &before);
        let number = held(&model, &before);
        *kinds.entry((ticks(&model), number)).or_insert(0) += 1;
    }
    let expected = [
        ("none", None),
        ("none", Some(23)),
        ("none", Some(24)),
        ("reachable", Some(23)),
        ("reachable", Some(36)),
        ("unreachable", None),
        ("unreachable", Some(23)),
        ("unreachable", Some(24)),
    ];
    assert!(kinds.keys().eq(&expected), "{kinds:?}");
    assert!(kinds.values().all(|&count| count > 5), "{kinds:?}");
}

/// Models of many depths, with each kind of ticks.
#[test]
fn every_kind_of_ticks() {
    let mut rng = gen::seeded("ticks::every_kind_of_ticks", SEED + 6);
    let kinds = [
        gen::with_random_ticks,
        gen::with_tick_ring,
        gen::with_delays,
        gen::with_unreachable_ticks,
        gen::silenced,
    ];
    for depth in (1..=121).step_by(20) {
        for (index, with_ticks) in kinds.iter().enumerate() {
            let model = match index % 2 {
                0 => gen::deep_model(&mut rng, depth),
                _ => gen::branching_deep_model(&mut rng, depth),
            };
            if model.actions.len() < MOST_ACTIONS {
                let model = with_ticks(&mut rng, &model);
                let _case = gen::model_case(&model);
                let before = Lists::enough(&mut rng);
                by_every_operation(&mut rng, &model, &before);
                held(&model, &before);
            }
        }
    }
}

/// As many states, low actions and steps as there may be beside one high action and a silent one, whose ticks go round
/// all states.
fn full_model(rng: &mut Rng) -> Model {
    let level = |action| match action {
        62 => Level::High,
        63 => Level::Silent,
        _ => Level::Low,
    };
    let action = |number| Action {
        level: level(number),
        name: format!("scanbarcod{number:02}").into_bytes(),
    };
    let mut steps: BTreeSet<Step> = (0..128).map(|p| Step::new(p, 63, (p + 1) % 128)).collect();
    steps.extend((0..62).map(|action| Step::new(2 * action, action, 127 - action)));
    steps.insert(Step::new(0, 62, 64));
    while steps.len() < MOST_STEPS {
        let [source, action, target] = [128, 63, 128].map(|below| rng.below(below) as u16);
        steps.insert(Step::new(source, action, target));
    }
    Model {
        states: 128,
        start: 0,
        extra_starts: Vec::new(),
        actions: (0..64).map(action).collect(),
        steps: steps.into_iter().collect(),
    }
}

/// The limits with ticks, 62 low actions among them; and the same without one tick, so that states differ.
#[test]
fn models_at_the_limits() {
    let mut rng = gen::seeded("ticks::models_at_the_limits", SEED + 7);
    let full = full_model(&mut rng);
    let is_low = |action: &&Action| action.level == Level::Low;
    assert_eq!(full.actions.iter().filter(is_low).count(), 62);
    let sizes = (usize::from(full.states), full.actions.len());
    assert_eq!(
        (sizes, full.steps.len()),
        ((MOST_STATES, MOST_ACTIONS), MOST_STEPS)
    );
    let mut open = full.clone();
    open.steps.retain(|&step| step != Step::new(40, 63, 41));
    let mut models = gen::tick_limit_models(&mut rng);
    models.push(("full", full));
    models.push(("full but for a tick", open));
    let mut seen = BTreeSet::new();
    for (_, model) in models {
        let _case = gen::model_case(&model);
        let before = Lists::enough(&mut rng);
        by_every_operation(&mut rng, &model, &before);
        held(&model, &before);
        seen.insert(ticks(&model));
    }
    assert!(
        seen.contains("reachable") && seen.contains("unreachable"),
        "{seen:?}"
    );
}

/// 128 ticks go round all states: each comes silently to each other, whatever else they do, and no two differ. The book
/// has no entry.
#[test]
fn a_ring_of_128_ticks() {
    let mut rng = gen::seeded("ticks::a_ring_of_128_ticks", SEED + 8);
    let ring = (0..128).map(|state| (state, TICK, (state + 1) % 128));
    let mut steps: Vec<_> = ring.chain([(0, PRINTING, 64), (77, SCAN, 3)]).collect();
    steps.sort();
    let (store, before) = (store_of(&ticking(128, &steps)), Lists::enough(&mut rng));
    let mut ranked = before.clone();
    ranked.table[..TABLE].fill(0);
    RANK.fills(&store, &before, 0, &ranked);
    ranked.book[..BOOK_BYTES].fill(0);
    BOOK.fills(&store, &before, (), &ranked);
    let (verdict, judged) = JUDGE.same(&store, &before);
    assert_eq!(verdict, Ok(Verdict::Passed { rank: 0 }));
    // From 64 on the print is the shorter way.
    let distance = |state: u16| if state < 64 { state } else { state - 63 };
    assert!((0..128)
        .map(distance)
        .eq(judged.distances[..DISTANCES].iter().copied()));
    word_refuses(&store, &before, Refusal::new(36, 1));
    by_every_operation(&mut rng, &full_model(&mut Rng::new(SEED)), &before);
}

/// The lists of one call are lent to the next, whatever the models are.
#[test]
fn lists_of_an_earlier_call() {
    let mut rng = gen::seeded("ticks::lists_of_an_earlier_call", SEED + 9);
    let mut before = Lists::enough(&mut rng);
    for round in 0..60 {
        let model = match round % 3 {
            0 => gen::any_model(&mut rng),
            _ => gen::tick_model(&mut rng),
        };
        let (store, text) = (Store::of(&model), model.to_text());
        before = READ.same(&text, &before).1;
        before = BOOK.same(&store, &before).1;
        before = PAGE.same(&store, &before).1;
        before = ROLL.same(&store, &before).1;
        before = WORD.same(&store, &before).1;
        before = PRINT.same(&text, &before).1;
    }
}

// ---- damage

/// Texts of models with ticks, with every kind of fault at every kind of line.
#[test]
fn faults_beside_ticks() {
    let mut rng = gen::seeded("ticks::faults_beside_ticks", SEED + 10);
    for _ in 0..12 {
        let model = gen::tick_model(&mut rng);
        let before = Lists::enough(&mut rng);
        for fault in one_of_each(&mut rng, &model) {
            not_read::by_the_operations(&fault.text, fault.refusal, &before);
        }
    }
}

/// Texts whose levels were changed, to T or to what is none, some with further changes.
#[test]
fn damaged_texts() {
    let mut rng = gen::seeded("ticks::damaged_texts", SEED + 11);
    let (mut read, mut numbers) = (0, BTreeMap::new());
    for round in 0..1_200 {
        let model = match round % 2 {
            0 => gen::tick_model(&mut rng),
            _ => gen::any_model(&mut rng),
        };
        let text = gen::mutated_tick_text(&mut rng, &model.to_text());
        let before = Lists::enough(&mut rng);
        match READ.same(&text, &before).0 {
            Ok(()) => {
                let (answer, _) = PRINT.same(&text, &before);
                assert!(answer.is_ok());
                read += 1;
            }
            Err(refusal) => {
                not_read::by_the_operations(&text, refusal, &before);
                *numbers.entry(refusal.number).or_insert(0) += 1;
            }
        }
        if round % 40 == 0 {
            TILL.same(&text);
            TILL_BOOK.same(&text);
        }
    }
    assert!(
        read > 100 && numbers[&2] > 300 && numbers[&35] > 20,
        "{read} {numbers:?}"
    );
}

/// A silent action in place of each high one: 35, or what comes before it.
#[test]
fn texts_without_a_high_action() {
    let mut rng = gen::seeded("ticks::texts_without_a_high_action", SEED + 12);
    let mut last = 0;
    for round in 0..400 {
        let model = match round % 2 {
            0 => gen::tick_model(&mut rng),
            _ => gen::any_model(&mut rng),
        };
        let Fault { text, refusal, .. } = gen::no_high_tick_text(&mut rng, &model);
        not_read::by_the_operations(&text, refusal, &Lists::enough(&mut rng));
        last += usize::from(refusal.number == 35);
    }
    assert!(last > 100, "{last}");
}

/// Every operation on a store, which is good or gets 22 from each and leaves every list as it was.
fn by_stores(store: &Store, before: &Lists) -> bool {
    let is_good = second::store::good(store).is_ok();
    for operation in on_stores() {
        let (refusal, after) = operation.refusal(&store.into(), before);
        let name = operation.name();
        assert_eq!(refusal == Some(NOT_GOOD), !is_good, "{name}, {store}");
        assert!(is_good || after == *before, "{name}, {store}");
    }
    is_good
}

/// Stores with levels changed, to 3 or to what is none, or with other damage. 3 is good where an action is high.
#[test]
fn damaged_stores() {
    let mut rng = gen::seeded("ticks::damaged_stores", SEED + 13);
    let (mut good, mut bad) = (0, 0);
    for round in 0..400 {
        let model = match round % 2 {
            0 => gen::tick_model(&mut rng),
            _ => gen::any_model(&mut rng),
        };
        let before = Lists::enough(&mut rng);
        let lost = Store::made_of(&model, gen::no_high_tick_store(&mut rng, &model));
        assert!(!by_stores(&lost, &before), "{lost}");
        let changed = gen::mutated_tick_store(&mut rng, &model);
        match by_stores(&Store::made_of(&model, changed), &before) {
            true => good += 1,
            false => bad += 1,
        }
    }
    assert!(good > 50 && bad > 100, "{good} {bad}");
    for _ in 0..3 {
        let (model, before) = (gen::tick_model(&mut rng), Lists::enough(&mut rng));
        for (what, numbers) in gen::bad_stores(&model) {
            let store = Store::made_of(&model, numbers);
            assert!(!by_stores(&store, &before), "{what}");
        }
    }
}

// ---- by the programs

#[test]
fn models_by_the_programs() {
    let mut rng = gen::seeded("ticks::models_by_the_programs", SEED + 14);
    let mut models = shapes_at_the_limits(&mut rng);
    models.extend((0..40).map(|_| gen::tick_model(&mut rng)));
    let (mut not_shown, mut passed) = (0, 0);
    for model in models {
        let _case = gen::model_case(&model);
        let page = by_the_programs(&model.to_text());
        not_shown += usize::from(page.ends_with(b"\nN\nE\n"));
        passed += usize::from(page.starts_with(b"V,pass,"));
    }
    assert!(not_shown > 5 && passed > 5, "{not_shown} {passed}");
}
