//! Laws of models with silent actions (request (vii) of document 02), on many
//! models.

mod common;

use std::collections::{BTreeMap, BTreeSet};

use common::{accepted_book_holds, pairs, Lists};
use second::book::{entry_number, Entry};
use second::gen::{self, Rng};
use second::meaning::{self, Deterministic};
use second::rank::ranks_of;
use second::store::{BOOK, MOST_ACTIONS, TABLE};
use second::text::parse_or_cause;
use second::{book, book_of, check, judge, program, rank, read, roll_program, run, word, write};
use second::{Level, Model, Refusal, Step, Verdict};

/// Models at the limits, and models of any kind.
fn models(rng: &mut Rng, count: usize) -> Vec<Model> {
    let limits = gen::tick_limit_models(rng).into_iter();
    let mut models: Vec<Model> = limits.map(|(_, model)| model).collect();
    models.extend((0..count).map(|_| gen::tick_model(rng)));
    models
}

/// A model of at most 12 states with a silent action.
fn small_model(rng: &mut Rng) -> Model {
    loop {
        let model = gen::tick_model(rng);
        if model.states <= 12 {
            return model;
        }
    }
}

/// The numbers of the silent steps.
fn silent_steps(model: &Model) -> Vec<u16> {
    let is_silent = |&number: &u16| {
        let step = model.steps[usize::from(number)];
        model.level(step.action) == Level::Silent
    };
    (0..model.steps.len() as u16).filter(is_silent).collect()
}

fn verdict_of(model: &Model) -> Verdict {
    let mut lists = Lists::new();
    judge(&model.to_store(), &mut lists.distances, &mut lists.table).unwrap()
}

/// All have a silent action and a high one. Ticks are reachable in many, in
/// unreachable states only in many, and in some there are none; and so in each
/// case with each verdict, deterministic or not.
#[test]
fn models_are_of_every_kind() {
    let mut rng = gen::seeded("second::tick_laws::models_are_of_every_kind", 701);
    let mut kinds: BTreeMap<(&str, bool, bool), usize> = BTreeMap::new();
    let (mut large, mut anywhere) = (0, BTreeSet::new());
    for round in 0..6_000 {
        let model = match round % 3 {
            0 => gen::deterministic_tick_model(&mut rng),
            _ => gen::tick_model(&mut rng),
        };
        let _case = gen::model_case(&model);
        assert!(model.has_silent() && model.has_high());
        assert_eq!(second::store::good(&model.to_store()).as_ref(), Ok(&model));
        assert!(round % 3 != 0 || meaning::deterministic(&model));
        let ticks = match meaning::first_silent_step(&model) {
            Some(_) => "reachable",
            None if silent_steps(&model).is_empty() => "none",
            None => "unreachable",
        };
        let passed = matches!(verdict_of(&model), Verdict::Passed { .. });
        let kind = (ticks, passed, meaning::deterministic(&model));
        *kinds.entry(kind).or_default() += 1;
        large += usize::from(model.states > 12);
        let silent = model.actions.iter().position(|a| a.level == Level::Silent);
        anywhere.extend(silent);
    }
    assert_eq!(kinds.len(), 12, "{kinds:?}");
    assert!(kinds.values().all(|&count| count > 50), "{kinds:?}");
    assert!(large > 500 && anywhere.len() > 10, "{large} {anywhere:?}");
}

/// Moves by sets are those found by walking.
#[test]
fn moves_are_walks() {
    let mut rng = gen::seeded("second::tick_laws::moves_are_walks", 702);
    for model in models(&mut rng, 1_500) {
        let _case = gen::model_case(&model);
        let walked = meaning::moves(&model).into_iter();
        let walked: Vec<Vec<(u16, u16)>> = walked.map(|m| m.into_iter().collect()).collect();
        assert_eq!(model.moves(), walked);
        for (state, moves) in model.moves().iter().enumerate() {
            assert!(moves.contains(&(255, state as u16)));
            let low =
                |&(action, _): &(u16, u16)| action == 255 || model.level(action) == Level::Low;
            assert!(moves.iter().all(low));
        }
    }
}

/// Ranks are symmetric and 0 for a state and itself; each is what it must be given
/// the others; none exceeds states minus 1.
#[test]
fn ranks_hold() {
    let mut rng = gen::seeded("second::tick_laws::ranks_hold", 703);
    let mut greatest_ranks = BTreeSet::new();
    for model in models(&mut rng, 1_000) {
        let _case = gen::model_case(&model);
        let mut lists = Lists::new();
        let greatest = rank(&model.to_store(), &mut lists.table).unwrap();
        assert_eq!(meaning::ranks_hold(&model, &lists.table, greatest), Ok(()));
        assert!(greatest < model.states);
        greatest_ranks.insert(greatest);
        for p in 0..128 {
            assert_eq!(lists.table[entry_number(p, p)], 0);
            for q in 0..p {
                let (one, other) = (entry_number(p, q), entry_number(q, p));
                assert_eq!(lists.table[one], lists.table[other]);
            }
        }
        if model.states <= 40 {
            assert_eq!(verdict_of(&model), meaning::verdict_of(&model));
        }
    }
    assert!(greatest_ranks.len() > 30, "{greatest_ranks:?}");
}

/// Two states are of rank 0 just if some weak bisimulation pairs them, be its
/// openings single steps or whole moves.
#[test]
fn rank_0_is_weak_bisimulation() {
    let mut rng = gen::seeded("second::tick_laws::rank_0_is_weak_bisimulation", 704);
    for round in 0..1_500 {
        let model = match round % 50 {
            0 => gen::tick_model(&mut rng),
            _ => small_model(&mut rng),
        };
        if model.states > 40 {
            continue;
        }
        let _case = gen::model_case(&model);
        let (ranks, _) = ranks_of(&model);
        let mut rank_0 = BTreeSet::new();
        for p in 0..model.states {
            for q in 0..model.states {
                if ranks[usize::from(p)][usize::from(q)] == 0 {
                    rank_0.insert((p, q));
                }
            }
        }
        assert_eq!(meaning::greatest_weak_bisimulation(&model), rank_0);
        assert_eq!(meaning::greatest_bisimulation(&model), rank_0);
        assert!(meaning::is_weak_bisimulation(&model, &rank_0));
        assert!(meaning::is_bisimulation(&model, &rank_0));
    }
}

/// Over each relation between three states, or fewer: it is a bisimulation with
/// single steps as openings just if it is one with whole moves, and no entry of a
/// sound book is paired by one.
#[test]
fn over_each_relation() {
    let mut rng = gen::seeded("second::tick_laws::over_each_relation", 705);
    for round in 0..200 {
        let (states, steps) = (rng.between(1, 3), rng.below(8));
        let model = gen::random_model(&mut rng, states, 3, steps, round % 4 == 0);
        let model = match round % 2 {
            0 => gen::silenced(&mut rng, &model),
            _ => gen::with_random_ticks(&mut rng, &model),
        };
        let _case = gen::model_case(&model);
        let all: Vec<(u16, u16)> = (0..states * states)
            .map(|index| ((index / states) as u16, (index % states) as u16))
            .collect();
        let mut paired = BTreeSet::new();
        for chosen in 0..1_usize << all.len() {
            let relation = (0..all.len()).filter(|index| chosen >> index & 1 == 1);
            let relation: BTreeSet<(u16, u16)> = relation.map(|index| all[index]).collect();
            let weak = meaning::is_weak_bisimulation(&model, &relation);
            assert_eq!(meaning::is_bisimulation(&model, &relation), weak);
            if weak {
                paired.extend(relation);
            }
        }
        let own = pairs(&model, &book_of(&model));
        assert!(own.is_disjoint(&paired));
        assert_eq!(own.len() + paired.len(), all.len());
        for _ in 0..10 {
            let sound = gen::sound_book(&mut rng, &model);
            assert!(pairs(&model, &sound).is_disjoint(&paired));
            let book = gen::mutated_book(&mut rng, &model, &sound);
            if check(&model.to_store(), &book).is_ok() {
                assert!(pairs(&model, &book).is_disjoint(&paired));
            }
        }
    }
}

/// Word refuses as 23, then 36, then 24, at the places that exploring gives. The
/// page has a word just if Word has one. What is told without a reachable silent
/// step means what it says.
#[test]
fn words_and_their_refusals() {
    let mut rng = gen::seeded("second::tick_laws::words_and_their_refusals", 706);
    let mut numbers: BTreeMap<u16, usize> = BTreeMap::new();
    let mut list = models(&mut rng, 1_500);
    list.extend((0..1_500).map(|_| gen::deterministic_tick_model(&mut rng)));
    for model in list {
        let _case = gen::model_case(&model);
        let (store, mut lists) = (model.to_store(), Lists::new());
        let verdict = judge(&store, &mut lists.distances, &mut lists.table).unwrap();
        let judged = lists.clone();
        let answer = word(
            &store,
            &mut lists.distances,
            &mut lists.table,
            &mut lists.word,
        );
        let passed = matches!(verdict, Verdict::Passed { .. });
        let silent = meaning::first_silent_step(&model);
        match answer {
            Ok((length, end)) => {
                let exact = Deterministic::new(&model).expect("deterministic, no tick");
                assert_eq!(exact.verdict_holds(verdict), Ok(()));
                let Verdict::Refused { step, depth } = verdict else {
                    panic!("a word of a model that passed");
                };
                let letters = &lists.word[..length];
                assert_eq!(exact.word_holds(step, depth, letters, end), Ok(()));
            }
            Err(refusal) => {
                assert!(lists == judged);
                let place = refusal.place;
                match refusal.number {
                    23 => assert!(!meaning::deterministic(&model)),
                    36 => {
                        assert!(meaning::deterministic(&model));
                        assert_eq!(Some(place), silent.map(u64::from));
                    }
                    24 => {
                        assert_eq!((passed, place, silent), (true, 0, None));
                        let exact = Deterministic::new(&model).expect("deterministic, no tick");
                        assert_eq!(exact.verdict_holds(verdict), Ok(()));
                    }
                    number => panic!("{number}"),
                }
            }
        }
        let number = answer.err().map_or(0, |refusal| refusal.number);
        *numbers.entry(number).or_default() += 1;
        let text = model.to_text();
        let page = program(&text);
        let last = if passed { "" } else { "N\n" };
        let ends_so = page.ends_with(format!("{last}E\n").as_bytes());
        assert_eq!(ends_so, answer.is_err());
        if model.states <= 40 {
            assert_eq!(meaning::page_holds(&text, &page), Ok(()));
            let roll = roll_program(&text);
            assert_eq!(meaning::roll_holds(&text, &page, &roll), Ok(()));
        }
    }
    assert_eq!(numbers.len(), 4, "{numbers:?}");
    assert!(numbers.values().all(|&count| count > 200), "{numbers:?}");
}

/// Distances and runs take steps of any level.
#[test]
fn distances_and_runs() {
    let mut rng = gen::seeded("second::tick_laws::distances_and_runs", 707);
    let mut by_ticks = 0;
    for model in models(&mut rng, 500) {
        let _case = gen::model_case(&model);
        let (store, mut lists) = (model.to_store(), Lists::new());
        let silent = silent_steps(&model);
        for state in meaning::reachable(&model) {
            let length = run(&store, &mut lists.distances, &mut lists.run, state).unwrap();
            assert_eq!(meaning::distances_hold(&model, &lists.distances), Ok(()));
            let steps = &lists.run[..length];
            let holds = meaning::run_holds(&model, &lists.distances, steps, state);
            assert_eq!(holds, Ok(()));
            by_ticks += usize::from(steps.iter().any(|step| silent.contains(step)));
        }
    }
    assert!(by_ticks > 300, "{by_ticks}");
}

/// The ranks of two states that both models have, which number them alike.
fn same_ranks(model: &Model, other: &Model) {
    let (ranks, _) = ranks_of(model);
    let (others, _) = ranks_of(other);
    for (p, row) in ranks.iter().enumerate() {
        assert_eq!(row[..], others[p][..ranks.len()], "{p}");
    }
}

/// The depth at which a model is refused, if it is.
fn depth_of(model: &Model) -> Option<u16> {
    match verdict_of(model) {
        Verdict::Passed { .. } => None,
        Verdict::Refused { depth, .. } => Some(depth),
    }
}

/// A model with room for one more action.
fn with_room(rng: &mut Rng) -> Model {
    loop {
        let model = gen::any_model(rng);
        if model.actions.len() < MOST_ACTIONS {
            return model;
        }
    }
}

/// Ticks that lead on to a state, and can do nothing else, are not seen: the
/// verdict, the depth and all ranks are as without them.
#[test]
fn delays_are_not_seen() {
    let mut rng = gen::seeded("second::tick_laws::delays_are_not_seen", 708);
    let (mut passed, mut refused) = (0, 0);
    for _ in 0..1_500 {
        let model = with_room(&mut rng);
        let delayed = gen::with_delays(&mut rng, &model);
        let _case = gen::model_case(&delayed);
        same_ranks(&model, &delayed);
        let depth = depth_of(&model);
        assert_eq!(depth_of(&delayed), depth);
        if meaning::first_silent_step(&delayed).is_some() {
            match depth {
                None => passed += 1,
                Some(_) => refused += 1,
            }
        }
    }
    assert!(passed > 200 && refused > 200, "{passed} {refused}");
}

/// Ticks that stay where they are change no rank and no verdict, and those of
/// unreachable states change no rank of the others, nor what is shown of them.
#[test]
fn ticks_that_change_nothing() {
    let mut rng = gen::seeded("second::tick_laws::ticks_that_change_nothing", 709);
    let mut words = 0;
    for _ in 0..1_000 {
        let model = with_room(&mut rng);
        let other = gen::with_unreachable_ticks(&mut rng, &model);
        let _case = gen::model_case(&other);
        same_ranks(&model, &other);
        assert_eq!(depth_of(&model), depth_of(&other));
        assert_eq!(meaning::first_silent_step(&other), None);
        let ending = |model: &Model| -> Vec<String> {
            let page = String::from_utf8(program(&model.to_text())).expect("ASCII");
            let lines = page.lines().filter(|line| !line.starts_with(['V', 'C']));
            lines.map(str::to_string).collect()
        };
        // The new states come after the others, and so do their steps.
        assert_eq!(ending(&model), ending(&other));
        words += usize::from(ending(&model).len() > 1);

        let mut staying = model.clone();
        let tick = staying.actions.len() as u16;
        let (level, name) = (Level::Silent, b"t1ck".to_vec());
        staying.actions.push(second::Action { level, name });
        if staying.steps.len() + usize::from(model.states) <= 1_024 {
            let here = (0..model.states).map(|state| Step::new(state, tick, state));
            staying.steps.extend(here);
            staying.steps.sort();
        }
        same_ranks(&model, &staying);
        assert_eq!(depth_of(&model), depth_of(&staying));
    }
    assert!(words > 200, "{words}");
}

/// States that ticks lead round are all of rank 0 to each other.
#[test]
fn rings_of_ticks() {
    let mut rng = gen::seeded("second::tick_laws::rings_of_ticks", 710);
    for _ in 0..800 {
        let model = with_room(&mut rng);
        let ringed = gen::with_tick_ring(&mut rng, &model);
        let _case = gen::model_case(&ringed);
        let (ranks, _) = ranks_of(&ringed);
        let ring = silent_steps(&ringed);
        let ring = ring.iter().map(|&step| ringed.steps[usize::from(step)]);
        for step in ring {
            assert_eq!(ranks[usize::from(step.source)][usize::from(step.target)], 0);
        }
    }
}

/// Our own book is accepted, has entries for just the pairs of nonzero rank, and
/// its depths are the ranks. It is the one that k-alike states give, and its plays
/// are as long as the depths say.
#[test]
fn our_own_book() {
    let mut rng = gen::seeded("second::tick_laws::our_own_book", 711);
    let mut silent = 0;
    for model in models(&mut rng, 800) {
        let _case = gen::model_case(&model);
        let (store, mut lists) = (model.to_store(), Lists::new());
        assert_eq!(book(&store, &mut lists.table, &mut lists.book), Ok(()));
        assert_eq!(lists.book[..BOOK], book_of(&model));
        assert_eq!(check(&store, &lists.book), Ok(()));
        for number in 0..TABLE {
            let entry = Entry::of(&lists.book, number);
            let rank = lists.table[number];
            assert_eq!(entry.is_absent(), rank == 0);
            assert_eq!(entry.depth, rank);
            assert!(rank > 0 || entry.bytes() == [0; 4]);
            assert!(entry.action < 64 || entry.action == 255);
            silent += usize::from(entry.action == 255);
        }
        if model.states <= 40 {
            assert_eq!(meaning::book_holds(&model, &lists.book), Ok(()));
            assert_eq!(meaning::first_bad_entry(&model, &lists.book), None);
            accepted_book_holds(&model, &lists.book);
            let plays = meaning::Plays::new(&model, &lists.book);
            for number in 0..TABLE {
                let rank = u16::from(lists.table[number]);
                let longest = plays.longest((number / 128) as u16, (number % 128) as u16);
                assert_eq!(longest, (rank > 0).then_some(rank));
            }
        }
    }
    assert!(silent > 1_000, "{silent}");
}

/// Whether some entry that counts has this action.
fn opens_with(book: &[u8], action: u8) -> bool {
    let mut entries = (0..TABLE).map(|number| Entry::of(book, number));
    entries.any(|entry| !entry.is_absent() && entry.action == action)
}

/// All kinds of sound books are accepted, and hold; also with silent openings
/// beside numbers that are no states.
#[test]
fn sound_books() {
    let mut rng = gen::seeded("second::tick_laws::sound_books", 712);
    let mut silent: BTreeMap<&str, usize> = BTreeMap::new();
    for round in 0..250 {
        let model = match round % 3 {
            0 => gen::any_model(&mut rng),
            _ => gen::tick_model(&mut rng),
        };
        let store = model.to_store();
        let mut books = gen::sound_books(&mut rng, &model);
        books.push(("any", gen::sound_book(&mut rng, &model)));
        let own = book_of(&model);
        let more = gen::with_silent_entries(&mut rng, &model, &own);
        books.push(("silent entries", more));
        for (what, book) in &books {
            let _case = gen::book_case(&model, book);
            assert_eq!(check(&store, book), Ok(()), "{what}");
            if model.states <= 12 {
                accepted_book_holds(&model, book);
                assert_eq!(meaning::first_bad_entry(&model, book), None);
            }
            *silent.entry(what).or_default() += usize::from(opens_with(book, 255));
        }
    }
    assert!(silent["silent entries"] > 100, "{silent:?}");
    let often = silent.values().filter(|&&count| count > 10);
    assert!(often.count() > 8, "{silent:?}");
}

/// Each kind of damage is told, with the first bad entry.
#[test]
fn damaged_books() {
    let mut rng = gen::seeded("second::tick_laws::damaged_books", 713);
    let mut kinds: BTreeMap<&str, usize> = BTreeMap::new();
    for _ in 0..120 {
        let model = gen::tick_model(&mut rng);
        let store = model.to_store();
        let sound = match rng.below(2) {
            0 => book_of(&model),
            _ => gen::sound_book(&mut rng, &model),
        };
        for bad in gen::bad_books(&mut rng, &model, &sound) {
            let _case = gen::book_case(&model, &bad.book);
            assert_eq!(check(&store, &bad.book), Err(bad.refusal), "{}", bad.what);
            if model.states <= 12 {
                let first = meaning::first_bad_entry(&model, &bad.book);
                assert_eq!(first, Some(bad.refusal.place as usize));
            }
            *kinds.entry(bad.what).or_default() += 1;
        }
    }
    assert!(kinds["the number of a silent action"] > 50, "{kinds:?}");
    assert_eq!(kinds.len(), 21, "{kinds:?}");
}

/// Books with random changes: Check tells the first entry that has a fault, and
/// what it accepts holds.
#[test]
fn changed_books() {
    let mut rng = gen::seeded("second::tick_laws::changed_books", 714);
    let (mut accepted, mut refused) = (0, 0);
    for round in 0..2_500 {
        let model = small_model(&mut rng);
        let sound = gen::sound_book(&mut rng, &model);
        let sound = match round % 4 {
            0 => gen::with_silent_entries(&mut rng, &model, &sound),
            _ => sound,
        };
        let book = match round % 16 {
            0 => gen::scrap_book(&mut rng),
            _ => gen::mutated_book(&mut rng, &model, &sound),
        };
        let _case = gen::book_case(&model, &book);
        let answer = check(&model.to_store(), &book);
        let first = meaning::first_bad_entry(&model, &book);
        let expected = first.map_or(Ok(()), |n| Err(Refusal::new(34, n as u64)));
        assert_eq!(answer, expected);
        if answer.is_ok() {
            accepted_book_holds(&model, &book);
            accepted += 1;
        }
        refused += usize::from(answer.is_err());
    }
    assert!(accepted > 300 && refused > 800, "{accepted} {refused}");
}

/// Texts with silent actions: faults get their numbers, texts without a high
/// action get 35 whatever else is silent, and good ones are written back.
#[test]
fn texts() {
    let mut rng = gen::seeded("second::tick_laws::texts", 715);
    let (mut read_again, mut ticking) = (0, 0);
    for round in 0..3_000 {
        let model = small_model(&mut rng);
        if round % 100 == 0 {
            for fault in gen::faults(&model) {
                let _case = gen::text_case(&fault.text);
                let expected = Err((fault.cause, fault.refusal.place));
                assert_eq!(parse_or_cause(&fault.text), expected, "{}", fault.what);
            }
        }
        let fault = gen::no_high_tick_text(&mut rng, &model);
        let case = gen::text_case(&fault.text);
        let expected = Err((fault.cause, fault.refusal.place));
        assert_eq!(parse_or_cause(&fault.text), expected, "{}", fault.what);
        drop(case);
        let text = match round % 2 {
            0 => gen::small_model(&mut rng, false).to_text(),
            _ => model.to_text(),
        };
        let text = gen::mutated_tick_text(&mut rng, &text);
        let _case = gen::text_case(&text);
        let (mut store, mut lists) = (vec![8; 4_100], Lists::new());
        if read(&text, &mut store).is_ok() {
            let length = write(&store, &mut lists.written).unwrap();
            assert_eq!(lists.written[..length], text);
            read_again += 1;
            ticking += usize::from(text.windows(3).any(|piece| piece == b"A,T"));
        }
    }
    assert!(read_again > 500 && ticking > 400, "{read_again} {ticking}");
}
