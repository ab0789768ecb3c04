//! Every refusal: its number, its place, its turn, and what it leaves.

mod common;

use std::collections::BTreeMap;

use common::operations::{OnStore, ON_STORES};
use common::{refusal, store_of, till, waking_till};
use common::{Lists, CLOSE, EXAMPLE, PRINT, SCAN};
use second::gen;
use second::store::{action_place, DISTANCES, STORE};
use second::text::{parse_or_cause, Cause};
use second::{judge, program, read, run, word};
use second::{Refusal, Verdict};

#[test]
fn lines_that_are_absent_or_not_ended() {
    assert_eq!(refusal(b""), (32, 1));
    assert_eq!(refusal(b"\n"), (2, 1));
    assert_eq!(refusal(&[b'\n'; 16_384]), (2, 1));
    assert_eq!(refusal(&[b'\n'; 16_385]), (1, 0));
    assert_eq!(refusal(&[0; 16_385]), (1, 0));
    assert_eq!(refusal(b"M"), (32, 1));
    assert_eq!(refusal(b"M,1,1,0,0"), (32, 1));
    assert_eq!(refusal(b"M,1,1,0,0\n"), (32, 2));
    assert_eq!(refusal(b"M,1,1,0,0\nA,H,a"), (32, 2));
    assert_eq!(refusal(b"M,1,1,0,0\nA,H,a\n"), (32, 3));
    assert_eq!(refusal(b"M,1,1,0,0\nA,H,a\nE"), (32, 3));
    assert_eq!(refusal(b"M,1,1,0,0\nA,H,a\nE\n\n"), (32, 4));
    assert_eq!(refusal(b"M,1,1,0,0\nA,H,a\nE\nx"), (32, 4));
    assert_eq!(refusal(b"M,1,1,0,0\nA,H,a\nEx\n"), (2, 3));
    assert_eq!(refusal(b"M,1,1,0,0\r\nA,H,a\r\nE\r\n"), (31, 1));
}

#[test]
fn first_lines() {
    for (first, number) in [
        ("M,99999,3,4,0", 3),
        ("M,100000,3,4,0", 31),
        ("M,04,3,4,0", 31),
        ("M,00,3,4,0", 31),
        ("M,0,3,4,0", 3),
        ("M,200,3,4,x", 31),
        ("M,200,3,4,0", 3),
        ("M,200,3,4,199", 3),
        ("M,129,3,4,0", 3),
        ("M,4,0,4,0", 3),
        ("M,4,65,4,0", 3),
        ("M,4,3,1025,0", 3),
        ("M,4,3,4,4", 3),
        ("M,4,3,4", 2),
        ("M,4,3,4,0,0", 2),
        ("M,4,3,4,", 31),
        ("M,,3,4,0", 31),
        ("m,4,3,4,0", 2),
        ("A,4,3,4,0", 2),
        (" M,4,3,4,0", 2),
        ("M,4,3,4,-0", 31),
        ("M,4,3,4,65536", 3),
        ("M,65540,3,4,0", 3),
    ] {
        let rest = "\nA,L,scan\nA,H,print\nA,D,close\nS,0,0,1\nS,0,1,2\nS,1,0,1\nS,2,0,3\nE\n";
        let text = first.to_string() + rest;
        assert_eq!(refusal(text.as_bytes()), (number, 1), "{first}");
    }
}

#[test]
fn steps_and_names() {
    let twice = till(2, &[(0, SCAN, 1), (0, SCAN, 1)]);
    assert_eq!(refusal(&twice), (5, 6));
    let falling = till(2, &[(0, PRINT, 1), (0, SCAN, 1)]);
    assert_eq!(refusal(&falling), (5, 6));
    assert_eq!(refusal(&till(2, &[(0, SCAN, 2)])), (3, 5));
    assert_eq!(refusal(&till(2, &[(2, SCAN, 0)])), (3, 5));
    assert_eq!(refusal(&till(2, &[(0, 3, 0)])), (3, 5));
    // 3 before 5 in a line.
    assert_eq!(refusal(&till(2, &[(1, SCAN, 1), (0, SCAN, 2)])), (3, 6));

    assert_eq!(refusal(b"M,1,2,0,0\nA,L,a\nA,H,a\nE\n"), (4, 3));
    assert_eq!(refusal(b"M,1,2,0,0\nA,H,a\nA,X,a\nE\n"), (2, 3));
    assert_eq!(refusal(b"M,1,2,0,0\nA,L,a\nA,H,a"), (32, 3));
    assert_eq!(refusal(b"M,1,1,0,0\nA,H,\nE\n"), (2, 2));
    assert_eq!(refusal(b"M,1,1,0,0\nA,H,abcdefghijklm\nE\n"), (2, 2));
    assert_eq!(refusal(b"M,1,1,0,0\nA,H,A\nE\n"), (2, 2));

    let twelve = b"M,1,1,0,0\nA,H,abcdefghijkl\nE\n";
    assert_eq!(program(twelve), b"V,pass,0\nC,0,0,0\nE\n");
    // Bytes next to the ends of the allowed ranges.
    for byte in [b'/', b':', b'`', b'{', b'@', b'['] {
        let text = [b"M,1,1,0,0\nA,H,", &[byte][..], b"\nE\n"].concat();
        assert_eq!(refusal(&text), (2, 2));
    }
    for byte in [b'0', b'9', b'a', b'z'] {
        let text = [b"M,1,1,0,0\nA,H,", &[byte][..], b"\nE\n"].concat();
        assert_eq!(program(&text), b"V,pass,0\nC,0,0,0\nE\n");
    }
}

/// Models in which some level has no action. Just the high level may not be
/// missing (request (vi) of document 02).
#[test]
fn levels_that_are_missing() {
    for levels in [
        "L", "D", "H", "LD", "LH", "DH", "LDH", "T", "LT", "DT", "HT", "TH", "LDT", "LHT", "DHT",
        "LDHT",
    ] {
        let mut text = format!("M,1,{},0,0\n", levels.len());
        for (index, level) in levels.chars().enumerate() {
            text += &format!("A,{level},a{index}\n");
        }
        text += "E\n";
        if levels.contains('H') {
            let page = program(text.as_bytes());
            assert_eq!(page, b"V,pass,0\nC,0,0,0\nE\n", "{levels}");
        } else {
            let last = levels.len() as u64 + 1;
            assert_eq!(refusal(text.as_bytes()), (35, last), "{levels}");
        }
    }
}

/// The number of each cause of a refusal.
#[test]
fn causes_have_these_numbers() {
    let numbers = Cause::ALL.map(Cause::number);
    assert_eq!(numbers, [1, 32, 32, 2, 2, 2, 2, 31, 3, 4, 5, 33, 35]);
}

#[test]
fn a_short_store_comes_before_a_long_text() {
    let mut store = vec![1; STORE - 1];
    for text in [&[b'x'; 20_000][..], b"", EXAMPLE] {
        assert_eq!(read(text, &mut store), Err(Refusal::new(21, 2)));
        assert_eq!(store, vec![1; STORE - 1]);
        assert_eq!(read(text, &mut []), Err(Refusal::new(21, 2)));
    }
}

#[test]
fn faults_in_many_texts() {
    let mut rng = gen::seeded("second::refusals::faults_in_many_texts", 11);
    let mut models = vec![
        gen::chain(4),
        gen::chain(2),
        second::text::parse(EXAMPLE).unwrap(),
        second::text::parse(&till(1, &[])).unwrap(),
        second::text::parse(b"M,1,1,1,0\nA,H,z\nS,0,0,0\nE\n").unwrap(),
        gen::with_all_starts(&gen::chain(4)),
        second::text::parse(&waking_till(3, &[1, 2], &[])).unwrap(),
    ];
    for _ in 0..40 {
        models.push(gen::small_model(&mut rng, false));
    }
    models.push(gen::limit_models(&mut rng).swap_remove(0).1);
    models.push(gen::with_all_starts(&gen::chain(128)));
    let mut causes = BTreeMap::new();
    for model in &models {
        for fault in gen::faults(model) {
            let _case = gen::text_case(&fault.text);
            let mut store = vec![4_321; STORE];
            let answer = read(&fault.text, &mut store);
            assert_eq!(answer, Err(fault.refusal), "{}", fault.what);
            assert!(store.iter().all(|&number| number == 4_321));
            let cause = parse_or_cause(&fault.text).err();
            let expected = Some((fault.cause, fault.refusal.place));
            assert_eq!(cause, expected, "{}", fault.what);
            *causes.entry(fault.cause).or_insert(0) += 1;
        }
    }
    let often = |cause| causes.get(cause).is_some_and(|&count| count > 40);
    assert!(Cause::ALL.iter().all(often), "{causes:?}");
}

/// Lists of which some are one element short, or empty. 21 comes before 22, and 22 before 25.
#[test]
fn short_lists() {
    for operation in ON_STORES {
        let least = (operation.least)();
        for short in 0..1_usize << least.len() {
            for take in [1, usize::MAX] {
                let length = |list: usize| match short >> list & 1 {
                    1 => least[list].saturating_sub(take),
                    _ => least[list],
                };
                let lengths: Vec<usize> = (0..least.len()).map(length).collect();
                refuses_short_lists(operation, short, &lengths);
            }
        }
    }
}

/// The operation on a good store, on a bad one and on one without a high action,
/// with lists of these lengths. `short` has a bit for each short one.
fn refuses_short_lists(operation: &OnStore, short: usize, lengths: &[usize]) {
    let no_state = operation
        .states
        .first()
        .map(|&state| Refusal::new(25, state));
    let not_good = Some(Refusal::new(22, 0));
    let mut no_high = store_of(EXAMPLE);
    no_high[action_place(usize::from(PRINT))] = 0;
    for (store, enough) in [
        (store_of(EXAMPLE), no_state),
        (vec![0; STORE], not_good),
        (no_high, not_good),
    ] {
        let expected = match short {
            0 => enough,
            _ => Some(Refusal::new(21, u64::from(short.trailing_zeros()) + 1)),
        };
        let mut lists = Lists::new();
        (operation.shorten)(&mut lists, lengths);
        let before = lists.clone();
        let refusal = (operation.refusal)(&store[..lengths[0]], &mut lists);
        let name = operation.name;
        assert_eq!(refusal, expected, "{name} {short:b}");
        assert!(refusal.is_none() || lists == before, "{name} {short:b}");
    }
}

#[test]
fn bad_stores_change_nothing() {
    let mut rng = gen::seeded("second::refusals::bad_stores_change_nothing", 22);
    let mut models = vec![
        gen::chain(5),
        gen::with_all_starts(&gen::chain(5)),
        gen::with_all_starts(&gen::chain(128)),
        second::text::parse(&till(1, &[])).unwrap(),
    ];
    for _ in 0..6 {
        models.push(gen::small_model(&mut rng, true));
    }
    let bad = Some(Refusal::new(22, 0));
    for model in &models {
        for (what, store) in gen::bad_stores(model) {
            let _case = gen::case(|| gen::shown_store(model, &store));
            let old = Lists::new();
            let mut lists = old.clone();
            for operation in ON_STORES {
                let refusal = (operation.refusal)(&store, &mut lists);
                assert_eq!(refusal, bad, "{}: {what}", operation.name);
            }
            assert!(lists == old, "{what}");
        }
    }
}

#[test]
fn run_refuses_states() {
    // 2 is unreachable.
    let store = store_of(&till(3, &[(0, SCAN, 1), (2, SCAN, 0)]));
    let old = Lists::new();
    for state in [3, 4, 127, 128, 65_535] {
        let mut lists = old.clone();
        let answer = run(&store, &mut lists.distances, &mut lists.run, state);
        assert_eq!(answer, Err(Refusal::new(25, u64::from(state))));
        assert_eq!(lists, old);
    }
    let mut lists = old.clone();
    let answer = run(&store, &mut lists.distances, &mut lists.run, 2);
    assert_eq!(answer, Err(Refusal::new(26, 2)));
    let mut distances = vec![65_535; DISTANCES];
    distances[..2].copy_from_slice(&[0, 1]);
    distances.extend_from_slice(&old.distances[DISTANCES..]);
    assert_eq!(lists.distances, distances);
    lists.distances = old.distances.clone();
    assert_eq!(lists, old);
}

#[test]
fn word_refuses_after_judging() {
    for (text, refusal) in [
        (till(2, &[(0, SCAN, 0), (0, SCAN, 1)]), Refusal::new(23, 1)),
        (
            till(2, &[(0, PRINT, 1), (1, CLOSE, 0), (1, CLOSE, 1)]),
            Refusal::new(23, 2),
        ),
        (till(2, &[(0, SCAN, 1)]), Refusal::new(24, 0)),
    ] {
        let store = store_of(&text);
        let mut judged = Lists::new();
        judge(&store, &mut judged.distances, &mut judged.table).unwrap();
        let mut lists = Lists::new();
        let answer = word(
            &store,
            &mut lists.distances,
            &mut lists.table,
            &mut lists.word,
        );
        assert_eq!(answer, Err(refusal));
        assert_eq!(lists, judged);
    }
}

#[test]
fn page_fills_only_what_it_prints() {
    let old = Lists::new();

    // Passed: neither run nor word.
    let store = store_of(&till(2, &[(0, SCAN, 1)]));
    let mut lists = old.clone();
    lists.page(&store).unwrap();
    assert_eq!(lists.run, old.run);
    assert_eq!(lists.word, old.word);

    // Refused and not deterministic: the run alone.
    let store = store_of(&till(
        3,
        &[(0, CLOSE, 1), (1, PRINT, 2), (2, SCAN, 1), (2, SCAN, 2)],
    ));
    let mut lists = old.clone();
    let length = lists.page(&store).unwrap();
    let page = "V,refuse,1,1\nC,0,0,0\nC,1,1,0\nC,2,2,2\nR,0\nN\nE\n";
    assert_eq!(&lists.out[..length], page.as_bytes());
    assert_eq!(lists.run[0], 0);
    assert_eq!(lists.run[1..], old.run[1..]);
    assert_eq!(lists.word, old.word);

    // Refused and deterministic: both.
    let store = store_of(&till(3, &[(0, CLOSE, 1), (1, PRINT, 2), (2, SCAN, 1)]));
    let mut lists = old.clone();
    let length = lists.page(&store).unwrap();
    let page = "V,refuse,1,1\nC,0,0,0\nC,1,1,0\nC,2,2,2\nR,0\nW,scan\nB,target\nE\n";
    assert_eq!(&lists.out[..length], page.as_bytes());
    assert_eq!((lists.run[0], lists.word[0]), (0, SCAN));
    assert_eq!(lists.run[1..], old.run[1..]);
    assert_eq!(lists.word[1..], old.word[1..]);
}

#[test]
fn no_text_panics() {
    let mut rng = gen::seeded("second::refusals::no_text_panics", 33);
    let mut good = 0;
    for round in 0..4_000 {
        let model = gen::any_model(&mut rng);
        let text = if round % 4 == 0 {
            gen::scrap_text(&mut rng)
        } else {
            gen::mutated_text(&mut rng, &model.to_text())
        };
        let _case = gen::text_case(&text);
        let page = program(&text);
        if page[0] == b'V' {
            good += 1;
        } else {
            refusal(&text);
        }
    }
    assert!(good > 100, "{good}");
}

#[test]
fn no_store_panics() {
    let mut rng = gen::seeded("second::refusals::no_store_panics", 34);
    for round in 0..1_500 {
        let store = if round % 3 == 0 {
            gen::scrap_store(&mut rng)
        } else {
            let model = gen::any_model(&mut rng);
            gen::mutated_store(&mut rng, &model)
        };
        let _case = gen::case(|| gen::shown_numbers(&store));
        answers_agree(&store, rng.below(140) as u16);
    }
}

/// Judge, Run, Word, Page and Roll on a store that may be damaged.
fn answers_agree(store: &[u16], state: u16) {
    let mut lists = Lists::new();
    let answer = judge(store, &mut lists.distances, &mut lists.table);
    let went = run(store, &mut lists.distances, &mut lists.run, state);
    let told = word(
        store,
        &mut lists.distances,
        &mut lists.table,
        &mut lists.word,
    );
    let shown = lists.page(store);
    let rolled = lists.roll(store);
    assert_eq!(rolled.err(), shown.err());
    match answer {
        Err(refusal) => {
            assert_eq!(refusal, Refusal::new(22, 0));
            assert_eq!(went, Err(refusal));
            assert_eq!(told, Err(refusal));
            assert_eq!(shown, Err(refusal));
        }
        Ok(Verdict::Passed { .. }) => assert!(told.is_err() && shown.is_ok()),
        Ok(Verdict::Refused { depth, .. }) => {
            assert!(shown.is_ok());
            match told {
                Ok((length, _)) => assert_eq!(length, usize::from(depth)),
                Err(refusal) => assert!([23, 36].contains(&refusal.number)),
            }
        }
    }
}
