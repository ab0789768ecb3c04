//! Reading and writing against each other, and which stores are good.

mod common;

use std::collections::BTreeSet;

use common::Lists;
use second::gen;
use second::store::{good, STORE, WRITTEN};
use second::{read, write, Model, Refusal};

/// The rules of a good store, one after the other.
fn follows_the_rules(store: &[u16]) -> bool {
    follows_the_other_rules(store) && some_action_is_high(store)
}

/// All rules but that of the high action.
fn follows_the_other_rules(store: &[u16]) -> bool {
    head_follows(store) && actions_follow(store) && steps_follow(store) && starts_follow(store)
}

fn head_follows(store: &[u16]) -> bool {
    let (states, actions, steps, start) = (store[0], store[1], store[2], store[3]);
    let in_range = (1..=128).contains(&states) && (1..=64).contains(&actions) && steps <= 1_024;
    in_range && start < states
}

fn unused(entry: &[u16]) -> bool {
    entry.iter().all(|&number| number == 0)
}

fn actions_follow(store: &[u16]) -> bool {
    let mut names = BTreeSet::new();
    (0..64).all(|slot| {
        let entry = &store[4 + 14 * slot..18 + 14 * slot];
        if slot >= usize::from(store[1]) {
            return unused(entry);
        }
        let length = usize::from(entry[1]);
        if entry[0] > 3 || length == 0 || length > 12 {
            return false;
        }
        let (name, rest) = entry[2..].split_at(length);
        name.iter().all(|n| matches!(n, 48..=57 | 97..=122)) && unused(rest) && names.insert(name)
    })
}

/// The level of some action is 2 (request (vi) of document 02).
fn some_action_is_high(store: &[u16]) -> bool {
    (0..usize::from(store[1])).any(|action| store[4 + 14 * action] == 2)
}

fn steps_follow(store: &[u16]) -> bool {
    let (states, actions, steps) = (store[0], store[1], usize::from(store[2]));
    let mut before = None;
    (0..1_024).all(|slot| {
        let entry = &store[900 + 3 * slot..903 + 3 * slot];
        if slot >= steps {
            return unused(entry);
        }
        let in_range = entry[0] < states && entry[1] < actions && entry[2] < states;
        let rises = before.is_none_or(|before| before < entry);
        before = Some(entry);
        in_range && rises
    })
}

/// The section of extra starts (request (iii) of document 02): a count, then
/// the starts, each above the one before it, the first above place 3.
fn starts_follow(store: &[u16]) -> bool {
    let (count, section) = (usize::from(store[3_972]), &store[3_973..4_100]);
    if count > 127 {
        return false;
    }
    let (extra, rest) = section.split_at(count);
    let mut before = store[3];
    let rise = extra.iter().all(|&start| {
        let rises = before < start && start < store[0];
        before = start;
        rises
    });
    rise && unused(rest)
}

/// Writes a model's store, reads that text, and compares both ways.
fn round_trip(model: &Model) -> usize {
    let _case = gen::model_case(model);
    let store = model.to_store();
    assert!(follows_the_rules(&store));
    assert_eq!(good(&store).as_ref(), Ok(model));

    let mut lists = Lists::new();
    let length = write(&store, &mut lists.written).unwrap();
    let text = lists.written[..length].to_vec();
    assert_eq!(text, model.to_text());
    assert!(lists.written[length..].iter().all(|&byte| byte == b'!'));

    let mut back = vec![8; STORE + 1];
    assert_eq!(read(&text, &mut back), Ok(()));
    assert_eq!(back[..STORE], store);
    assert_eq!(back[STORE], 8);
    length
}

#[test]
fn written_texts_read_back() {
    let mut rng = gen::seeded("second::stores::written_texts_read_back", 101);
    for _ in 0..4_000 {
        round_trip(&gen::any_model(&mut rng));
    }
}

#[test]
fn limits_read_back() {
    let mut rng = gen::seeded("second::stores::limits_read_back", 102);
    let mut longest = 0;
    for (what, model) in gen::limit_models(&mut rng) {
        let length = round_trip(&model);
        let one_start = what.starts_with("longest text");
        assert_eq!(one_start, length == LONGEST_OF_ONE_START, "{what}");
        longest = longest.max(length);
    }
    assert_eq!(longest, LONGEST);
    assert_eq!(WRITTEN, LONGEST_OF_ONE_START + 127 * "I,127\n".len());
}

/// The longest line of each kind, so often as there may be: `M,128,64,1024,127`,
/// 64 actions with names of 12 bytes, 1,024 steps with numbers of 3, 2 and 3
/// digits, and `E`.
const LONGEST_OF_ONE_START: usize = 18 + 64 * 17 + 1_024 * 13 + 2;

/// With start 0 in line 1 that line is two bytes shorter, and the `I` lines go
/// from 1 to 127. A start more is always longer, so no text is longer than this.
const LONGEST: usize = LONGEST_OF_ONE_START - 2 + 9 * 4 + 90 * 5 + 28 * 6;

#[test]
fn bad_stores_break_the_rules() {
    let mut rng = gen::seeded("second::stores::bad_stores_break_the_rules", 103);
    for _ in 0..30 {
        let model = gen::small_model(&mut rng, false);
        for (what, store) in gen::bad_stores(&model) {
            let _case = gen::case(|| gen::shown_store(&model, &store));
            assert!(!follows_the_rules(&store), "{what}");
            assert_eq!(good(&store), Err(Refusal::new(22, 0)), "{what}");
        }
    }
}

#[test]
fn good_stores_are_those_that_follow_the_rules() {
    let mut rng = gen::seeded(
        "second::stores::good_stores_are_those_that_follow_the_rules",
        104,
    );
    let (mut count, mut no_high) = ([0, 0], 0);
    for round in 0..12_000 {
        let store = if round % 10 == 0 {
            gen::scrap_store(&mut rng)
        } else {
            let model = gen::small_model(&mut rng, false);
            gen::mutated_store(&mut rng, &model)
        };
        let _case = gen::case(|| gen::shown_numbers(&store));
        let is_good = good(&store).is_ok();
        assert_eq!(is_good, follows_the_rules(&store));
        count[usize::from(is_good)] += 1;
        no_high += usize::from(!is_good && follows_the_other_rules(&store));
    }
    assert!(count[0] > 1_000 && count[1] > 500, "{count:?}");
    assert!(no_high > 300, "{no_high}");
}

/// Stores with no high action and nothing else wrong: not good, and good again
/// as soon as any one of the levels is high.
#[test]
fn stores_without_a_high_action() {
    let mut rng = gen::seeded("second::stores::stores_without_a_high_action", 106);
    let mut stores = Vec::new();
    for _ in 0..300 {
        let model = gen::any_model(&mut rng);
        stores.push((gen::no_high_store(&mut rng, &model), model));
    }
    for (_, model) in gen::limit_models(&mut rng) {
        stores.push((gen::no_high_store(&mut rng, &model), model));
    }
    for (store, model) in stores {
        let _case = gen::case(|| gen::shown_store(&model, &store));
        assert!(follows_the_other_rules(&store) && !some_action_is_high(&store));
        assert_eq!(good(&store), Err(Refusal::new(22, 0)));
        for action in [0, rng.below(model.actions.len()), model.actions.len() - 1] {
            let mut high = store.clone();
            high[4 + 14 * action] = 2;
            assert!(follows_the_rules(&high));
            assert!(good(&high).is_ok());
        }
    }
}

/// Levels of silent actions are good, and greater numbers are none (request (vii)
/// of document 02). A silent action is not high.
#[test]
fn stores_with_silent_actions() {
    let mut rng = gen::seeded("second::stores::stores_with_silent_actions", 107);
    let (mut count, mut silent, mut no_high) = ([0, 0], 0, 0);
    for round in 0..6_000 {
        let model = match round % 2 {
            0 => gen::tick_model(&mut rng),
            _ => gen::small_model(&mut rng, false),
        };
        let store = match round % 4 {
            0 | 1 => gen::mutated_tick_store(&mut rng, &model),
            2 => gen::mutated_store(&mut rng, &model),
            _ => gen::no_high_tick_store(&mut rng, &model),
        };
        let _case = gen::case(|| gen::shown_store(&model, &store));
        let is_good = good(&store).is_ok();
        assert_eq!(is_good, follows_the_rules(&store));
        assert!(round % 4 != 3 || !is_good);
        count[usize::from(is_good)] += 1;
        silent += usize::from(good(&store).is_ok_and(|model| model.has_silent()));
        no_high += usize::from(!is_good && follows_the_other_rules(&store));
    }
    for _ in 0..20 {
        let model = gen::tick_model(&mut rng);
        round_trip(&model);
        for (what, store) in gen::bad_stores(&model) {
            let _case = gen::case(|| gen::shown_store(&model, &store));
            assert!(!follows_the_rules(&store), "{what}");
            assert_eq!(good(&store), Err(Refusal::new(22, 0)), "{what}");
        }
    }
    for (_, model) in gen::tick_limit_models(&mut rng) {
        round_trip(&model);
    }
    assert!(count[0] > 1_000 && count[1] > 1_000, "{count:?}");
    assert!(silent > 1_000 && no_high > 1_000, "{silent} {no_high}");
}

#[test]
fn a_store_is_judged_by_its_first_numbers_alone() {
    let mut store = gen::chain(3).to_store();
    store.extend([1, 65_535]);
    assert!(good(&store).is_ok());
    for length in [0, 1, 3, 4, 17, 899, 900, 3_971, 3_972, 3_973, STORE - 1] {
        assert!(good(&store[..length]).is_err());
    }
}

#[test]
fn read_texts_write_back() {
    let mut rng = gen::seeded("second::stores::read_texts_write_back", 105);
    let mut count = 0;
    for _ in 0..6_000 {
        let model = gen::small_model(&mut rng, false);
        let text = gen::mutated_text(&mut rng, &model.to_text());
        let _case = gen::text_case(&text);
        let mut store = vec![8; STORE];
        if read(&text, &mut store).is_ok() {
            let mut lists = Lists::new();
            let length = write(&store, &mut lists.written).unwrap();
            assert_eq!(lists.written[..length], text);
            assert!(follows_the_rules(&store));
            count += 1;
        }
    }
    assert!(count > 300, "{count}");
}
