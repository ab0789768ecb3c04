//! Read and Write against the second checker, and against each other.
use second::gen::{self, Rng};
use second::store::{STORE, WRITTEN};
use second::text::TEXT;
use second::{Model, Refusal};
use suite::bench::{store_of, waking_text, ACTIONS, TWO_STARTS, WORKED};
use suite::lists::{lengths, with_length, List, Lists, LEAST};
use suite::operations::{PRINT, READ, TELL, WRITE};
use suite::stores::Store;
use suite::texts::models_to_damage;

const SEED: u64 = 7_100;

#[test]
fn the_worked_example_reads_and_writes_back() {
    let mut rng = gen::seeded(
        "reading_and_writing::the_worked_example_reads_and_writes_back",
        SEED + 4,
    );
    let mut lists = Lists::enough(&mut rng);
    assert_eq!(READ.told(WORKED, &mut lists), Ok(()));
    let store = &lists.store;
    assert_eq!(store[..4], [4, 3, 4, 0]);
    assert_eq!(store[4..10], [0, 4, 115, 99, 97, 110]);
    assert_eq!(store[900..912], [0, 0, 1, 0, 1, 2, 1, 0, 1, 2, 0, 3]);
    assert_eq!(store[912..4_100], [0; 3_188]);
    writes_back(&mut rng, WORKED);
}

/// Write makes the text of its store.
fn writes_back(rng: &mut Rng, text: &[u8]) {
    let store = store_of(text);
    let mut lists = Lists::enough(rng);
    let old = lists.clone();
    let length = text.len();
    assert_eq!(WRITE.told(&store, &mut lists), Ok(length));
    assert_eq!(&lists.written[..length], text);
    assert_eq!(lists.written[length..], old.written[length..]);
}

/// Place 3,972 has the number of extra starts, 3,973 and on these starts; they are written between actions and steps.
#[test]
fn starts_read_and_write_back() {
    let mut rng = gen::seeded("reading_and_writing::starts_read_and_write_back", SEED + 6);
    let few = waking_text(128, ACTIONS, &[5, 6, 99, 127], &[(0, 0, 1)]);
    let every: Vec<u16> = (0..128).collect();
    let all = waking_text(128, ACTIONS, &every, &[]);
    for (text, starts) in [
        (TWO_STARTS, &[0, 4][..]),
        (&few, &[5, 6, 99, 127]),
        (&all, &every),
    ] {
        let mut lists = Lists::enough(&mut rng);
        assert_eq!(READ.told(text, &mut lists), Ok(()));
        let (first, extra) = starts.split_first().expect("a start");
        let mut section = vec![extra.len() as u16];
        section.extend(extra);
        section.resize(128, 0);
        assert_eq!(lists.store[3], *first);
        assert_eq!(lists.store[3_972..4_100], section);
        writes_back(&mut rng, text);
    }
}

/// A text of the most bytes: 64 names of 12 bytes, every state a start, 1,024 steps with numbers of 3, 2 and 3 digits.
fn longest_text() -> Vec<u8> {
    let levels = ["L", "H", "L", "D"].into_iter().cycle().zip(0..64);
    let actions = levels.map(|(level, i)| format!("A,{level},scanbarcod{i:02}\n"));
    let starts: Vec<u16> = (0..128).collect();
    let steps = (100..128).flat_map(|source| {
        let to = move |action| (100..128).map(move |target| (source, action, target));
        (10..64).flat_map(to)
    });
    let steps: Vec<(u16, u16, u16)> = steps.step_by(41).take(1_024).collect();
    waking_text(128, &actions.collect::<String>(), &starts, &steps)
}

/// Write takes an out of 15,182 bytes, and none shorter, though no text is as long.
#[test]
fn the_longest_text() {
    let mut rng = gen::seeded("reading_and_writing::the_longest_text", SEED + 7);
    let text = longest_text();
    assert_eq!(text.len(), 15_072);
    let store = store_of(&text);
    let lists = Lists::anything(&mut rng, LEAST);
    let with_out = |length| lists.of_lengths(with_length(LEAST, List::written, length));
    for length in [14_420, 15_072, 15_181] {
        let before = with_out(length);
        let (answer, after) = WRITE.same(&store, &before);
        assert_eq!(answer, Err(Refusal::new(21, 2)), "{length}");
        assert!(after == before, "{length}");
    }
    back(&text, &store, &with_out(15_182));
    let (length, after) = PRINT.same(&text, &lists);
    assert!(length.is_ok() && after.page.starts_with(b"V,"));
    let (told, _) = TELL.same(&text, &lists);
    assert_eq!(told.expect("an answer for each of the three").read, Ok(()));
}

#[test]
fn every_fault_of_a_text() {
    let mut rng = gen::seeded("reading_and_writing::every_fault_of_a_text", SEED);
    for model in models_to_damage(&mut rng, 60) {
        let before = Lists::enough(&mut rng);
        for fault in gen::faults(&model) {
            let _case = gen::text_case(&fault.text);
            let (answer, after) = READ.same(&fault.text, &before);
            assert_eq!(answer, Err(fault.refusal), "{}", fault.what);
            assert!(after == before, "{}", fault.what);
        }
    }
}

#[test]
fn damaged_texts() {
    let mut rng = gen::seeded("reading_and_writing::damaged_texts", SEED + 1);
    let (mut read, mut refused) = (0, 0);
    for round in 0..6_000 {
        let text = gen::any_model(&mut rng).to_text();
        let text = match round % 5 {
            0 => gen::scrap_text(&mut rng),
            _ => gen::mutated_text(&mut rng, &text),
        };
        let (answer, _) = READ.same(&text, &Lists::enough(&mut rng));
        read += usize::from(answer.is_ok());
        refused += usize::from(answer.is_err());
    }
    assert!(read > 150 && refused > 3_000, "{read} {refused}");
}

#[test]
fn sizes() {
    let mut rng = gen::seeded("reading_and_writing::sizes", SEED + 3);
    let before = Lists::enough(&mut rng);
    assert_eq!(READ.same(&b""[..], &before).0, Err(Refusal::new(32, 1)));
    for byte in 0..=255 {
        // Line ends end an empty line; with any other byte the first line has no end.
        let line = if byte == b'\n' { 2 } else { 32 };
        for (length, number, place) in [
            (1, line, 1),
            (TEXT, line, 1),
            (TEXT + 1, 1, 0),
            (20_000, 1, 0),
        ] {
            let (answer, after) = READ.same(&vec![byte; length], &before);
            assert_eq!(answer, Err(Refusal::new(number, place)), "{byte} {length}");
            assert!(after == before, "{byte} {length}");
        }
    }
}

/// Each byte has its kind at each place of the worked example, and of a text with an `I` line.
#[test]
fn every_byte_at_every_place() {
    let mut rng = gen::seeded("reading_and_writing::every_byte_at_every_place", SEED + 5);
    let before = Lists::enough(&mut rng);
    for good in [WORKED, TWO_STARTS] {
        let (mut read, mut refused) = (0, 0);
        for place in 0..good.len() {
            for byte in 0..=255 {
                let mut text = good.to_vec();
                text[place] = byte;
                let (answer, _) = READ.same(&text, &before);
                read += usize::from(answer.is_ok());
                refused += usize::from(answer.is_err());
            }
        }
        assert!(
            read > good.len() && refused > 200 * good.len(),
            "{read} {refused}"
        );
    }
}

/// What Write makes of a store that was read, with an out list of this length, and what Read makes of it again.
fn back(text: &[u8], store: &Store, before: &Lists) {
    let (answer, after) = WRITE.same(store, before);
    let length = text.len();
    assert_eq!(answer, Ok(length));
    assert_eq!(&after.written[..length], text);
    assert_eq!(after.written[length..], before.written[length..]);
    let (answer, again) = READ.same(&after.written[..length], before);
    assert_eq!(answer, Ok(()));
    assert_eq!(again.store[..STORE], store[..STORE]);
}

/// From a text to its store and back, with both lists of every length.
fn there_and_back(rng: &mut Rng, model: &Model) {
    let _case = gen::model_case(model);
    let text = model.to_text();
    let lists = Lists::anything(rng, LEAST);
    let short = Err(Refusal::new(21, 2));
    for length in lengths(STORE) {
        let before = lists.of_lengths(with_length(LEAST, List::store, length));
        let (answer, after) = READ.same(&text, &before);
        if length < STORE {
            assert_eq!(answer, short);
            assert!(after == before);
            continue;
        }
        assert_eq!(answer, Ok(()));
        assert_eq!(after.store[..STORE], model.to_store());
        assert_eq!(after.store[STORE..], before.store[STORE..]);
        let store = Store::made_of(model, after.store.to_vec());
        for out in lengths(WRITTEN) {
            let before = lists.of_lengths(with_length(LEAST, List::written, out));
            if out < WRITTEN {
                let (answer, after) = WRITE.same(&store, &before);
                assert_eq!(answer.map(|_| ()), short);
                assert!(after == before);
            } else {
                back(&text, &store, &before);
            }
        }
    }
}

#[test]
fn models_there_and_back_with_lists_of_every_length() {
    let mut rng = gen::seeded(
        "reading_and_writing::models_there_and_back_with_lists_of_every_length",
        SEED + 2,
    );
    for (_, model) in gen::limit_models(&mut rng) {
        there_and_back(&mut rng, &model);
    }
    for _ in 0..3_000 {
        let model = gen::any_model(&mut rng);
        there_and_back(&mut rng, &model);
    }
}
