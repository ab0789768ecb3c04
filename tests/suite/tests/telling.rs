//! What is told of a text in one call, against the second checker's Read, Judge and Word, and against the archive's.
use second::gen::{self, Rng};
use second::store::{DISTANCES, STORE, TABLE};
use second::{End, Refusal, Verdict};
use suite::archive::{Judged, Told};
use suite::bench::{store_of, worked_distances, worked_table, WORKED};
use suite::lists::{every_length, Lengths, List, Lists, LEAST};
use suite::operations::{JUDGE, TELL, WORD};
use suite::stores::Store;
use suite::texts::models_to_damage;

const SEED: u64 = 7_800;

/// What is told of a text, and the lists afterwards.
fn tell(text: &[u8], before: &Lists) -> (Told, Lists) {
    let (told, after) = TELL.same(text, before);
    (told.expect("an answer for each of the three"), after)
}

/// What is told of a text that is read.
fn judged(text: &[u8], before: &Lists) -> (Judged, Lists) {
    let (told, after) = tell(text, before);
    assert_eq!(told.read, Ok(()));
    (told.judged.expect("the text is read"), after)
}

#[test]
fn the_worked_example_in_full() {
    let mut rng = gen::seeded("telling::the_worked_example_in_full", SEED);
    let before = Lists::enough(&mut rng);
    let ((verdict, word), after) = judged(WORKED, &before);
    assert_eq!(verdict, Ok(Verdict::Refused { step: 1, depth: 2 }));
    assert_eq!(word, Ok((2, End::Source)));
    let mut expected = before;
    expected.store[..STORE].copy_from_slice(&store_of(WORKED));
    expected.distances[..DISTANCES].copy_from_slice(&worked_distances());
    expected.table[..TABLE].copy_from_slice(&worked_table());
    expected.word[..2].copy_from_slice(&[0, 0]);
    assert!(after == expected, "{}", after.difference(&expected));
}

/// Judge and Word by themselves tell the same of the model's store.
#[test]
fn random_models() {
    let mut rng = gen::seeded("telling::random_models", SEED + 1);
    let (mut shown, mut passed, mut branching) = (0, 0, 0);
    let mut models: Vec<_> = gen::limit_models(&mut rng)
        .into_iter()
        .map(|(_, model)| model)
        .collect();
    models.extend((0..1_500).map(|_| gen::any_model(&mut rng)));
    models.extend(
        (1..=127)
            .step_by(3)
            .map(|depth| gen::deep_model(&mut rng, depth)),
    );
    for model in models {
        let _case = gen::model_case(&model);
        let before = Lists::enough(&mut rng);
        let ((verdict, word), after) = judged(&model.to_text(), &before);
        let store = Store::of(&model);
        let mut lists = before;
        lists.store[..STORE].copy_from_slice(&store);
        assert_eq!(JUDGE.told(&store, &mut lists), verdict);
        assert_eq!(WORD.told(&store, &mut lists), word);
        assert!(after == lists, "{}", after.difference(&lists));
        match word.map_err(|refusal| refusal.number) {
            Ok(_) => shown += 1,
            Err(24) => passed += 1,
            Err(number) => {
                assert_eq!(number, 23);
                branching += 1;
            }
        }
    }
    assert!(
        shown > 200 && passed > 200 && branching > 200,
        "{shown} {passed} {branching}"
    );
}

/// A text that is not read changes no list, and nothing is told of it but the refusal.
fn not_read(text: &[u8], before: &Lists) -> Refusal {
    let (told, after) = tell(text, before);
    assert_eq!(told.judged, None);
    assert!(after == *before, "{}", after.difference(before));
    told.read.expect_err("not read")
}

#[test]
fn every_fault_of_a_text() {
    let mut rng = gen::seeded("telling::every_fault_of_a_text", SEED + 2);
    for model in models_to_damage(&mut rng, 10) {
        let before = Lists::enough(&mut rng);
        for fault in gen::faults(&model) {
            let _case = gen::text_case(&fault.text);
            assert_eq!(
                not_read(&fault.text, &before),
                fault.refusal,
                "{}",
                fault.what
            );
        }
    }
}

#[test]
fn damaged_texts() {
    let mut rng = gen::seeded("telling::damaged_texts", SEED + 3);
    let (mut read, mut refused) = (0, 0);
    for round in 0..3_000 {
        let text = gen::any_model(&mut rng).to_text();
        let text = match round % 5 {
            0 => gen::scrap_text(&mut rng),
            _ => gen::mutated_text(&mut rng, &text),
        };
        let (told, _) = tell(&text, &Lists::enough(&mut rng));
        read += usize::from(told.read.is_ok());
        refused += usize::from(told.read.is_err());
    }
    assert!(read > 75 && refused > 1_500, "{read} {refused}");
}

fn is_short(lengths: &Lengths, list: List) -> bool {
    lengths[list as usize] < LEAST[list as usize]
}

/// 21 with its place among the lists of Judge, or of Word, which has one more.
fn short_for(lengths: &Lengths, lists: &[List]) -> Option<Refusal> {
    let index = lists.iter().position(|&list| is_short(lengths, list))?;
    Some(Refusal::new(21, index as u64 + 2))
}

/// A good text with lists of these lengths.
fn with_lengths(text: &[u8], before: &Lists, lengths: &Lengths) {
    if is_short(lengths, List::store) {
        assert_eq!(not_read(text, before), Refusal::new(21, 2));
        return;
    }
    let ((verdict, word), after) = judged(text, before);
    assert_eq!(verdict.err(), short_for(lengths, JUDGE.lent));
    match short_for(lengths, WORD.lent) {
        Some(short) => assert_eq!(word, Err(short)),
        None => assert_ne!(word.map_err(|refusal| refusal.number), Err(21)),
    }
    let mut expected = before.clone();
    expected.store = after.store.clone();
    if verdict.is_err() {
        assert!(after == expected, "{}", after.difference(&expected));
    } else if word.is_err() {
        expected.distances = after.distances.clone();
        expected.table = after.table.clone();
        assert!(after == expected, "{}", after.difference(&expected));
    }
}

#[test]
fn lists_of_every_length() {
    let mut rng = gen::seeded("telling::lists_of_every_length", SEED + 4);
    let good = good_texts(&mut rng);
    let bad = [b"M,1,1,0,0\nA,H,a\nE".to_vec(), vec![b'0'; 16_385]];
    let lists = Lists::anything(&mut rng, LEAST);
    for lengths in every_length(TELL.lent) {
        let before = lists.of_lengths(lengths);
        for text in &good {
            let _case = gen::text_case(text);
            with_lengths(text, &before, &lengths);
        }
        for text in &bad {
            let _case = gen::text_case(text);
            let short = not_read(text, &before).number == 21;
            assert_eq!(short, is_short(&lengths, List::store));
        }
    }
}

/// A refused model, one that branches and one that passes.
fn good_texts(rng: &mut Rng) -> [Vec<u8>; 3] {
    [
        WORKED.to_vec(),
        gen::branching_deep_model(rng, 9).to_text(),
        gen::passing_model(rng, 9, true).to_text(),
    ]
}
