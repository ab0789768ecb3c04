//! Which entries Check looks at, and which it tells (request (v) of document
//! 02), worked out by hand.

mod common;

use common::{bad, store_of, three, till, with_entries, LONGER, SCAN};
use second::store::{BOOK, STORE, TABLE};
use second::{check, check_program, gen, Refusal};

/// An entry of side 0 is absent, whatever its other bytes are, at each place.
#[test]
fn absent_entries() {
    assert_eq!(bad(&three(), &[]), None);
    for bytes in [[0, 0, 0, 1], [0, 0, 1, 0], [0, 1, 0, 0], [0, 255, 255, 255]] {
        let everywhere = bytes.repeat(TABLE);
        assert_eq!(check(&store_of(&three()), &everywhere), Ok(()));
        let entries = [(0, 1, [1, 0, 1, 9]), (1, 2, bytes)];
        assert_eq!(bad(&three(), &entries), Some((0, 1)));
    }
}

/// An entry that is bad itself is there: what rests on it is good.
#[test]
fn a_bad_entry_counts() {
    for next in [[3, 0, 2, 0], [255, 255, 255, 0], [1, 9, 2, 0], [2, 0, 0, 0]] {
        let entries = [(0, 1, [1, 0, 1, 1]), (1, 2, next)];
        assert_eq!(bad(&three(), &entries), Some((1, 2)), "{next:?}");
    }
}

#[test]
fn the_first_bad_entry_is_told() {
    let wrong = [3, 0, 0, 0];
    let all: Vec<(usize, usize, [u8; 4])> = (0..TABLE)
        .map(|number| (number / 128, number % 128, wrong))
        .collect();
    for first in [0, 1, 127, 128, 129, 383, 384, 8_000, 16_383] {
        let expected = Some((first as u64 / 128, first as u64 % 128));
        assert_eq!(bad(&three(), &all[first..]), expected);
        assert_eq!(bad(&three(), &all[first..=first]), expected);
        let book = with_entries(&all[first..]);
        let line = format!("F,34,{first}\n");
        assert_eq!(check_program(&three(), &book), line.as_bytes());
    }
    // By its number, not by what rests on what.
    let entries = [(0, 1, [1, 0, 1, 1]), (1, 2, [3, 0, 2, 1])];
    assert_eq!(bad(&three(), &entries), Some((0, 1)));
}

/// One rule for all entries. A number that is no state has no step: as the
/// opener it makes the entry bad, and on the other side it has no answer.
#[test]
fn numbers_that_are_no_states() {
    for number in [3, 4, 64, 127] {
        for depth in [0, 1, 255] {
            let sound = [
                (0, number, [1, 0, 1, depth]),
                (1, number, [1, 0, 2, depth]),
                (number, 0, [2, 0, 1, depth]),
                (number, 1, [2, 0, 2, depth]),
            ];
            assert_eq!(bad(&three(), &sound), None);
            for (p, q, bytes) in sound {
                for (place, byte) in [(0, 3 - bytes[0]), (0, 3), (1, 1), (2, 0), (2, 3)] {
                    let mut entry = (p, q, bytes);
                    entry.2[place] = byte;
                    let expected = Some((p as u64, q as u64));
                    assert_eq!(bad(&three(), &[entry]), expected, "{entry:?}");
                }
            }
            // 2 has no step. Nor have two numbers that are no states.
            for (p, q) in [(2, number), (number, 2), (number, number), (number, 127)] {
                for bytes in [[1, 0, 1, depth], [2, 0, 1, depth], [1, 0, 0, depth]] {
                    let expected = Some((p as u64, q as u64));
                    assert_eq!(bad(&three(), &[(p, q, bytes)]), expected);
                }
            }
        }
    }
    // With 128 states each number is a state, and 127 answers.
    let text = gen::chain(128).to_text();
    assert_eq!(bad(&text, &[(0, 127, [1, 0, 1, 0])]), None);
    assert_eq!(bad(&text, &[(0, 126, [1, 0, 1, 0])]), Some((0, 126)));
    assert_eq!(
        bad(&gen::chain(126).to_text(), &[(0, 126, [1, 0, 1, 0])]),
        None
    );
}

/// A state and itself: each opening can be answered by itself, again and again.
#[test]
fn a_state_and_itself() {
    let entries = [
        (0, 0, [1, 0, 1, 3]),
        (1, 1, [1, 0, 2, 2]),
        (2, 2, [1, 0, 2, 1]),
    ];
    assert_eq!(bad(&three(), &entries), Some((2, 2)));
    let text = till(1, &[(0, SCAN, 0)]);
    for side in [1, 2] {
        for depth in [0, 1, 255] {
            assert_eq!(bad(&text, &[(0, 0, [side, 0, 0, depth])]), Some((0, 0)));
        }
    }
    // Two states that go round have no entry either.
    let text = till(2, &[(0, SCAN, 1), (1, SCAN, 0)]);
    let entries = [(0, 1, [1, 0, 1, 2]), (1, 0, [1, 0, 0, 1])];
    assert_eq!(bad(&text, &entries), Some((1, 0)));
}

/// 21 before 22, and 22 before 34. Nothing is read past the least length.
#[test]
fn refusals_in_their_order() {
    let store = store_of(&three());
    let no_store = vec![0; STORE];
    let refused = with_entries(&[(0, 1, [3, 0, 0, 0])]);
    let short = &refused[..BOOK - 1];
    let answer = |number, place| Err(Refusal::new(number, place));
    assert_eq!(check(&store, &refused), answer(34, 1));
    assert_eq!(check(&no_store, &refused), answer(22, 0));
    assert_eq!(check(&no_store, short), answer(21, 2));
    assert_eq!(check(&store, short), answer(21, 2));
    assert_eq!(check(&store, &[]), answer(21, 2));
    assert_eq!(check(&store[..STORE - 1], short), answer(21, 1));
    assert_eq!(check(&store[..STORE - 1], &refused), answer(21, 1));
    let longer = [&store[..], &[7; LONGER]].concat();
    let tail = [3; 8];
    assert_eq!(
        check(&longer, &[&with_entries(&[])[..], &tail].concat()),
        Ok(())
    );
    assert_eq!(
        check(&longer, &[&refused[..], &tail].concat()),
        answer(34, 1)
    );
}
