//! Our own books of plays (request (v) of document 02), worked out by hand.

mod common;

use common::{model_of, store_of, till, two_scanners, with_entries};
use common::{Entries, Lists, CLOSE, EXAMPLE, PRINT, SCAN, SHOW};
use second::store::BOOK;
use second::{book, book_program, check, meaning, rank};

/// Checks that a text's own book has just these entries.
fn own(text: &[u8], entries: Entries) {
    let store = store_of(text);
    let old = Lists::new();
    let mut lists = old.clone();
    let answer = book(&store, &mut lists.table, &mut lists.book);
    assert_eq!(answer, Ok(()));
    let expected = with_entries(entries);
    for (number, bytes) in expected.chunks(4).enumerate() {
        let (p, q) = (number / 128, number % 128);
        assert_eq!(lists.book[4 * number..][..4], *bytes, "{p} and {q}");
    }
    assert_eq!(lists.book[BOOK..], old.book[BOOK..]);
    let mut ranked = old.clone();
    rank(&store, &mut ranked.table).unwrap();
    ranked.book.clone_from(&lists.book);
    assert!(lists == ranked);
    assert_eq!(check(&store, &lists.book), Ok(()));
    assert_eq!(book_program(text), expected);
    assert_eq!(meaning::book_holds(&model_of(text), &expected), Ok(()));
}

/// 0 scan 1, 1 scan 1, 2 scan 3. 3 has no step: whoever scans against it gets
/// no answer, in round 1. 0 or 1 against 2 come to 1 against 3 in round 2. The
/// states 0 and 1 can scan forever.
const OWN_EXAMPLE: Entries = &[
    (0, 2, [1, 0, 1, 2]),
    (0, 3, [1, 0, 1, 1]),
    (1, 2, [1, 0, 1, 2]),
    (1, 3, [1, 0, 1, 1]),
    (2, 0, [1, 0, 3, 2]),
    (2, 1, [1, 0, 3, 2]),
    (2, 3, [1, 0, 3, 1]),
    (3, 0, [2, 0, 1, 1]),
    (3, 1, [2, 0, 1, 1]),
    (3, 2, [2, 0, 3, 1]),
];

#[test]
fn example() {
    own(EXAMPLE, OWN_EXAMPLE);
    own(include_bytes!("../../../examples/worked.txt"), OWN_EXAMPLE);
}

/// 0 scan 2, 0 scan 3, 1 scan 2, 2 scan 3. 3 has no step.
///
/// - 0 and 1: 0 scan 2 is answered to 2 and 2, which nothing tells apart. 0
///   scan 3 is answered to 3 and 2. 1 has just scan 2.
/// - 2 and 0: 2 scan 3 has two answers, to 3 and 2 and to 3 and 3. The first
///   alone would do. So the second side opens: 0 scan 2, answered to 3 and 2.
#[test]
fn branching() {
    let text = include_bytes!("../../../examples/branching.txt");
    let steps = [
        (0, SCAN, 2),
        (0, SCAN, 3),
        (0, PRINT, 1),
        (1, SCAN, 2),
        (2, SCAN, 3),
    ];
    assert_eq!(text[..], till(4, &steps));
    own(
        text,
        &[
            (0, 1, [1, 0, 3, 2]),
            (0, 2, [1, 0, 2, 2]),
            (0, 3, [1, 0, 2, 1]),
            (1, 0, [2, 0, 3, 2]),
            (1, 2, [1, 0, 2, 2]),
            (1, 3, [1, 0, 2, 1]),
            (2, 0, [2, 0, 2, 2]),
            (2, 1, [1, 0, 3, 2]),
            (2, 3, [1, 0, 3, 1]),
            (3, 0, [2, 0, 2, 1]),
            (3, 1, [2, 0, 2, 1]),
            (3, 2, [2, 0, 3, 1]),
        ],
    );
}

/// No steps, no low steps, or just one state: no entry.
#[test]
fn books_without_an_entry() {
    own(&till(1, &[]), &[]);
    own(&till(128, &[]), &[]);
    own(&till(1, &[(0, SCAN, 0), (0, PRINT, 0)]), &[]);
    own(
        &till(3, &[(0, PRINT, 1), (0, CLOSE, 2), (1, PRINT, 0)]),
        &[],
    );
    own(&till(2, &[(0, SCAN, 1), (1, SCAN, 0)]), &[]);
}

/// The first side, also where the second has a lower action or target.
#[test]
fn the_first_side_is_preferred() {
    let text = two_scanners(3, &[(1, SHOW, 2), (2, SCAN, 0)]);
    own(
        &text,
        &[
            (0, 1, [2, 1, 2, 1]),
            (0, 2, [2, 0, 0, 1]),
            (1, 0, [1, 1, 2, 1]),
            (1, 2, [1, 1, 2, 1]),
            (2, 0, [1, 0, 0, 1]),
            (2, 1, [1, 0, 0, 1]),
        ],
    );
    // Either side of 0 and 1 may open with scan: the other answers to a pair
    // that 2 tells apart.
    let text = two_scanners(3, &[(0, SCAN, 2), (1, SCAN, 0), (2, SHOW, 0)]);
    own(
        &text,
        &[
            (0, 1, [1, 0, 2, 2]),
            (0, 2, [1, 0, 2, 1]),
            (1, 0, [1, 0, 0, 2]),
            (1, 2, [1, 0, 0, 1]),
            (2, 0, [1, 1, 0, 1]),
            (2, 1, [1, 1, 0, 1]),
        ],
    );
}

/// The lowest action and then the lowest target, of those that are answered in
/// few rounds: 2 and 3 are told apart by show at once. scan tells them apart
/// too, though later.
#[test]
fn the_lowest_action_and_target_of_the_shortest_plays() {
    let text = two_scanners(2, &[(0, SCAN, 0), (0, SCAN, 1), (0, SHOW, 0)]);
    own(&text, &[(0, 1, [1, 0, 0, 1]), (1, 0, [2, 0, 0, 1])]);
    let text = two_scanners(4, &[(0, SCAN, 1), (2, SCAN, 1), (2, SHOW, 0), (3, SCAN, 0)]);
    own(
        &text,
        &[
            (0, 1, [1, 0, 1, 1]),
            // 2 show 0 has no answer.
            (0, 2, [2, 1, 0, 1]),
            // 0 scan 1 is answered to 1 and 0, of rank 1.
            (0, 3, [1, 0, 1, 2]),
            (1, 0, [2, 0, 1, 1]),
            (1, 2, [2, 0, 1, 1]),
            (1, 3, [2, 0, 0, 1]),
            (2, 0, [1, 1, 0, 1]),
            (2, 1, [1, 0, 1, 1]),
            // 2 scan 1 is answered to 1 and 0, of rank 1 too: not below 1.
            (2, 3, [1, 1, 0, 1]),
            (3, 0, [1, 0, 0, 2]),
            (3, 1, [1, 0, 0, 1]),
            (3, 2, [2, 1, 0, 1]),
        ],
    );
}
