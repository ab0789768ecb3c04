//! What Check says of the plays in a book (request (v) of document 02), worked
//! out by hand.

mod common;

use common::{bad, three, till, two_scanners};
use common::{CLOSE, EXAMPLE, PRINT, SCAN, SHOW};
use second::book_program;

/// The page tells step 5, 3 print 4, and depth 2. 3 scan 5 is answered by 4
/// scan 6, and then 5 show 6 by nothing.
#[test]
fn a_leak_behind_branching_steps() {
    let text = include_bytes!("../../../examples/leak_later_branching.txt");
    let book = book_program(text);
    assert_eq!(book[4 * (128 * 3 + 4)..][..4], [1, 0, 5, 2]);
    assert_eq!(book[4 * (128 * 5 + 6)..][..4], [1, 3, 6, 1]);
    // These two entries are a sound book, if the second is the lower.
    let (ends, then) = ((3, 4, [1, 0, 5, 2]), (5, 6, [1, 3, 6, 1]));
    assert_eq!(bad(text, &[ends, then]), None);
    assert_eq!(bad(text, &[then]), None);
    assert_eq!(bad(text, &[ends]), Some((3, 4)));
    assert_eq!(bad(text, &[ends, (5, 6, [1, 3, 6, 2])]), Some((3, 4)));
    assert_eq!(bad(text, &[(3, 4, [1, 0, 5, 1]), then]), Some((3, 4)));
}

/// The opening of 1 and 2 has no answer: any depth will do.
#[test]
fn without_an_answer_any_depth_will_do() {
    for depth in 0..=255 {
        assert_eq!(bad(&three(), &[(1, 2, [1, 0, 2, depth])]), None);
        assert_eq!(bad(&three(), &[(2, 1, [2, 0, 2, depth])]), None);
        assert_eq!(bad(&three(), &[(0, 2, [1, 0, 1, depth])]), None);
    }
}

/// 0 scan 1 is answered by 1 scan 2, to 1 and 2.
#[test]
fn depths_fall() {
    for (depth, next, good) in [
        (1, 0, true),
        (0, 0, false),
        (0, 1, false),
        (1, 1, false),
        (2, 1, true),
        (5, 1, true),
        (4, 5, false),
        (5, 5, false),
        (6, 5, true),
        (127, 128, false),
        (128, 127, true),
        (255, 254, true),
        (255, 255, false),
        (0, 255, false),
        (255, 0, true),
    ] {
        let entries = [(0, 1, [1, 0, 1, depth]), (1, 2, [1, 0, 2, next])];
        let expected = (!good).then_some((0, 1));
        assert_eq!(bad(&three(), &entries), expected, "{depth} {next}");
        let turned = [(1, 0, [2, 0, 1, depth]), (2, 1, [2, 0, 2, next])];
        let expected = (!good).then_some((1, 0));
        assert_eq!(bad(&three(), &turned), expected, "{depth} {next}");
    }
}

/// The opening's target stays on the opener's side: 1 scan 2 of the second side
/// is answered to 1 and 2, of the first side to 2 and 1.
#[test]
fn targets_stay_on_their_side() {
    let (then, turned) = ((1, 2, [1, 0, 2, 0]), (2, 1, [2, 0, 2, 0]));
    assert_eq!(bad(&three(), &[(0, 1, [2, 0, 2, 1]), then]), None);
    assert_eq!(bad(&three(), &[(0, 1, [2, 0, 2, 1]), turned]), Some((0, 1)));
    assert_eq!(bad(&three(), &[(0, 1, [1, 0, 1, 1]), then]), None);
    assert_eq!(bad(&three(), &[(0, 1, [1, 0, 1, 1]), turned]), Some((0, 1)));
    assert_eq!(bad(&three(), &[(1, 0, [1, 0, 2, 1]), turned]), None);
    assert_eq!(bad(&three(), &[(1, 0, [1, 0, 2, 1]), then]), Some((1, 0)));
    assert_eq!(bad(&three(), &[(1, 0, [2, 0, 1, 1]), turned]), None);
    assert_eq!(bad(&three(), &[(1, 0, [2, 0, 1, 1]), then]), Some((1, 0)));
}

/// 0 scan 1 has three answers, to 3, to 4 and to 5; 1 can go on scanning.
#[test]
fn every_answer_is_looked_at() {
    let steps = [
        (0, SCAN, 1),
        (1, SCAN, 1),
        (2, SCAN, 3),
        (2, SCAN, 4),
        (2, SCAN, 5),
    ];
    let text = till(6, &steps);
    let all = [
        (0, 2, [1, 0, 1, 8]),
        (1, 3, [1, 0, 1, 7]),
        (1, 4, [1, 0, 1, 0]),
        (1, 5, [1, 0, 1, 3]),
    ];
    assert_eq!(bad(&text, &all), None);
    for answer in 1..=3 {
        let mut entries = all.to_vec();
        entries.remove(answer);
        assert_eq!(bad(&text, &entries), Some((0, 2)));
        // Absent, whatever its other bytes are.
        let mut entries = all;
        entries[answer].2[0] = 0;
        assert_eq!(bad(&text, &entries), Some((0, 2)));
        let mut entries = all;
        entries[answer].2[3] = 8;
        assert_eq!(bad(&text, &entries), Some((0, 2)));
    }
    // The answers of the other action are none: show is answered by nothing.
    let steps = [(0, SHOW, 1), (1, SCAN, 1), (2, SCAN, 2)];
    let text = two_scanners(3, &steps);
    assert_eq!(bad(&text, &[(0, 2, [1, 1, 1, 0])]), None);
}

/// High and release steps are never played: 1 close 0 and 0 print 2 are no
/// openings, and no answers.
#[test]
fn only_low_steps_are_played() {
    assert_eq!(bad(&three(), &[(0, 2, [1, 1, 2, 9])]), Some((0, 2)));
    assert_eq!(bad(&three(), &[(1, 2, [1, 2, 0, 9])]), Some((1, 2)));
    assert_eq!(bad(&three(), &[(2, 1, [2, 2, 0, 9])]), Some((2, 1)));
    let text = till(2, &[(0, SCAN, 0), (1, PRINT, 0), (1, CLOSE, 1)]);
    assert_eq!(bad(&text, &[(0, 1, [1, 0, 0, 0])]), None);
}

#[test]
fn openings_that_are_not_in_the_model() {
    let then = (1, 2, [1, 0, 2, 0]);
    let good = [1, 0, 1, 1];
    assert_eq!(bad(&three(), &[(0, 1, good), then]), None);
    for (place, bytes) in [
        // Each side but the two. The second side has no scan to 1.
        (0, &[2, 3, 4, 64, 127, 128, 129, 254, 255][..]),
        // print, close, and numbers past the last action.
        (1, &[1, 2, 3, 4, 63, 64, 127, 128, 255]),
        (2, &[0, 2, 3, 127, 128, 129, 255]),
    ] {
        for &byte in bytes {
            let mut entry = good;
            entry[place] = byte;
            let entries = [(0, 1, entry), then];
            assert_eq!(bad(&three(), &entries), Some((0, 1)), "{entry:?}");
        }
    }
    // 2 has no step at all, and a state does not open for another.
    assert_eq!(bad(&three(), &[(2, 1, [1, 0, 2, 0])]), Some((2, 1)));
    assert_eq!(bad(&three(), &[(0, 2, [1, 0, 2, 0])]), Some((0, 2)));
}

/// Books that are not ours: other openings, other depths, fewer entries.
#[test]
fn other_sound_books() {
    // 2 and 0 by the second side: 0 scan 1, answered by 2 scan 3.
    let entries = [(2, 0, [2, 0, 1, 40]), (3, 1, [2, 0, 1, 30])];
    assert_eq!(bad(EXAMPLE, &entries), None);
    // Both are told apart by show in one round, but by scan and show in two.
    let steps = [(0, SCAN, 2), (0, SHOW, 2), (1, SCAN, 0)];
    let text = two_scanners(3, &steps);
    assert_eq!(bad(&text, &[(0, 1, [1, 1, 2, 1])]), None);
    let entries = [(0, 1, [1, 0, 2, 2]), (2, 0, [2, 0, 2, 1])];
    assert_eq!(bad(&text, &entries), None);
    assert_eq!(book_program(&text)[4..8], [1, 1, 2, 1]);
}
