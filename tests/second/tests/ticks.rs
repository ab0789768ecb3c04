//! Timer ticks nobody sees (request (vii) of document 02), sentence by sentence,
//! with answers found by hand.

mod common;

use common::{bad, CLOSE, EXAMPLE, PRINT, SCAN, TICK};
use common::{model_of, refusal, store_of, ticking_till, till, with_entries, Entries, Lists};
use second::store::{action_place, good, BOOK, STORE};
use second::{book, check, judge, meaning, program, rank, reach, roll_program, run, word, write};
use second::{Level, Model, Refusal, Verdict};

/// An example by its name: its text and its page.
macro_rules! example {
    ($name:literal) => {
        (
            &include_bytes!(concat!("../../../examples/", $name, ".txt"))[..],
            include_str!(concat!("../../../examples/", $name, ".page")),
        )
    };
}

/// The page of a good text. It is checked besides, and so is the roll.
fn page_of(text: &[u8]) -> String {
    let page = program(text);
    assert_eq!(meaning::page_holds(text, &page), Ok(()));
    let roll = roll_program(text);
    assert_eq!(meaning::roll_holds(text, &page, &roll), Ok(()));
    String::from_utf8(page).expect("ASCII")
}

/// Word's answer: its letters, or its refusal. After a refusal distances and table
/// are as Judge leaves them, and the word is unchanged.
fn word_of(text: &[u8]) -> Result<Vec<u16>, (u16, u64)> {
    let (store, mut lists) = (store_of(text), Lists::new());
    let answer = word(
        &store,
        &mut lists.distances,
        &mut lists.table,
        &mut lists.word,
    );
    let mut judged = Lists::new();
    judge(&store, &mut judged.distances, &mut judged.table).unwrap();
    match answer {
        Ok((length, _)) => Ok(lists.word[..length].to_vec()),
        Err(Refusal { number, place }) => {
            assert!(lists == judged);
            Err((number, place))
        }
    }
}

/// All ranks of a text that are not 0, each of a lower state and a higher one.
fn ranks(text: &[u8]) -> Vec<(usize, usize, u8)> {
    let mut lists = Lists::new();
    let greatest = rank(&store_of(text), &mut lists.table).unwrap();
    assert_eq!(
        meaning::ranks_hold(&model_of(text), &lists.table, greatest),
        Ok(())
    );
    let mut ranks = Vec::new();
    for p in 0..128 {
        for q in 0..128 {
            let rank = lists.table[128 * p + q];
            assert_eq!(rank, lists.table[128 * q + p]);
            if p < q && rank > 0 {
                ranks.push((p, q, rank));
            }
        }
    }
    ranks
}

/// Level T, store value 3, there and back.
#[test]
fn the_level_of_a_silent_action() {
    let (text, _) = example!("tick_depth_one");
    let steps = [(0, PRINT, 1), (1, TICK, 2), (2, SCAN, 2)];
    assert_eq!(text, ticking_till(3, &steps));
    let store = store_of(text);
    let levels = [0, 1, 2, 3].map(|action| store[action_place(action)]);
    assert_eq!(levels, [0, 2, 1, 3]);
    let mut lists = Lists::new();
    let length = write(&store, &mut lists.written).unwrap();
    assert_eq!(lists.written[..length], *text);
    assert_eq!(model_of(text).actions[3].level, Level::Silent);
    // Other letters are no levels.
    let text = String::from_utf8(text.to_vec()).expect("ASCII");
    for level in ["t", "TT", "TH", " T", "T ", "3", "S", "U", "X", ""] {
        let wrong = text.replace("A,T,", &format!("A,{level},"));
        assert_eq!(refusal(wrong.as_bytes()), (2, 5), "{level}");
    }
    // Numbers past 3 are no levels.
    for action in 0..4 {
        for number in [4, 5, 84, 255, 256, 259, 65_535] {
            let mut store = store.clone();
            store[action_place(action)] = number;
            assert_eq!(good(&store), Err(Refusal::new(22, 0)));
        }
    }
    for action in [0, 2] {
        let mut store = store.clone();
        store[action_place(action)] = 3;
        assert!(good(&store).is_ok());
    }
}

/// A silent action is not high.
#[test]
fn a_silent_action_is_not_high() {
    assert_eq!(refusal(b"M,1,1,0,0\nA,T,tick\nE\n"), (35, 2));
    assert_eq!(refusal(b"M,1,2,0,0\nA,L,scan\nA,T,print\nE\n"), (35, 3));
    assert_eq!(refusal(b"M,1,2,0,0\nA,T,scan\nA,T,print\nx"), (35, 3));
    assert_eq!(refusal(b"M,1,2,0,0\nA,T,scan\nA,T,scan\nE\n"), (4, 3));
    for text in [
        &b"M,1,2,0,0\nA,T,tick\nA,H,print\nE\n"[..],
        b"M,1,2,0,0\nA,H,print\nA,T,tick\nE\n",
        b"M,1,2,2,0\nA,H,print\nA,T,tick\nS,0,0,0\nS,0,1,0\nE\n",
    ] {
        assert_eq!(page_of(text), "V,pass,0\nC,0,0,0\nE\n");
    }
    let mut store = store_of(EXAMPLE);
    store[action_place(usize::from(PRINT))] = 3;
    assert_eq!(good(&store), Err(Refusal::new(22, 0)));
}

/// The till that prints goes on scanning when its timer has run out. 0, 2 and 3
/// can all scan, 1 can't.
#[test]
fn a_tick_before_a_scan() {
    let (text, page) = example!("ticks_before_scan");
    let steps = [
        (0, SCAN, 1),
        (0, PRINT, 2),
        (1, CLOSE, 0),
        (2, TICK, 3),
        (3, SCAN, 1),
    ];
    assert_eq!(text, ticking_till(4, &steps));
    assert_eq!(page, "V,pass,1\nC,0,0,0\nC,1,1,1\nC,2,1,0\nC,3,2,0\nE\n");
    assert_eq!(page_of(text), page);
    assert_eq!(ranks(text), [(0, 1, 1), (1, 2, 1), (1, 3, 1)]);
    assert_eq!(word_of(text), Err((36, 3)));
    // Were the tick a release, the print would show.
    let text = String::from_utf8(text.to_vec()).expect("ASCII");
    let released = text.replace("A,T,tick", "A,D,tick");
    assert_eq!(page_of(released.as_bytes())[..12], *"V,refuse,1,1");
    assert_eq!(word_of(released.as_bytes()), Ok(vec![SCAN]));
}

/// After the print the timer may switch the scanner off. 0 and 2 both scan, to 1.
/// 2 comes to 3 silently, and 0 can only stay, which scans. 1 and 3 can't.
#[test]
fn a_tick_betrays() {
    let (text, page) = example!("tick_betrays");
    let steps = [
        (0, SCAN, 1),
        (0, PRINT, 2),
        (1, CLOSE, 0),
        (2, SCAN, 1),
        (2, TICK, 3),
        (3, CLOSE, 0),
    ];
    assert_eq!(text, ticking_till(4, &steps));
    let expected = "V,refuse,1,2\nC,0,0,0\nC,1,1,1\nC,2,1,2\nC,3,2,1\nN\nE\n";
    assert_eq!(page, expected);
    assert_eq!(page_of(text), page);
    assert_eq!(
        ranks(text),
        [(0, 1, 1), (0, 2, 2), (0, 3, 1), (1, 2, 1), (2, 3, 1)]
    );
    assert_eq!(word_of(text), Err((36, 4)));
    // Without the tick nothing is seen of the print.
    let still: Vec<_> = steps.into_iter().filter(|step| step.1 != TICK).collect();
    assert_eq!(page_of(&ticking_till(4, &still))[..8], *"V,pass,1");
}

/// The opening is a whole move: 1 scans by way of its tick at once.
#[test]
fn a_tick_and_a_scan_are_one_move() {
    let (text, page) = example!("tick_depth_one");
    assert_eq!(page, "V,refuse,0,1\nC,0,0,0\nC,1,1,1\nC,2,2,1\nN\nE\n");
    assert_eq!(page_of(text), page);
    assert_eq!(ranks(text), [(0, 1, 1), (0, 2, 1)]);
    assert_eq!(word_of(text), Err((36, 1)));
}

/// Ticks of unreachable states change nothing that is shown of the others: 4 has
/// two, one to 0 and one to 3, which is as 2.
#[test]
fn ticks_that_are_not_reached() {
    let (text, page) = example!("ticks_unreached");
    let steps = [
        (0, SCAN, 1),
        (1, SCAN, 1),
        (1, PRINT, 2),
        (2, CLOSE, 0),
        (3, TICK, 2),
        (4, TICK, 0),
        (4, TICK, 3),
    ];
    assert_eq!(text, ticking_till(5, &steps));
    let expected = "V,refuse,2,1\nC,0,0,0\nC,1,1,0\nC,2,2,2\nC,3,-,2\nC,4,-,4\n\
        R,0\nW,scan\nB,source\nE\n";
    assert_eq!(page, expected);
    assert_eq!(page_of(text), page);
    assert_eq!(word_of(text), Ok(vec![SCAN]));
    assert_eq!(
        ranks(text),
        [
            (0, 2, 1),
            (0, 3, 1),
            (0, 4, 2),
            (1, 2, 1),
            (1, 3, 1),
            (1, 4, 2),
            (2, 4, 1),
            (3, 4, 1)
        ]
    );
    // A passed one gets 24, as before.
    let text = ticking_till(3, &[(0, PRINT, 0), (1, TICK, 2), (2, SCAN, 2)]);
    assert_eq!(page_of(&text), "V,pass,1\nC,0,0,0\nC,1,-,1\nC,2,-,1\nE\n");
    assert_eq!(word_of(&text), Err((24, 0)));
}

/// The roll of a refused model with a tick ends in `N` too. A name stands where
/// its action has a step, and not where a tick leads to one.
#[test]
fn rolls() {
    let (text, _) = example!("tick_depth_one");
    let lines = [
        "V,refuse,0,1",
        "  0   0   0",
        "  1   1   1",
        "  2   2   1 scan",
        "N",
        "E",
    ];
    let roll: String = lines.iter().map(|line| format!("{line:<42}\n")).collect();
    assert_eq!(roll_program(text), roll.as_bytes());
    let (text, _) = example!("tick_betrays");
    let lines = [
        "V,refuse,1,2",
        "  0   0   0 scan",
        "  1   1   1",
        "  2   1   2 scan",
        "  3   2   1",
        "N",
        "E",
    ];
    let roll: String = lines.iter().map(|line| format!("{line:<42}\n")).collect();
    assert_eq!(roll_program(text), roll.as_bytes());
}

/// Reachable is by steps of any level, and a tick counts in a distance. The high
/// step is reached by two ticks.
#[test]
fn ticks_lead_on() {
    let steps = [(0, TICK, 1), (1, TICK, 2), (2, PRINT, 3), (3, SCAN, 3)];
    let text = ticking_till(4, &steps);
    let store = store_of(&text);
    let mut lists = Lists::new();
    reach(&store, &mut lists.distances).unwrap();
    assert_eq!(lists.distances[..5], [0, 1, 2, 3, 65_535]);
    let answer = run(&store, &mut lists.distances, &mut lists.run, 3);
    assert_eq!((answer, &lists.run[..3]), (Ok(3), &[0, 1, 2][..]));
    let page = "V,refuse,2,1\nC,0,0,0\nC,1,1,0\nC,2,2,0\nC,3,3,3\nR,0\nR,1\nN\nE\n";
    assert_eq!(page_of(&text), page);
}

/// A low move goes on silently after its step: 0 scans to 1 and to 2. 1 can tick
/// back, so that all scans are the same.
#[test]
fn ticks_after_a_scan() {
    let text = ticking_till(3, &[(0, SCAN, 1), (1, TICK, 2)]);
    let moves = model_of(&text).moves();
    assert_eq!(moves[0], [(0, 1), (0, 2), (255, 0)]);
    assert_eq!(moves[1], [(255, 1), (255, 2)]);
    assert_eq!(moves[2], [(255, 2)]);
    assert_eq!(ranks(&text), [(0, 1, 1), (0, 2, 1)]);
    let text = ticking_till(2, &[(0, SCAN, 1), (1, TICK, 0)]);
    let moves = model_of(&text).moves();
    assert_eq!(moves[0], [(0, 0), (0, 1), (255, 0)]);
    assert_eq!(moves[1], [(0, 0), (0, 1), (255, 0), (255, 1)]);
    assert_eq!(ranks(&text), []);
}

/// 0 chooses silently between 1, which scans, and 2, which shows; 3 has both
/// choices open. Both offer the same, but 0 can come to 1, and 3 can't lose show.
#[test]
fn a_silent_choice() {
    let text = b"M,5,4,7,0\nA,L,scan\nA,L,show\nA,H,print\nA,T,tick\n\
        S,0,2,3\nS,0,3,1\nS,0,3,2\nS,1,0,4\nS,2,1,4\nS,3,0,4\nS,3,1,4\nE\n";
    let page = "V,refuse,0,2\nC,0,0,0\nC,1,1,1\nC,2,1,2\nC,3,1,3\nC,4,2,4\nN\nE\n";
    assert_eq!(page_of(text), page);
    // Two steps of tick leave 0.
    assert_eq!(word_of(text), Err((23, 2)));
    // With two silent actions for the choice the model is deterministic.
    let text = b"M,5,5,7,0\nA,L,scan\nA,L,show\nA,H,print\nA,T,tick\nA,T,tock\n\
        S,0,2,3\nS,0,3,1\nS,0,4,2\nS,1,0,4\nS,2,1,4\nS,3,0,4\nS,3,1,4\nE\n";
    assert_eq!(page_of(text), page);
    assert_eq!(word_of(text), Err((36, 1)));
}

/// 36 comes after 23 and before 24; its place is the first step with a reachable
/// source.
#[test]
fn where_36_stands() {
    // Passed: 36, not 24.
    let text = ticking_till(1, &[(0, TICK, 0)]);
    assert_eq!(word_of(&text), Err((36, 0)));
    assert_eq!(page_of(&text), "V,pass,0\nC,0,0,0\nE\n");
    let text = ticking_till(
        2,
        &[(0, SCAN, 0), (0, PRINT, 1), (1, SCAN, 1), (1, TICK, 0)],
    );
    assert_eq!(word_of(&text), Err((36, 3)));
    // 23 first, before the tick or after it, refused or passed.
    let text = ticking_till(2, &[(0, SCAN, 0), (0, SCAN, 1), (0, TICK, 0), (1, SCAN, 1)]);
    assert_eq!(word_of(&text), Err((23, 1)));
    let text = ticking_till(2, &[(0, TICK, 1), (1, SCAN, 0), (1, SCAN, 1)]);
    assert_eq!(word_of(&text), Err((23, 2)));
    let text = ticking_till(2, &[(0, TICK, 0), (0, TICK, 1)]);
    assert_eq!(word_of(&text), Err((23, 1)));
    // Two steps of one action in an unreachable state are no 23.
    let text = ticking_till(2, &[(0, TICK, 0), (1, TICK, 0), (1, TICK, 1)]);
    assert_eq!(word_of(&text), Err((36, 0)));
    // Ticks of unreachable states are passed over: start 2.
    let steps = [
        (0, TICK, 1),
        (1, TICK, 0),
        (2, PRINT, 3),
        (3, TICK, 3),
        (3, CLOSE, 2),
    ];
    let mut steps = steps.to_vec();
    steps.sort();
    let text = String::from_utf8(ticking_till(4, &steps)).expect("ASCII");
    let text = text.replace("M,4,4,5,0", "M,4,4,5,2");
    assert_eq!(word_of(text.as_bytes()), Err((36, 4)));
    let other = text.replace("M,4,4,5,2", "M,4,4,5,1");
    assert_eq!(word_of(other.as_bytes()), Err((36, 0)));
    // Reached from an extra start alone: without it the model passes.
    let text = ticking_till(3, &[(0, PRINT, 0), (1, TICK, 2), (2, SCAN, 2)]);
    assert_eq!(word_of(&text), Err((24, 0)));
    let text = String::from_utf8(text).expect("ASCII");
    let woken = text.replace("A,T,tick\n", "A,T,tick\nI,1\n");
    assert_eq!(word_of(woken.as_bytes()), Err((36, 1)));
}

/// 21 and 22 come before 36.
#[test]
fn refusals_before_36() {
    let store = store_of(&ticking_till(1, &[(0, TICK, 0)]));
    let mut lists = Lists::new();
    let mut answer = |store: &[u16], length: usize| {
        let (distances, table) = (&mut lists.distances, &mut lists.table);
        word(store, distances, table, &mut lists.word[..length]).err()
    };
    assert_eq!(answer(&store, 127), Some(Refusal::new(36, 0)));
    assert_eq!(answer(&store, 126), Some(Refusal::new(21, 4)));
    assert_eq!(answer(&[0; STORE], 127), Some(Refusal::new(22, 0)));
    assert_eq!(answer(&[0; STORE], 126), Some(Refusal::new(21, 4)));
}

/// The ring of the limits: each state comes silently to each other.
#[test]
fn a_ring_of_ticks() {
    let mut steps: Vec<(u16, u16, u16)> = (0..128).map(|i| (i, TICK, (i + 1) % 128)).collect();
    steps.push((0, PRINT, 64));
    steps.push((77, SCAN, 3));
    steps.sort();
    let text = ticking_till(128, &steps);
    let model = model_of(&text);
    assert_eq!(ranks(&text), []);
    for moves in model.moves() {
        assert_eq!(moves.len(), 2 * 128);
        assert_eq!(moves[0], (0, 0));
        assert_eq!(moves[128], (255, 0));
    }
    let mut page = "V,pass,0\n".to_string();
    for state in 0..128 {
        // From 64 on the print is the shorter way.
        let distance = if state < 64 { state } else { state - 63 };
        page += &format!("C,{state},{distance},0\n");
    }
    assert_eq!(page_of(&text), page + "E\n");
    assert_eq!(second::book_of(&model), vec![0; BOOK]);
}

/// The chain of the bench with ticks that stay where they are has its depth.
#[test]
fn a_deep_chain_with_ticks() {
    let mut steps: Vec<(u16, u16, u16)> = (0..128).map(|i| (i, TICK, i)).collect();
    steps.extend((0..127).map(|i| (i, SCAN, i + 1)));
    steps.push((0, PRINT, 1));
    steps.sort();
    let text = ticking_till(128, &steps);
    let mut page = "V,refuse,1,127\n".to_string();
    for state in 0..128 {
        page += &format!("C,{state},{state},{state}\n");
    }
    assert_eq!(page_of(&text), page + "N\nE\n");
    assert_eq!(word_of(&text), Err((36, 2)));
}

/// Checks that a text's own book has just these entries.
fn own(text: &[u8], entries: Entries) {
    let store = store_of(text);
    let mut lists = Lists::new();
    book(&store, &mut lists.table, &mut lists.book).unwrap();
    let expected = with_entries(entries);
    for (number, bytes) in expected.chunks(4).enumerate() {
        let (p, q) = (number / 128, number % 128);
        assert_eq!(lists.book[4 * number..][..4], *bytes, "{p} and {q}");
    }
    assert_eq!(check(&store, &lists.book), Ok(()));
    assert_eq!(meaning::book_holds(&model_of(text), &expected), Ok(()));
}

/// The till with the tick that betrays. Of 0 and 2 only a silent opening tells, to
/// 3: it has action 255.
#[test]
fn our_own_book() {
    own(
        example!("tick_betrays").0,
        &[
            (0, 1, [1, 0, 1, 1]),
            (0, 2, [2, 255, 3, 2]),
            (0, 3, [1, 0, 1, 1]),
            (1, 0, [2, 0, 1, 1]),
            (1, 2, [2, 0, 1, 1]),
            (2, 0, [1, 255, 3, 2]),
            (2, 1, [1, 0, 1, 1]),
            (2, 3, [1, 0, 1, 1]),
            (3, 0, [2, 0, 1, 1]),
            (3, 2, [2, 0, 1, 1]),
        ],
    );
    // 1 opens with scan, by way of its tick.
    own(
        example!("tick_depth_one").0,
        &[
            (0, 1, [2, 0, 2, 1]),
            (0, 2, [2, 0, 2, 1]),
            (1, 0, [1, 0, 2, 1]),
            (2, 0, [1, 0, 2, 1]),
        ],
    );
}

/// Among openings 255 comes after every action, also after one of a higher target,
/// and the lowest target is taken of several silent ones.
#[test]
fn silent_openings_come_last() {
    // 0 ticks to 1 and to 2, which have no step; 3 only stays. 3 can scan, and
    // then it is where it was. 0 can scan to 3 too.
    let steps = [(0, SCAN, 3), (0, TICK, 1), (0, TICK, 2), (3, SCAN, 3)];
    own(
        &ticking_till(4, &steps),
        &[
            (0, 1, [1, 0, 3, 1]),
            (0, 2, [1, 0, 3, 1]),
            (0, 3, [1, 255, 1, 2]),
            (1, 0, [2, 0, 3, 1]),
            (1, 3, [2, 0, 3, 1]),
            (2, 0, [2, 0, 3, 1]),
            (2, 3, [2, 0, 3, 1]),
            (3, 0, [2, 255, 1, 2]),
            (3, 1, [1, 0, 3, 1]),
            (3, 2, [1, 0, 3, 1]),
        ],
    );
    // 0 scans to 1 by way of 3 or not, and to 3: of 0 and 2 both scan to 3 and a
    // tick to 3 tell, with no answer but to 1, which can scan.
    let steps = [
        (0, SCAN, 1),
        (0, SCAN, 3),
        (0, TICK, 3),
        (1, SCAN, 1),
        (2, SCAN, 1),
    ];
    let store = store_of(&ticking_till(4, &steps));
    let mut lists = Lists::new();
    book(&store, &mut lists.table, &mut lists.book).unwrap();
    assert_eq!(lists.book[4 * 2..][..4], [1, 0, 3, 2]);
    assert_eq!(lists.book[4 * 128 * 2..][..4], [2, 0, 3, 2]);
}

/// What Check says of silent openings, in the till with the tick that betrays.
#[test]
fn silent_openings() {
    let (text, _) = example!("tick_betrays");
    let (ends, then) = ((0, 2, [2, 255, 3, 2]), (0, 3, [1, 0, 1, 1]));
    assert_eq!(bad(text, &[ends, then]), None);
    assert_eq!(bad(text, &[(0, 2, [2, 255, 3, 9]), then]), None);
    // The answer of zero steps leads to 0 and 3, which needs a lower entry.
    assert_eq!(bad(text, &[ends]), Some((0, 2)));
    assert_eq!(bad(text, &[(0, 2, [2, 255, 3, 1]), then]), Some((0, 2)));
    assert_eq!(bad(text, &[ends, (3, 0, [2, 0, 1, 1])]), Some((0, 2)));
    // The number of the silent action is no opening, though 2 tick 3 is a step.
    assert_eq!(bad(text, &[(0, 2, [2, 3, 3, 2]), then]), Some((0, 2)));
    // Nor is the silent one of a side that has none to there.
    for opening in [
        [1, 255, 3, 2],
        [2, 255, 0, 2],
        [2, 255, 1, 2],
        [2, 254, 3, 2],
    ] {
        assert_eq!(bad(text, &[(0, 2, opening), then]), Some((0, 2)));
    }
    // One of zero steps is in the model, but one of the answers leads back to the
    // pair itself.
    for opening in [[1, 255, 0, 9], [2, 255, 2, 9]] {
        assert_eq!(bad(text, &[(0, 2, opening), then]), Some((0, 2)));
    }
    // The same from the other side.
    let entries = [(2, 0, [1, 255, 3, 2]), (3, 0, [2, 0, 1, 1])];
    assert_eq!(bad(text, &entries), None);
    // A scan of 0 is answered by 2 to 1, where nothing tells.
    assert_eq!(bad(text, &[(0, 2, [1, 0, 1, 9]), then]), Some((0, 2)));
}

/// A low opening by way of ticks, and its answers by way of ticks: 0 ticks to 1,
/// 1 scans to 2, 2 ticks to 3.
#[test]
fn low_openings_by_way_of_ticks() {
    let text = ticking_till(5, &[(0, TICK, 1), (1, SCAN, 2), (2, TICK, 3), (4, SCAN, 4)]);
    // To the target of the step, or on to the end of the move.
    for (state, other) in [(0, 2), (0, 3), (1, 2), (1, 3)] {
        for target in [2, 3] {
            assert_eq!(bad(&text, &[(state, other, [1, 0, target, 0])]), None);
        }
        let expected = Some((state as u64, other as u64));
        assert_eq!(bad(&text, &[(state, other, [1, 0, 1, 0])]), expected);
    }
    // 4 scans to 4. 0 answers to 2 and to 3, so both pairs need an entry.
    let to_2 = (4, 2, [1, 0, 4, 0]);
    let to_3 = (4, 3, [1, 0, 4, 0]);
    assert_eq!(bad(&text, &[(4, 0, [1, 0, 4, 1]), to_2, to_3]), None);
    for one in [to_2, to_3] {
        assert_eq!(bad(&text, &[(4, 0, [1, 0, 4, 1]), one]), Some((4, 0)));
    }
}

/// Only states move: a number that is no state has no silent move, not even of
/// zero steps. As the opener it makes the entry bad, and on the other side it has
/// no answer, to a silent opening either.
#[test]
fn numbers_that_are_no_states() {
    let (text, _) = example!("tick_betrays");
    for number in [4, 5, 64, 127] {
        let itself = number as u8;
        for depth in [0, 1, 255] {
            let sound = [
                (0, number, [1, 255, 0, depth]),
                (1, number, [1, 255, 1, depth]),
                (2, number, [1, 255, 3, depth]),
                (number, 0, [2, 255, 0, depth]),
                (number, 2, [2, 255, 2, depth]),
                (number, 3, [2, 255, 3, depth]),
            ];
            assert_eq!(bad(text, &sound), None);
            for (p, q, bytes) in [
                (number, 0, [1, 255, itself, depth]),
                (number, 0, [1, 255, 0, depth]),
                (0, number, [2, 255, itself, depth]),
                (0, number, [2, 255, 0, depth]),
                (number, number, [1, 255, itself, depth]),
                (number, number, [2, 255, itself, depth]),
                (0, number, [1, 255, 1, depth]),
                (0, number, [1, 255, itself, depth]),
                (0, number, [1, 3, 0, depth]),
                (2, number, [1, 3, 3, depth]),
            ] {
                let expected = Some((p as u64, q as u64));
                assert_eq!(bad(text, &[(p, q, bytes)]), expected, "{p} {q} {bytes:?}");
            }
        }
    }
}

/// Zero steps are a silent move in a model without ticks too.
#[test]
fn zero_steps_without_ticks() {
    let text = till(3, &[(0, SCAN, 1), (0, PRINT, 2)]);
    for depth in [0, 1, 255] {
        assert_eq!(bad(&text, &[(0, 3, [1, 255, 0, depth])]), None);
        assert_eq!(bad(&text, &[(127, 2, [2, 255, 2, depth])]), None);
        for (p, q, bytes) in [
            (0, 1, [1, 255, 0, depth]),
            (0, 1, [2, 255, 1, depth]),
            (0, 1, [1, 255, 1, depth]),
            (0, 0, [1, 255, 0, depth]),
            (0, 3, [1, 255, 1, depth]),
            (3, 0, [1, 255, 3, depth]),
        ] {
            let expected = Some((p as u64, q as u64));
            assert_eq!(bad(&text, &[(p, q, bytes)]), expected, "{p} {q} {bytes:?}");
        }
    }
    // With 128 states each number is a state, and answers.
    let text = till(128, &[(0, PRINT, 1)]);
    assert_eq!(bad(&text, &[(0, 127, [1, 255, 0, 1])]), Some((0, 127)));
}

/// A silent opening has no answer but a silent one, and a low opening none but a
/// low one: 0 ticks and 1 scans, to where they were.
#[test]
fn kinds_do_not_answer_each_other() {
    let text = ticking_till(2, &[(0, TICK, 0), (1, SCAN, 1)]);
    assert_eq!(ranks(&text), [(0, 1, 1)]);
    assert_eq!(bad(&text, &[(0, 1, [2, 0, 1, 0])]), None);
    assert_eq!(bad(&text, &[(0, 1, [1, 255, 0, 5])]), Some((0, 1)));
}

/// Passed is that the ends of each reachable high step have rank 0 over moves.
#[test]
fn passed_is_by_rank() {
    for (text, passes) in [
        (ticking_till(2, &[(0, PRINT, 1), (1, TICK, 0)]), true),
        (ticking_till(2, &[(0, PRINT, 1), (0, TICK, 1)]), true),
        (
            ticking_till(2, &[(0, PRINT, 1), (0, TICK, 1), (1, SCAN, 1)]),
            true,
        ),
        (
            ticking_till(2, &[(0, SCAN, 0), (0, PRINT, 1), (0, TICK, 1)]),
            false,
        ),
        (
            ticking_till(2, &[(0, PRINT, 1), (1, SCAN, 1), (1, TICK, 0)]),
            false,
        ),
    ] {
        let (store, mut lists) = (store_of(&text), Lists::new());
        let verdict = judge(&store, &mut lists.distances, &mut lists.table).unwrap();
        let model: Model = model_of(&text);
        assert_eq!(verdict, meaning::verdict_of(&model));
        assert_eq!(matches!(verdict, Verdict::Passed { .. }), passes);
    }
}
