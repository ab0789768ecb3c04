//! Tills that wake in several states: by hand what the documents say of them, and many such models through every
//! operation beside the second checker.
use std::collections::BTreeSet;
use std::fs;

use second::gen::{self, Rng};
use second::meaning::{self, Deterministic};
use second::store::{DISTANCES, STORE, TABLE};
use second::{End, Model, Refusal, Verdict};
use suite::archive::Told;
use suite::bench::{root, store_of, waking_text, WordTold, ACTIONS, TWO_STARTS, TWO_STARTS_PAGE};
use suite::books::Book;
use suite::input::Input;
use suite::lists::Lists;
use suite::operations::{ALL, JUDGE, PAGE, PRINT, RANK, REACH, READ, ROLL, RUN};
use suite::operations::{TELL, WORD};
use suite::stores::Store;

const SEED: u64 = 8_100;

/// The actions of the bench models.
const SCAN: u16 = 0;
const PRINTING: u16 = 1;
const CLOSE: u16 = 2;

fn passed(rank: u16) -> Verdict {
    Verdict::Passed { rank }
}

fn refused(step: u16, depth: u16) -> Verdict {
    Verdict::Refused { step, depth }
}

// ---- by hand

/// 0 to 5 scan for ever, 6 scans once and 7 never.
fn two_starts_table() -> Vec<u8> {
    let mut table = vec![0; TABLE];
    for (p, q, rank) in (0..6)
        .flat_map(|p| [(p, 6, 2), (p, 7, 1)])
        .chain([(6, 7, 1)])
    {
        table[128 * p + q] = rank;
        table[128 * q + p] = rank;
    }
    table
}

fn two_starts_roll() -> String {
    let lines = [
        "V,refuse,9,2",
        "  0   0   0 scan",
        "  1   1   0 scan",
        "  2   2   0 scan",
        "  3   1   0 scan",
        "  4   0   0 scan",
        "  5   1   0 scan",
        "  6   2   6 scan",
        "  7   3   7",
        "R,6",
        "W,scan",
        "W,scan",
        "B,source",
        "E",
    ];
    lines.map(|line| format!("{line:<42}\n")).concat()
}

/// State 3 is three steps from 0 and one from 4. From 4 alone a step leads to 5 and on to its print, step 9.
#[test]
fn two_starts_in_full() {
    let mut rng = gen::seeded("starts::two_starts_in_full", SEED);
    let (store, before) = (store_of(TWO_STARTS), Lists::enough(&mut rng));
    let mut reached = before.clone();
    reached.distances[..DISTANCES].fill(65_535);
    reached.distances[..8].copy_from_slice(&[0, 1, 2, 1, 0, 1, 2, 3]);
    REACH.fills(&store, &before, (), &reached);
    let runs: [&[u16]; 8] = [&[], &[0], &[0, 1], &[7], &[], &[6], &[6, 9], &[6, 9, 10]];
    for (state, run) in (0..).zip(runs) {
        let mut after = reached.clone();
        after.run[..run.len()].copy_from_slice(run);
        RUN.fills((&store, state), &before, run.len(), &after);
    }

    let mut judged = reached.clone();
    judged.table[..TABLE].copy_from_slice(&two_starts_table());
    let mut ranked = judged.clone();
    ranked.distances = before.distances.clone();
    RANK.fills(&store, &before, 2, &ranked);
    JUDGE.fills(&store, &before, refused(9, 2), &judged);
    let mut shown = judged.clone();
    shown.word[..2].copy_from_slice(&[SCAN, SCAN]);
    WORD.fills(&store, &before, (2, End::Source), &shown);

    shown.run[0] = 6;
    let (page, roll) = (TWO_STARTS_PAGE, two_starts_roll());
    let mut paged = shown.clone();
    paged.page[..page.len()].copy_from_slice(page);
    PAGE.fills(&store, &before, page.len(), &paged);
    let mut rolled = shown;
    rolled.roll[..roll.len()].copy_from_slice(roll.as_bytes());
    ROLL.fills(&store, &before, roll.len(), &rolled);
}

/// The same from the text; and the examples are what is worked out here.
#[test]
fn two_starts_from_the_text() {
    let mut rng = gen::seeded("starts::two_starts_from_the_text", SEED + 1);
    let before = Lists::enough(&mut rng);
    let mut read = before.clone();
    read.store[..STORE].copy_from_slice(&store_of(TWO_STARTS));
    READ.fills(TWO_STARTS, &before, (), &read);
    let (length, after) = PRINT.same(TWO_STARTS, &before);
    assert_eq!(length, Ok(TWO_STARTS_PAGE.len()));
    assert!(after.page.starts_with(TWO_STARTS_PAGE));
    let (told, _) = TELL.same(TWO_STARTS, &before);
    let expected = Told {
        read: Ok(()),
        judged: Some((Ok(refused(9, 2)), Ok((2, End::Source)))),
    };
    assert_eq!(told, Ok(expected));
    for (ending, bytes) in [
        ("txt", TWO_STARTS),
        ("page", TWO_STARTS_PAGE),
        ("roll", two_starts_roll().as_bytes()),
    ] {
        let file = root().join("examples/two_starts").with_extension(ending);
        assert_eq!(fs::read(file).expect("an example"), bytes, "{ending}");
    }
}

/// A till with these starts, the lists before a call, and what is told of it.
struct Till {
    store: Store,
    before: Lists,
}

impl Till {
    fn new(states: u16, starts: &[u16], steps: &[(u16, u16, u16)]) -> Till {
        Till {
            store: store_of(&waking_text(states, ACTIONS, starts, steps)),
            before: Lists::enough(&mut Rng::new(SEED)),
        }
    }

    fn distances(&self) -> Vec<u16> {
        let (answer, after) = REACH.same(&self.store, &self.before);
        assert_eq!(answer, Ok(()));
        after.distances[..usize::from(self.store[0])].to_vec()
    }

    fn run(&self, state: u16) -> Result<Vec<u16>, Refusal> {
        let (answer, after) = RUN.same((&self.store, state), &self.before);
        answer.map(|length| after.run[..length].to_vec())
    }

    fn verdict(&self) -> Verdict {
        let (answer, _) = JUDGE.same(&self.store, &self.before);
        answer.expect("the store is good")
    }

    fn word(&self) -> WordTold {
        let (answer, after) = WORD.same(&self.store, &self.before);
        answer.map(|(length, end)| (after.word[..length].to_vec(), end))
    }

    fn page(&self) -> String {
        let (answer, after) = PAGE.same(&self.store, &self.before);
        let page = &after.page[..answer.expect("the store is good")];
        String::from_utf8(page.to_vec()).expect("a page is ASCII")
    }
}

const TWO_STARTS_STEPS: [(u16, u16, u16); 11] = [
    (0, SCAN, 1),
    (1, SCAN, 2),
    (2, SCAN, 3),
    (2, PRINTING, 3),
    (3, SCAN, 3),
    (3, CLOSE, 0),
    (4, SCAN, 5),
    (4, CLOSE, 3),
    (5, SCAN, 3),
    (5, PRINTING, 6),
    (6, SCAN, 7),
];

/// The same till that wakes in one of the two states only: from 0 it passes, from 4 it leaks.
#[test]
fn either_start_alone() {
    let first = Till::new(8, &[0], &TWO_STARTS_STEPS);
    let page =
        "V,pass,2\nC,0,0,0\nC,1,1,0\nC,2,2,0\nC,3,3,0\nC,4,-,0\nC,5,-,0\nC,6,-,6\nC,7,-,7\nE\n";
    assert_eq!(first.page(), page);
    assert_eq!(first.word(), Err(Refusal::new(24, 0)));
    assert_eq!(first.run(3), Ok(vec![0, 1, 2]));
    assert_eq!(first.run(5), Err(Refusal::new(26, 5)));
    let second = Till::new(8, &[4], &TWO_STARTS_STEPS);
    assert_eq!(second.verdict(), refused(9, 2));
    assert_eq!(second.distances(), [2, 3, 4, 1, 0, 1, 2, 3]);
    assert_eq!(second.run(2), Ok(vec![7, 5, 0, 1]));
}

/// A ring, and three starts on it. One that another leads to is a start still: its run is empty.
#[test]
fn distances_are_from_the_nearest_start() {
    let ring: Vec<_> = (0..8).map(|state| (state, SCAN, (state + 1) % 8)).collect();
    let till = Till::new(8, &[0, 3, 4], &ring);
    assert_eq!(till.distances(), [0, 1, 2, 0, 0, 1, 2, 3]);
    let runs: [&[u16]; 8] = [&[], &[0], &[0, 1], &[], &[], &[4], &[4, 5], &[4, 5, 6]];
    for (state, run) in (0..).zip(runs) {
        assert_eq!(till.run(state), Ok(run.to_vec()));
    }
    assert_eq!(till.run(8), Err(Refusal::new(25, 8)));
    let all: Vec<u16> = (0..8).collect();
    let till = Till::new(8, &all, &ring);
    assert_eq!(till.distances(), [0; 8]);
    assert_eq!(till.run(7), Ok(Vec::new()));
}

/// Both starts are two steps from 5. The lowest step into 5 comes from 2, to which only the second start leads.
#[test]
fn a_run_begins_where_its_rule_leads_back_to() {
    let steps = [(0, SCAN, 4), (1, SCAN, 2), (2, SCAN, 5), (4, SCAN, 5)];
    let till = Till::new(6, &[0, 1], &steps);
    assert_eq!(till.distances(), [0, 0, 1, 65_535, 1, 2]);
    assert_eq!(till.run(5), Ok(vec![1, 2]));
    assert_eq!(till.run(3), Err(Refusal::new(26, 3)));
    assert_eq!(Till::new(6, &[0], &steps).run(5), Ok(vec![0, 3]));
    // The lowest step into 4 comes from farther away than the second start.
    let steps = [(0, SCAN, 1), (1, SCAN, 4), (2, CLOSE, 4)];
    let till = Till::new(5, &[0, 2], &steps);
    assert_eq!(till.run(4), Ok(vec![2]));
    // Both starts are one step from 2, and the step of line 1's has the lower number.
    let till = Till::new(3, &[0, 1], &[(0, CLOSE, 2), (1, SCAN, 2)]);
    assert_eq!(till.run(2), Ok(vec![0]));
}

/// The print is the second start's own, or stands behind it; behind no start it is not counted.
#[test]
fn a_high_step_reachable_from_an_extra_start_only() {
    let steps = [(1, PRINTING, 2), (2, SCAN, 2)];
    assert_eq!(Till::new(3, &[0], &steps).verdict(), passed(1));
    let page = "V,refuse,0,1\nC,0,0,0\nC,1,0,0\nC,2,1,2\nW,scan\nB,target\nE\n";
    assert_eq!(Till::new(3, &[0, 1], &steps).page(), page);
    let page = "V,pass,1\nC,0,0,0\nC,1,-,0\nC,2,0,2\nE\n";
    assert_eq!(Till::new(3, &[0, 2], &steps).page(), page);

    let steps = [(3, CLOSE, 4), (4, PRINTING, 5), (5, SCAN, 5)];
    assert_eq!(Till::new(6, &[0, 1, 2], &steps).verdict(), passed(1));
    let page = "V,refuse,1,1\nC,0,0,0\nC,1,0,0\nC,2,-,0\nC,3,0,0\nC,4,1,0\nC,5,2,5\nR,0\nW,scan\nB,target\nE\n";
    assert_eq!(Till::new(6, &[0, 1, 3], &steps).page(), page);
}

/// Of all that any start leads to the least depth counts, and then the lowest step.
#[test]
fn the_least_depth_from_any_start() {
    // 0 and 4 scan for ever, 2 once and 3 never: the print from 0 has depth 2, that from 4 depth 1.
    let steps = [
        (0, SCAN, 0),
        (0, PRINTING, 2),
        (2, SCAN, 3),
        (4, SCAN, 0),
        (4, PRINTING, 3),
    ];
    assert_eq!(Till::new(5, &[0], &steps).verdict(), refused(1, 2));
    assert_eq!(Till::new(5, &[0, 4], &steps).verdict(), refused(4, 1));
    // Only the second start leads to the print from 0, which has the lower number.
    let steps = [
        (0, PRINTING, 3),
        (1, PRINTING, 3),
        (2, CLOSE, 0),
        (3, SCAN, 3),
    ];
    assert_eq!(Till::new(4, &[1], &steps).verdict(), refused(1, 1));
    assert_eq!(Till::new(4, &[1, 2], &steps).verdict(), refused(0, 1));
    assert_eq!(Till::new(4, &[1, 2], &steps).run(0), Ok(vec![2]));
}

/// Two scans from a state that only the second start is, or leads to. Starts that scan to different states do not
/// branch.
#[test]
fn branching_from_an_extra_start_only() {
    let steps = [
        (0, PRINTING, 3),
        (1, SCAN, 2),
        (1, SCAN, 3),
        (3, SCAN, 3),
        (4, CLOSE, 1),
    ];
    for starts in [&[0][..], &[0, 2], &[0, 2, 3]] {
        let till = Till::new(5, starts, &steps);
        assert_eq!(till.word(), Ok((vec![SCAN], End::Target)), "{starts:?}");
    }
    for starts in [&[0, 1][..], &[0, 4], &[0, 2, 3, 4]] {
        let till = Till::new(5, starts, &steps);
        assert_eq!(till.word(), Err(Refusal::new(23, 2)), "{starts:?}");
        assert_eq!(till.verdict(), refused(0, 1), "{starts:?}");
        assert!(till.page().ends_with("\nN\nE\n"), "{starts:?}");
    }
    let till = Till::new(3, &[0, 1], &[(0, SCAN, 1), (1, SCAN, 2)]);
    assert_eq!(till.word(), Err(Refusal::new(24, 0)));
}

/// What the starts may do need not be alike: each sequence is thinned from its own start.
#[test]
fn starts_that_are_not_alike() {
    // 0 scans for ever, 2 never, and a print changes neither.
    let steps = [
        (0, SCAN, 1),
        (0, PRINTING, 1),
        (1, SCAN, 0),
        (2, PRINTING, 3),
    ];
    assert_eq!(Till::new(4, &[0, 2], &steps).verdict(), passed(1));
    // After the print from 0 a scan is possible, as it is from 3; but not from 0.
    let steps = [(0, PRINTING, 1), (1, SCAN, 2), (3, SCAN, 4)];
    let till = Till::new(5, &[0, 3], &steps);
    assert_eq!(till.verdict(), refused(0, 1));
    assert_eq!(till.word(), Ok((vec![SCAN], End::Target)));
    assert_eq!(Till::new(5, &[3], &steps).verdict(), passed(1));
}

// ---- beside the second checker

/// A model with some of its states as starts, few or many.
fn waking_model(rng: &mut Rng) -> Model {
    let model = gen::any_model(rng);
    let chance = *rng.pick(&[5, 20, 50, 80, 100]);
    let mut starts = BTreeSet::from([rng.below(usize::from(model.states)) as u16]);
    starts.extend((0..model.states).filter(|_| rng.percent(chance)));
    model.with_starts(&starts)
}

fn with_one_start(model: &Model, start: u16) -> Model {
    model.with_starts(&BTreeSet::from([start]))
}

/// How many models or states show what further starts change.
#[derive(Debug, Default)]
struct Seen {
    /// States nearer to another start than to line 1's.
    nearer: usize,
    /// Runs of some steps that begin at another start.
    runs: usize,
    /// Models that pass from line 1's start alone, and that do not branch from there.
    leaking: usize,
    branching: usize,
}

impl Seen {
    /// Run to every state, held to its meaning.
    fn runs_of(&mut self, model: &Model, before: &Lists) {
        let store = Store::of(model);
        let alone = second::reach::distances_of(&with_one_start(model, model.start));
        for state in 0..model.states {
            let (answer, after) = RUN.same((&store, state), before);
            let distances = &after.distances[..DISTANCES];
            assert_eq!(meaning::distances_hold(model, distances), Ok(()));
            let Ok(length) = answer else {
                continue;
            };
            let run = &after.run[..length];
            assert_eq!(meaning::run_holds(model, distances, run, state), Ok(()));
            let place = usize::from(state);
            self.nearer += usize::from(distances[place] < alone[place]);
            let begins = run
                .first()
                .map(|&step| model.steps[usize::from(step)].source);
            self.runs += usize::from(begins.is_some_and(|start| start != model.start));
        }
    }

    /// The verdict and the word, held to their meaning where the model is deterministic.
    fn verdict_of(&mut self, model: &Model, before: &Lists) {
        let store = Store::of(model);
        let verdict = JUDGE.same(&store, before).0.expect("the store is good");
        let (word, after) = WORD.same(&store, before);
        let first = with_one_start(model, model.start);
        let passed = |verdict| matches!(verdict, Verdict::Passed { .. });
        let alone = JUDGE.same(&Store::of(&first), before).0.expect("good");
        self.leaking += usize::from(passed(alone) && !passed(verdict));
        let Some(exact) = Deterministic::new(model) else {
            self.branching += usize::from(meaning::deterministic(&first));
            return;
        };
        assert_eq!(exact.verdict_holds(verdict), Ok(()));
        if let (Verdict::Refused { step, depth }, Ok((length, end))) = (verdict, word) {
            let word = &after.word[..length];
            assert_eq!(exact.word_holds(step, depth, word, end), Ok(()));
        }
    }
}

/// Every operation on a model, from its store or its text, beside the second checker.
fn by_every_operation(model: &Model, before: &Lists) {
    let input = Input {
        store: Store::of(model),
        book: Book::own(model),
        ..Input::from(&model.to_text())
    };
    for operation in ALL {
        let (refusal, _) = operation.refusal(&input, before);
        let number = refusal.map(|refusal| refusal.number);
        assert!(matches!(number, None | Some(23 | 24 | 26)), "{number:?}");
    }
}

#[test]
fn models_with_many_starts() {
    let mut rng = gen::seeded("starts::models_with_many_starts", SEED + 2);
    let mut seen = Seen::default();
    let mut counts = BTreeSet::new();
    for _ in 0..1_500 {
        let model = waking_model(&mut rng);
        let _case = gen::model_case(&model);
        let before = Lists::enough(&mut rng);
        by_every_operation(&model, &before);
        seen.verdict_of(&model, &before);
        if model.states <= 40 {
            seen.runs_of(&model, &before);
        }
        counts.insert(model.extra_starts.len());
    }
    assert!(seen.nearer > 3_000 && seen.runs > 500, "{seen:?}");
    assert!(seen.leaking > 100 && seen.branching > 50, "{seen:?}");
    assert!(counts.len() > 30 && counts.contains(&0), "{counts:?}");
}

/// As many starts as there may be.
#[test]
fn every_state_a_start() {
    let mut rng = gen::seeded("starts::every_state_a_start", SEED + 3);
    let mut models: Vec<Model> = gen::limit_models(&mut rng)
        .into_iter()
        .map(|(_, model)| model)
        .collect();
    models.extend((1..=127).map(|depth| gen::deep_model(&mut rng, depth)));
    let mut most = 0;
    for model in models {
        let model = gen::with_all_starts(&model);
        let _case = gen::model_case(&model);
        let before = Lists::enough(&mut rng);
        by_every_operation(&model, &before);
        let (answer, after) = REACH.same(&Store::of(&model), &before);
        assert_eq!(answer, Ok(()));
        let reached = after.distances[..DISTANCES].iter();
        let starts = reached.take_while(|&&distance| distance == 0).count();
        assert_eq!(starts, usize::from(model.states));
        most += usize::from(model.extra_starts.len() == 127);
    }
    assert!(most > 20, "{most}");
}

/// Judge's verdict and distances.
fn judged(model: &Model, before: &Lists) -> (Verdict, Vec<u16>) {
    let (verdict, after) = JUDGE.same(&Store::of(model), before);
    let distances = after.distances[..DISTANCES].to_vec();
    (verdict.expect("the store is good"), distances)
}

/// Of the refusals the one of least depth, and of these that of the lowest step. A model that passes from each start
/// tells one rank.
fn together(verdicts: &[Verdict]) -> Verdict {
    let leaks = verdicts.iter().filter_map(|verdict| match verdict {
        Verdict::Refused { step, depth } => Some((*depth, *step)),
        Verdict::Passed { .. } => None,
    });
    let least = leaks.min();
    least.map_or(verdicts[0], |(depth, step)| refused(step, depth))
}

/// The verdict and the distances of several starts follow from those of each start alone.
#[test]
fn as_from_each_start_alone() {
    let mut rng = gen::seeded("starts::as_from_each_start_alone", SEED + 4);
    let (mut all_pass, mut some_pass) = (0, 0);
    for _ in 0..800 {
        let model = waking_model(&mut rng);
        let starts: Vec<u16> = model.starts().into_iter().take(12).collect();
        let model = model.with_starts(&starts.iter().copied().collect());
        let _case = gen::model_case(&model);
        let before = Lists::enough(&mut rng);
        let alone = starts.iter().map(|&start| with_one_start(&model, start));
        let (verdicts, distances): (Vec<_>, Vec<_>) =
            alone.map(|model| judged(&model, &before)).unzip();
        let nearest = |state: usize| distances.iter().map(|list| list[state]).min();
        let nearest = (0..DISTANCES).map(|state| nearest(state).expect("a start"));
        let verdict = together(&verdicts);
        assert_eq!(judged(&model, &before), (verdict, nearest.collect()));
        let passes = |verdict: &Verdict| matches!(verdict, Verdict::Passed { .. });
        all_pass += usize::from(passes(&verdict));
        some_pass += usize::from(!passes(&verdict) && verdicts.iter().any(passes));
    }
    assert!(all_pass > 200 && some_pass > 100, "{all_pass} {some_pass}");
}
