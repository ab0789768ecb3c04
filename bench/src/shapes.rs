//! The models that are measured.
use std::collections::BTreeSet;

use second::gen::{choices_of_ticks, deep_choices_of_ticks, zigzag_of_ticks};
use second::gen::{greatest_roll, with_all_starts, Rng};
use second::{Action, Level, Model, Step};

const SEED: u64 = 0x7113;

/// A model from low steps in any order. One high step, from the start to the state after it, changes no rank, and lets
/// Word and Page have something to show.
fn low(states: u16, start: u16, steps: impl IntoIterator<Item = (u16, u16, u16)>) -> Model {
    let mut steps: Vec<Step> = steps
        .into_iter()
        .map(|(source, action, target)| Step::new(source, action, target))
        .collect();
    let high = steps.iter().map(|step| step.action + 1).max().unwrap_or(0);
    steps.push(Step::new(start, high, start + 1));
    steps.sort();
    steps.dedup();
    let action = |i| Action {
        level: if i < high { Level::Low } else { Level::High },
        name: format!("a{i}").into_bytes(),
    };
    Model {
        states,
        start,
        extra_starts: Vec::new(),
        actions: (0..=high).map(action).collect(),
        steps,
    }
}

/// The same with ticks, each from a state to another. The silent action comes last.
fn ticking(
    states: u16,
    start: u16,
    steps: impl IntoIterator<Item = (u16, u16, u16)>,
    ticks: impl IntoIterator<Item = (u16, u16)>,
) -> Model {
    with_ticks(low(states, start, steps), ticks)
}

/// A model with one more action, which is silent, and its steps.
fn with_ticks(mut model: Model, ticks: impl IntoIterator<Item = (u16, u16)>) -> Model {
    let tick = model.actions.len() as u16;
    model.actions.push(Action {
        level: Level::Silent,
        name: b"tick".to_vec(),
    });
    let ticks = ticks.into_iter();
    model
        .steps
        .extend(ticks.map(|(source, target)| Step::new(source, tick, target)));
    model.steps.sort();
    model
}

/// From each state to the next, with each action.
pub fn chain(states: u16, actions: u16) -> Model {
    let on = move |i| (0..actions).map(move |a| (i, a, i + 1));
    low(states, 0, (0..states - 1).flat_map(on))
}

/// From each state to the one before it, with each action.
fn backward_chain(states: u16, actions: u16) -> Model {
    let back = move |i| (0..actions).map(move |a| (i, a, i - 1));
    low(states, states - 2, (1..states).flat_map(back))
}

/// Two chains of 64 with 8 actions, each state of the one alike to one of the other.
fn two_chains() -> Model {
    let on = |i| (0..8).map(move |a| (i, a, i + 1));
    low(128, 0, (0..63).chain(64..127).flat_map(on))
}

/// The chain of 128 with 8 actions, with a start in each of its last 63 states too. Only that of line 1 leads to the 64
/// states before them.
fn chain_of_64_starts() -> Model {
    chain(128, 8).with_starts(&BTreeSet::from_iter([0].into_iter().chain(65..128)))
}

/// From i to i+1..i+8, all with one action, or each with its own.
fn fan(one_action: bool) -> Model {
    let action = move |k| if one_action { 0 } else { k - 1 };
    let steps = (0..127).flat_map(|i| (1..=8).map(move |k| (i, action(k), i + k)));
    low(128, 0, steps.filter(|&(_, _, target)| target < 128))
}

/// From i to i+1 and back to 0..6, all with one action, or each with its own.
fn on_and_back(one_action: bool) -> Model {
    let action = move |k| if one_action { 0 } else { k };
    let back = move |i| (1..8).map(move |k| (i, action(k), k - 1));
    let steps = (0..127).flat_map(|i| [(i, action(0), i + 1)].into_iter().chain(back(i)));
    low(128, 0, steps)
}

/// A chain of 100, and two states with 4 actions to each of its states.
fn two_wide_states() -> Model {
    let chain = (0..99).map(|i| (i, 0, i + 1));
    let wide = [100, 101].into_iter();
    let wide = wide.flat_map(|p| (0..4).flat_map(move |a| (0..100).map(move |q| (p, a, q))));
    low(102, 100, chain.chain(wide))
}

/// A chain of 100, and two states with as many steps to it as a deterministic state can have beside a high one. The
/// last of them lead to states 0 and 1, which only 99 further steps tell apart.
fn two_states_of_63_steps() -> Model {
    let chain = (0..99).map(|i| (i, 0, i + 1));
    let alike = (0..62).flat_map(|a| [(100, a, a), (101, a, a)]);
    low(
        102,
        100,
        chain.chain(alike).chain([(100, 62, 0), (101, 62, 1)]),
    )
}

/// A chain of 104, 11 states without steps, and eight states with a step to each of these 115.
fn eight_wide_states() -> Model {
    let chain = (0..103).map(|i| (i, 0, i + 1));
    let wide = (115..123).flat_map(|p| (0..115).map(move |q| (p, 0, q)));
    low(123, 115, chain.chain(wide))
}

/// A chain of 64, and 64 states with a step to every fourth of its states but the last of these.
fn states_of_15_targets() -> Model {
    let chain = (0..63).map(|i| (i, 0, i + 1));
    let wide = (64..128).flat_map(|p| (0..15).map(move |k| (p, 0, 4 * k)));
    low(128, 64, chain.chain(wide))
}

/// A ring, and a step of a second action from each of its first 8 states.
fn ring_with_jumps() -> Model {
    let ring = (0..128).map(|i| (i, 0, (i + 1) % 128));
    let jumps = (0..8).map(|i| (i, 1, 16 * i + 15));
    low(128, 0, ring.chain(jumps))
}

/// As many random low steps as asked for.
pub fn dense(states: usize, steps: usize) -> Model {
    let mut rng = Rng::new(SEED);
    let mut all = BTreeSet::new();
    while all.len() < steps {
        let (p, a, q) = (rng.below(states), rng.below(3), rng.below(states));
        all.insert((p as u16, a as u16, q as u16));
    }
    low(states as u16, 0, all)
}

/// From each state a step of each of 8 actions to a random state; the last step is left out.
fn dense_deterministic() -> Model {
    let mut rng = Rng::new(SEED);
    let all = (0..128).flat_map(|p| (0..8).map(move |a| (p, a)));
    low(
        128,
        0,
        all.take(1_023).map(|(p, a)| (p, a, rng.below(128) as u16)),
    )
}

/// From each state a step of each of 8 actions to a random state, so that no two states are ever told apart.
fn all_alike() -> Model {
    let mut rng = Rng::new(SEED);
    let all = (0..127).flat_map(|p| (0..8).map(move |a| (p, a)));
    low(127, 0, all.map(|(p, a)| (p, a, rng.below(127) as u16)))
}

/// A till of 20 stages of a sale, its printer free or busy. Printing starts up to stage 10; at the last stage a busy
/// printer stops the display, which 9 scans and a look at the display show.
fn typical() -> Model {
    let actions = [
        (Level::Low, "scan"),
        (Level::Low, "show"),
        (Level::Low, "void"),
        (Level::High, "print"),
        (Level::Release, "close"),
    ];
    let steps = (0..40u16).flat_map(|here| {
        let (busy, stage) = (here / 20, here % 20);
        let possible = [
            (stage < 19, here + 1),
            (here < 39, here),
            (stage > 0, here.saturating_sub(1)),
            (busy == 0 && stage <= 10, here + 20),
            (true, 0),
        ];
        let steps = (0..).zip(possible).filter(|(_, (there, _))| *there);
        steps.map(move |(action, (_, target))| Step::new(here, action, target))
    });
    Model {
        states: 40,
        start: 0,
        extra_starts: Vec::new(),
        steps: steps.collect(),
        actions: actions
            .map(|(level, name)| Action {
                level,
                name: name.as_bytes().to_vec(),
            })
            .to_vec(),
    }
}

/// A ring of ticks, and from each state a step of each of 7 actions to a random state; the last step is left out. All
/// states are alike.
fn ring_of_ticks() -> Model {
    let mut rng = Rng::new(SEED);
    let all = (0..128).flat_map(|p| (0..7).map(move |a| (p, a)));
    ticking(
        128,
        0,
        all.take(895).map(|(p, a)| (p, a, rng.below(128) as u16)),
        (0..128).map(|i| (i, (i + 1) % 128)),
    )
}

/// From each state to the next, with each of 7 actions and with a tick.
fn chain_of_ticks_and_scans() -> Model {
    let on = |i| (0..7).map(move |a| (i, a, i + 1));
    let ticks = (0..127).map(|i| (i, i + 1));
    ticking(128, 0, (0..127).flat_map(on), ticks)
}

/// From each state to the next, by turns with each of 8 actions and with a tick.
fn tick_between_scans() -> Model {
    let on = |i| (0..8).map(move |a| (i, a, i + 1));
    let scans = (0..127).step_by(2).flat_map(on);
    ticking(128, 0, scans, (1..127).step_by(2).map(|i| (i, i + 1)))
}

/// The chain of 128 with 6 actions, and a tick from each state to itself.
fn chain_with_tick_loops() -> Model {
    with_ticks(chain(128, 6), (0..128).map(|i| (i, i)))
}

/// A chain of 112, and eight states with a tick to each of its states. A step leads from each of the eight to the next.
fn ticks_that_fan_out() -> Model {
    let chain = (0..111).chain(112..119).map(|i| (i, 0, i + 1));
    let ticks = (112..120).flat_map(|p| (0..112).map(move |q| (p, q)));
    ticking(120, 112, chain, ticks)
}

/// Two chains of 64 with 7 actions, and a tick from each state of the one to its like of the other.
fn ticks_across() -> Model {
    let on = |i| (0..7).map(move |a| (i, a, i + 1));
    let scans = (0..63).chain(64..127).flat_map(on);
    ticking(128, 0, scans, (0..64).map(|i| (i, i + 64)))
}

/// The chain of 128 with 7 actions, from its last state a step of its own action, and a tick from each state to the one
/// before it.
fn backward_ticks() -> Model {
    let on = |i| (0..7).map(move |a| (i, a, i + 1));
    let scans = (0..127).flat_map(on).chain([(127, 7, 127)]);
    ticking(128, 0, scans, (1..128).map(|i| (i, i - 1)))
}

/// The typical till with a timer that runs out in any state: a tick leads to a state beside it with the same steps, and
/// goes on there.
fn typical_with_ticks() -> Model {
    let till = typical();
    let beside = till.states;
    let late = |step: &Step| Step::new(step.source + beside, step.action, step.target);
    let steps = till.steps.iter().copied();
    let both = steps.chain(till.steps.iter().map(late)).collect();
    let ticks = (0..beside).flat_map(|i| [i, i + beside].map(|source| (source, i + beside)));
    let doubled = Model {
        states: 2 * beside,
        steps: both,
        ..till.clone()
    };
    with_ticks(doubled, ticks)
}

/// The chain of 128 with 3 actions, a tick from each state to the one before it, and from the last state a step of each
/// of 59 more actions to itself.
fn backward_ticks_of_62_actions() -> Model {
    let on = |i| (0..3).map(move |a| (i, a, i + 1));
    let own = (3..62).map(|a| (127, a, 127));
    let scans = (0..127).flat_map(on).chain(own);
    ticking(128, 0, scans, (1..128).map(|i| (i, i - 1)))
}

/// From each state to the next, with 7 of 62 actions in turn and with a tick.
fn chain_of_62_actions() -> Model {
    let on = |i: u16| (0..7).map(move |k| (i, (7 * i + k) % 62, i + 1));
    let ticks = (0..127).map(|i| (i, i + 1));
    ticking(128, 0, (0..127).flat_map(on), ticks)
}

/// Each model with its name.
pub fn shapes() -> Vec<(&'static str, Model)> {
    vec![
        ("chain of 128, 8 actions", chain(128, 8)),
        ("chain of 128, 1 action", chain(128, 1)),
        ("backward chain, 8 actions", backward_chain(128, 8)),
        ("backward chain, 1 action", backward_chain(128, 1)),
        ("two chains of 64", two_chains()),
        ("chain of 128 starts", with_all_starts(&chain(128, 8))),
        ("chain of 64 starts", chain_of_64_starts()),
        ("fan, 1 action", fan(true)),
        ("fan, 8 actions", fan(false)),
        ("on and back, 1 action", on_and_back(true)),
        ("on and back, 8 actions", on_and_back(false)),
        ("two states of 400 steps", two_wide_states()),
        ("two states of 63 steps", two_states_of_63_steps()),
        ("eight states of 115 steps", eight_wide_states()),
        ("64 states of 15 steps", states_of_15_targets()),
        ("ring with 8 jumps", ring_with_jumps()),
        ("dense random", dense(128, 1_023)),
        ("dense deterministic", dense_deterministic()),
        ("all alike", all_alike()),
        ("greatest roll", greatest_roll()),
        ("typical", typical()),
        ("ring of ticks", ring_of_ticks()),
        ("chain of ticks and scans", chain_of_ticks_and_scans()),
        ("tick between scans", tick_between_scans()),
        ("chain with tick loops", chain_with_tick_loops()),
        ("ticks that fan out", ticks_that_fan_out()),
        ("two chains with ticks across", ticks_across()),
        ("backward ticks", backward_ticks()),
        ("typical with ticks", typical_with_ticks()),
        ("backward ticks, 62 actions", backward_ticks_of_62_actions()),
        ("chain of ticks, 62 actions", chain_of_62_actions()),
        ("choices of ticks, 62 actions", choices_of_ticks()),
        ("deep choices of ticks, 62 actions", deep_choices_of_ticks()),
        ("zigzag of ticks, 62 actions", zigzag_of_ticks()),
    ]
}

/// The models with more sets than there is room for.
pub const NO_ROOM: [&str; 3] = [
    "choices of ticks, 62 actions",
    "deep choices of ticks, 62 actions",
    "zigzag of ticks, 62 actions",
];

/// What the names mean.
pub const LEGEND: &str = "\
Chain: from each state to the next; backward chain: to the one before it. Two chains of 64: with 8 actions, each state
alike to one of the other chain. Chain of 128 starts: that of 8 actions with 127 `I` lines, so that each state is a
start and Run's run is empty; it shows what the greatest number of starts takes by itself. Chain of 64 starts: that of 8
actions with 63 `I` lines, for its last states; only the start of line 1 leads to the 64 states before these, so that
Reach counts up to 64 and Run's run has 64 steps; it shows what many starts take where the way is long as well. Fan:
from i to i+1 up to i+8. On and back: from i to i+1 and to 0 up to 6. Two states of 400 steps: they lead to each state
of a chain of 100 with 4 actions; two of 63 steps: to states of such a chain, as wide as 64 actions allow without
branching; eight of 115 steps: to each state of a chain of 104 and to 11 states without steps; 64 of 15 steps: to every
fourth state of a chain of 64 but the last of these. Ring with 8 jumps: from each state to the next, from the last to 0,
and from 0 up to 7 elsewhere with a second action. Dense: 128 states, 1,023 random steps. All alike: from each state
with each of 8 actions to a random state, so that no two states are ever told apart. These have one high step, from the
start of line 1 to the state after it. Greatest roll: a ring with 7 or 9 actions from each state to the next, whose roll
has 832 lines; its leak is 127 steps from the start. Typical: a till of 20 stages of a sale, its printer free or busy,
40 states; its leak is 10 steps from the start.

The rest have ticks, and all but the typical one have one high step as well. Ring of ticks: a tick from each of 128
states to the next, from the last to 0, and 7 actions from each to random states; all states are alike. Chain of ticks
and scans: from each state to the next with 7 actions and with a tick. Tick between scans: from each state to the next,
by turns with 8 actions and with a tick. Chain with tick loops: that of 6 actions, with a tick from each state to
itself. Ticks that fan out: from each of eight states to each state of a chain of 112, and a step from each of the eight
to the next. Two chains with ticks across: two of 64 with 7 actions, and a tick from each state of the first to its like
of the second. Backward ticks: the chain of 7 actions with a tick from each state to the one before it, and a step of
its own action from the last state. Typical with ticks: the typical till with a timer that runs out in any state; a tick
leads to a state beside it with the same steps, and goes on there, 80 states. Of 62 actions: backward ticks with 3
actions from each state to the next and 59 more from the last state to itself; a chain of ticks and, from each state to
the next, 7 of the 62 in turn; choices of ticks, from each of 121 states to some of seven others, no two to the same
ones, from which the steps of all actions lead back, so that all states are alike; deep choices of ticks, the same of 45
states, with a chain of 76, which takes 75 rounds; zigzag of ticks, the same of 42 states, with a chain of 39, and 40
states that tick each to the next, to and fro between low numbers and high ones. These last three are the only models
with more sets than there is room for.
";
