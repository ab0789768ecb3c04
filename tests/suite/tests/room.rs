//! Moves that are held as sets of states, and those that have no room. Which of the models at the limits have room is
//! counted here; the tests of ticks and of their books take them through every operation and the programs.
use std::collections::BTreeSet;

use second::gen;
use second::moves::States;
use second::{Level, Model};

/// The sets that the archive has, of which one is the empty one: more different ones can never be held. It looks before
/// each label whether there are 256 left, for the targets and the sources of each state: fewer are held even if none is
/// shared.
const SETS: usize = 2_432;
const MOST: usize = SETS - 1;
const ENOUGH: usize = SETS - 256;

/// A step in the direction that is looked at, by its level: the state that it leaves, its action and where it leads.
struct Steps {
    low: Vec<(usize, u16, usize)>,
    silent: Vec<(usize, usize)>,
}

impl Steps {
    /// The steps of a model, turned round or not.
    fn of(model: &Model, turned: bool) -> Steps {
        let mut steps = Steps {
            low: Vec::new(),
            silent: Vec::new(),
        };
        for step in &model.steps {
            let ends = [step.source, step.target].map(usize::from);
            let [from, to] = if turned { [ends[1], ends[0]] } else { ends };
            match model.level(step.action) {
                Level::Low => steps.low.push((from, step.action, to)),
                Level::Silent => steps.silent.push((from, to)),
                _ => {}
            }
        }
        steps
    }

    /// Where each state comes silently: to itself, and on from there.
    fn silently(&self, states: usize) -> Vec<States> {
        let mut reached: Vec<States> = (0..states).map(|state| 1 << state).collect();
        loop {
            let before = reached.clone();
            for &(from, to) in &self.silent {
                reached[from] |= reached[to];
            }
            if reached == before {
                return reached;
            }
        }
    }

    /// Where the moves of each state lead, silently and with each action. No set is empty.
    fn sets(&self, states: usize) -> Vec<States> {
        let reached = self.silently(states);
        let mut sets = reached.clone();
        let actions: BTreeSet<u16> = self.low.iter().map(|step| step.1).collect();
        for action in actions {
            for &first in &reached {
                let goes = |&&(from, other, _): &&(usize, u16, usize)| {
                    other == action && first >> from & 1 == 1
                };
                let steps = self.low.iter().filter(goes);
                let set = steps.fold(0, |set, &(_, _, to)| set | reached[to]);
                sets.extend((set != 0).then_some(set));
            }
        }
        sets
    }
}

/// How many sets of targets and of sources the moves of a model have, and how many of them differ.
fn counted(model: &Model) -> (usize, usize) {
    let sets = [false, true].map(|turned| {
        let steps = Steps::of(model, turned);
        steps.sets(usize::from(model.states))
    });
    let sets = sets.concat();
    let different: BTreeSet<&States> = sets.iter().collect();
    (sets.len(), different.len())
}

/// Three models at the limits have no room, of which one is deep, and in one silent moves are long; another has room
/// even if nothing is shared.
#[test]
fn room_for_sets() {
    let code = include_str!("../../../crates/held/src/lib.rt");
    assert!(code.contains(&format!("pub const POOL_SETS: u16 = {SETS};")));
    let mut rng = gen::seeded("room::room_for_sets", 8_600);
    let models = gen::tick_limit_models(&mut rng);
    let of = |name: &str| {
        let (_, model) = models.iter().find(|(what, _)| *what == name).expect(name);
        let rounds = second::rank(&model.to_store(), &mut [0; second::store::TABLE]);
        (counted(model), rounds.expect("a good store"))
    };
    let ((_, different), rounds) = of("choices of ticks");
    assert!(different > MOST && rounds == 0, "{different} {rounds}");
    let ((_, different), rounds) = of("deep choices of ticks");
    assert!(different > MOST && rounds > 70, "{different} {rounds}");
    let ((_, different), rounds) = of("zigzag of ticks");
    assert!(different > MOST && rounds > 35, "{different} {rounds}");
    let ((all, different), rounds) = of("fewer choices of ticks");
    assert!((ENOUGH - 64..=ENOUGH).contains(&all), "{all}");
    assert!(different > 1_500 && rounds > 50, "{different} {rounds}");
}
