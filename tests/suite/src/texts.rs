//! Texts with every fault.
use second::gen::{self, Fault, Rng};
use second::Model;
use std::collections::BTreeSet;

/// Models of every kind whose texts are to be damaged: random ones, the longest of one start, two with no step, one of
/// them with 128 starts, and one with a single state.
pub fn models_to_damage(rng: &mut Rng, random: usize) -> Vec<Model> {
    let mut models = vec![gen::chain(2)];
    let limits = [
        "longest text",
        "no steps",
        "one state",
        "all starts, no steps",
    ];
    for (what, model) in gen::limit_models(rng) {
        if limits.contains(&what) {
            models.push(model);
        }
    }
    models.extend((0..random).map(|_| gen::any_model(rng)));
    models
}

/// Of every kind of fault and every cause at every kind of line, one that is picked at random.
pub fn one_of_each(rng: &mut Rng, model: &Model) -> Vec<Fault> {
    let faults = gen::faults(model);
    let text = model.to_text();
    let letters: Vec<u8> = text.split(|&b| b == b'\n').map(letter).collect();
    let mut seen = BTreeSet::new();
    let mut picked = Vec::new();
    for index in rng.order(faults.len()) {
        let fault = &faults[index];
        let line = match fault.refusal.place {
            0 => None,
            place => letters.get(place as usize - 1),
        };
        if seen.insert((fault.what, fault.cause, line)) {
            picked.push(fault.clone());
        }
    }
    picked
}

/// The letter that a line begins with; 0 after the last line.
fn letter(line: &[u8]) -> u8 {
    line.first().copied().unwrap_or(0)
}
