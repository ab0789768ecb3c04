//! The answers of Judge and Word on a deterministic model, as far as they speak
//! of sequences.

use super::interference::{Deterministic, Interference};
use super::sequences::{is_low, joined, possible, thin};
use super::{demand, Check};
use crate::store::Step;
use crate::{End, Verdict};

impl Deterministic<'_> {
    /// Judge's answer, as far as it speaks of sequences.
    pub fn verdict_holds(&self, verdict: Verdict) -> Check {
        let interference = self.interference();
        if let Some(found) = &interference {
            self.interferes(found)?;
        }
        match verdict {
            Verdict::Passed { .. } => self.passed_holds(interference),
            Verdict::Refused { step, depth } => {
                demand(interference.is_some(), || {
                    "refused, but no sequence interferes".to_string()
                })?;
                self.refused_holds(step, depth)
            }
        }
    }

    /// Passed: each sequence possible from a start and its thinned form, which
    /// is possible from there too, end in states that allow the same low
    /// sequences; and so do the two ends of each reachable high step.
    fn passed_holds(&self, interference: Option<Interference>) -> Check {
        demand(interference.is_none(), || {
            format!("passed, but {interference:?}")
        })?;
        for (number, source, target) in self.high_steps() {
            let shortest = self.shortest_difference(source, target);
            demand(shortest.is_none(), || {
                format!("passed, but the ends of step {number} differ at {shortest:?}")
            })?;
        }
        Ok(())
    }

    /// Refused, beside some sequence that interferes: every low sequence
    /// possible from just one end of any reachable high step has at least as
    /// many actions as the depth; the depth is reached at the step told, and
    /// at no reachable high step before it.
    fn refused_holds(&self, step: u16, depth: u16) -> Check {
        demand(usize::from(step) < self.model.steps.len(), || {
            format!("no step {step}")
        })?;
        let depth = usize::from(depth);
        let mut told = false;
        for (number, source, target) in self.high_steps() {
            let Some(shortest) = self.shortest_difference(source, target) else {
                continue;
            };
            demand(shortest >= depth, || {
                format!("the ends of step {number} differ before the depth")
            })?;
            demand(shortest > depth || number >= step, || {
                format!("step {number} comes before the step told")
            })?;
            told = told || (number == step && shortest == depth);
        }
        demand(told, || format!("step {step} does not have depth {depth}"))
    }

    /// Checks a found interference against the definitions.
    fn interferes(&self, found: &Interference) -> Check {
        let (model, start) = (self.model, found.start);
        let thinned = thin(model, &found.sequence);
        demand(model.starts().contains(&start), || {
            format!("no start: {found:?}")
        })?;
        demand(found.low.iter().all(|&a| is_low(model, a)), || {
            format!("not low: {found:?}")
        })?;
        demand(possible(model, start, &found.sequence), || {
            format!("not possible: {found:?}")
        })?;
        let full_goes_on = possible(model, start, &joined(&found.sequence, &found.low));
        let thinned_goes_on = possible(model, start, &joined(&thinned, &found.low));
        demand(full_goes_on != thinned_goes_on, || {
            format!("no interference: {found:?}")
        })
    }

    /// Word's answer for the step and depth that Judge told.
    pub fn word_holds(&self, step: u16, depth: u16, word: &[u16], end: End) -> Check {
        let model = self.model;
        let Some(&step) = model.steps.get(usize::from(step)) else {
            return Err(format!("no step {step}"));
        };
        let (source, target) = (step.source, step.target);
        demand(word.len() == usize::from(depth), || {
            format!("the word {word:?} is not as long as the depth {depth}")
        })?;
        demand(word.iter().all(|&action| is_low(model, action)), || {
            format!("the word {word:?} is not low")
        })?;
        let allows = (possible(model, source, word), possible(model, target, word));
        let told = (end == End::Source, end == End::Target);
        demand(allows == told, || {
            format!("ends allowing {word:?}: {allows:?}, told {end:?}")
        })?;
        demand(
            self.shortest_difference(source, target) == Some(word.len()),
            || format!("the word {word:?} is not a shortest one"),
        )?;
        self.nothing_before(source, target, word)?;
        self.word_tells(step, word)
    }

    /// From each start that leads to the source, and there is one, the word
    /// tells of interference.
    fn word_tells(&self, step: Step, word: &[u16]) -> Check {
        let mut told = false;
        for start in self.model.starts() {
            if let Some(run) = self.sequence_to(start, step.source) {
                self.word_tells_from(start, &run, step, word)?;
                told = true;
            }
        }
        demand(told, || format!("{step:?} is reachable from no start"))
    }

    /// A run to the source, with and without the high step, has one thinned
    /// form, which begins in the same start. The word can follow just one of
    /// the two, so it tells one of them from the thinned form.
    fn word_tells_from(&self, start: u16, run: &[u16], step: Step, word: &[u16]) -> Check {
        let model = self.model;
        let longer = joined(run, &[step.action]);
        demand(thin(model, run) == thin(model, &longer), || {
            "the high step is not thinned out".to_string()
        })?;
        let tells = |sequence: &[u16]| {
            let whole = joined(sequence, word);
            possible(model, start, &whole) != possible(model, start, &thin(model, &whole))
        };
        demand(tells(run) != tells(&longer), || {
            format!("the word {word:?} tells of no interference from {start}")
        })
    }

    /// Checks that no other low sequence of the word's length that is possible
    /// from just one of two states comes before it by action numbers.
    fn nothing_before(&self, source: u16, target: u16, word: &[u16]) -> Check {
        let (mut p, mut q) = (source, target);
        for (index, &letter) in word.iter().enumerate() {
            let left = word.len() - index - 1;
            for &lower in self.low.iter().filter(|&&action| action < letter) {
                let earlier = match (self.after(p, lower), self.after(q, lower)) {
                    (Some(p), Some(q)) => self.shortest_difference(p, q).is_some_and(|n| n <= left),
                    (None, None) => false,
                    _ => true,
                };
                demand(!earlier, || {
                    format!("a sequence before {word:?} has {lower} at {index}")
                })?;
            }
            match (self.after(p, letter), self.after(q, letter)) {
                (Some(next_p), Some(next_q)) => (p, q) = (next_p, next_q),
                _ => break,
            }
        }
        Ok(())
    }
}
