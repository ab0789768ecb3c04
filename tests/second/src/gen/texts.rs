//! Damaged texts.

mod changes;
mod ends;
mod fields;
mod high;
mod lines;
mod pairs;
mod starts;

pub use changes::{mutated_text, mutated_tick_text, scrap_text};
pub use high::{no_high_text, no_high_tick_text};
pub use pairs::{BadLine, Kind};

use std::collections::BTreeSet;

use super::some_of;
use crate::store::Model;
use crate::text::Cause;
use crate::Refusal;

/// A damaged text, why it is refused, and the refusal it must get.
#[derive(Debug, Clone)]
pub struct Fault {
    pub what: &'static str,
    pub text: Vec<u8>,
    pub cause: Cause,
    pub refusal: Refusal,
}

/// Each kind of fault, alone and beside others, at lines of each kind of a
/// model's text.
pub fn faults(model: &Model) -> Vec<Fault> {
    let lines = lines_of(&model.to_text());
    let mut list = Faults::new(&lines, model);
    lines::add(&mut list, model);
    fields::add(&mut list, model);
    starts::add(&mut list, model);
    high::add(&mut list, model);
    ends::add(&mut list, model);
    let bad_lines = pairs::bad_lines(&list, model);
    list.faults
        .extend(bad_lines.into_iter().map(|bad| bad.fault));
    list.faults
}

/// Each cause that a line can have, and each two that it can have together, at
/// lines of each kind of a model's text. All of them are among the faults.
pub fn bad_lines(model: &Model) -> Vec<BadLine> {
    let lines = lines_of(&model.to_text());
    pairs::bad_lines(&Faults::new(&lines, model), model)
}

/// The lines of a good text, and the faults made of them so far. Lines are
/// given by index, from 0; places of refusals count from 1.
struct Faults<'a> {
    lines: &'a [Vec<u8>],
    /// The first `I` line, or what stands after the last action.
    first_start: usize,
    /// The first step's line, or the last line if there is no step.
    first_step: usize,
    last: usize,
    faults: Vec<Fault>,
}

impl<'a> Faults<'a> {
    fn new(lines: &'a [Vec<u8>], model: &Model) -> Faults<'a> {
        Faults {
            lines,
            first_start: 1 + model.actions.len(),
            first_step: 1 + model.actions.len() + model.extra_starts.len(),
            last: lines.len() - 1,
            faults: Vec::new(),
        }
    }

    /// The line of the last action.
    fn last_action(&self) -> usize {
        self.first_start - 1
    }

    /// The first and the last line, and some of those between.
    fn everywhere(&self) -> BTreeSet<usize> {
        let mut everywhere = BTreeSet::from([0, self.last]);
        everywhere.extend(self.actions());
        everywhere.extend(self.starts());
        everywhere.extend(self.steps());
        everywhere
    }

    /// Some of the lines of actions.
    fn actions(&self) -> BTreeSet<usize> {
        some_of(1, self.first_start)
    }

    /// Some of the lines of extra starts.
    fn starts(&self) -> BTreeSet<usize> {
        some_of(self.first_start, self.first_step)
    }

    /// Some of the lines of steps.
    fn steps(&self) -> BTreeSet<usize> {
        some_of(self.first_step, self.last)
    }

    fn add(&mut self, what: &'static str, text: Vec<u8>, cause: Cause, place: usize) {
        let refusal = Refusal::new(cause.number(), place as u64);
        self.faults.push(Fault {
            what,
            text,
            cause,
            refusal,
        });
    }

    /// A fault of one line, at that line.
    fn line(&mut self, what: &'static str, index: usize, line: Vec<u8>, cause: Cause) {
        let mut lines = self.lines.to_vec();
        lines[index] = line;
        self.add(what, join(&lines), cause, index + 1);
    }

    /// A line with one field replaced.
    fn field(&mut self, what: &'static str, index: usize, field: usize, new: &[u8], cause: Cause) {
        let line = with_field(&self.lines[index], field, new);
        self.line(what, index, line, cause);
    }

    /// Why a field is refused that has bytes of no kind of field in it.
    fn wrong_field(&self, index: usize, field: usize) -> Cause {
        match (self.lines[index][0], field) {
            (_, 0) => Cause::Letter,
            (b'A', 1) => Cause::Level,
            (b'A', _) => Cause::Name,
            _ => Cause::Digits,
        }
    }
}

fn join(lines: &[Vec<u8>]) -> Vec<u8> {
    let mut text = Vec::new();
    for line in lines {
        text.extend_from_slice(line);
        text.push(b'\n');
    }
    text
}

fn lines_of(text: &[u8]) -> Vec<Vec<u8>> {
    let mut lines: Vec<Vec<u8>> = text.split(|&b| b == b'\n').map(<[u8]>::to_vec).collect();
    lines.pop();
    lines
}

fn fields_of(line: &[u8]) -> Vec<Vec<u8>> {
    line.split(|&b| b == b',').map(<[u8]>::to_vec).collect()
}

fn with_field(line: &[u8], index: usize, field: &[u8]) -> Vec<u8> {
    let mut fields = fields_of(line);
    fields[index] = field.to_vec();
    fields.join(&b","[..])
}
