//! Faults of `I` lines: their numbers, their order, and where they stand
//! (request (iii) of document 02).

use super::{join, with_field, Faults};
use crate::store::Model;
use crate::text::Cause;

pub(super) fn add(list: &mut Faults, model: &Model) {
    for index in list.starts() {
        start(list, model, index);
        not_above(list, model, index);
        list.doubled("start line twice", index, Cause::StartOrder, index + 2);
    }
    for index in list.starts() {
        if index > list.first_start {
            let mut lines = list.lines.to_vec();
            lines.swap(index - 1, index);
            list.add("starts swapped", join(&lines), Cause::StartOrder, index + 1);
        }
    }
    past_the_last(list, model);
    first_lines_start(list, model);
    elsewhere(list, model);
}

/// The start that the `I` line at an index must be above.
pub(super) fn before_start(list: &Faults, model: &Model, index: usize) -> u16 {
    model.starts()[index - list.first_start]
}

/// A line that begins with `I` and has no such letter field, and a state just
/// outside.
fn start(list: &mut Faults, model: &Model, index: usize) {
    let state = model.extra_starts[index - list.first_start];
    for wrong in ["II", "IX", "I ", "I0", "I\0", "I;"] {
        let line = format!("{wrong},{state}").into_bytes();
        list.line("letter field", index, line, Cause::Letter);
    }
    for field in [model.states, 128] {
        let field = field.to_string();
        list.field("just outside", index, 1, field.as_bytes(), Cause::Range);
    }
}

/// Equal to the start before it, just below that one, and the lowest state.
fn not_above(list: &mut Faults, model: &Model, index: usize) {
    let before = before_start(list, model, index);
    for state in [before, before.saturating_sub(1), 0] {
        let field = state.to_string();
        let what = "start not above the one before";
        list.field(what, index, 1, field.as_bytes(), Cause::StartOrder);
        let line = format!("I,{state},0").into_bytes();
        let what = "field count and start order";
        list.line(what, index, line, Cause::FieldCount);
        let line = format!("I,0{state}").into_bytes();
        list.line("digits and start order", index, line, Cause::Digits);
    }
}

/// A further line after the last: no state is left for it, or it is not above.
fn past_the_last(list: &mut Faults, model: &Model) {
    let index = list.first_step;
    let last = *model.starts().last().expect("a start");
    for (state, cause) in [
        (model.states, Cause::Range),
        (128, Cause::Range),
        (last, Cause::StartOrder),
        (0, Cause::StartOrder),
        (model.start, Cause::StartOrder),
    ] {
        let line = format!("I,{state}");
        list.inserted("further start", index, &line, cause);
    }
    for (line, cause) in [
        ("I", Cause::FieldCount),
        ("I,", Cause::Digits),
        ("I,,", Cause::FieldCount),
        ("IX,3", Cause::Letter),
        ("I3", Cause::Letter),
        ("i,3", Cause::Letter),
    ] {
        list.inserted("further start, wrong form", index, line, cause);
    }
    let before = join(&list.lines[..index]);
    for begun in [&b"I"[..], b"I,", b"I,0", b"I,99999", b"IX,0", b"I,0,0"] {
        let cut = [&before[..], begun].concat();
        list.add("start not ended", cut, Cause::NoLine, index + 1);
    }
}

/// A start in line 1 that the first `I` line is not above.
fn first_lines_start(list: &mut Faults, model: &Model) {
    let Some(&first) = model.extra_starts.first() else {
        return;
    };
    for start in [first, model.states - 1] {
        let mut lines = list.lines.to_vec();
        lines[0] = with_field(&lines[0], 4, start.to_string().as_bytes());
        let place = list.first_start + 1;
        list.add(
            "line 1's start above",
            join(&lines),
            Cause::StartOrder,
            place,
        );
    }
}

/// An `I` line before the first line or an action, or after a step, where none
/// may stand.
fn elsewhere(list: &mut Faults, model: &Model) {
    let state = model.states - 1;
    let line = format!("I,{state}");
    let mut places = list.actions();
    places.insert(0);
    places.extend(list.steps().into_iter().map(|index| index + 1));
    for index in places {
        list.inserted("start elsewhere", index, &line, Cause::Letter);
    }
}

impl Faults<'_> {
    /// A line put in before the one at an index, and refused.
    fn inserted(&mut self, what: &'static str, index: usize, line: &str, cause: Cause) {
        let mut lines = self.lines.to_vec();
        lines.insert(index, line.as_bytes().to_vec());
        self.add(what, join(&lines), cause, index + 1);
    }
}
