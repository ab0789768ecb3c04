//! Faults of the fields of one kind of line, and of the order of steps.

use super::{fields_of, join, some_of, with_field, Faults};
use crate::store::{Action, Level, Model, Step, MOST_ACTIONS, MOST_STATES, MOST_STEPS};
use crate::text::Cause;

pub(super) fn add(list: &mut Faults, model: &Model) {
    head(list, model);
    counts(list, model);
    for index in list.actions() {
        action(list, index);
        for earlier in some_of(1, index) {
            name_used(list, earlier, index);
        }
    }
    for index in list.starts() {
        number(list, index, 1);
    }
    for index in list.steps() {
        step(list, model, index);
    }
    for index in some_of(list.first_step + 1, list.last) {
        order(list, model, index);
        falling(list, model, index);
    }
}

/// Number fields of wrong digit form.
const WRONG_DIGITS: &[&[u8]] = &[
    b"00",
    b"01",
    b"000",
    b"00001",
    b"000001",
    b"100000",
    b"999999",
    b"65536000",
    b"-1",
    b"+1",
    b"1.0",
    b"0x1",
    b"1e1",
    b" 1",
    b"1 ",
    b"a",
    b"A",
    b"1a",
    b"1\r",
    b"1\0",
    b"\xb2",
    b"1_0",
    b"18446744073709551616",
    b"/",
    b":",
];

fn number(list: &mut Faults, index: usize, field: usize) {
    for wrong in WRONG_DIGITS {
        list.field("wrong digit form", index, field, wrong, Cause::Digits);
    }
    let fields = fields_of(&list.lines[index]);
    let zero_first = [b"0", &fields[field][..]].concat();
    list.field("leading zero", index, field, &zero_first, Cause::Digits);
    // A field of wrong form is tested before one out of range.
    let last = fields.len() - 1;
    let other = if field == last { 1 } else { last };
    for large in [&b"99999"[..], b"65535", b"65536", b"65537", b"70000"] {
        list.field("out of range", index, field, large, Cause::Range);
        let line = with_field(&list.lines[index], field, large);
        let what = "digits and range";
        list.line(what, index, with_field(&line, other, b"x"), Cause::Digits);
        list.line(what, index, [&line[..], b"\r"].concat(), Cause::Digits);
        let longer = [&line[..], b","].concat();
        list.line("field count and range", index, longer, Cause::FieldCount);
    }
}

fn digits(number: usize) -> Vec<u8> {
    number.to_string().into_bytes()
}

/// Numbers of the first line outside their ranges.
fn head(list: &mut Faults, model: &Model) {
    for field in 1..=4 {
        number(list, 0, field);
    }
    for (field, most) in [(1, MOST_STATES), (2, MOST_ACTIONS), (3, MOST_STEPS)] {
        let more = digits(most + 1);
        list.field("just too many", 0, field, &more, Cause::Range);
    }
    let (states, start) = (usize::from(model.states), usize::from(model.start));
    for (what, field, new) in [
        ("no states", 1, digits(0)),
        ("no actions", 2, digits(0)),
        ("start not below states", 4, digits(states)),
        ("start not below states", 4, digits(128)),
        ("states not above start", 1, digits(start)),
    ] {
        list.field(what, 0, field, &new, Cause::Range);
    }
    let unended = with_field(&list.lines[0], 1, b"200");
    list.add("no line end", unended, Cause::NoLine, 1);
}

/// Counts inside their range that do not fit the lines.
fn counts(list: &mut Faults, model: &Model) {
    let (actions, steps) = (model.actions.len(), model.steps.len());
    if actions < MOST_ACTIONS {
        let what = "an action too few";
        list.counted(what, (2, actions + 1), Cause::Letter, actions + 2);
    }
    if actions > 1 {
        // Whether a high action is left.
        let is_high = |action: &Action| action.level == Level::High;
        let (cause, place) = match model.actions[..actions - 1].iter().any(is_high) {
            true => (Cause::Letter, actions + 1),
            false => (Cause::NoHigh, actions),
        };
        list.counted("an action too many", (2, actions - 1), cause, place);
    }
    let before_steps = actions + model.extra_starts.len();
    let end = before_steps + steps;
    if steps < MOST_STEPS {
        list.counted("a step too few", (3, steps + 1), Cause::Letter, end + 2);
    }
    if steps > 0 {
        list.counted("a step too many", (3, steps - 1), Cause::Letter, end + 1);
    }
    let fewer = model.states - 1;
    if model.start < fewer {
        if let Some(line) = first_outside(model, fewer) {
            let counted = (1, usize::from(fewer));
            let what = "a state too many";
            list.counted(what, counted, Cause::Range, actions + 2 + line);
        }
    }
}

/// Of the lines after the actions, the first with a state that so many states
/// leave out.
fn first_outside(model: &Model, states: u16) -> Option<usize> {
    let outside = |step: &Step| step.source >= states || step.target >= states;
    let starts = model.extra_starts.iter().map(|&start| start >= states);
    let steps = model.steps.iter().map(outside);
    starts.chain(steps).position(|outside| outside)
}

/// Levels that there are not.
const WRONG_LEVELS: [&[u8]; 16] = [
    b"l", b"d", b"h", b"t", b"M", b"A", b"0", b"3", b"LL", b"LH", b"LT", b"TT", b" L", b"L ",
    b"\0", b"\xcc",
];

/// Names with a byte that no name has, or with too many.
const WRONG_NAMES: [&[u8]; 18] = [
    b"thirteenbytes",
    b"Scan",
    b"scaN",
    b"sc an",
    b"sc_an",
    b"sc-an",
    b"sc.an",
    b"scan\r",
    b"scan\0",
    b"\0",
    b"sc\xe4n",
    b"`",
    b"{",
    b"/",
    b":",
    b"@",
    b"[",
    b"a name of far more than twelve bytes",
];

fn action(list: &mut Faults, index: usize) {
    for level in WRONG_LEVELS {
        list.field("wrong level", index, 1, level, Cause::Level);
    }
    for name in WRONG_NAMES {
        list.field("wrong name", index, 2, name, Cause::Name);
    }
}

/// An action with the name of an earlier one.
fn name_used(list: &mut Faults, earlier: usize, index: usize) {
    let name = fields_of(&list.lines[earlier])[2].clone();
    list.field("name used before", index, 2, &name, Cause::NameUsed);
    let line = with_field(&list.lines[index], 2, &name);
    let wrong_level = with_field(&line, 1, b"X");
    list.line("level and name used", index, wrong_level, Cause::Level);
    let longer = [&line[..], b","].concat();
    list.line(
        "field count and name used",
        index,
        longer,
        Cause::FieldCount,
    );
    let what = "name used, then a wrong letter";
    list.line_and_end(what, index, line, Cause::NameUsed);
}

fn step(list: &mut Faults, model: &Model, index: usize) {
    let (states, actions) = (usize::from(model.states), model.actions.len());
    for field in 1..=3 {
        number(list, index, field);
    }
    for (field, outside) in [(1, states), (2, actions), (3, states)] {
        let outside = digits(outside);
        list.field("just outside", index, field, &outside, Cause::Range);
    }
    let line = with_field(&list.lines[index], 3, b"99999");
    let what = "range, then a wrong letter";
    list.line_and_end(what, index, line, Cause::Range);
}

/// A step not above the one before it.
fn order(list: &mut Faults, model: &Model, index: usize) {
    let mut lines = list.lines.to_vec();
    lines.swap(index - 1, index);
    list.add("steps swapped", join(&lines), Cause::Order, index + 1);
    let before = list.lines[index - 1].clone();
    let what = "step equal to the one before";
    list.line(what, index, before.clone(), Cause::Order);

    // A step that falls is out of range besides, or of wrong form.
    let outside = digits(usize::from(model.states));
    let first = with_field(&list.lines[list.first_step], 3, &outside);
    let lowest = with_field(&first, 1, b"0");
    list.line("range and order", index, lowest, Cause::Range);
    let zeros = with_field(&before, 3, b"00");
    list.line("digits and order", index, zeros, Cause::Digits);
    let longer = [&before[..], b",0"].concat();
    list.line("field count and order", index, longer, Cause::FieldCount);
}

/// A step below the one before it, in the first number that differs.
fn falling(list: &mut Faults, model: &Model, index: usize) {
    let Step {
        source,
        action,
        target,
    } = model.steps[index - list.first_step - 1];
    let (last_action, highest) = (model.actions.len() as u16 - 1, model.states - 1);
    let mut lower = Vec::new();
    if source > 0 {
        lower.push(("source falls", source - 1, last_action, highest));
    }
    if action > 0 {
        lower.push(("action falls", source, action - 1, highest));
    }
    if target > 0 {
        lower.push(("target falls", source, action, target - 1));
    }
    for (what, source, action, target) in lower {
        let line = format!("S,{source},{action},{target}").into_bytes();
        list.line(what, index, line, Cause::Order);
    }
}

impl Faults<'_> {
    /// Another count in a field of the first line.
    fn counted(
        &mut self,
        what: &'static str,
        (field, count): (usize, usize),
        cause: Cause,
        place: usize,
    ) {
        let mut lines = self.lines.to_vec();
        lines[0] = with_field(&lines[0], field, &digits(count));
        self.add(what, join(&lines), cause, place);
    }

    /// A bad line, which decides, and a wrong letter in the last line.
    fn line_and_end(&mut self, what: &'static str, index: usize, line: Vec<u8>, cause: Cause) {
        let mut lines = self.lines.to_vec();
        lines[index] = line;
        lines[self.last] = b"e".to_vec();
        self.add(what, join(&lines), cause, index + 1);
    }
}
