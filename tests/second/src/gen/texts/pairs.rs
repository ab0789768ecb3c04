//! Each cause that a line can have, and each two that it can have together.

use std::iter;
use std::ops::Range;

use super::high::without_high;
use super::starts::before_start;
use super::{fields_of, join, Fault, Faults};
use crate::store::{Model, Step, MOST_ACTIONS, MOST_STEPS};
use crate::text::Cause;
use crate::Refusal;

/// A kind of line.
#[derive(Debug, Clone, Copy, PartialEq, Eq, PartialOrd, Ord, Hash)]
pub enum Kind {
    Model,
    Action,
    Start,
    Step,
    End,
    /// What stands after `E`.
    AfterEnd,
}

/// A text with one bad line, which has one cause or two.
#[derive(Debug, Clone)]
pub struct BadLine {
    pub kind: Kind,
    /// The text, and the cause told.
    pub fault: Fault,
    /// The other cause in the line, which is tested later.
    pub also: Option<Cause>,
    /// The text without the cause told. It gets the other one at the same
    /// line, and is good if there is no other.
    pub mended: Vec<u8>,
}

pub(super) fn bad_lines(list: &Faults, model: &Model) -> Vec<BadLine> {
    let mut bad = Vec::new();
    for index in list.everywhere() {
        bad.extend(bad_lines_at(list, model, index));
    }
    bad.extend(after_end(list));
    bad
}

/// Those at one line.
pub(super) fn bad_lines_at(list: &Faults, model: &Model, index: usize) -> Vec<BadLine> {
    let mut bad = Vec::new();
    let damages = damages(list, model, index);
    for one in &damages {
        bad.push(bad_line(list, index, one, None));
        let together = |other: &&Damage| other.cause > one.cause && !other.overlaps(one);
        for other in damages.iter().filter(together) {
            bad.push(bad_line(list, index, one, Some(other)));
        }
    }
    bad
}

/// A change to a line that brings in one cause: other fields in place of these,
/// of which the letter is field 0. Without its line end the line has the same
/// fields, but the text ends with it. Without a high action it has the same
/// fields but for its level, and the other levels of the text are changed too.
struct Damage {
    cause: Cause,
    fields: Range<usize>,
    new: Vec<Vec<u8>>,
    /// In place of each H of the text.
    level: Option<u8>,
}

impl Damage {
    fn new(cause: Cause, fields: Range<usize>, new: &[&[u8]]) -> Damage {
        let new = new.iter().map(|field| field.to_vec()).collect();
        let level = None;
        Damage {
            cause,
            fields,
            new,
            level,
        }
    }

    /// Another level in place of each high one.
    fn no_high(level: u8) -> Damage {
        Damage {
            level: Some(level),
            ..Damage::new(Cause::NoHigh, 1..1, &[])
        }
    }

    /// Other bytes in one field.
    fn field(cause: Cause, field: usize, new: &[u8]) -> Damage {
        Damage::new(cause, field..field + 1, &[new])
    }

    /// Two changes to one field do not stand together.
    fn overlaps(&self, other: &Damage) -> bool {
        self.fields.start < other.fields.end && other.fields.start < self.fields.end
    }
}

/// At least one change for each cause that a line can have.
fn damages(list: &Faults, model: &Model, index: usize) -> Vec<Damage> {
    let line = &list.lines[index];
    let count = fields_of(line).len();
    let mut damages = vec![
        Damage::new(Cause::NoLine, count..count, &[]),
        Damage::field(Cause::Letter, 0, b"X"),
        Damage::new(Cause::FieldCount, count..count, &[b"0"]),
    ];
    if count > 1 {
        damages.push(Damage::new(Cause::FieldCount, count - 1..count, &[]));
    }
    match kind(line) {
        Kind::Model => damages.extend(numbers(index, &outside_head())),
        Kind::Action => damages.extend(action(list, index)),
        Kind::Start => damages.extend(start(list, model, index)),
        Kind::Step => {
            damages.extend(numbers(index, &outside_step(model)));
            if index > list.first_step {
                let before = model.steps[index - list.first_step - 1];
                damages.push(not_above(before));
            }
        }
        Kind::End | Kind::AfterEnd => {}
    }
    damages
}

/// The kind of a line of a good text.
fn kind(line: &[u8]) -> Kind {
    match line[0] {
        b'M' => Kind::Model,
        b'A' => Kind::Action,
        b'I' => Kind::Start,
        b'S' => Kind::Step,
        _ => Kind::End,
    }
}

/// Fields that aren't 1 to 5 digits without a leading zero.
const BAD_DIGITS: [&[u8]; 7] = [b"", b"100000", b"01", b"-1", b" 1", b"1a1", b"000001"];

/// Bad digits in each number field of a line, and each number outside its
/// range. The forms of bad digits take turns.
fn numbers(index: usize, outside: &[usize]) -> Vec<Damage> {
    let mut damages = Vec::new();
    for (field, outside) in iter::zip(1.., outside) {
        let bad = BAD_DIGITS[(index + field) % BAD_DIGITS.len()];
        damages.push(Damage::field(Cause::Digits, field, bad));
        let outside = outside.to_string();
        damages.push(Damage::field(Cause::Range, field, outside.as_bytes()));
    }
    damages
}

/// Numbers of the first line outside their ranges, whatever the others are.
fn outside_head() -> [usize; 4] {
    [0, MOST_ACTIONS + 1, MOST_STEPS + 1, 99_999]
}

/// Numbers of a step outside their ranges.
fn outside_step(model: &Model) -> [usize; 3] {
    [usize::from(model.states), model.actions.len(), 99_999]
}

/// A wrong level, a wrong name, and the name of the first action. In the last
/// action's line also what is told if no action is high.
fn action(list: &Faults, index: usize) -> Vec<Damage> {
    let mut damages = vec![
        Damage::field(Cause::Level, 1, b"X"),
        Damage::field(Cause::Name, 2, b"Scan"),
    ];
    if index > 1 {
        let name = &fields_of(&list.lines[1])[2];
        damages.push(Damage::field(Cause::NameUsed, 2, name));
    }
    if index == list.last_action() {
        damages.extend([b'L', b'D'].map(Damage::no_high));
    }
    damages
}

/// A letter field that only begins with the letter, bad digits, a number outside
/// its range, and the start that the line must be above.
fn start(list: &Faults, model: &Model, index: usize) -> Vec<Damage> {
    let mut damages = vec![Damage::field(Cause::Letter, 0, b"IX")];
    damages.extend(numbers(index, &[usize::from(model.states)]));
    let before = before_start(list, model, index).to_string();
    let not_above = Damage::field(Cause::StartOrder, 1, before.as_bytes());
    damages.push(not_above);
    damages
}

/// As few first fields as make a step not above the one before it, so that the
/// fields left may hold what they like.
fn not_above(before: Step) -> Damage {
    let Step {
        source,
        action,
        target,
    } = before;
    let first = match (source, action) {
        (0, 0) => vec![0, 0, target],
        (0, _) => vec![0, action - 1],
        _ => vec![source - 1],
    };
    let fields: Vec<String> = first.iter().map(u16::to_string).collect();
    let fields: Vec<&[u8]> = fields.iter().map(|field| field.as_bytes()).collect();
    Damage::new(Cause::Order, 1..fields.len() + 1, &fields)
}

/// The line with one change or two, of which the first brings in the cause
/// that is told.
fn bad_line(list: &Faults, index: usize, told: &Damage, also: Option<&Damage>) -> BadLine {
    let (what, mended) = match also {
        None => ("one cause", changed(list, index, &[])),
        Some(also) => ("two causes in a line", changed(list, index, &[also])),
    };
    let both: Vec<&Damage> = iter::once(told).chain(also).collect();
    BadLine {
        kind: kind(&list.lines[index]),
        fault: Fault {
            what,
            text: changed(list, index, &both),
            cause: told.cause,
            refusal: Refusal::new(told.cause.number(), index as u64 + 1),
        },
        also: also.map(|damage| damage.cause),
        mended,
    }
}

/// The text with a line changed so.
fn changed(list: &Faults, index: usize, damages: &[&Damage]) -> Vec<u8> {
    let mut lines = match damages.iter().find_map(|damage| damage.level) {
        Some(level) => without_high(list, &[level]),
        None => list.lines.to_vec(),
    };
    let mut fields = fields_of(&lines[index]);
    let mut damages = damages.to_vec();
    // From the last field on, so that the others keep their numbers.
    damages.sort_by_key(|damage| damage.fields.start);
    for damage in damages.iter().rev() {
        fields.splice(damage.fields.clone(), damage.new.clone());
    }
    lines[index] = fields.join(&b","[..]);
    if damages.iter().any(|damage| damage.cause == Cause::NoLine) {
        let mut text = join(&lines[..=index]);
        text.pop();
        return text;
    }
    join(&lines)
}

/// Bytes after `E`, with a line end and without.
fn after_end(list: &Faults) -> Vec<BadLine> {
    let good = join(list.lines);
    let bad_line = |bytes: &[u8]| BadLine {
        kind: Kind::AfterEnd,
        fault: Fault {
            what: "bytes after E",
            text: [&good[..], bytes].concat(),
            cause: Cause::AfterEnd,
            refusal: Refusal::new(Cause::AfterEnd.number(), list.last as u64 + 2),
        },
        also: None,
        mended: good.clone(),
    };
    [
        &b"\n"[..],
        b"x",
        b"x\n",
        b"E",
        b"E\n",
        b"S,x,99999\n",
        b"I,1\n",
    ]
    .map(bad_line)
    .to_vec()
}
