//! Texts without a high action, alone and beside other faults (request (vi) of
//! document 02).

use std::collections::BTreeSet;

use super::pairs::bad_lines_at;
use super::{ends, join, lines_of, with_field, BadLine, Fault, Faults};
use crate::gen::Rng;
use crate::store::{Model, MOST_ACTIONS};
use crate::text::{Cause, TEXT};

pub(super) fn add(list: &mut Faults, model: &Model) {
    for levels in [&b"L"[..], b"D", b"LD", b"T", b"LT"] {
        let lines = without_high(list, levels);
        let place = list.last_action() + 1;
        list.add("no high action", join(&lines), Cause::NoHigh, place);
        bad_lines(list, model, &lines);
        text_ends(list, &lines);
        counts(list, model, &lines);
    }
    high_not_counted(list, model);
}

/// The lines of a text with these levels, in turn, in place of each H.
pub(super) fn without_high(list: &Faults, levels: &[u8]) -> Vec<Vec<u8>> {
    let mut lines = list.lines.to_vec();
    let mut levels = levels.iter().cycle();
    for line in &mut lines[1..list.first_start] {
        if line.starts_with(b"A,H,") {
            let level = levels.next().expect("a level");
            *line = with_field(line, 1, &[*level]);
        }
    }
    lines
}

/// A bad line of every kind besides.
fn bad_lines(list: &mut Faults, model: &Model, lines: &[Vec<u8>]) {
    for (index, line, cause) in ends::bad_lines(&Faults::new(lines, model), model) {
        let mut lines = lines.to_vec();
        lines[index] = line;
        let what = "no high action, and a bad line";
        list.beside(what, join(&lines), (index, cause));
    }
}

/// The text cut off around the last action's line, with bytes after its end, and
/// with too many of them.
fn text_ends(list: &mut Faults, lines: &[Vec<u8>]) {
    let (last, place) = (list.last_action(), list.last_action() + 1);
    let (actions, text) = (join(&lines[..=last]), join(lines));
    let what = "no high action, then nothing";
    list.add(what, actions.clone(), Cause::NoHigh, place);
    let what = "no high action, then a line that is not ended";
    let begun = [&actions[..], &lines[last + 1][..1]].concat();
    list.add(what, begun, Cause::NoHigh, place);
    list.add(what, text[..text.len() - 1].to_vec(), Cause::NoHigh, place);
    let what = "no high action, bytes after E";
    for bytes in [&b"x"[..], b"\n", b"A,H,high\n"] {
        let longer = [&text[..], bytes].concat();
        list.add(what, longer, Cause::NoHigh, place);
    }
    let what = "no high action, line not ended";
    let unended = actions[..actions.len() - 1].to_vec();
    list.add(what, unended, Cause::NoLine, place);
    let mut full = text;
    full.resize(TEXT, b'\n');
    list.add("no high action, full", full.clone(), Cause::NoHigh, place);
    full.push(b'\n');
    list.add("no high action, too long", full, Cause::TooLong, 0);
}

/// Line 1 says which `A` line is the last: the actions are one more or one fewer.
fn counts(list: &mut Faults, model: &Model, lines: &[Vec<u8>]) {
    let actions = model.actions.len();
    let counted = |count: usize| {
        let mut lines = lines.to_vec();
        lines[0] = with_field(&lines[0], 2, count.to_string().as_bytes());
        lines
    };
    if actions < MOST_ACTIONS {
        let mut lines = counted(actions + 1);
        let what = "no high action, an action too few";
        list.add(what, join(&lines), Cause::Letter, actions + 2);
        let what = "no high action, one more of them";
        let name = unused_name(model);
        lines.insert(actions + 1, format!("A,D,{name}").into_bytes());
        list.add(what, join(&lines), Cause::NoHigh, actions + 2);
    }
    if actions > 1 {
        let what = "no high action, an action too many";
        let lines = counted(actions - 1);
        list.add(what, join(&lines), Cause::NoHigh, actions);
    }
}

/// The only high action stands in a line more than line 1 counts.
fn high_not_counted(list: &mut Faults, model: &Model) {
    let mut lines = without_high(list, b"LD");
    let place = list.last_action() + 1;
    let high = format!("A,H,{}", unused_name(model));
    lines.insert(place, high.into_bytes());
    let what = "the high action is not counted";
    list.add(what, join(&lines), Cause::NoHigh, place);
}

/// A name that no action has.
fn unused_name(model: &Model) -> String {
    let used = |name: &String| {
        model
            .actions
            .iter()
            .any(|action| action.name == name.as_bytes())
    };
    let mut names = (0..=MOST_ACTIONS).map(|number| format!("more{number}"));
    names
        .find(|name| !used(name))
        .expect("more names than actions")
}

/// A text whose high actions have all become low or releases, in most cases with
/// another fault: a line with one cause or two, before the last action's, in it
/// or after it, or a text that ends too early or too late.
///
/// Its cause and its refusal are those that it must get: 35 at the last action's
/// line, unless the other fault comes first.
pub fn no_high_text(rng: &mut Rng, model: &Model) -> Fault {
    let any: Vec<u8> = (0..MOST_ACTIONS).map(|_| *rng.pick(b"LD")).collect();
    let levels = *rng.pick(&[&b"L"[..], b"D", &any]);
    with_levels(rng, model, levels)
}

/// The same, with silent actions too in place of the high ones.
pub fn no_high_tick_text(rng: &mut Rng, model: &Model) -> Fault {
    let any: Vec<u8> = (0..MOST_ACTIONS).map(|_| *rng.pick(b"LDT")).collect();
    let levels = *rng.pick(&[&b"T"[..], b"LT", b"TD", &any]);
    with_levels(rng, model, levels)
}

/// Such a text with these levels, in turn, in place of each H.
fn with_levels(rng: &mut Rng, model: &Model, levels: &[u8]) -> Fault {
    let good = lines_of(&model.to_text());
    let lines = without_high(&Faults::new(&good, model), levels);
    let mut list = Faults::new(&lines, model);
    let (last, end) = (list.last_action(), list.last);
    let index = match rng.below(10) {
        0..=2 => None,
        3 | 4 => Some(rng.below(last)),
        5..=7 => Some(last),
        8 => Some(last + 1),
        _ => Some(rng.between(last + 1, end)),
    };
    if let Some(index) = index {
        let (text, cause) = bad_line(rng, &list, model, index);
        list.beside("no high action, and a bad line", text, (index, cause));
    } else {
        let (what, text) = lines_left(rng, &list);
        list.add(what, text, Cause::NoHigh, last + 1);
    }
    list.faults.remove(0)
}

/// A bad line at an index. Each number that it can get is as frequent as any other.
fn bad_line(rng: &mut Rng, list: &Faults, model: &Model, index: usize) -> (Vec<u8>, Cause) {
    let bad = bad_lines_at(list, model, index);
    let numbers: BTreeSet<u16> = bad.iter().map(|bad| bad.fault.refusal.number).collect();
    let numbers: Vec<u16> = numbers.into_iter().collect();
    let number = *rng.pick(&numbers);
    let gets = |bad: &BadLine| bad.fault.refusal.number == number;
    let bad: Vec<BadLine> = bad.into_iter().filter(gets).collect();
    let Fault { text, cause, .. } = rng.pick(&bad).fault.clone();
    (text, cause)
}

/// All lines, those up to the last action's at least, or bytes after them.
fn lines_left(rng: &mut Rng, list: &Faults) -> (&'static str, Vec<u8>) {
    let text = join(list.lines);
    match rng.below(3) {
        0 => ("no high action", text),
        1 => {
            let left = rng.between(list.last_action(), list.last - 1);
            ("no high action, then nothing", join(&list.lines[..=left]))
        }
        _ => {
            let bytes = *rng.pick(&[&b"x"[..], b"\n", b"E\n", b"A,H,high\n"]);
            let longer = [&text[..], bytes].concat();
            ("no high action, bytes after E", longer)
        }
    }
}

impl Faults<'_> {
    /// A text without a high action that has a bad line besides, at an index. That
    /// line decides up to the last action's.
    fn beside(&mut self, what: &'static str, text: Vec<u8>, (index, cause): (usize, Cause)) {
        let last = self.last_action();
        let (cause, index) = match index <= last {
            true => (cause, index),
            false => (Cause::NoHigh, last),
        };
        self.add(what, text, cause, index + 1);
    }
}
