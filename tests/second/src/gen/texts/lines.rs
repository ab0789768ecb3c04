//! Faults that any line can have, and lines that are missing or given twice.

use super::{fields_of, join, with_field, Faults};
use crate::store::{Model, MOST_ACTIONS, MOST_STEPS};
use crate::text::Cause;

pub(super) fn add(list: &mut Faults, model: &Model) {
    for index in list.everywhere() {
        letters(list, index);
        surplus(list, index);
        commas(list, index);
        fields(list, index);
        cuts(list, index);
    }
    step_lines(list, model);
    action_lines(list, model);
    let last = list.last;
    list.without("first line missing", 0, Cause::Letter, 1);
    list.without("last line missing", last, Cause::NoLine, last + 1);
    list.doubled("first line twice", 0, Cause::Letter, 2);
    list.doubled("last line twice", last, Cause::AfterEnd, last + 2);
}

/// A wrong letter, or none.
fn letters(list: &mut Faults, index: usize) {
    let line = list.lines[index].clone();
    for letter in b"MAISEmieX \0?," {
        if *letter != line[0] {
            let wrong = [&[*letter][..], &line[1..]].concat();
            let cause = wrong_letter(list, index, *letter);
            list.line("wrong letter", index, wrong, cause);
        }
    }
    list.line("empty line", index, Vec::new(), Cause::Letter);
    list.line("no letter", index, line[1..].to_vec(), Cause::Letter);
    let twice = [&line[..1], &line[..]].concat();
    list.line("letter twice", index, twice, Cause::Letter);
    let mut lines = list.lines.to_vec();
    lines.insert(index, Vec::new());
    list.add("blank line before", join(&lines), Cause::Letter, index + 1);
}

/// Why a line is refused that has this letter in place of its own.
///
/// `I` is no wrong letter after the starts, nor in place of an `I` line is the
/// letter of what follows them. The line then has too many fields, or too few.
fn wrong_letter(list: &Faults, index: usize, letter: u8) -> Cause {
    let starts = list.first_start..list.first_step;
    let next = list.lines[list.first_step][0];
    let begins_a_start = letter == b'I' && index == list.first_step;
    let ends_the_starts = letter == next && starts.contains(&index);
    if begins_a_start || ends_the_starts {
        Cause::FieldCount
    } else {
        Cause::Letter
    }
}

/// Bytes of no kind of field.
const NO_FIELD: [&[u8]; 12] = [
    b"\r",
    b"\0",
    b" ",
    b"\t",
    b"\x80",
    b"\xff",
    b"\xc3\xa4",
    b"\"",
    b";",
    b"?",
    b"Z",
    b"#",
];

/// Bytes before a line or at its end.
fn surplus(list: &mut Faults, index: usize) {
    let line = list.lines[index].clone();
    for surplus in [&b","[..], b",0", b",,"] {
        let longer = [&line[..], surplus].concat();
        list.line("surplus field", index, longer, Cause::FieldCount);
    }
    let last = list.wrong_field(index, fields_of(&line).len() - 1);
    for surplus in NO_FIELD {
        let longer = [&line[..], surplus].concat();
        list.line("surplus at the end", index, longer, last);
    }
    for surplus in [&b" "[..], b"\0", b"\xef\xbb\xbf", b",", b"\r", b"0", b"\""] {
        let longer = [surplus, &line[..]].concat();
        list.line("surplus before", index, longer, Cause::Letter);
    }
}

/// Each comma of a line replaced, or with a byte beside it.
fn commas(list: &mut Faults, index: usize) {
    let line = list.lines[index].clone();
    let places = (0..line.len()).filter(|&place| line[place] == b',');
    for (field, place) in places.enumerate() {
        // Where two fields become one, the first comma takes the letter with it.
        let joined = match field {
            0 => Cause::Letter,
            _ => Cause::FieldCount,
        };
        let (before, after) = (
            list.wrong_field(index, field),
            list.wrong_field(index, field + 1),
        );
        for (new, cause) in [
            (&b" ,"[..], before),
            (b", ", after),
            (b",\r", after),
            (b";", joined),
            (b"", joined),
            (b"\0", joined),
            (b"\xac", joined),
            (b",,", Cause::FieldCount),
        ] {
            let changed = [&line[..place], new, &line[place + 1..]].concat();
            list.line("at a comma", index, changed, cause);
        }
    }
}

/// A field that is missing, empty or quoted.
fn fields(list: &mut Faults, index: usize) {
    let fields = fields_of(&list.lines[index]);
    if fields.len() > 1 {
        let fewer = fields[..fields.len() - 1].join(&b","[..]);
        list.line("last field missing", index, fewer, Cause::FieldCount);
    }
    for (field, content) in fields.iter().enumerate().skip(1) {
        let cause = list.wrong_field(index, field);
        list.field("empty field", index, field, b"", cause);
        let quoted = [b"\"", &content[..], b"\""].concat();
        list.field("quoted", index, field, &quoted, cause);
    }
}

/// The text cut off in and around a line.
fn cuts(list: &mut Faults, index: usize) {
    let before = join(&list.lines[..index]);
    let line = list.lines[index].clone();
    for length in 0..=line.len() {
        let cut = [&before[..], &line[..length]].concat();
        list.add("cut in the line", cut, Cause::NoLine, index + 1);
    }
    if index < list.last {
        let cut = join(&list.lines[..=index]);
        list.add("cut after the line", cut, Cause::NoLine, index + 2);
        let mut lines = list.lines.to_vec();
        let next = lines.remove(index + 1);
        lines[index].extend_from_slice(&next);
        // `E` adds no field, but a capital to the last one.
        let cause = match &next[..] {
            b"E" => list.wrong_field(index, fields_of(&line).len() - 1),
            _ => Cause::FieldCount,
        };
        list.add("line end missing", join(&lines), cause, index + 1);
    }
}

/// A line of a step is missing or given twice.
fn step_lines(list: &mut Faults, model: &Model) {
    let last = list.last;
    for index in list.steps() {
        list.without("step line missing", index, Cause::Letter, last);
        // After the last step the line must be E.
        let cause = match index + 1 < last {
            true => Cause::Order,
            false => Cause::Letter,
        };
        list.doubled("step line twice", index, cause, index + 2);
        if model.steps.len() < MOST_STEPS {
            let counted = (3, model.steps.len() + 1);
            list.doubled_and_counted("step given twice", index, counted, Cause::Order);
        }
    }
}

/// A line of an action is missing or given twice.
fn action_lines(list: &mut Faults, model: &Model) {
    let after = list.first_start;
    for index in list.actions() {
        list.without("action line missing", index, Cause::Letter, after);
        // After the last action the line must be another.
        let cause = match index + 1 < after {
            true => Cause::NameUsed,
            false => Cause::Letter,
        };
        list.doubled("action line twice", index, cause, index + 2);
        if model.actions.len() < MOST_ACTIONS {
            let counted = (2, model.actions.len() + 1);
            list.doubled_and_counted("action given twice", index, counted, Cause::NameUsed);
        }
    }
}

impl Faults<'_> {
    fn without(&mut self, what: &'static str, index: usize, cause: Cause, place: usize) {
        let mut lines = self.lines.to_vec();
        lines.remove(index);
        self.add(what, join(&lines), cause, place);
    }

    pub(super) fn doubled(&mut self, what: &'static str, index: usize, cause: Cause, place: usize) {
        let mut lines = self.lines.to_vec();
        lines.insert(index, lines[index].clone());
        self.add(what, join(&lines), cause, place);
    }

    /// A line given twice, and counted so in a field of the first line.
    fn doubled_and_counted(
        &mut self,
        what: &'static str,
        index: usize,
        (field, count): (usize, usize),
        cause: Cause,
    ) {
        let mut lines = self.lines.to_vec();
        lines.insert(index, lines[index].clone());
        lines[0] = with_field(&lines[0], field, count.to_string().as_bytes());
        self.add(what, join(&lines), cause, index + 2);
    }
}
