//! Faults of the whole text: bytes after its end, its length, and which of two
//! bad lines decides.

use super::starts::before_start;
use super::{fields_of, join, with_field, Faults};
use crate::store::Model;
use crate::text::{Cause, TEXT};

pub(super) fn add(list: &mut Faults, model: &Model) {
    let text = model.to_text();
    after_end(list, &text);
    sizes(list, &text);
    two_bad_lines(list, model);
}

/// Bytes after the last line.
fn after_end(list: &mut Faults, text: &[u8]) {
    let place = list.last + 2;
    for surplus in [
        &b"\n"[..],
        b"\n\n",
        b"E",
        b"E\n",
        b"\0",
        b" ",
        b"\r",
        b"\r\n",
        b"\x1a",
        b"\xff",
        b"x\ny\nz\n",
        b"S,0,0,0\n",
        b"I,1\n",
        b"M,1,1,0,0\nA,H,a\nE\n",
    ] {
        let longer = [text, surplus].concat();
        list.add("bytes after E", longer, Cause::AfterEnd, place);
    }
    let unended = text[..text.len() - 1].to_vec();
    list.add("no line end after E", unended, Cause::NoLine, place - 1);
}

/// Texts of 16,384 and of 16,385 bytes, and longer ones.
fn sizes(list: &mut Faults, text: &[u8]) {
    let last = list.last;
    for filler in [b'\n', b'E', b'0', 0, b' '] {
        let mut full = text.to_vec();
        full.resize(TEXT, filler);
        list.add("full", full.clone(), Cause::AfterEnd, last + 2);
        full.push(filler);
        list.add("one byte too long", full.clone(), Cause::TooLong, 0);
        full.resize(70_000, filler);
        list.add("far too long", full, Cause::TooLong, 0);
    }
    let mut ended = text.to_vec();
    ended.resize(TEXT + 1 - text.len(), b'x');
    ended.extend_from_slice(text);
    list.add("good at both ends", ended, Cause::TooLong, 0);
    let mut long_line = text.to_vec();
    long_line.truncate(text.len() - 1);
    long_line.resize(TEXT - 1, b'E');
    long_line.push(b'\n');
    list.add("long last line", long_line.clone(), Cause::Letter, last + 1);
    long_line.push(b'\n');
    list.add("long last line, too long", long_line, Cause::TooLong, 0);
}

/// Bad lines of every kind, by index, each with its cause.
pub(super) fn bad_lines(list: &Faults, model: &Model) -> Vec<(usize, Vec<u8>, Cause)> {
    let lines = list.lines;
    let outside = model.states.to_string().into_bytes();
    let changed = |index: usize, field: usize, new: &[u8]| with_field(&lines[index], field, new);
    let mut bad = vec![
        (0, b"x".to_vec(), Cause::Letter),
        (0, b"M".to_vec(), Cause::FieldCount),
        (0, changed(0, 1, b"x"), Cause::Digits),
        (0, changed(0, 1, b"999"), Cause::Range),
    ];
    for index in list.actions() {
        bad.push((index, changed(index, 1, b"x"), Cause::Level));
        bad.push((index, changed(index, 2, b""), Cause::Name));
        if index > 1 {
            let name = fields_of(&lines[1])[2].clone();
            bad.push((index, changed(index, 2, &name), Cause::NameUsed));
        }
    }
    for index in list.starts() {
        let before = before_start(list, model, index).to_string();
        bad.push((index, b"I".to_vec(), Cause::FieldCount));
        bad.push((index, changed(index, 1, b""), Cause::Digits));
        bad.push((index, changed(index, 1, &outside), Cause::Range));
        let not_above = changed(index, 1, before.as_bytes());
        bad.push((index, not_above, Cause::StartOrder));
    }
    for index in list.steps() {
        bad.push((index, changed(index, 3, b""), Cause::Digits));
        bad.push((index, changed(index, 3, &outside), Cause::Range));
        if index > list.first_step {
            bad.push((index, lines[index - 1].clone(), Cause::Order));
        }
    }
    bad.push((list.last, b"e".to_vec(), Cause::Letter));
    bad
}

/// Of two bad lines the first decides, and a text that is too long has no
/// lines to decide.
fn two_bad_lines(list: &mut Faults, model: &Model) {
    let bad = bad_lines(list, model);
    for (index, line, cause) in &bad {
        let mut lines = list.lines.to_vec();
        lines[*index] = line.clone();
        let mut too_long = join(&lines);
        too_long.resize(TEXT + 1, b'\n');
        list.add("too long, and a bad line", too_long, Cause::TooLong, 0);
        for (later, line, _) in bad.iter().filter(|(later, ..)| later > index) {
            let mut lines = lines.clone();
            lines[*later] = line.clone();
            list.add("two bad lines", join(&lines), *cause, index + 1);
        }
        bad_line_and_end(list, &lines, *index, *cause);
    }
}

/// A bad line decides before a line that is absent or has no line end, and
/// before bytes after `E`.
fn bad_line_and_end(list: &mut Faults, lines: &[Vec<u8>], index: usize, cause: Cause) {
    let mut add = |what, text| list.add(what, text, cause, index + 1);
    add("bad line, then nothing", join(&lines[..=index]));
    let text = join(lines);
    add("bad line, bytes after E", [&text[..], b"x"].concat());
    if index + 1 < lines.len() {
        let unended = text[..text.len() - 1].to_vec();
        add("bad line, no last line end", unended);
    }
}
