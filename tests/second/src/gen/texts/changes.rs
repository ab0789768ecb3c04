//! Texts with random changes, and texts of random pieces.

use super::{join, lines_of, with_field};
use crate::gen::Rng;

/// A text with a few random changes. It may still be a good one.
pub fn mutated_text(rng: &mut Rng, text: &[u8]) -> Vec<u8> {
    const BYTES: &[u8] = b"0123456789,,,\n\n\nMAISELDHabz \r\0\xff\x80";
    let mut text = text.to_vec();
    for _ in 0..rng.between(1, 3) {
        let place = rng.below(text.len() + 1);
        let byte = if rng.percent(80) {
            *rng.pick(BYTES)
        } else {
            rng.below(256) as u8
        };
        change(rng, &mut text, place, byte);
    }
    text
}

/// One change, of most kinds at this place.
fn change(rng: &mut Rng, text: &mut Vec<u8>, place: usize, byte: u8) {
    let inside = place < text.len();
    match rng.below(17) {
        0 | 1 => text.insert(place, byte),
        2 | 3 if inside => {
            text.remove(place);
        }
        4 | 5 if inside => text[place] = byte,
        2..=5 => {}
        6 => text.truncate(place),
        7 => {
            let kept = rng.below(place + 1);
            text.drain(kept..place);
        }
        8 => {
            let from = rng.below(place + 1);
            let piece = text[from..place].to_vec();
            text.splice(place..place, piece);
        }
        9 | 10 => *text = with_number_changed(rng, text),
        11..=13 => *text = with_starts_changed(rng, text),
        14 | 15 => *text = with_levels_changed(rng, text),
        _ => *text = with_lines_swapped(rng, text),
    }
}

fn with_lines_swapped(rng: &mut Rng, text: &[u8]) -> Vec<u8> {
    let mut lines = lines_of(text);
    if lines.len() < 2 {
        return text.to_vec();
    }
    let (one, other) = (rng.below(lines.len()), rng.below(lines.len()));
    lines.swap(one, other);
    join(&lines)
}

/// A text with another level in place of each H, or in one `A` line.
fn with_levels_changed(rng: &mut Rng, text: &[u8]) -> Vec<u8> {
    let mut lines = lines_of(text);
    let has_level = |line: &&mut Vec<u8>| line.starts_with(b"A,") && line.len() > 2;
    let mut actions: Vec<&mut Vec<u8>> = lines.iter_mut().filter(has_level).collect();
    if actions.is_empty() {
        return text.to_vec();
    }
    if rng.percent(60) {
        let levels = *rng.pick(&[&b"L"[..], b"D", b"LD"]);
        for line in actions.iter_mut().filter(|line| line[2] == b'H') {
            line[2] = *rng.pick(levels);
        }
    } else {
        let index = rng.below(actions.len());
        actions[index][2] = *rng.pick(b"LDH");
    }
    join(&lines)
}

/// A text with some levels changed, to that of a silent action or to what is
/// none, and perhaps with other changes. It may still be a good one.
pub fn mutated_tick_text(rng: &mut Rng, text: &[u8]) -> Vec<u8> {
    const LEVELS: &[&[u8]] = &[
        b"T", b"T", b"T", b"T", b"T", b"T", b"H", b"L", b"t", b"TT", b"T ", b"TH", b"3", b"S", b"U",
    ];
    let mut lines = lines_of(text);
    for _ in 0..rng.between(1, 3) {
        let has_level = |line: &&mut Vec<u8>| line.starts_with(b"A,") && line.len() > 3;
        let mut actions: Vec<&mut Vec<u8>> = lines.iter_mut().filter(has_level).collect();
        if !actions.is_empty() {
            let (index, level) = (rng.below(actions.len()), *rng.pick(LEVELS));
            *actions[index] = with_field(actions[index], 1, level);
        }
    }
    let changed = join(&lines);
    if rng.percent(60) {
        changed
    } else {
        mutated_text(rng, &changed)
    }
}

/// A text with an `I` line more, one fewer, or another in place of one. Most
/// further ones stand where an `I` line may.
fn with_starts_changed(rng: &mut Rng, text: &[u8]) -> Vec<u8> {
    let mut lines = lines_of(text);
    let begins = |line: &Vec<u8>, letter: &[u8]| line.starts_with(letter);
    let after_actions = lines.iter().rposition(|line| begins(line, b"A"));
    let from = after_actions.map_or(0, |last| last + 1);
    let starts = lines[from..].iter().take_while(|line| begins(line, b"I"));
    let to = from + starts.count();
    let most = *rng.pick(&[4, 14, 130]);
    let line = format!("I,{}", rng.below(most)).into_bytes();
    match rng.below(4) {
        0 if from < to => {
            lines.remove(from + rng.below(to - from));
        }
        1 if from < to => lines[from + rng.below(to - from)] = line,
        2 => lines.insert(rng.below(lines.len() + 1), line),
        _ => lines.insert(rng.between(from, to), line),
    }
    join(&lines)
}

/// A text with one of its numbers replaced.
fn with_number_changed(rng: &mut Rng, text: &[u8]) -> Vec<u8> {
    let mut starts = Vec::new();
    for place in 1..text.len() {
        if text[place].is_ascii_digit() && !text[place - 1].is_ascii_digit() {
            starts.push(place);
        }
    }
    if starts.is_empty() {
        return text.to_vec();
    }
    let from = *rng.pick(&starts);
    let mut to = from;
    while to < text.len() && text[to].is_ascii_digit() {
        to += 1;
    }
    let edges = [
        0, 1, 2, 63, 64, 65, 127, 128, 129, 255, 256, 1_023, 1_024, 1_025, 9_999, 10_000, 65_535,
        65_536, 99_999, 100_000,
    ];
    let number = match rng.below(3) {
        0 => rng.below(14),
        _ => *rng.pick(&edges),
    };
    let number = if rng.percent(10) {
        format!("0{number}")
    } else {
        number.to_string()
    };
    [&text[..from], number.as_bytes(), &text[to..]].concat()
}

/// A text put together at random from pieces of texts.
pub fn scrap_text(rng: &mut Rng) -> Vec<u8> {
    const PIECES: &[&[u8]] = &[
        b"M,",
        b"A,",
        b"I,",
        b"S,",
        b"E",
        b"E\n",
        b"\n",
        b",",
        b"0",
        b"1",
        b"2",
        b"12",
        b"L",
        b"D",
        b"H",
        b"a",
        b"b",
        b"M,2,2,2,0\n",
        b"M,1,1,0,0\n",
        b"A,L,a\n",
        b"A,H,b\n",
        b"A,D,c\n",
        b"I,1\n",
        b"S,0,0,1\n",
        b"S,0,1,1\n",
        b"\0",
        b"\r",
        b"\xff",
    ];
    let mut text = Vec::new();
    for _ in 0..rng.below(14) {
        text.extend_from_slice(PIECES[rng.below(PIECES.len())]);
    }
    text
}
