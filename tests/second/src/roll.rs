//! Roll: the page on the till's receipt roll (request (ii) of document 02).

use crate::page::{print, print_text, Line, Lists};
use crate::store::{Level, Model, Step, ROLL};
use crate::Refusal;

/// The columns of each line.
const COLUMNS: usize = 42;
/// The columns before the names: 1 to 12.
const BEFORE: usize = 12;
/// The columns of the names: 13 to 42.
const NAMES: usize = COLUMNS - BEFORE;

/// Writes the receipt roll of a model, and answers its length.
pub fn roll(
    store: &[u16],
    distances: &mut [u16],
    table: &mut [u8],
    run: &mut [u16],
    word: &mut [u16],
    out: &mut [u8],
) -> Result<usize, Refusal> {
    let lists = Lists {
        store,
        distances,
        table,
        run,
        word,
        out,
    };
    print(lists, ROLL, |model, line| {
        let lines = match line {
            Line::State {
                state,
                distance,
                class,
            } => state_lines(model, state, &distance, class),
            Line::Other(line) => vec![line],
        };
        lines.iter().map(|line| padded(line)).collect()
    })
}

fn padded(line: &str) -> String {
    format!("{line:<COLUMNS$}")
}

/// The lines of a state, not yet padded: the first begins with its numbers,
/// the others with blanks.
fn state_lines(model: &Model, state: u16, distance: &str, class: usize) -> Vec<String> {
    // Columns 1 to 3, 5 to 7 and 9 to 11, with a blank after each.
    let mut before = format!("{state:>3} {distance:>3} {class:>3} ");
    let mut lines = Vec::new();
    for names in rows(&names(model, state)) {
        lines.push(before + &names);
        before = " ".repeat(BEFORE);
    }
    lines
}

/// The names of the low actions with a step from a state, in action order.
fn names(model: &Model, state: u16) -> Vec<String> {
    let actions = 0..model.actions.len() as u16;
    let named = |&action: &u16| {
        let there = |step: &Step| (step.source, step.action) == (state, action);
        model.level(action) == Level::Low && model.steps.iter().any(there)
    };
    actions
        .filter(named)
        .map(|action| model.name(action))
        .collect()
}

/// Names put in rows, one blank between; at least one row. A name that does
/// not fit whole begins the next row.
fn rows(names: &[String]) -> Vec<String> {
    let mut rows = Vec::new();
    let mut row = String::new();
    for name in names {
        if row.is_empty() {
            row += name;
        } else if row.len() + 1 + name.len() <= NAMES {
            row += " ";
            row += name;
        } else {
            rows.push(row);
            row = name.clone();
        }
    }
    rows.push(row);
    rows
}

/// What is printed for a text on receipt paper: its roll, or the `F` line,
/// which is no line of the page and is not padded.
pub fn roll_program(text: &[u8]) -> Vec<u8> {
    print_text(text, ROLL, roll)
}
