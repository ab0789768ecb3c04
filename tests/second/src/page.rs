//! Page, and the whole program.

use crate::judge::{judge_model, Verdict};
use crate::reach::UNREACHABLE;
use crate::run::fill_run;
use crate::store::{good, Model, DISTANCES, MOST_STATES, PAGE, RUN, STORE, TABLE, WORD};
use crate::word::{fill_word, shows_word, End};
use crate::{lent, read, Refusal};

/// Writes the page of a model, and answers its length.
pub fn page(
    store: &[u16],
    distances: &mut [u16],
    table: &mut [u8],
    run: &mut [u16],
    word: &mut [u16],
    out: &mut [u8],
) -> Result<usize, Refusal> {
    let lists = Lists {
        store,
        distances,
        table,
        run,
        word,
        out,
    };
    print(lists, PAGE, |_, line| vec![spelled(line)])
}

fn spelled(line: Line) -> String {
    match line {
        Line::State {
            state,
            distance,
            class,
        } => format!("C,{state},{distance},{class}"),
        Line::Other(line) => line,
    }
}

/// The lists that Page and Roll take, in the order of refusal 21.
pub(crate) struct Lists<'a> {
    pub store: &'a [u16],
    pub distances: &'a mut [u16],
    pub table: &'a mut [u8],
    pub run: &'a mut [u16],
    pub word: &'a mut [u16],
    pub out: &'a mut [u8],
}

/// A line of the page: a `C` line by its fields, or any other as it stands.
pub(crate) enum Line {
    State {
        state: u16,
        distance: String,
        class: usize,
    },
    Other(String),
}

/// What Page and Roll share: all but the least length of out, and the lines
/// that each line of the page is printed as.
pub(crate) fn print(
    mut lists: Lists,
    least: usize,
    printed: impl Fn(&Model, Line) -> Vec<String>,
) -> Result<usize, Refusal> {
    lent(&[
        (lists.store.len(), STORE),
        (lists.distances.len(), DISTANCES),
        (lists.table.len(), TABLE),
        (lists.run.len(), RUN),
        (lists.word.len(), WORD),
        (lists.out.len(), least),
    ])?;
    let model = good(lists.store)?;
    let mut bytes = Vec::new();
    for line in page_lines(&model, &mut lists) {
        for line in printed(&model, line) {
            bytes.extend((line + "\n").into_bytes());
        }
    }
    lists.out[..bytes.len()].copy_from_slice(&bytes);
    Ok(bytes.len())
}

/// The lines of the page. Fills distances, table, run and word.
fn page_lines(model: &Model, lists: &mut Lists) -> Vec<Line> {
    let verdict = judge_model(model, lists.distances, lists.table);
    let mut lines = vec![Line::Other(verdict_line(verdict))];
    lines.extend(state_lines(model, lists.distances, lists.table));
    if let Verdict::Refused { step, .. } = verdict {
        let source = model.steps[usize::from(step)].source;
        let length = fill_run(model, lists.distances, lists.run, source);
        let steps = lists.run[..length].iter();
        lines.extend(steps.map(|number| Line::Other(format!("R,{number}"))));
        if shows_word(model, lists.distances) {
            let (length, end) = fill_word(model, step, lists.word);
            let word = word_lines(model, &lists.word[..length], end);
            lines.extend(word.into_iter().map(Line::Other));
        } else {
            lines.push(Line::Other("N".to_string()));
        }
    }
    lines.push(Line::Other("E".to_string()));
    lines
}

fn verdict_line(verdict: Verdict) -> String {
    match verdict {
        Verdict::Passed { rank } => format!("V,pass,{rank}"),
        Verdict::Refused { step, depth } => format!("V,refuse,{step},{depth}"),
    }
}

/// A line for each state.
fn state_lines(model: &Model, distances: &[u16], table: &[u8]) -> Vec<Line> {
    let line = |state: u16| {
        let place = usize::from(state);
        let distance = match distances[place] {
            UNREACHABLE => "-".to_string(),
            distance => distance.to_string(),
        };
        let class = (0..place)
            .find(|&lower| table[MOST_STATES * lower + place] == 0)
            .unwrap_or(place);
        Line::State {
            state,
            distance,
            class,
        }
    };
    (0..model.states).map(line).collect()
}

/// A `W` line for each letter, and the `B` line.
fn word_lines(model: &Model, word: &[u16], end: End) -> Vec<String> {
    let letter = |&letter: &u16| format!("W,{}", model.name(letter));
    let mut lines: Vec<String> = word.iter().map(letter).collect();
    lines.push(match end {
        End::Source => "B,source".to_string(),
        End::Target => "B,target".to_string(),
    });
    lines
}

/// What the program prints for a text: its page, or the `F` line.
pub fn program(text: &[u8]) -> Vec<u8> {
    print_text(text, PAGE, page)
}

/// Page or Roll.
type Printer =
    fn(&[u16], &mut [u16], &mut [u8], &mut [u16], &mut [u16], &mut [u8]) -> Result<usize, Refusal>;

/// What an operation prints for a text into an out of this length, or the `F`
/// line.
pub(crate) fn print_text(text: &[u8], length: usize, printer: Printer) -> Vec<u8> {
    let mut store = vec![0; STORE];
    let mut out = vec![0; length];
    let answer = read(text, &mut store).and_then(|()| {
        printer(
            &store,
            &mut vec![0; DISTANCES],
            &mut vec![0; TABLE],
            &mut vec![0; RUN],
            &mut vec![0; WORD],
            &mut out,
        )
    });
    match answer {
        Ok(length) => out[..length].to_vec(),
        Err(refusal) => refusal.line(),
    }
}
