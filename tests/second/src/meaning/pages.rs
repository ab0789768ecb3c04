//! Pages, line for line.

use std::collections::VecDeque;

use super::interference::Deterministic;
use super::ranks::{verdict_of, Alike};
use super::runs::{distances_hold, run_holds};
use super::{demand, Check};
use crate::store::{Model, MOST_STATES};
use crate::text::parse;
use crate::{Action, End, Verdict};

/// Checks a page, line for line, against the text it was printed for.
pub fn page_holds(text: &[u8], page: &[u8]) -> Check {
    let model = match parse(text) {
        Ok(model) => model,
        Err(refusal) => {
            let line = format!("F,{},{}\n", refusal.number, refusal.place);
            return demand(page == line.as_bytes(), || format!("not {line:?}"));
        }
    };
    let mut lines = PageLines::new(page)?;
    let verdict = verdict_line(&mut lines)?;
    let expected = verdict_of(&model);
    demand(verdict == expected, || {
        format!("{verdict:?}, not {expected:?}")
    })?;
    let distances = state_lines(&mut lines, &model)?;
    let exact = Deterministic::new(&model);
    if let Some(exact) = &exact {
        exact.verdict_holds(verdict)?;
    }
    if let Verdict::Refused { step, depth } = verdict {
        let run = run_lines(&mut lines)?;
        let source = model.steps[usize::from(step)].source;
        run_holds(&model, &distances, &run, source)?;
        if let Some(exact) = &exact {
            let (word, end) = word_lines(&mut lines, &model)?;
            exact.word_holds(step, depth, &word, end)?;
        } else {
            lines.bare("N")?;
        }
    }
    lines.bare("E")?;
    demand(lines.rest.is_empty(), || "lines after E".to_string())
}

/// The verdict that the `V` line tells.
fn verdict_line(lines: &mut PageLines) -> Result<Verdict, String> {
    match lines.take("V")?.as_slice() {
        [word, rank] if word == "pass" => Ok(Verdict::Passed {
            rank: number(rank)?,
        }),
        [word, step, depth] if word == "refuse" => Ok(Verdict::Refused {
            step: number(step)?,
            depth: number(depth)?,
        }),
        fields => Err(format!("V with {fields:?}")),
    }
}

/// The distances that the `C` lines tell; they are checked, and so are the
/// classes.
fn state_lines(lines: &mut PageLines, model: &Model) -> Result<Vec<u16>, String> {
    let mut alike = Alike::new(model);
    let mut distances = vec![65_535; MOST_STATES];
    for state in 0..model.states {
        let fields = lines.take("C")?;
        let [told, distance, class] = fields.as_slice() else {
            return Err(format!("C with {fields:?}"));
        };
        demand(number(told)? == state, || format!("no C line for {state}"))?;
        if distance != "-" {
            distances[usize::from(state)] = number(distance)?;
        }
        let lowest = (0..model.states).find(|&other| alike.rank(other, state) == 0);
        demand(Some(number(class)?) == lowest, || {
            format!("the class of {state} is not {class}")
        })?;
    }
    distances_hold(model, &distances)?;
    Ok(distances)
}

/// The run that the `R` lines tell.
fn run_lines(lines: &mut PageLines) -> Result<Vec<u16>, String> {
    let mut run = Vec::new();
    while lines.starts("R") {
        run.push(number(&lines.single("R")?)?);
    }
    Ok(run)
}

/// The word and the end that the `W` lines and the `B` line tell.
fn word_lines(lines: &mut PageLines, model: &Model) -> Result<(Vec<u16>, End), String> {
    let mut word = Vec::new();
    while lines.starts("W") {
        let name = lines.single("W")?;
        let named = |action: &Action| action.name == name.as_bytes();
        match model.actions.iter().position(named) {
            Some(action) => word.push(action as u16),
            None => return Err(format!("no action {name}")),
        }
    }
    match lines.single("B")?.as_str() {
        "source" => Ok((word, End::Source)),
        "target" => Ok((word, End::Target)),
        end => Err(format!("no end {end}")),
    }
}

/// The lines of a page not yet taken, each as its fields.
struct PageLines {
    rest: VecDeque<Vec<String>>,
}

impl PageLines {
    fn new(page: &[u8]) -> Result<PageLines, String> {
        let page = std::str::from_utf8(page).map_err(|_| "8-bit bytes".to_string())?;
        let Some(body) = page.strip_suffix('\n') else {
            return Err("the last line is not ended".to_string());
        };
        let fields = |line: &str| line.split(',').map(str::to_string).collect();
        Ok(PageLines {
            rest: body.split('\n').map(fields).collect(),
        })
    }

    fn starts(&self, letter: &str) -> bool {
        self.rest.front().is_some_and(|line| line[0] == letter)
    }

    /// Takes the next line, which must have this letter.
    fn take(&mut self, letter: &str) -> Result<Vec<String>, String> {
        demand(self.starts(letter), || format!("no {letter} line"))?;
        let line = self.rest.pop_front().unwrap_or_default();
        Ok(line[1..].to_vec())
    }

    /// Takes the next line, which must have this letter and one field.
    fn single(&mut self, letter: &str) -> Result<String, String> {
        match self.take(letter)?.as_slice() {
            [field] => Ok(field.clone()),
            fields => Err(format!("{} fields, not one", fields.len())),
        }
    }

    /// Takes the next line, which must have this letter and no field.
    fn bare(&mut self, letter: &str) -> Check {
        let fields = self.take(letter)?;
        demand(fields.is_empty(), || format!("{letter} with fields"))
    }
}

/// A number in its only decimal form.
fn number(field: &str) -> Result<u16, String> {
    match field.parse::<u16>() {
        Ok(number) if number.to_string() == field => Ok(number),
        _ => Err(format!("not a number: {field}")),
    }
}
