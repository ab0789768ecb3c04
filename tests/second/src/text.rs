//! Read and Write.

use std::ops::RangeInclusive;

use crate::store::{
    action_place, extra_start_place, good, step_place, Action, Level, Model, Step, EXTRA_STARTS,
    LONGEST_NAME, MOST_ACTIONS, MOST_EXTRA_STARTS, MOST_STATES, MOST_STEPS, STORE, WRITTEN,
};
use crate::{lent, Refusal};

/// The most bytes a text may have.
pub const TEXT: usize = 16_384;

const LINE_END: u8 = b'\n';
const COMMA: u8 = b',';

/// Reads a text into a store.
pub fn read(text: &[u8], store: &mut [u16]) -> Result<(), Refusal> {
    lent(&[(text.len(), 0), (store.len(), STORE)])?;
    let model = parse(text)?;
    store[..STORE].copy_from_slice(&model.to_store());
    Ok(())
}

/// Writes the text that reads to a store, and answers its length.
pub fn write(store: &[u16], out: &mut [u8]) -> Result<usize, Refusal> {
    lent(&[(store.len(), STORE), (out.len(), WRITTEN)])?;
    good(store)?;
    let text = spell(store);
    out[..text.len()].copy_from_slice(&text);
    Ok(text.len())
}

/// Why a text is refused, in the order in which a line is tested: 32 first,
/// then 2, then 31, then 3, then 4, 5 or 33, then 35.
#[derive(Debug, Clone, Copy, PartialEq, Eq, PartialOrd, Ord, Hash)]
pub enum Cause {
    /// More bytes than a text may have.
    TooLong,
    /// A line that is absent or has no line end.
    NoLine,
    /// Bytes after `E`.
    AfterEnd,
    Letter,
    FieldCount,
    Level,
    Name,
    /// A number field that isn't 1 to 5 digits without a leading zero.
    Digits,
    /// A number outside its range.
    Range,
    /// A name used before.
    NameUsed,
    /// A step not above the one before it.
    Order,
    /// An `I` line not above the one before it, the first not above line 1's
    /// start.
    StartOrder,
    /// The last `A` line, and no action is high (request (vi) of document 02).
    NoHigh,
}

impl Cause {
    /// All causes, in their order.
    pub const ALL: [Cause; 13] = [
        Cause::TooLong,
        Cause::NoLine,
        Cause::AfterEnd,
        Cause::Letter,
        Cause::FieldCount,
        Cause::Level,
        Cause::Name,
        Cause::Digits,
        Cause::Range,
        Cause::NameUsed,
        Cause::Order,
        Cause::StartOrder,
        Cause::NoHigh,
    ];

    /// The number of the refusal.
    pub fn number(self) -> u16 {
        match self {
            Cause::TooLong => 1,
            Cause::NoLine | Cause::AfterEnd => 32,
            Cause::Letter | Cause::FieldCount | Cause::Level | Cause::Name => 2,
            Cause::Digits => 31,
            Cause::Range => 3,
            Cause::NameUsed => 4,
            Cause::Order => 5,
            Cause::StartOrder => 33,
            Cause::NoHigh => 35,
        }
    }
}

/// A cause with its place: the line, from 1, or 0.
type Refused = (Cause, u64);

/// The model of a text, or the refusal because of the input.
pub fn parse(text: &[u8]) -> Result<Model, Refusal> {
    parse_or_cause(text).map_err(|(cause, place)| Refusal::new(cause.number(), place))
}

/// The model of a text, or why and where it is refused.
pub fn parse_or_cause(text: &[u8]) -> Result<Model, (Cause, u64)> {
    if text.len() > TEXT {
        return Err((Cause::TooLong, 0));
    }
    let mut lines = Lines {
        rest: text,
        line: 0,
    };
    let (mut model, actions, steps) = head(&mut lines)?;
    for _ in 0..actions {
        let action = action(&mut lines, &model)?;
        model.actions.push(action);
    }
    // The last action's line is otherwise good, and no later line is looked at.
    if !model.has_high() {
        return Err(lines.refused(Cause::NoHigh));
    }
    // Here a line is an `I` line by its first byte alone, however many there are.
    while lines.rest.starts_with(b"I") {
        let start = extra_start(&mut lines, &model)?;
        model.extra_starts.push(start);
    }
    for _ in 0..steps {
        let step = step(&mut lines, &model)?;
        model.steps.push(step);
    }
    lines.next(b'E', 0)?;
    if !lines.rest.is_empty() {
        return Err((Cause::AfterEnd, lines.line + 1));
    }
    Ok(model)
}

/// The first line: a model with its start alone, and the counts of its actions
/// and steps.
fn head(lines: &mut Lines) -> Result<(Model, usize, usize), Refused> {
    let fields = lines.next(b'M', 4)?;
    let ranges = [
        1..=MOST_STATES,
        1..=MOST_ACTIONS,
        0..=MOST_STEPS,
        0..=MOST_STATES - 1,
    ];
    let numbers = lines.numbers(&fields, &ranges)?;
    let (states, actions, steps, start) = (numbers[0], numbers[1], numbers[2], numbers[3]);
    // The start's range depends on another number of the line.
    if start >= states {
        return Err(lines.refused(Cause::Range));
    }
    let model = Model {
        states: states as u16,
        start: start as u16,
        extra_starts: Vec::new(),
        actions: Vec::new(),
        steps: Vec::new(),
    };
    Ok((model, actions, steps))
}

/// The next action, given the model so far.
fn action(lines: &mut Lines, model: &Model) -> Result<Action, Refused> {
    let fields = lines.next(b'A', 2)?;
    let has_letter = |level: &Level| fields[0] == [level.letter()];
    let Some(level) = Level::ALL.into_iter().find(has_letter) else {
        return Err(lines.refused(Cause::Level));
    };
    let name = fields[1].to_vec();
    if !is_name(&name) {
        return Err(lines.refused(Cause::Name));
    }
    if model.actions.iter().any(|earlier| earlier.name == name) {
        return Err(lines.refused(Cause::NameUsed));
    }
    Ok(Action { level, name })
}

/// The next extra start, given the model with the starts so far.
fn extra_start(lines: &mut Lines, model: &Model) -> Result<u16, Refused> {
    let fields = lines.next(b'I', 1)?;
    let states = 0..=usize::from(model.states) - 1;
    let start = lines.numbers(&fields, &[states])?[0] as u16;
    let before = *model.extra_starts.last().unwrap_or(&model.start);
    if start <= before {
        return Err(lines.refused(Cause::StartOrder));
    }
    Ok(start)
}

/// The next step, given the model with all its actions and the steps so far.
fn step(lines: &mut Lines, model: &Model) -> Result<Step, Refused> {
    let fields = lines.next(b'S', 3)?;
    let states = 0..=usize::from(model.states) - 1;
    let actions = 0..=model.actions.len() - 1;
    let numbers = lines.numbers(&fields, &[states.clone(), actions, states])?;
    let step = Step::new(numbers[0] as u16, numbers[1] as u16, numbers[2] as u16);
    if model.steps.last().is_some_and(|before| step <= *before) {
        return Err(lines.refused(Cause::Order));
    }
    Ok(step)
}

/// The lines of a text not yet taken, and the number of the last one taken.
struct Lines<'a> {
    rest: &'a [u8],
    line: u64,
}

impl<'a> Lines<'a> {
    /// Takes a line with this letter and this many fields after it.
    fn next(&mut self, letter: u8, count: usize) -> Result<Vec<&'a [u8]>, Refused> {
        self.line += 1;
        let Some(end) = self.rest.iter().position(|&byte| byte == LINE_END) else {
            return Err(self.refused(Cause::NoLine));
        };
        let mut fields: Vec<&[u8]> = self.rest[..end].split(|&byte| byte == COMMA).collect();
        self.rest = &self.rest[end + 1..];
        if fields.remove(0) != [letter] {
            return Err(self.refused(Cause::Letter));
        }
        if fields.len() != count {
            return Err(self.refused(Cause::FieldCount));
        }
        Ok(fields)
    }

    /// All fields of the line just taken as numbers, each in its range. Bad
    /// digits in any field are told before a number outside its range.
    fn numbers(
        &self,
        fields: &[&[u8]],
        ranges: &[RangeInclusive<usize>],
    ) -> Result<Vec<usize>, Refused> {
        let fields = fields.iter().zip(ranges);
        let numbers: Vec<_> = fields.map(|(field, range)| number(field, range)).collect();
        match numbers.iter().filter_map(|number| number.err()).min() {
            Some(cause) => Err(self.refused(cause)),
            None => Ok(numbers.into_iter().flatten().collect()),
        }
    }

    /// Refused at the line just taken.
    fn refused(&self, cause: Cause) -> Refused {
        (cause, self.line)
    }
}

/// The number in a field. Bad digits are told from a number outside its range.
fn number(field: &[u8], range: &RangeInclusive<usize>) -> Result<usize, Cause> {
    let length_fits = (1..=5).contains(&field.len());
    let digits_only = field.iter().all(u8::is_ascii_digit);
    let leading_zero = field.len() > 1 && field[0] == b'0';
    if !length_fits || !digits_only || leading_zero {
        return Err(Cause::Digits);
    }
    let value = |sum, &digit: &u8| 10 * sum + usize::from(digit - b'0');
    let number = field.iter().fold(0, value);
    if !range.contains(&number) {
        return Err(Cause::Range);
    }
    Ok(number)
}

fn is_name(field: &[u8]) -> bool {
    (1..=LONGEST_NAME).contains(&field.len())
        && field
            .iter()
            .all(|byte| byte.is_ascii_lowercase() || byte.is_ascii_digit())
}

/// The numbers of a store spelled as a text, whatever they are. A number that
/// no text can hold comes out as `?`, which no text holds.
pub fn spell(store: &[u16]) -> Vec<u8> {
    let at = |place: usize| store.get(place).copied().unwrap_or(0);
    let mut text = format!("M,{},{},{},{}\n", at(0), at(1), at(2), at(3)).into_bytes();
    for i in 0..usize::from(at(1)).min(MOST_ACTIONS) {
        let place = action_place(i);
        text.extend_from_slice(b"A,");
        text.push(match at(place) {
            0 => b'L',
            1 => b'D',
            2 => b'H',
            3 => b'T',
            _ => b'?',
        });
        text.push(COMMA);
        for k in 0..usize::from(at(place + 1)).min(LONGEST_NAME) {
            text.push(u8::try_from(at(place + 2 + k)).unwrap_or(b'?'));
        }
        text.push(LINE_END);
    }
    for k in 0..usize::from(at(EXTRA_STARTS)).min(MOST_EXTRA_STARTS) {
        let line = format!("I,{}\n", at(extra_start_place(k)));
        text.extend_from_slice(line.as_bytes());
    }
    for j in 0..usize::from(at(2)).min(MOST_STEPS) {
        let place = step_place(j);
        let line = format!("S,{},{},{}\n", at(place), at(place + 1), at(place + 2));
        text.extend_from_slice(line.as_bytes());
    }
    text.extend_from_slice(b"E\n");
    text
}
