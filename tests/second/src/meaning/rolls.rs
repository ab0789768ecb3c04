//! Receipt rolls, line for line, against the page and the model.

use std::collections::BTreeSet;

use super::sequences::is_low;
use super::{demand, Check};
use crate::store::Model;
use crate::text::parse;

/// Checks a roll against the text it was printed for and against its page,
/// which must hold. The page is told from the roll alone, and the names are
/// taken apart again.
pub fn roll_holds(text: &[u8], page: &[u8], roll: &[u8]) -> Check {
    let Ok(model) = parse(text) else {
        return demand(roll == page, || "the F line is changed".to_string());
    };
    let entries = entries(roll)?;
    let told: String = entries.iter().map(|e| e.line.clone() + "\n").collect();
    demand(told.as_bytes() == page, || {
        format!("the roll tells another page: {told:?}")
    })?;
    let states = entries.iter().filter(|entry| entry.line.starts_with('C'));
    for (state, entry) in states.enumerate() {
        names_hold(&model, state as u16, &entry.rows)?;
    }
    Ok(())
}

/// A line of the page as the roll tells it.
struct Entry {
    line: String,
    /// For a state, what stands in columns 13 to 42 of each of its lines.
    rows: Vec<String>,
}

/// Puts each line with what it tells of. A line that begins with a letter
/// stands as it is; of the others one with blanks in its first 12 columns
/// goes on with the state of the line before it.
fn entries(roll: &[u8]) -> Result<Vec<Entry>, String> {
    let mut entries: Vec<Entry> = Vec::new();
    for line in lines(roll)? {
        let (before, names) = line.split_at(12);
        let row = names.trim_end_matches(' ').to_string();
        if line.starts_with(|first: char| first.is_ascii_uppercase()) {
            let line = line.trim_end_matches(' ').to_string();
            let rows = Vec::new();
            entries.push(Entry { line, rows });
        } else if before.trim_start_matches(' ').is_empty() {
            let last = entries.last_mut().filter(|last| !last.rows.is_empty());
            last.ok_or("names of no state")?.rows.push(row);
        } else {
            let [state, distance, class] = [0, 4, 8].map(|from| &before[from..from + 4]);
            let line = format!(
                "C,{},{},{}",
                flush_right(state)?,
                flush_right(distance)?,
                flush_right(class)?
            );
            let rows = vec![row];
            entries.push(Entry { line, rows });
        }
    }
    Ok(entries)
}

/// The lines of a roll, each of exactly 42 columns before its line end.
fn lines(roll: &[u8]) -> Result<Vec<&str>, String> {
    let roll = std::str::from_utf8(roll).map_err(|_| "8-bit bytes".to_string())?;
    let Some(body) = roll.strip_suffix('\n') else {
        return Err("the last line is not ended".to_string());
    };
    let lines: Vec<&str> = body.split('\n').collect();
    for line in &lines {
        demand(line.is_ascii() && line.len() == 42, || {
            format!("not 42 columns: {line:?}")
        })?;
    }
    Ok(lines)
}

/// What stands flush right in the first three columns of four. The fourth is
/// blank.
fn flush_right(columns: &str) -> Result<&str, String> {
    let field = columns[..3].trim_start_matches(' ');
    let right = !field.is_empty() && !field.contains(' ') && columns.ends_with(' ');
    demand(right, || format!("not flush right: {columns:?}"))?;
    Ok(field)
}

/// Checks the names of a state, in rows of 30 columns.
fn names_hold(model: &Model, state: u16, rows: &[String]) -> Check {
    let steps = model.steps.iter().filter(|step| step.source == state);
    let low = steps.filter(|step| is_low(model, step.action));
    let actions: BTreeSet<u16> = low.map(|step| step.action).collect();
    let names: Vec<&[u8]> = actions
        .iter()
        .map(|&action| &model.actions[usize::from(action)].name[..])
        .collect();

    // Each row is split at each blank, so a blank too many gives a name of no
    // bytes, and so does a row with none.
    let told: Vec<&[u8]> = rows
        .iter()
        .flat_map(|row| row.split(' ').map(str::as_bytes))
        .collect();
    let right = if names.is_empty() {
        rows == [""]
    } else {
        told == names
    };
    demand(right, || format!("the names of {state} are not {rows:?}"))?;

    for pair in rows.windows(2) {
        let first = pair[1].split(' ').next().unwrap_or_default();
        let fits = pair[0].len() + " ".len() + first.len() <= 30;
        demand(!fits, || format!("{first} fits after {:?}", pair[0]))?;
    }
    Ok(())
}
