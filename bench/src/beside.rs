//! The operations of this archive beside those of another, which is linked to a second build of this program. The two
//! programs take turns on each model, so that other work on the machine slows neither of them alone. What the other
//! archive lacks is left out, and so is a model that it does not read, as an earlier one does not read each line.
use std::env;
use std::process::{Command, Stdio};

use crate::shapes;
use crate::tables::{digits, table};
use crate::times::{is_read, least, operations, Each, Timed, TURNS};

/// One turn of the operations on a model: a time to a line, and none where the archive does not read the model.
pub fn turn(name: &str, lacking: &[&str]) -> String {
    let shapes = shapes::shapes();
    let (_, model) = shapes
        .iter()
        .find(|shape| shape.0 == name)
        .expect("a model");
    if !is_read(model) {
        return String::new();
    }
    let times = Timed::without(model, lacking).operations();
    times.iter().map(|time| format!("{time}\n")).collect()
}

/// One turn of a program.
fn turn_of(program: &str, name: &str, lacking: &[&str]) -> Each {
    let mut command = Command::new(program);
    command.args(["--turn", name]).args(lacking);
    command.stderr(Stdio::inherit());
    let output = command
        .output()
        .unwrap_or_else(|error| panic!("{program}: {error}"));
    assert!(output.status.success(), "{program}: {}", output.status);
    let text = String::from_utf8(output.stdout).expect("numbers");
    let time = |line: &str| line.parse().expect("a number");
    text.lines().map(time).collect()
}

/// Each operation's time on a model, and in brackets our time by the other archive's, if that reads the model.
fn row(programs: &[&str; 2], name: &str, lacking: &[&str]) -> Option<Vec<String>> {
    let mut times = programs.map(|program| turn_of(program, name, lacking));
    assert!(!times[0].is_empty(), "{name} is not read");
    if times[1].is_empty() {
        return None;
    }
    for _ in 1..TURNS {
        for (best, program) in times.iter_mut().zip(programs) {
            least(best, &turn_of(program, name, lacking));
        }
    }
    let [ours, others] = times;
    let cell =
        |(time, other): (&f64, &f64)| format!("{} ({})", digits(*time), digits(time / other));
    let cells = ours.iter().zip(&others).map(cell);
    Some([name.to_string()].into_iter().chain(cells).collect())
}

/// The table of all models.
pub fn table_of(other: &str, lacking: &[&str]) -> String {
    let own = env::current_exe().expect("this program");
    let programs = [own.to_str().expect("a path"), other];
    let names = operations(lacking);
    let names = names.iter().map(|operation| operation.name());
    let head: Vec<&str> = ["model"].into_iter().chain(names).collect();
    let (mut rows, mut not_read) = (Vec::new(), Vec::new());
    for (name, _) in shapes::shapes() {
        match row(&programs, name, lacking) {
            Some(row) => rows.push(row),
            None => not_read.push(name),
        }
    }
    let left_out = [("lacks", lacking), ("does not read", &not_read)]
        .into_iter()
        .filter(|(_, names)| !names.is_empty())
        .map(|(why, names)| format!("The other archive {why}: {}.\n", names.join(", ")));
    let left_out: String = left_out.collect();
    format!(
        "Microseconds, the best of many calls in {TURNS} turns; in brackets: our time by the other archive's.\n\
         {left_out}\n{}",
        table(&head, rows)
    )
}
