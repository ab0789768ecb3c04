//! Times of the proved operations and of the program, beside those of the second checker and of plain Rust, all in one
//! run. Prints the tables; with `--write` it also writes them to TABLE.md, the plot beside it, and a short table
//! into the README. With `--beside PROGRAM FUNCTION..` it measures the operations beside those of another archive that
//! lacks these functions: PROGRAM is this program, linked with that archive. Both are then called with
//! `--turn MODEL FUNCTION..`, which prints the times of one turn.
mod beside;
mod growth;
mod plain;
mod plain_bits;
mod plain_books;
mod plain_mirror;
mod plain_moves;
mod plain_ticks;
mod plain_ticks_books;
mod plot;
mod process;
mod sets;
mod shapes;
mod tables;
mod times;

use std::fs;
use std::path::Path;

/// The README's table stands between these two lines.
const FROM: &str = "<!-- from here to the next mark: bench/run --write -->\n";
const TO: &str = "<!-- end of bench/run's part -->\n";

/// The README with its table made new.
fn renewed(readme: &str, part: &str) -> String {
    let (before, rest) = readme.split_once(FROM).expect("the README's first mark");
    let (_, after) = rest.split_once(TO).expect("the README's second mark");
    format!("{before}{FROM}{part}{TO}{after}")
}

fn write(file: &Path, text: &str) {
    fs::write(file, text).unwrap_or_else(|error| panic!("{}: {error}", file.display()));
}

fn main() {
    let arguments: Vec<String> = std::env::args().skip(1).collect();
    let arguments: Vec<&str> = arguments.iter().map(String::as_str).collect();
    match arguments[..] {
        ["--beside", other, ref lacking @ ..] => print!("{}", beside::table_of(other, lacking)),
        ["--turn", model, ref lacking @ ..] => print!("{}", beside::turn(model, lacking)),
        _ => measure(arguments == ["--write"]),
    }
}

/// Measures everything, and prints it.
fn measure(is_written: bool) {
    let report = tables::measure();
    let panels = growth::panels();
    let tables = report.whole() + &tables::growth(&panels);
    print!("{tables}");
    if is_written {
        let bench = Path::new(env!("CARGO_MANIFEST_DIR"));
        write(&bench.join("TABLE.md"), &tables);
        write(&bench.join("growth.svg"), &plot::svg(&panels));
        let readme = bench.join("../README.md");
        let old = fs::read_to_string(&readme).expect("the README");
        write(&readme, &renewed(&old, &report.short()));
    }
}
