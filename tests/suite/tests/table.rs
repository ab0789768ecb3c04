//! The table of operations is the header's: what C calls is what the tests call.
use std::collections::BTreeSet;
use std::fs;

use suite::bench::root;
use suite::operations::ALL;

/// The header's functions, each in one line. They begin with the type of their answer.
fn header() -> BTreeSet<String> {
    let file = root().join("crates/till_c/till.h");
    let header = fs::read_to_string(file).expect("the header");
    let declarations = header.split(';').filter_map(|part| {
        let start = part.rfind("\nTill")?;
        let words: Vec<&str> = part[start..].split_whitespace().collect();
        Some(words.join(" ") + ";")
    });
    declarations.filter(|line| line.contains('(')).collect()
}

#[test]
fn the_header_declares_the_table() {
    // Page, Roll and Write each call their own list out.
    let out = |line: String| {
        let renamed = |line: String, list: &str| {
            line.replace(&format!("*{list}, size_t {list}"), "*out, size_t out")
        };
        ["page", "roll", "written"].into_iter().fold(line, renamed)
    };
    let table = ALL.iter().map(|operation| out(operation.declared()));
    assert_eq!(header(), table.collect());
}
