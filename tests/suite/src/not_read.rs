//! A text that is not read, by every way there is to ask: the operations, the programs and the script.
use second::gen;
use second::store::BOOK;
use second::Refusal;

use crate::command::{prints, run};
use crate::lists::Lists;
use crate::operations::{PRINT, READ, TELL};
use crate::program::{TILL, TILL_BOOK, TILL_CHECK, TILL_ROLL};
use crate::script::script;

/// The one line that is printed of it.
pub fn line_of(refusal: Refusal) -> String {
    format!("F,{},{}\n", refusal.number, refusal.place)
}

/// Read and `tell` refuse the text so and leave every list as it was; `print` prints it.
pub fn by_the_operations(text: &[u8], expected: Refusal, before: &Lists) {
    let _case = gen::text_case(text);
    let (answer, after) = READ.same(text, before);
    assert_eq!(answer, Err(expected));
    assert!(after == *before, "Read changed a list");
    let (told, after) = TELL.same(text, before);
    let told = told.expect("an answer for each of the three");
    assert_eq!((told.read, told.judged), (Err(expected), None));
    assert!(after == *before, "tell changed a list");
    let line = line_of(expected);
    let (length, after) = PRINT.same(text, before);
    assert_eq!(length, Ok(line.len()));
    assert_eq!(&after.page[..line.len()], line.as_bytes());
}

/// Each program prints it, and the one that checks books whatever the book is.
pub fn by_the_programs(text: &[u8], expected: Refusal) {
    let _case = gen::text_case(text);
    let behind_a_book = [&[7; BOOK], text].concat();
    for (program, input) in [
        (TILL, text),
        (TILL_ROLL, text),
        (TILL_BOOK, text),
        (TILL_CHECK, &behind_a_book),
    ] {
        let printed = String::from_utf8(program.printed(input)).expect("a line");
        assert_eq!(printed, line_of(expected), "{}", program.name);
    }
}

/// The script, with these words before it reads the text from standard input, prints it and ends with 2.
pub fn by_the_script(words: &[&str], text: &[u8], expected: Refusal) {
    let _case = gen::text_case(text);
    let output = run(script().args(words), text);
    prints(output, 2, &line_of(expected));
}
