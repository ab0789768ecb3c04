//! The programs that write and check books, against the second checker.
use std::time::Duration;

use second::gen::{self, Rng};
use second::store::BOOK;
use second::Model;
use suite::bench::{examples, WORKED};
use suite::books::Book;
use suite::program::{cut, LONGEST, TILL_BOOK, TILL_CHECK};
use suite::texts::{models_to_damage, one_of_each};

const SEED: u64 = 8_000;

/// What `till_check` takes.
fn input(book: &[u8], text: &[u8]) -> Vec<u8> {
    [&book[..BOOK], text].concat()
}

/// Each book is accepted for its own model.
#[test]
fn the_examples() {
    let mut rng = gen::seeded("book_program::the_examples", SEED);
    for (file, text, page) in examples() {
        let printed = TILL_BOOK.same(&text);
        if page.starts_with(b"F,") {
            assert_eq!(printed, page, "{}", file.display());
            assert_eq!(
                TILL_CHECK.same(&input(&gen::scrap_book(&mut rng), &text)),
                page
            );
        } else {
            assert_eq!(printed.len(), BOOK, "{}", file.display());
            assert_eq!(TILL_CHECK.same(&input(&printed, &text)), b"");
        }
    }
}

/// Texts of every size, behind a book of any bytes.
#[test]
fn sizes() {
    let mut rng = gen::seeded("book_program::sizes", SEED + 1);
    let mut same = |text: &[u8]| {
        let line = TILL_BOOK.same(text);
        let book = gen::scrap_book(&mut rng);
        assert_eq!(TILL_CHECK.same(&input(&book, text)), line);
        line
    };
    assert_eq!(same(b""), b"F,32,1\n");
    for byte in [b'\n', b'E', 0, 255] {
        let line: &[u8] = if byte == b'\n' {
            b"F,2,1\n"
        } else {
            b"F,32,1\n"
        };
        assert_eq!(same(&[byte; LONGEST]), line);
        for length in [LONGEST + 1, 20_000, 200_000] {
            assert_eq!(same(&vec![byte; length]), b"F,1,0\n");
        }
    }
}

#[test]
fn models_at_the_limits() {
    let mut rng = gen::seeded("book_program::models_at_the_limits", SEED + 2);
    for (what, model) in gen::limit_models(&mut rng) {
        let text = model.to_text();
        let book = TILL_BOOK.same(&text);
        assert_eq!(TILL_CHECK.same(&input(&book, &text)), b"", "{what}");
    }
}

#[test]
fn a_slow_pipe() {
    let mut rng = gen::seeded("book_program::a_slow_pipe", SEED + 3);
    let pause = Duration::from_millis(7);
    for _ in 0..6 {
        let text = gen::any_model(&mut rng).to_text();
        let pieces = cut(&mut rng, &text, 1 + text.len() / 8);
        let book = TILL_BOOK.same_in_pieces(&pieces, pause);
        let both = input(&book, &text);
        let pieces = cut(&mut rng, &both, 1 + both.len() / 8);
        assert_eq!(TILL_CHECK.same_in_pieces(&pieces, pause), b"");
    }
    // each byte around the end of the book by itself
    let both = input(&TILL_BOOK.same(WORKED), WORKED);
    let (start, end) = both.split_at(BOOK - 9);
    let mut pieces = vec![start];
    pieces.extend(end.chunks(1));
    assert_eq!(TILL_CHECK.same_in_pieces(&pieces, pause), b"");
    pieces.push(b"\n");
    assert_eq!(TILL_CHECK.same_in_pieces(&pieces, pause), b"F,32,10\n");
}

/// A book of a model, sound or not.
fn any_book(rng: &mut Rng, model: &Model) -> Vec<u8> {
    let sound = gen::sound_book(rng, model);
    match rng.below(3) {
        0 => sound,
        1 => gen::mutated_book(rng, model, &sound),
        _ => {
            let bad = gen::bad_books(rng, model, &sound);
            rng.pick(&bad).book.clone()
        }
    }
}

#[test]
fn random_models() {
    let mut rng = gen::seeded("book_program::random_models", SEED + 4);
    let (mut accepted, mut refused) = (0, 0);
    for round in 0..1_500 {
        let model = match round % 4 {
            0 => gen::deep_model(&mut rng, 1 + round / 4 % 127),
            1 => gen::branching_deep_model(&mut rng, 1 + round / 4 % 127),
            _ => gen::any_model(&mut rng),
        };
        let text = model.to_text();
        assert!(TILL_BOOK.same(&text) == Book::own(&model)[..]);
        let book = any_book(&mut rng, &model);
        match &TILL_CHECK.same(&input(&book, &text))[..] {
            b"" => accepted += 1,
            line => {
                assert!(line.starts_with(b"F,34,"));
                refused += 1;
            }
        }
    }
    assert!(accepted > 300 && refused > 300, "{accepted} {refused}");
}

/// A text that is not read gets its own number, whatever the book is.
#[test]
fn damaged_texts() {
    let mut rng = gen::seeded("book_program::damaged_texts", SEED + 5);
    for model in models_to_damage(&mut rng, 10) {
        let book = any_book(&mut rng, &model);
        for fault in one_of_each(&mut rng, &model) {
            let _case = gen::text_case(&fault.text);
            let line = format!("F,{},{}\n", fault.refusal.number, fault.refusal.place);
            assert_eq!(
                TILL_BOOK.printed(&fault.text),
                line.as_bytes(),
                "{}",
                fault.what
            );
            let printed = TILL_CHECK.printed(&input(&book, &fault.text));
            assert_eq!(printed, line.as_bytes(), "{}", fault.what);
        }
    }
    for _ in 0..500 {
        let text = gen::any_model(&mut rng).to_text();
        let text = gen::mutated_text(&mut rng, &text);
        TILL_BOOK.same(&text);
        TILL_CHECK.same(&input(&gen::scrap_book(&mut rng), &text));
    }
}
