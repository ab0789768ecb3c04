//! Models, damaged texts, damaged stores and books of plays for the tests.
//!
//! Everything is drawn from a small generator with a seed, so each run of the
//! tests sees the same inputs. Each module below makes one kind of them; the
//! last tells what a test shows of its cases.

mod books;
mod choices;
mod deep;
mod limits;
mod models;
mod parts;
mod rng;
mod starts;
mod stores;
mod texts;
mod ticks;
mod variants;
mod wide;

mod cases;

pub use books::with_silent_entries;
pub use books::{bad_books, bad_store_books, BadBook, BadStoreBook};
pub use books::{cut_book, mutated_book, scrap_book, sound_book, sound_books};
pub use cases::{
    book_case, case, model_case, seeded, shown, shown_book, shown_numbers, shown_store, text_case,
    Case,
};
pub use choices::zigzag_of_ticks;
pub use choices::{choices_of_ticks, deep_choices_of_ticks, fewer_choices_of_ticks};
pub use deep::{branching_deep_model, chain, deep_model};
pub use limits::limit_models;
pub use models::{
    any_model, deterministic_model, narrow_model, nearly_passing_model, one_high_model,
    passing_model, random_model, small_model,
};
pub use rng::Rng;
pub use starts::with_all_starts;
pub use stores::{bad_stores, mutated_store, no_high_store, scrap_store};
pub use stores::{mutated_tick_store, no_high_tick_store};
pub use texts::{bad_lines, faults, mutated_text, no_high_text, scrap_text};
pub use texts::{mutated_tick_text, no_high_tick_text};
pub use texts::{BadLine, Fault, Kind};
pub use ticks::{
    deterministic_tick_model, silenced, tick_limit_models, tick_model, with_delays,
    with_random_ticks, with_tick_ring, with_ticks, with_unreachable_ticks,
};
pub use variants::{shuffle, with_twin, with_unreachable};
pub use wide::{greatest_roll, wide_model};

use std::collections::BTreeSet;

/// First, second, middle and last of a range.
fn some_of(from: usize, to: usize) -> BTreeSet<usize> {
    [from, from + 1, (from + to) / 2, to.saturating_sub(1)]
        .into_iter()
        .filter(|&index| from <= index && index < to)
        .collect()
}
