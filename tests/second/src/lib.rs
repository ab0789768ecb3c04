//! Second checker for till models.
//!
//! It shares nothing with the checker it stands beside. Each operation is
//! computed in the plainest way the definitions allow, and takes its lent
//! lists in the order in which refusal 21 counts them.

#![forbid(unsafe_code)]

pub mod book;
pub mod check;
pub mod gen;
pub mod judge;
pub mod meaning;
pub mod moves;
pub mod page;
pub mod rank;
pub mod reach;
pub mod roll;
pub mod run;
pub mod store;
pub mod text;
pub mod word;

pub use book::{book, book_of, book_program};
pub use check::{check, check_program};
pub use judge::{judge, Verdict};
pub use page::{page, program};
pub use rank::rank;
pub use reach::reach;
pub use roll::{roll, roll_program};
pub use run::run;
pub use store::{Action, Level, Model, Step};
pub use text::{read, write};
pub use word::{word, End};

/// A refusal: its number, and the place that goes with it.
#[derive(Debug, Clone, Copy, PartialEq, Eq)]
pub struct Refusal {
    pub number: u16,
    pub place: u64,
}

impl Refusal {
    pub fn new(number: u16, place: u64) -> Refusal {
        Refusal { number, place }
    }

    /// The `F` line, ended.
    fn line(self) -> Vec<u8> {
        format!("F,{},{}\n", self.number, self.place).into_bytes()
    }
}

/// Refusal 21: the first list, from 1, that is below its least length.
/// Each entry is a list's length and its least length.
fn lent(lists: &[(usize, usize)]) -> Result<(), Refusal> {
    for (index, &(length, least)) in lists.iter().enumerate() {
        if length < least {
            return Err(Refusal::new(21, index as u64 + 1));
        }
    }
    Ok(())
}
