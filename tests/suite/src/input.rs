//! What an operation only reads.
use second::gen;
use std::fmt;
use std::ops::Deref;

use crate::books::Book;
use crate::stores::Store;

/// Everything that operations read; each takes what its entry in the table names.
#[derive(Clone, Default, PartialEq)]
pub struct Input {
    pub text: Text,
    pub store: Store,
    /// The book that Check tests.
    pub book: Book,
    /// The state that Run goes to.
    pub state: u16,
}

/// The element of each list and the type of each number.
#[allow(non_camel_case_types)]
pub mod types {
    pub use crate::lists::types::*;
    pub type text = u8;
    pub type state = u16;
}

/// A text, good or not.
#[derive(Clone, Default, PartialEq)]
pub struct Text(Vec<u8>);

impl Deref for Text {
    type Target = [u8];
    fn deref(&self) -> &[u8] {
        &self.0
    }
}

impl fmt::Display for Text {
    fn fmt(&self, f: &mut fmt::Formatter) -> fmt::Result {
        write!(f, "text: {}", gen::shown(&self.0))
    }
}

impl From<&[u8]> for Input {
    fn from(text: &[u8]) -> Input {
        Input {
            text: Text(text.to_vec()),
            ..Input::default()
        }
    }
}

impl From<&Vec<u8>> for Input {
    fn from(text: &Vec<u8>) -> Input {
        Input::from(&text[..])
    }
}

impl From<&Store> for Input {
    fn from(store: &Store) -> Input {
        Input::from((store, 0))
    }
}

impl From<(&Store, u16)> for Input {
    fn from((store, state): (&Store, u16)) -> Input {
        Input {
            state,
            ..Input::from((store, &Book::without_entries()))
        }
    }
}

impl From<(&Store, &Book)> for Input {
    fn from((store, book): (&Store, &Book)) -> Input {
        Input {
            store: store.clone(),
            book: book.clone(),
            ..Input::default()
        }
    }
}
