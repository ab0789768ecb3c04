//! Books as a caller may lend them: sound, damaged, and of any length.
use second::book::{Entry, ENTRY};
use second::store::BOOK;
use second::{gen, Model};
use std::fmt;
use std::ops::Deref;
use std::rc::Rc;

/// A book to lend, and the model that it was made for.
#[derive(Clone, Default, PartialEq)]
pub struct Book {
    bytes: Vec<u8>,
    model: Option<Rc<Model>>,
}

impl Book {
    /// A book of these bytes, whoever made it.
    pub fn bytes(bytes: Vec<u8>) -> Book {
        Book { bytes, model: None }
    }

    /// It is sound for every model.
    pub fn without_entries() -> Book {
        Book::bytes(vec![0; BOOK])
    }

    pub fn of(model: &Model, bytes: Vec<u8>) -> Book {
        Book {
            bytes,
            model: Some(Rc::new(model.clone())),
        }
    }

    /// The model's own book.
    pub fn own(model: &Model) -> Book {
        Book::of(model, second::book_of(model))
    }

    /// The book with another entry.
    pub fn with(&self, number: usize, entry: [u8; ENTRY]) -> Book {
        let mut book = self.clone();
        book.bytes[ENTRY * number..][..ENTRY].copy_from_slice(&entry);
        book
    }

    /// The book cut off, or with more bytes behind it.
    pub fn of_length(&self, length: usize) -> Book {
        let mut book = self.clone();
        book.bytes.resize(length, 7);
        book
    }
}

impl Deref for Book {
    type Target = [u8];
    fn deref(&self) -> &[u8] {
        &self.bytes
    }
}

impl fmt::Display for Book {
    fn fmt(&self, f: &mut fmt::Formatter) -> fmt::Result {
        let length = self.bytes.len();
        match &self.model {
            Some(model) if length >= BOOK => write!(f, "{}", gen::shown_book(model, &self.bytes)),
            _ => {
                let entries =
                    (0..length / ENTRY).map(|number| (number, Entry::of(&self.bytes, number)));
                let present: Vec<_> = entries.filter(|(_, entry)| !entry.is_absent()).collect();
                write!(f, "book of {length} bytes, all else absent: {present:?}")
            }
        }
    }
}
