//! Stores as a caller may lend them: good, damaged, and of any length.
use second::gen::{self, Rng};
use second::store::STORE;
use second::Model;
use std::fmt;
use std::ops::Deref;
use std::rc::Rc;

use crate::lists::Lent;

/// The levels as a store has them.
pub const LOW: u16 = 0;
pub const RELEASE: u16 = 1;
pub const HIGH: u16 = 2;
pub const SILENT: u16 = 3;

/// A store to lend, the model that it was made of, and what is wrong with it for sure.
#[derive(Clone, Default, PartialEq)]
pub struct Store {
    pub numbers: Vec<u16>,
    pub wrong: Option<&'static str>,
    model: Option<Rc<Model>>,
}

impl Store {
    pub fn of(model: &Model) -> Store {
        Store::made_of(model, model.to_store())
    }

    /// A store that was made of a model's, with what was changed in it or added to it.
    pub fn made_of(model: &Model, numbers: Vec<u16>) -> Store {
        Store {
            numbers,
            wrong: None,
            model: Some(Rc::new(model.clone())),
        }
    }

    /// The store with other numbers in it, which make it a damaged one.
    pub fn damaged(&self, wrong: &'static str, changes: &[(usize, u16)]) -> Store {
        let mut store = self.clone();
        for &(place, number) in changes {
            store.numbers[place] = number;
        }
        store.wrong = Some(wrong);
        store
    }

    /// The store as it is, with nothing and with one number too few, and with a few more.
    pub fn of_every_length(&self, rng: &mut Rng) -> [Store; 4] {
        let more: Lent<u16> = Lent::anything(rng, 1, 5);
        let longest = [&self.numbers[..], &more].concat();
        [0, STORE - 1, STORE, STORE + 5].map(|length| Store {
            numbers: longest[..length].to_vec(),
            ..self.clone()
        })
    }

    pub fn is_short(&self) -> bool {
        self.numbers.len() < STORE
    }
}

impl Deref for Store {
    type Target = [u16];
    fn deref(&self) -> &[u16] {
        &self.numbers
    }
}

impl fmt::Display for Store {
    fn fmt(&self, f: &mut fmt::Formatter) -> fmt::Result {
        if let Some(wrong) = self.wrong {
            write!(f, "{wrong}, ")?;
        }
        match &self.model {
            Some(model) => write!(f, "{}", gen::shown_store(model, &self.numbers)),
            None => write!(f, "{}", gen::shown_numbers(&self.numbers)),
        }
    }
}

/// Stores of a model damaged in every way, others damaged at random, and one of random numbers.
pub fn damaged(rng: &mut Rng) -> Vec<Store> {
    let model = gen::any_model(rng);
    let mut stores = Vec::new();
    for (what, numbers) in gen::bad_stores(&model) {
        stores.push(Store {
            wrong: Some(what),
            ..Store::made_of(&model, numbers)
        });
    }
    for _ in 0..20 {
        stores.push(Store::made_of(&model, gen::mutated_store(rng, &model)));
    }
    stores.push(Store {
        numbers: gen::scrap_store(rng),
        wrong: None,
        model: None,
    });
    stores
}
