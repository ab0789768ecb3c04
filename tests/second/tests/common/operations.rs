//! Every operation on a store.

use second::store::STORE;
use second::{book, check, judge, page, rank, reach, roll, run, word, write, Refusal};

use super::{Lists, LONGER};

/// An operation on a store. The lists that it is lent are fields of `Lists`.
pub struct OnStore {
    pub name: &'static str,
    /// Its refusal, if it refuses.
    pub refusal: fn(&[u16], &mut Lists) -> Option<Refusal>,
    /// The least lengths of the store and of each list.
    pub least: fn() -> Vec<usize>,
    /// Makes each list as long as these lengths say, of which the first is the store's.
    pub shorten: fn(&mut Lists, &[usize]),
    /// The state that it is called with, which no model has.
    pub states: &'static [u64],
}

/// `operation(lists);` or `operation(lists; a state that no model has);`
macro_rules! on_stores {
    ($($name:ident($($list:ident),+ $(; $state:literal)?);)*) => {
        pub const ON_STORES: &[OnStore] = &[$(OnStore {
            name: stringify!($name),
            refusal: |store, lists| $name(store, $(&mut lists.$list,)+ $($state)?).err(),
            least: || {
                let lists = Lists::new();
                vec![STORE, $(lists.$list.len() - LONGER),+]
            },
            shorten: |lists, lengths| {
                let mut lengths = lengths.iter().skip(1);
                $(lists.$list.truncate(*lengths.next().expect("a length"));)+
            },
            states: &[$($state)?],
        }),*];
    };
}

on_stores! {
    reach(distances);
    rank(table);
    judge(distances, table);
    run(distances, run; 9_999);
    word(distances, table, word);
    page(distances, table, run, word, out);
    roll(distances, table, run, word, paper);
    write(written);
    book(table, book);
    check(book);
}
