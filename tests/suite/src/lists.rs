//! Lists as a caller may lend them: of any length, and with anything in them before the call.
use second::gen::Rng;
use second::store::{BOOK, DISTANCES, PAGE, ROLL, RUN, STORE, TABLE, WORD, WRITTEN};
use std::fmt;
use std::mem::size_of;
use std::ops::{Deref, DerefMut};

/// How many elements before and after a list are watched.
const MARGIN: usize = 64;

/// How much longer than need be the longest list is.
const LONGEST: usize = 37;

/// Lengths around a least length: none, one short, exact, longer.
pub fn lengths(least: usize) -> [usize; 5] {
    [0, least - 1, least, least + 1, least + LONGEST]
}

/// An element of a list.
pub trait Element: Copy + PartialEq + fmt::Display {
    fn from_bits(bits: u16) -> Self;
}

impl Element for u8 {
    fn from_bits(bits: u16) -> u8 {
        bits as u8
    }
}

impl Element for u16 {
    fn from_bits(bits: u16) -> u16 {
        bits
    }
}

/// A list to lend, with anything in it. It is a part of a longer one, so that a write outside it is seen. The seed
/// makes the contents again.
#[derive(Clone, PartialEq)]
pub struct Lent<T> {
    whole: Vec<T>,
    length: usize,
    least: usize,
    seed: u64,
}

impl<T: Element> Lent<T> {
    /// A list for which the operations have a least length.
    pub fn anything(rng: &mut Rng, least: usize, length: usize) -> Lent<T> {
        let seed = rng.seed();
        // Only 0, as a new list has it; small numbers, as an earlier call leaves them; or any numbers.
        let bound = *rng.pick(&[1, 3, 129, 65_536, 65_536]);
        let below_bound = |_| T::from_bits((((rng.draw() >> 48) * bound) >> 16) as u16);
        let whole = (0..least + LONGEST + 2 * MARGIN).map(below_bound).collect();
        let list = Lent {
            whole,
            length: 0,
            least,
            seed,
        };
        list.of_length(length)
    }

    /// The same list, but more or less of it lent.
    pub fn of_length(&self, length: usize) -> Lent<T> {
        assert!(length <= self.least + LONGEST);
        Lent {
            length,
            ..self.clone()
        }
    }
}

impl<T: Element> Lent<T> {
    /// The first place that differs from what is expected; empty if none does. A place before the list is below 0.
    fn difference(&self, expected: &Lent<T>) -> String {
        let both = self.whole.iter().zip(&expected.whole);
        match both.enumerate().find(|(_, (one, other))| one != other) {
            Some((place, (is, expected))) => {
                let place = place as isize - MARGIN as isize;
                format!(" place {place} is {is}, expected {expected}")
            }
            None => String::new(),
        }
    }
}

impl<T> Deref for Lent<T> {
    type Target = [T];
    fn deref(&self) -> &[T] {
        &self.whole[MARGIN..MARGIN + self.length]
    }
}

impl<T> DerefMut for Lent<T> {
    fn deref_mut(&mut self) -> &mut [T] {
        &mut self.whole[MARGIN..MARGIN + self.length]
    }
}

/// As it is made again.
impl<T> fmt::Display for Lent<T> {
    fn fmt(&self, f: &mut fmt::Formatter) -> fmt::Result {
        let Lent {
            length,
            least,
            seed,
            ..
        } = self;
        write!(
            f,
            "Lent::anything(&mut Rng::new({seed}), {least}, {length})"
        )
    }
}

/// `name: element, least length;` for each list.
macro_rules! lists {
    ($($list:ident: $element:ty, $least:expr;)*) => {
        /// The lists that may be lent after what an operation reads.
        #[derive(Clone, PartialEq)]
        pub struct Lists {
            $(pub $list: Lent<$element>,)*
        }

        /// One of these lists, by the name of its field.
        #[allow(non_camel_case_types)]
        #[derive(Clone, Copy)]
        pub enum List {
            $($list,)*
        }

        /// The element of each list.
        #[allow(non_camel_case_types)]
        pub mod types {
            $(pub type $list = $element;)*
        }

        /// The least length of each list.
        pub const LEAST: Lengths = [$($least,)*];

        /// A length of each list, in this order.
        pub type Lengths = [usize; [$(List::$list,)*].len()];

        /// Every list with its length, as C declares them.
        pub fn declared() -> String {
            let lists = [$((stringify!($list), size_of::<$element>(), $least),)*];
            let declared = |(list, bytes, least)| {
                format!("static uint{}_t {list}[{least}];\nenum {{ {list}_len = {least} }};\n", 8 * bytes)
            };
            lists.map(declared).concat()
        }

        impl Lists {
            pub fn anything(rng: &mut Rng, lengths: Lengths) -> Lists {
                Lists {
                    $($list: Lent::anything(rng, $least, lengths[List::$list as usize]),)*
                }
            }

            /// The same lists, but more or less of them lent.
            pub fn of_lengths(&self, lengths: Lengths) -> Lists {
                Lists {
                    $($list: self.$list.of_length(lengths[List::$list as usize]),)*
                }
            }

            /// Where each list differs from what is expected.
            pub fn difference(&self, expected: &Lists) -> String {
                let lists = [$((stringify!($list), self.$list.difference(&expected.$list)),)*];
                let differs = lists.iter().filter(|(_, difference)| !difference.is_empty());
                differs.map(|(name, difference)| format!("{name}:{difference}\n")).collect()
            }

            /// Some of the lists as they are made again.
            pub fn shown(&self, lists: &[List]) -> String {
                let shown = |list: &List| match list {
                    $(List::$list => format!("{}: {}\n", stringify!($list), self.$list),)*
                };
                lists.iter().map(shown).collect()
            }
        }
    };
}

lists! {
    store: u16, STORE;
    distances: u16, DISTANCES;
    table: u8, TABLE;
    run: u16, RUN;
    word: u16, WORD;
    book: u8, BOOK;
    page: u8, PAGE;
    roll: u8, ROLL;
    written: u8, WRITTEN;
}

impl Lists {
    /// Lists that are long enough, some a few places longer.
    pub fn enough(rng: &mut Rng) -> Lists {
        let lengths = LEAST.map(|least| least + rng.below(4));
        Lists::anything(rng, lengths)
    }
}

/// Lengths of which one is another.
pub fn with_length(lengths: Lengths, list: List, length: usize) -> Lengths {
    let mut lengths = lengths;
    lengths[list as usize] = length;
    lengths
}

/// Every choice of lengths around the least ones for some of the lists; the others are exact.
pub fn every_length(of: &[List]) -> Vec<Lengths> {
    of.iter().fold(vec![LEAST], |choices, &list| {
        let around = lengths(LEAST[list as usize]);
        let extended = |choice| around.map(|length| with_length(choice, list, length));
        choices.into_iter().flat_map(extended).collect()
    })
}
