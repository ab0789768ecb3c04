//! The best times of all calls on one model.
use std::hint::black_box;
use std::time::{Duration, Instant};

use second::gen::{self, Rng};
use second::store::{BOOK, STORE, TABLE};
use second::Model;
use suite::books::Book;
use suite::input::Input;
use suite::lists::{Lists, LEAST};
use suite::operations::{AnyOperation, ALL, JUDGE, PRINT, READ, WORD, WRITE};
use suite::stores::Store;

use crate::plain;
use crate::plain_bits;
use crate::plain_books;
use crate::plain_ticks;
use crate::plain_ticks_books;
use crate::process;

/// How long each call is repeated at a time, and how often at least.
const LONG_ENOUGH: Duration = Duration::from_millis(40);
const AT_LEAST: usize = 2;

/// How often all calls take turns, so that other work on the machine slows none of them alone.
pub const TURNS: usize = 5;

const UNREACHABLE: u16 = 65_535;

/// The operations, in the order of the tables, of an archive that lacks these functions.
pub fn operations(lacking: &[&str]) -> Vec<&'static dyn AnyOperation> {
    let has = |operation: &&dyn AnyOperation| !lacking.contains(&operation.function());
    ALL.iter().copied().filter(has).collect()
}

/// What is timed, in the order of the tables.
pub fn names() -> Vec<&'static str> {
    let names = ALL.iter().map(|operation| operation.name());
    names.chain(["program"]).collect()
}

/// What is timed in plain Rust too.
pub const PLAIN: [&str; 3] = ["Rank", "Book", "Check"];

/// What takes longer than a part of it, after that part. A reading that says otherwise is measured again.
const PARTS: [(&str, &str); 5] = [
    ("Reach", "Judge"),
    ("Rank", "Judge"),
    ("Judge", "Word"),
    ("Judge", "Page"),
    ("Page", "print"),
];

/// The share of a part's time that may be lacking, and how many more turns there are at most.
const TOLERANCE: f64 = 0.01;
const MORE_TURNS: usize = 5;

/// Some time of ours is less than that of a part.
fn is_refuted(ours: &Each) -> bool {
    let time = |name| ours[column(name)];
    let lacks = |&(part, whole)| time(whole) < (1.0 - TOLERANCE) * time(part);
    PARTS.iter().any(lacks)
}

/// The operations of `PLAIN` on a good store in plain Rust.
struct Plain {
    rank: fn(&[u16], &mut [u8]) -> u8,
    book: fn(&[u16; STORE], &mut [u8; TABLE], &mut [u8; BOOK]),
    check: fn(&[u16; STORE], &[u8; BOOK]) -> Option<usize>,
}

/// By the steps of each state, for models whose moves are single steps.
const BY_STEPS: Plain = Plain {
    rank: plain::rank,
    book: plain_books::book,
    check: plain_books::check,
};

/// Over bit sets, for the same models.
const STEPS_AS_SETS: Plain = Plain {
    rank: plain_bits::rank,
    ..MOVES_AS_SETS
};

/// Over bit sets, for any model.
const MOVES_AS_SETS: Plain = Plain {
    rank: plain_ticks::rank,
    book: plain_ticks_books::book,
    check: plain_ticks_books::check,
};

/// The place of a name among them.
pub fn column(name: &str) -> usize {
    let mut names = names().into_iter();
    names.position(|other| other == name).expect("a name")
}

/// Microseconds in the order of `names`.
pub type Each = Vec<f64>;

/// The best time of many calls, in microseconds.
fn best<T>(mut call: impl FnMut() -> T) -> f64 {
    let began = Instant::now();
    let mut best = Duration::MAX;
    let mut calls = 0;
    while calls < AT_LEAST || began.elapsed() < LONG_ENOUGH {
        let start = Instant::now();
        black_box(call());
        best = best.min(start.elapsed());
        calls += 1;
    }
    best.as_secs_f64() * 1e6
}

/// The best time of one call that is timed alone.
pub fn best_of_turns<T>(mut call: impl FnMut() -> T) -> f64 {
    (0..TURNS).map(|_| best(&mut call)).fold(f64::MAX, f64::min)
}

/// Keeps the less of two times, place by place.
pub fn least(times: &mut Each, others: &Each) {
    for (time, other) in times.iter_mut().zip(others) {
        *time = time.min(*other);
    }
}

/// A list of least length as an array.
fn array<T, const N: usize>(list: &[T]) -> &[T; N] {
    list.first_chunk().expect("a list of its least length")
}

fn array_mut<T, const N: usize>(list: &mut [T]) -> &mut [T; N] {
    list.first_chunk_mut().expect("a list of its least length")
}

/// Whether the archive reads a model's text.
pub fn is_read(model: &Model) -> bool {
    let mut lists = Lists::anything(&mut Rng::new(0), LEAST);
    READ.told(&model.to_text(), &mut lists).is_ok()
}

/// The best times of one model.
pub struct Times {
    pub ours: Each,
    pub second: Each,
    /// Plain Rust by steps, for models without ticks, in the order of `PLAIN`.
    pub plain: Option<Each>,
    /// Plain Rust over bit sets.
    pub bits: Each,
}

impl Times {
    /// Keeps the less of two times, place by place.
    fn join(&mut self, others: &Times) {
        least(&mut self.ours, &others.ours);
        least(&mut self.second, &others.second);
        if let Some((plain, others)) = self.plain.as_mut().zip(others.plain.as_ref()) {
            least(plain, others);
        }
        least(&mut self.bits, &others.bits);
    }
}

impl Plain {
    /// One turn, in the order of `PLAIN`.
    fn turn(&self, input: &Input, lists: &mut Lists) -> Each {
        let (store, own) = (array(&input.store), array(&input.book));
        let rank = best(|| (self.rank)(black_box(store), &mut lists.table));
        let (table, book) = (array_mut(&mut lists.table), array_mut(&mut lists.book));
        let book = best(|| (self.book)(black_box(store), table, book));
        let check = best(|| (self.check)(black_box(store), black_box(own)));
        vec![rank, book, check]
    }
}

/// A model and its lists, which are filled over and over.
pub struct Timed {
    operations: Vec<&'static dyn AnyOperation>,
    /// Run goes to a reachable state as far from the nearest start as any.
    input: Input,
    lists: Lists,
    plain: Option<Plain>,
    bits: Plain,
    /// The letters of Word's answer, or its refusal's number.
    pub letters: Result<usize, u16>,
}

impl Timed {
    /// Lists of least length, filled once.
    pub fn of(model: &Model) -> Timed {
        Timed::without(model, &[])
    }

    /// The same with an archive that lacks these functions, which are not called.
    pub fn without(model: &Model, lacking: &[&str]) -> Timed {
        let (plain, bits) = match model.has_silent() {
            true => (None, MOVES_AS_SETS),
            false => (Some(BY_STEPS), STEPS_AS_SETS),
        };
        let mut timed = Timed {
            operations: operations(lacking),
            input: Input {
                store: Store::of(model),
                book: Book::own(model),
                ..Input::from(&model.to_text())
            },
            lists: Lists::anything(&mut Rng::new(0), LEAST),
            plain,
            bits,
            letters: Ok(0),
        };
        // Past its own least length an archive of a shorter store leaves the list as it is.
        timed.lists.store.copy_from_slice(&timed.input.store);
        timed.fill();
        timed.compare();
        timed.compare_plain(model);
        timed
    }

    /// Both pages are the same, and what is written is the text.
    fn fill(&mut self) {
        let Timed { input, lists, .. } = self;
        let length = PRINT.told(input.clone(), lists).expect("a page");
        assert!(
            second::program(&input.text) == lists.page[..length],
            "one page"
        );
        let length = WRITE.told(input.clone(), lists).expect("a text");
        assert!(lists.written[..length] == input.text[..], "one text");
        let word = WORD.told(input.clone(), lists);
        self.letters = word
            .map(|(length, _)| length)
            .map_err(|refusal| refusal.number);
        let distance = |&p: &u16| lists.distances[usize::from(p)];
        input.state = (0..input.store[0])
            .filter(|p| distance(p) != UNREACHABLE)
            .max_by_key(distance)
            .expect("the start is reachable");
    }

    /// Each operation does what the second checker's does, and none but Word is timed on a refusal.
    fn compare(&self) {
        for operation in &self.operations {
            let (refusal, _) = operation.refusal(&self.input, &self.lists);
            let name = operation.name();
            assert!(refusal.is_none() || name == WORD.name, "{name}");
        }
    }

    /// The plain tables are ours, the plain books the second checker's, and the plain checks find the same bad entries.
    fn compare_plain(&self, model: &Model) {
        let Input { store, book, .. } = &self.input;
        let store = array(store);
        for plain in self.plain.iter().chain([&self.bits]) {
            let (mut ranks, mut table, mut filled) = ([2; TABLE], [2; TABLE], [2; BOOK]);
            (plain.rank)(store, &mut ranks);
            (plain.book)(store, &mut table, &mut filled);
            let ours = &self.lists.table[..];
            assert!(ranks == ours && table == ours, "one table");
            assert!(filled == book[..], "one book");
            assert_eq!((plain.check)(store, &filled), None, "a sound book");
            for bad in gen::bad_books(&mut Rng::new(0), model, book) {
                let first = (plain.check)(store, array(&bad.book));
                assert_eq!(first, Some(bad.refusal.place as usize), "{}", bad.what);
            }
        }
    }

    /// One turn of Judge alone.
    pub fn judge(&mut self) -> f64 {
        best(|| JUDGE.call_proved(&self.input, &mut self.lists))
    }

    /// The best times of some turns, and of a few more while they refute each other.
    pub fn times(&mut self) -> Times {
        let mut times = self.turn();
        for turn in 1..TURNS + MORE_TURNS {
            if turn >= TURNS && !is_refuted(&times.ours) {
                break;
            }
            times.join(&self.turn());
        }
        times
    }

    /// One turn of everything.
    fn turn(&mut self) -> Times {
        let (ours, second) = (self.ours(), self.second());
        let Timed { input, lists, .. } = self;
        let plain = self.plain.as_ref().map(|plain| plain.turn(input, lists));
        let bits = self.bits.turn(input, lists);
        Times {
            ours,
            second,
            plain,
            bits,
        }
    }

    /// One turn of the proved operations.
    pub fn operations(&mut self) -> Each {
        let Timed { input, lists, .. } = self;
        let call = |operation: &&dyn AnyOperation| best(|| operation.call_proved(input, lists));
        self.operations.iter().map(call).collect()
    }

    /// One turn of the proved operations and the program.
    fn ours(&mut self) -> Each {
        let mut each = self.operations();
        each.push(best(|| process::run(process::PROGRAM, &self.input.text)));
        each
    }

    /// One turn of the second checker and its process.
    fn second(&mut self) -> Each {
        let Timed { input, lists, .. } = self;
        let call = |operation: &&dyn AnyOperation| best(|| operation.call_second(input, lists));
        let mut each: Each = self.operations.iter().map(call).collect();
        each.push(best(|| process::run(process::SECOND, &input.text)));
        each
    }
}
