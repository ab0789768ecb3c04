//! Every operation of the archive. One entry of the table declares it for the tests and the benchmark: its name, the
//! archive's function, what it reads and the lists that it is lent, what it answers, and the second checker's function.
//! A list that no other operation is lent is a line in `lists.rs`, something else to read is a field in `input.rs`.
use second::{gen, End, Refusal, Verdict};
use std::any::type_name;
use std::hint::black_box;
use std::mem::size_of;

use crate::archive::{Answer, Told};
use crate::input::{types, Input};
use crate::lists::{List, Lists, LEAST};

/// `NAME: "Name" function(reads; lists that are lent; numbers) -> answer, second checker's;`
/// What it reads and the numbers are fields of `Input`, the lists those of `Lists`.
macro_rules! operations {
    ($($constant:ident: $name:literal
        $function:ident($($read:ident),+; $($list:ident),* $(; $number:ident)?) -> $answer:ty, $second:path;)*) => {
        extern "C" {
            $(fn $function(
                $($read: *const types::$read, _: usize,)+
                $($list: *mut types::$list, _: usize,)*
                $($number: types::$number,)?
            ) -> <$answer as Answer>::Raw;)*
        }

        $(#[allow(unused_variables)] // an operation may be lent no list
        pub const $constant: Operation<$answer> = Operation {
            name: $name,
            function: stringify!($function),
            arguments: &[
                $(concat!(stringify!($read), ", ", stringify!($read), "_len"),)+
                $(concat!(stringify!($list), ", ", stringify!($list), "_len"),)*
                $(stringify!($number),)?
            ],
            reads: &[$(stringify!($read)),+],
            lent: &[$(List::$list),*],
            proved: |input, lists| unsafe {
                $function(
                    $(input.$read.as_ptr(), input.$read.len(),)+
                    $(lists.$list.as_mut_ptr(), lists.$list.len(),)*
                    $(input.$number,)?
                )
            },
            second: |input, lists| $second($(&input.$read,)+ $(&mut lists.$list,)* $(input.$number,)?),
            declared: || {
                let parameters = [
                    $(list::<types::$read>("const ", stringify!($read)),)+
                    $(list::<types::$list>("", stringify!($list)),)*
                    $(number::<types::$number>(stringify!($number)),)?
                ];
                format!("{}({});", stringify!($function), parameters.join(", "))
            },
            shown: |input| {
                let parts = [$(input.$read.to_string(),)+ $(format!("{} {}", stringify!($number), input.$number),)?];
                parts.join("\n")
            },
        };)*

        /// The operations in the order of the table.
        pub const ALL: &[&dyn AnyOperation] = &[$(&$constant),*];
    };
}

operations! {
    READ: "Read" till_read(text; store) -> (), second::read;
    REACH: "Reach" till_reach(store; distances) -> (), second::reach;
    RANK: "Rank" till_rank(store; table) -> u16, second::rank;
    JUDGE: "Judge" till_judge(store; distances, table) -> Verdict, second::judge;
    RUN: "Run" till_run(store; distances, run; state) -> usize, second::run;
    WORD: "Word" till_word(store; distances, table, word) -> (usize, End), second::word;
    BOOK: "Book" till_book(store; table, book) -> (), second::book;
    CHECK: "Check" till_check(store, book;) -> (), second::check;
    PAGE: "Page" till_page(store; distances, table, run, word, page) -> usize, second::page;
    ROLL: "Roll" till_roll(store; distances, table, run, word, roll) -> usize, second::roll;
    WRITE: "Write" till_write(store; written) -> usize, second::write;
    PRINT: "print" till_print(text; store, distances, table, run, word, page) -> usize, expected_print;
    TELL: "tell" till_tell(text; store, distances, table, word) -> Told, expected_tell;
}

/// A list as C declares it.
fn list<T>(constant: &str, name: &str) -> String {
    let bits = 8 * size_of::<T>();
    format!("{constant}uint{bits}_t *{name}, size_t {name}_len")
}

/// A number as C declares it.
fn number<T>(name: &str) -> String {
    format!("uint{}_t {name}", 8 * size_of::<T>())
}

/// An operation with its answer's type.
pub struct Operation<A: Answer> {
    pub name: &'static str,
    /// The archive's function.
    function: &'static str,
    /// Its arguments in C: each list with its length, and the numbers.
    arguments: &'static [&'static str],
    reads: &'static [&'static str],
    /// The lists that it is lent after what it reads.
    pub lent: &'static [List],
    /// The archive's function with nothing around it.
    proved: fn(&Input, &mut Lists) -> A::Raw,
    second: fn(&Input, &mut Lists) -> Result<A, Refusal>,
    /// The archive's function as C declares it, but for what it answers.
    declared: fn() -> String,
    shown: fn(&Input) -> String,
}

impl<A: Answer> Operation<A> {
    /// What the archive answers.
    pub fn told(&self, input: impl Into<Input>, lists: &mut Lists) -> Result<A, Refusal> {
        self.answer(&input.into(), lists)
    }

    /// What it only reads is lent as a copy, so that a write into it is seen.
    fn answer(&self, input: &Input, lists: &mut Lists) -> Result<A, Refusal> {
        let lent = input.clone();
        let answer = A::of((self.proved)(&lent, lists));
        assert!(lent == *input, "only read, {}", (self.shown)(input));
        answer
    }

    /// The operation beside the second checker's, on one case: the answers are the same, and so is every list
    /// afterwards. A case that fails is shown.
    pub fn same(&self, input: impl Into<Input>, before: &Lists) -> (Result<A, Refusal>, Lists) {
        self.compared(&input.into(), before)
    }

    /// The archive answers so and leaves the lists so.
    pub fn fills(&self, input: impl Into<Input>, before: &Lists, answer: A, after: &Lists) {
        let (mut lists, name) = (before.clone(), self.name);
        assert_eq!(self.told(input, &mut lists), Ok(answer), "{name}");
        assert!(lists == *after, "{name}: {}", lists.difference(after));
    }

    fn compared(&self, input: &Input, before: &Lists) -> (Result<A, Refusal>, Lists) {
        let _case = gen::case(|| {
            let (name, read) = (self.name, (self.shown)(input));
            format!("{name}, {read}\n{}", before.shown(self.lent))
        });
        let (mut lists, mut expected) = (before.clone(), before.clone());
        let answer = self.answer(input, &mut lists);
        assert_eq!(answer, (self.second)(input, &mut expected), "the answer");
        if lists != expected {
            panic!("afterwards:\n{}", lists.difference(&expected));
        }
        (answer, lists)
    }
}

/// An operation whatever it answers.
pub trait AnyOperation: Sync {
    fn name(&self) -> &'static str;

    /// The names of what it reads.
    fn reads(&self) -> &'static [&'static str];

    /// The lists that it is lent after that.
    fn lent(&self) -> &'static [List];

    /// The name of the archive's function.
    fn function(&self) -> &'static str;

    /// The archive's function as C declares it.
    fn declared(&self) -> String;

    /// A call of it in C.
    fn called(&self) -> String;

    /// The archive's function alone.
    fn call_proved(&self, input: &Input, lists: &mut Lists);

    /// The second checker's function alone.
    fn call_second(&self, input: &Input, lists: &mut Lists);

    /// Both compared: the refusal, if the call is refused, and the lists afterwards.
    fn refusal(&self, input: &Input, before: &Lists) -> (Option<Refusal>, Lists);
}

impl<A: Answer> AnyOperation for Operation<A> {
    fn name(&self) -> &'static str {
        self.name
    }

    fn reads(&self) -> &'static [&'static str] {
        self.reads
    }

    fn lent(&self) -> &'static [List] {
        self.lent
    }

    fn function(&self) -> &'static str {
        self.function
    }

    fn declared(&self) -> String {
        let path = type_name::<A::Raw>();
        let answer = path.rsplit("::").next().unwrap_or(path);
        format!("{answer} {}", (self.declared)())
    }

    fn called(&self) -> String {
        format!("{}({});", self.function, self.arguments.join(", "))
    }

    fn call_proved(&self, input: &Input, lists: &mut Lists) {
        black_box((self.proved)(black_box(input), lists));
    }

    fn call_second(&self, input: &Input, lists: &mut Lists) {
        let _ = black_box((self.second)(black_box(input), lists));
    }

    fn refusal(&self, input: &Input, before: &Lists) -> (Option<Refusal>, Lists) {
        let (answer, lists) = self.compared(input, before);
        (answer.err(), lists)
    }
}

/// The operations that read a store.
pub fn on_stores() -> impl Iterator<Item = &'static dyn AnyOperation> {
    let reads_a_store = |operation: &&&dyn AnyOperation| operation.reads()[0] == "store";
    ALL.iter().filter(reads_a_store).copied()
}

/// Read, and then Page or the line that tells Read's refusal. The text is the first list and the store the second.
fn expected_print(
    text: &[u8],
    store: &mut [u16],
    distances: &mut [u16],
    table: &mut [u8],
    run: &mut [u16],
    word: &mut [u16],
    page: &mut [u8],
) -> Result<usize, Refusal> {
    let lengths = [
        store.len(),
        distances.len(),
        table.len(),
        run.len(),
        word.len(),
        page.len(),
    ];
    let short = |(list, length): (&List, &usize)| *length < LEAST[*list as usize];
    if let Some(index) = PRINT.lent.iter().zip(&lengths).position(short) {
        return Err(Refusal::new(21, index as u64 + 2));
    }
    match second::read(text, store) {
        Ok(()) => second::page(store, distances, table, run, word, page),
        Err(Refusal { number, place }) => {
            let line = format!("F,{number},{place}\n");
            page[..line.len()].copy_from_slice(line.as_bytes());
            Ok(line.len())
        }
    }
}

/// Read, and then Judge and Word on the store that it filled.
fn expected_tell(
    text: &[u8],
    store: &mut [u16],
    distances: &mut [u16],
    table: &mut [u8],
    word: &mut [u16],
) -> Result<Told, Refusal> {
    let read = second::read(text, store);
    let judged = read.is_ok().then(|| {
        let verdict = second::judge(store, distances, table);
        (verdict, second::word(store, distances, table, word))
    });
    Ok(Told { read, judged })
}
