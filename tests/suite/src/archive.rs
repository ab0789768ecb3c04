//! What the archive answers, as `crates/till_c/till.h` declares it, and what it means.
use second::{End, Refusal, Verdict};
use std::fmt::Debug;

/// Number 0 with `count` values, or a refusal's number with its place.
#[repr(C)]
pub struct TillAnswer {
    pub number: u64,
    pub place: u64,
    pub count: u64,
    pub first: u64,
    pub second: u64,
    pub third: u64,
}

impl TillAnswer {
    /// The values, or the refusal; what is not told is 0. An answer of another form is a fault of the archive.
    fn values(&self) -> Result<Vec<u64>, Refusal> {
        let all = [self.first, self.second, self.third];
        if self.number != 0 {
            assert_eq!((self.count, all), (0, [0; 3]), "a refusal has no values");
            let number = u16::try_from(self.number).expect("a refusal's number has 16 bits");
            return Err(Refusal::new(number, self.place));
        }
        assert_eq!(self.place, 0, "a success has no place");
        let (values, rest) = all.split_at(usize::try_from(self.count).expect("a count fits"));
        assert!(
            rest.iter().all(|&number| number == 0),
            "{values:?} {rest:?}"
        );
        Ok(values.to_vec())
    }
}

/// What Read, Judge and Word answer of one text.
#[repr(C)]
pub struct TillTold {
    pub read: TillAnswer,
    pub judge: TillAnswer,
    pub word: TillAnswer,
}

/// An answer of the second checker's form.
pub trait Answer: Sized + PartialEq + Debug {
    /// The archive's form.
    type Raw;

    fn of(raw: Self::Raw) -> Result<Self, Refusal>;
}

/// An answer that a struct `TillAnswer` tells.
trait Values: Sized + PartialEq + Debug {
    fn of(values: &[u64]) -> Self;
}

impl<A: Values> Answer for A {
    type Raw = TillAnswer;

    fn of(raw: TillAnswer) -> Result<A, Refusal> {
        raw.values().map(|values| Values::of(&values))
    }
}

/// Only that the operation succeeded.
impl Values for () {
    fn of(values: &[u64]) {
        assert!(values.is_empty(), "{values:?}");
    }
}

/// A rank.
impl Values for u16 {
    fn of(values: &[u64]) -> u16 {
        match values {
            [rank] => small(*rank),
            _ => panic!("{values:?} is no rank"),
        }
    }
}

/// A length.
impl Values for usize {
    fn of(values: &[u64]) -> usize {
        match values {
            [length] => usize::try_from(*length).expect("a length fits"),
            _ => panic!("{values:?} is no length"),
        }
    }
}

impl Values for Verdict {
    fn of(values: &[u64]) -> Verdict {
        match *values {
            [rank] => Verdict::Passed { rank: small(rank) },
            [step, depth] => Verdict::Refused {
                step: small(step),
                depth: small(depth),
            },
            _ => panic!("{values:?} is no verdict"),
        }
    }
}

/// The length of a word, and the end that allows it.
impl Values for (usize, End) {
    fn of(values: &[u64]) -> (usize, End) {
        let end = match values.get(1..) {
            Some([0]) => End::Source,
            Some([1]) => End::Target,
            _ => panic!("{values:?} is no length and end"),
        };
        (Values::of(&values[..1]), end)
    }
}

/// What is told of a text: Read's answer and, if the text is read, Judge's and Word's.
#[derive(Debug, PartialEq)]
pub struct Told {
    pub read: Result<(), Refusal>,
    pub judged: Option<Judged>,
}

/// What Judge and Word tell.
pub type Judged = (Result<Verdict, Refusal>, Result<(usize, End), Refusal>);

impl Answer for Told {
    type Raw = TillTold;

    fn of(raw: TillTold) -> Result<Told, Refusal> {
        let read = Answer::of(raw.read);
        let judged = match read {
            Ok(()) => Some((Answer::of(raw.judge), Answer::of(raw.word))),
            Err(_) => {
                // All 0 reads as a success with no values.
                assert_eq!([raw.judge, raw.word].map(Answer::of), [Ok(()), Ok(())]);
                None
            }
        };
        Ok(Told { read, judged })
    }
}

/// A rank, a depth or a step number.
fn small(value: u64) -> u16 {
    u16::try_from(value).expect("a rank, a depth and a step number have 16 bits")
}
