//! Why a call declines.
use std::fmt;

/// The refusal numbers of documents 01 and 02.
#[derive(Clone, Copy, Debug, PartialEq, Eq, Hash, PartialOrd, Ord)]
#[repr(u32)]
pub enum Refusal {
    TooLong = 1,
    TooShort = 2,
    TooManyTraces = 3,
    CutTable = 4,
    LargeCount = 5,
    WrongOffset = 6,
    WrongEnd = 7,
    BrokenRecord = 8,
    OutOfRange = 9,
    WrongLength = 10,
    UnknownFlag = 11,
    NotOrderly = 12,
    WrongRecords = 13,
    ShortOutput = 14,
    LongWait = 15,
    ShortList = 16,
    LongHit = 17,
}

const ALL: [Refusal; 17] = [
    Refusal::TooLong,
    Refusal::TooShort,
    Refusal::TooManyTraces,
    Refusal::CutTable,
    Refusal::LargeCount,
    Refusal::WrongOffset,
    Refusal::WrongEnd,
    Refusal::BrokenRecord,
    Refusal::OutOfRange,
    Refusal::WrongLength,
    Refusal::UnknownFlag,
    Refusal::NotOrderly,
    Refusal::WrongRecords,
    Refusal::ShortOutput,
    Refusal::LongWait,
    Refusal::ShortList,
    Refusal::LongHit,
];

impl Refusal {
    /// The number that the documents give it.
    pub fn number(self) -> u32 {
        self as u32
    }

    /// The refusal of a number; 0 and numbers that no call gives have none.
    pub fn of(number: u32) -> Option<Refusal> {
        ALL.into_iter().find(|r| r.number() == number)
    }

    fn sentence(self) -> &'static str {
        match self {
            Refusal::TooLong => "the file is longer than 65,536 bytes",
            Refusal::TooShort => "the file is shorter than two bytes",
            Refusal::TooManyTraces => "there are more than 16 traces",
            Refusal::CutTable => "the file ends within its table",
            Refusal::LargeCount => "a trace has more than 4,096 instructions",
            Refusal::WrongOffset => "an offset is not where its body starts",
            Refusal::WrongEnd => "the file does not end with its last body",
            Refusal::BrokenRecord => "a record breaks its rules",
            Refusal::OutOfRange => "there is no such trace or instruction",
            Refusal::WrongLength => "the body is not ten bytes for each of at most 4,096 instructions",
            Refusal::UnknownFlag => "a flag is unknown where each must be a hit or a miss",
            Refusal::NotOrderly => "the state is not orderly",
            Refusal::WrongRecords => "the records are not ten bytes for each instruction counted",
            Refusal::ShortOutput => "the output is shorter than the file",
            Refusal::LongWait => "a counted latency plus the wait exceeds 65,535",
            Refusal::ShortList => "the list has fewer places than there are traces",
            Refusal::LongHit => "a data hit takes more than 15 cycles, or no fewer than a load's or store's data latency",
        }
    }
}

impl fmt::Display for Refusal {
    fn fmt(&self, f: &mut fmt::Formatter<'_>) -> fmt::Result {
        write!(f, "refused {}: {}", self.number(), self.sentence())
    }
}

impl std::error::Error for Refusal {}

/// The answer, or the refusal that the number names.
#[inline]
pub(crate) fn answer<T>(number: u32, value: T) -> Result<T, Refusal> {
    match number {
        0 => Ok(value),
        n => Err(Refusal::of(n).expect("a number that the documents fix")),
    }
}
