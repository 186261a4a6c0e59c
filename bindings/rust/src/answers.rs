//! What is answered.

use core::error::Error;
use core::fmt;

use crate::Name;

/// Why something was refused. Where several reasons apply, the first of these is given. Later releases
/// add reasons.
#[derive(Clone, Copy, Debug, PartialEq, Eq, Hash)]
#[repr(u8)]
#[non_exhaustive]
pub enum Refusal {
    /// The table is not in order, or has more than [`MAX_ROWS`](crate::MAX_ROWS) rows; or the limits that
    /// are lent with it need more rows, or some domain has made more live rows than its limit. Or what a
    /// [back](crate::Event::Back) goes to is not in order, exceeds the limits, or has another number of
    /// rows.
    Disordered = 1,
    /// A list of names to drop together is empty, longer than [`MAX_GROUP`](crate::MAX_GROUP) or not
    /// strictly rising.
    Misgrouped = 13,
    /// A line or listing is not in the one spelling, or a line of a sheet's text not of its form; or the
    /// holders that an event gives lack the domain that acts; or events have no
    /// [columns](crate::Columns), or columns no events; or lengths of traces are too many, or not those of
    /// the text.
    Misspelt = 2,
    /// A sheet's text gives a combination twice.
    GivenTwice = 14,
    /// A sheet's text leaves a combination out.
    NotGiven = 15,
    /// A back to a slot in which nothing is stored.
    NothingStored = 19,
    /// An end is above 4,294,967,296, or of a fresh create above
    /// [`WRITTEN_ADDRESSES`](crate::WRITTEN_ADDRESSES).
    IllegalSpan = 3,
    /// A name is 0 or above the issued number; of the [clients](crate::sizes()) of one table, a name that
    /// the client was not yet given.
    Unissued = 4,
    /// A name was issued, and its capability has ended: it was dropped, or written to from outside, or
    /// its memory was handed out again, itself or an ancestor. By other sheets than the default one
    /// reads end too.
    Ended = 5,
    /// The domain that acts does not hold the capability.
    NotHolder = 17,
    /// A span is not inside the capability's.
    OutsideSpan = 6,
    /// A write through a read-only capability, or a read-write borrow from it.
    ReadOnly = 7,
    /// A read through a fresh capability of an address that was not written since it was created.
    NotWritten = 16,
    /// A borrow from depth [`MAX_DEPTH`](crate::MAX_DEPTH).
    TooDeep = 8,
    /// A create or borrow when [`MAX_NAME`](crate::MAX_NAME) names are issued.
    NamesSpent = 9,
    /// A written name is not the issued number plus one.
    Misnamed = 12,
    /// A create or borrow when no row is empty, also where the create would end some; or a listing with
    /// more capabilities than rows. Where limits are lent no event gets it.
    TableFull = 10,
    /// A create or borrow of a domain that has made as many live capabilities as its limit says.
    LimitReached = 18,
    /// A text is longer than the output buffer, or a column or a list of events too short for what is to
    /// stand there.
    BufferTooShort = 11,
}

impl Refusal {
    /// The refusal's number, 1 to 19.
    pub const fn number(self) -> u8 {
        self as u8
    }

    /// The refusal with this number, if there is one.
    pub const fn from_number(number: u32) -> Option<Refusal> {
        Some(match number {
            1 => Refusal::Disordered,
            2 => Refusal::Misspelt,
            3 => Refusal::IllegalSpan,
            4 => Refusal::Unissued,
            5 => Refusal::Ended,
            6 => Refusal::OutsideSpan,
            7 => Refusal::ReadOnly,
            8 => Refusal::TooDeep,
            9 => Refusal::NamesSpent,
            10 => Refusal::TableFull,
            11 => Refusal::BufferTooShort,
            12 => Refusal::Misnamed,
            13 => Refusal::Misgrouped,
            14 => Refusal::GivenTwice,
            15 => Refusal::NotGiven,
            16 => Refusal::NotWritten,
            17 => Refusal::NotHolder,
            18 => Refusal::LimitReached,
            19 => Refusal::NothingStored,
            _ => return None,
        })
    }

    const fn reason(self) -> &'static str {
        match self {
            Refusal::Disordered => "a table is not in order, or not within its limits",
            Refusal::Misgrouped => "the names are not 1 to 64, strictly rising",
            Refusal::Misspelt => "not in the one spelling",
            Refusal::GivenTwice => "the sheet's text gives a combination twice",
            Refusal::NotGiven => "the sheet's text leaves a combination out",
            Refusal::NothingStored => "nothing is stored in the slot",
            Refusal::IllegalSpan => "the span is not legal",
            Refusal::Unissued => "the name was never issued",
            Refusal::Ended => "the capability has ended",
            Refusal::NotHolder => "the domain is no holder",
            Refusal::OutsideSpan => "outside the capability's span",
            Refusal::ReadOnly => "the capability is read-only",
            Refusal::NotWritten => "read before it was written",
            Refusal::TooDeep => "borrowed too deep",
            Refusal::NamesSpent => "all names are issued",
            Refusal::Misnamed => "the written name is not the next",
            Refusal::TableFull => "no row is empty",
            Refusal::LimitReached => "the domain has reached its limit",
            Refusal::BufferTooShort => "what is lent for the result is too short",
        }
    }
}

impl fmt::Display for Refusal {
    fn fmt(&self, formatter: &mut fmt::Formatter<'_>) -> fmt::Result {
        write!(formatter, "refusal {}, {}", self.number(), self.reason())
    }
}

impl Error for Refusal {}

/// The answer to an event.
#[derive(Clone, Copy, Debug, PartialEq, Eq, Hash)]
pub enum Answer {
    /// Allowed, with the new name if the event made one.
    Allowed(Option<Name>),
    /// Refused.
    Refused(Refusal),
}

impl Answer {
    /// The answer of a value, which is the new name or 0, or of a refusal.
    pub(crate) fn of(value: Result<u32, Refusal>) -> Answer {
        match value {
            Ok(0) => Answer::Allowed(None),
            Ok(name) => Answer::Allowed(Some(Name(name))),
            Err(refusal) => Answer::Refused(refusal),
        }
    }
}

/// The answer to one request of many, laid out as `kz_answer` is.
#[repr(C)]
#[derive(Clone, Copy, Debug, PartialEq, Eq, Hash)]
pub struct Outcome {
    refusal: u32,
    value: u32,
}

impl Outcome {
    /// Room for an answer. It reads as allowed until one is written.
    pub const EMPTY: Outcome = Outcome {
        refusal: 0,
        value: 0,
    };

    /// The answer.
    pub fn answer(self) -> Answer {
        Answer::of(match self.refusal {
            0 => Ok(self.value),
            number => Err(numbered(number)),
        })
    }
}

/// The answer to a run.
#[derive(Clone, Copy, Debug, PartialEq, Eq, Hash)]
pub enum RunAnswer {
    /// Every line was allowed.
    Allowed {
        /// How many lines there were.
        lines: u32,
    },
    /// A line was refused, and no later one taken.
    Refused {
        /// Why.
        refusal: Refusal,
        /// The line, from 1; 0 for [`Refusal::Disordered`] of what is lent.
        line: u32,
    },
}

impl From<Answer> for Result<Option<Name>, Refusal> {
    fn from(answer: Answer) -> Self {
        match answer {
            Answer::Allowed(name) => Ok(name),
            Answer::Refused(refusal) => Err(refusal),
        }
    }
}

/// The refusal of a number that the library gave.
pub(crate) fn numbered(number: u32) -> Refusal {
    Refusal::from_number(number).expect("refusals are numbered 1 to 19")
}

/// An answer of the C interface taken apart: its value, or its refusal with its value.
pub(crate) fn split(answer: u64) -> Result<u32, (Refusal, u32)> {
    let number = (answer >> 32) as u32;
    let value = answer as u32;
    match number {
        0 => Ok(value),
        _ => Err((numbered(number), value)),
    }
}

/// The value of an answer, or its refusal.
pub(crate) fn value(answer: u64) -> Result<u32, Refusal> {
    split(answer).map_err(|(refusal, _)| refusal)
}
