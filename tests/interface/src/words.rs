//! Events as the C interface passes them.

use baseline::Event;

/// The kind of names that are dropped together.
pub const DROP_ALL: u32 = 6;

/// An event, or names that are dropped together, as `kz_event` has it word by word. Any words may be
/// passed.
#[repr(C)]
#[derive(Clone, Copy, Debug, Default, PartialEq, Eq)]
pub struct Words {
    pub kind: u32,
    pub name: u32,
    pub start: u32,
    pub length: u32,
    pub right: u32,
    pub named: u32,
    pub written: u32,
    pub cap_kind: u32,
    pub fresh: u32,
    pub actor: u32,
    pub holders_low: u32,
    pub holders_high: u32,
}

impl Words {
    /// These words, in the order of `kz_event`.
    pub const fn of(words: [u32; 12]) -> Words {
        let [
            kind,
            name,
            start,
            length,
            right,
            named,
            written,
            cap_kind,
            fresh,
            actor,
            holders_low,
            holders_high,
        ] = words;
        Words {
            kind,
            name,
            start,
            length,
            right,
            named,
            written,
            cap_kind,
            fresh,
            actor,
            holders_low,
            holders_high,
        }
    }

    /// The same by this domain, and for these holders of what is made.
    pub fn by(self, actor: u32, holders: u64) -> Words {
        Words {
            actor,
            holders_low: holders as u32,
            holders_high: (holders >> 32) as u32,
            ..self
        }
    }

    /// The holders of what is made.
    pub fn holders(&self) -> u64 {
        u64::from(self.holders_high) << 32 | u64::from(self.holders_low)
    }

    /// So many names that domain 0 drops together, from a place of a list on.
    pub fn drop_all(start: u32, length: u32) -> Words {
        Words {
            kind: DROP_ALL,
            start,
            length,
            ..Words::default()
        }
    }
}

impl From<[u32; 12]> for Words {
    fn from(words: [u32; 12]) -> Words {
        Words::of(words)
    }
}

impl From<Words> for [u32; 12] {
    fn from(words: Words) -> [u32; 12] {
        [
            words.kind,
            words.name,
            words.start,
            words.length,
            words.right,
            words.named,
            words.written,
            words.cap_kind,
            words.fresh,
            words.actor,
            words.holders_low,
            words.holders_high,
        ]
    }
}

impl From<Event> for Words {
    fn from(event: Event) -> Words {
        Words {
            kind: event.kind.into(),
            name: event.name,
            start: event.start,
            length: event.length,
            right: event.right.into(),
            named: event.written.is_some().into(),
            written: event.written.unwrap_or(0),
            cap_kind: event.cap_kind.into(),
            fresh: event.fresh.into(),
            ..Words::default()
        }
        .by(event.actor, event.holders)
    }
}

/// Kinds and rights above what the baseline's have room for are as unknown as 0 is, and kinds and marks of
/// capabilities, of which 0 is known, as the last that there is room for.
impl From<Words> for Event {
    fn from(words: Words) -> Event {
        Event {
            kind: words.kind.try_into().unwrap_or(0),
            written: (words.named != 0).then_some(words.written),
            name: words.name,
            start: words.start,
            length: words.length,
            right: words.right.try_into().unwrap_or(0),
            cap_kind: words.cap_kind.try_into().unwrap_or(u8::MAX),
            fresh: words.fresh.try_into().unwrap_or(u8::MAX),
            actor: words.actor,
            holders: words.holders(),
        }
    }
}

/// The refusal and the value of an event, as `kz_answer` has them.
pub type AnswerWords = [u32; 2];

/// The refusal, the share and the rest of a charge, as `kz_shares` has them.
pub type ShareWords = [u32; 3];

/// How many entries of events, kinds, names, starts, lengths and rights were used, as `kz_counts` has them.
pub type CountWords = [u32; 6];

/// The refusal, the rows, the client and the line of clients on one table, as `kz_sizing` has them.
pub type SizingWords = [u32; 4];
