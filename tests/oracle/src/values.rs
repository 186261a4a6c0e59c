//! The values of document 01 and of cards 1, 5, 6, 7 and 9 to 11: bounds, rights, kinds, marks, rows, tallies,
//! events and the numbers of refusals.

use crate::span::Span;

pub const MAX_ROWS: usize = 1_024;
pub const MAX_NAME: u32 = 1_000_000;
pub const MAX_DEPTH: u32 = 64;
/// The most names that are dropped together.
pub const MAX_GROUP: usize = 64;
/// The longest input that `capcheck` runs, in bytes.
pub const MAX_INPUT: usize = 65_536;

pub const READ_ONLY: u8 = 1;
pub const READ_WRITE: u8 = 2;

/// Card 6: the kinds of capabilities.
pub const REFERENCE: u32 = 0;
pub const RAW: u32 = 1;
pub const CELL: u32 = 2;

/// Card 9: the mark of what has to be written before it is read.
pub const FRESH: u32 = 1;

/// The number of a refusal, 1 to 19.
pub type Refused = u8;

/// A row of a table, or of the history's.
#[derive(Clone, Copy, Debug, Default, PartialEq, Eq)]
pub struct Row {
    pub name: u32,
    pub parent: u32,
    pub start: u32,
    pub length: u32,
    pub right: u32,
    pub depth: u32,
    pub kind: u32,
    /// The mark: 0 or `FRESH`.
    pub fresh: u32,
    /// The domain that made it.
    pub maker: u32,
    /// The mask of the domains that hold it.
    pub holders: u64,
}

impl Row {
    pub fn span(&self) -> Span {
        Span {
            start: self.start,
            length: self.length,
        }
    }
}

#[derive(Clone, Copy, Debug, Default, PartialEq, Eq)]
pub struct Tally {
    pub issued: u32,
    pub creates: u32,
    pub borrows: u32,
    pub reads: u32,
    pub writes: u32,
    pub drops: u32,
    pub refused: u32,
}

/// An event. A create or borrow may carry the name that it is to make, written out.
#[derive(Clone, Copy, Debug, PartialEq, Eq)]
pub enum Event {
    Create {
        written: Option<u32>,
        span: Span,
        right: u8,
        /// The mark of what is made. A borrow has none: it carries its parent's.
        fresh: u32,
        /// The mask of the domains that are to hold what is made.
        holders: u64,
    },
    Borrow {
        written: Option<u32>,
        parent: u32,
        span: Span,
        right: u8,
        /// The kind of what is made. A create has none: it makes a reference.
        kind: u32,
        /// As a create's.
        holders: u64,
    },
    Read {
        name: u32,
        span: Span,
    },
    Write {
        name: u32,
        span: Span,
    },
    Drop {
        name: u32,
    },
    /// Card 11: stores the table and the written addresses in a slot.
    Mark {
        slot: u32,
    },
    /// Card 11: brings back what a slot has.
    Back {
        slot: u32,
    },
    /// A kind that is none of these. Only the C interface can be given one.
    Unknown,
}

/// Card 10: who acts, and what happens.
#[derive(Clone, Copy, Debug, PartialEq, Eq)]
pub struct Act {
    /// Any number; those of domains are below 64.
    pub actor: u32,
    pub event: Event,
}

/// An event's values as the C interface has them. Those that the event lacks are not looked at.
#[derive(Clone, Copy, Debug)]
pub struct Fields {
    /// Which event it is.
    pub event: u8,
    pub written: Option<u32>,
    pub name: u32,
    pub span: Span,
    pub right: u8,
    /// The kind of what a borrow makes.
    pub kind: u32,
    /// The mark of what a create makes.
    pub fresh: u32,
    pub holders: u64,
}

impl Act {
    /// The event's values as the C interface has them: those of `Event::fields`, then whether a new name is
    /// written and which, the kind of what a borrow makes, the mark of what a create makes, who acts, and
    /// the lower and the higher half of the mask of holders.
    pub fn words(self) -> [u32; 12] {
        let Act { actor, event } = self;
        let [number, name, start, length, right] = event.fields();
        let named = u32::from(event.written().is_some());
        let written = event.written().unwrap_or(0);
        let kind = event.kind().unwrap_or(0);
        let fresh = event.fresh().unwrap_or(0);
        let holders = event.holders().unwrap_or(0);
        let half = 1 << 32;
        let (low, high) = ((holders % half) as u32, (holders / half) as u32);
        [
            number, name, start, length, right, named, written, kind, fresh, actor, low, high,
        ]
    }
}

impl Event {
    /// The event of the C interface's values, with a written name or without.
    pub fn of(fields: Fields) -> Event {
        let Fields {
            event,
            written,
            name,
            span,
            right,
            kind,
            fresh,
            holders,
        } = fields;
        match event {
            1 => Event::Create {
                written,
                span,
                right,
                fresh,
                holders,
            },
            2 => Event::Borrow {
                written,
                parent: name,
                span,
                right,
                kind,
                holders,
            },
            3 => Event::Read { name, span },
            4 => Event::Write { name, span },
            5 => Event::Drop { name },
            7 => Event::Mark { slot: name },
            8 => Event::Back { slot: name },
            _ => Event::Unknown,
        }
    }

    /// Event, name, start, length and right as the C interface has them, 0 for what an event lacks. A slot
    /// stands in the place of the name.
    pub fn fields(self) -> [u32; 5] {
        match self {
            Event::Create { span, right, .. } => [1, 0, span.start, span.length, right.into()],
            Event::Borrow {
                parent,
                span,
                right,
                ..
            } => [2, parent, span.start, span.length, right.into()],
            Event::Read { name, span } => [3, name, span.start, span.length, 0],
            Event::Write { name, span } => [4, name, span.start, span.length, 0],
            Event::Drop { name } => [5, name, 0, 0, 0],
            Event::Mark { slot } => [7, slot, 0, 0, 0],
            Event::Back { slot } => [8, slot, 0, 0, 0],
            Event::Unknown => [0; 5],
        }
    }

    /// The name that the event carries for what it makes.
    pub fn written(self) -> Option<u32> {
        match self {
            Event::Create { written, .. } | Event::Borrow { written, .. } => written,
            _ => None,
        }
    }

    /// The right that the event asks for, in the two kinds that have one.
    pub fn right(self) -> Option<u8> {
        match self {
            Event::Create { right, .. } | Event::Borrow { right, .. } => Some(right),
            _ => None,
        }
    }

    /// The kind that the event asks for, in the one event that has one.
    pub fn kind(self) -> Option<u32> {
        match self {
            Event::Borrow { kind, .. } => Some(kind),
            _ => None,
        }
    }

    /// The mark that the event asks for, in the one event that has one.
    pub fn fresh(self) -> Option<u32> {
        match self {
            Event::Create { fresh, .. } => Some(fresh),
            _ => None,
        }
    }

    /// The mask of holders that the event asks for, in the two kinds that have one.
    pub fn holders(self) -> Option<u64> {
        match self {
            Event::Create { holders, .. } | Event::Borrow { holders, .. } => Some(holders),
            _ => None,
        }
    }

    pub fn span(self) -> Option<Span> {
        match self {
            Event::Create { span, .. }
            | Event::Borrow { span, .. }
            | Event::Read { span, .. }
            | Event::Write { span, .. } => Some(span),
            Event::Drop { .. } | Event::Mark { .. } | Event::Back { .. } | Event::Unknown => None,
        }
    }

    /// The slot of a mark or a back.
    pub fn slot(self) -> Option<u32> {
        match self {
            Event::Mark { slot } | Event::Back { slot } => Some(slot),
            _ => None,
        }
    }

    /// The capability that the event goes through, in the four kinds that have one.
    pub fn user(self) -> Option<u32> {
        match self {
            Event::Borrow { parent, .. } => Some(parent),
            Event::Read { name, .. } | Event::Write { name, .. } | Event::Drop { name } => {
                Some(name)
            }
            Event::Create { .. } | Event::Mark { .. } | Event::Back { .. } | Event::Unknown => None,
        }
    }

    /// Whether the event makes a capability.
    pub fn makes(self) -> bool {
        matches!(self, Event::Create { .. } | Event::Borrow { .. })
    }
}
