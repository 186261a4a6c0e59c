//! Records, the order of a table, and an index of parents over the live rows.

use crate::domain::{holds, is_domain};
use crate::written::{FRESH, WRITABLE};

pub const MAX_ROWS: usize = 1_024;
pub const MAX_NAME: u32 = 1_000_000;
pub const MAX_DEPTH: u32 = 64;

/// The slots for finding parents in a table of `MAX_ROWS` rows: two for a row, so that few names
/// share one.
pub(crate) const SLOTS: usize = 2 * MAX_ROWS;

/// One past the highest address.
const ADDRESSES: u64 = 1 << 32;

#[repr(C)]
#[derive(Clone, Copy, Debug, Default, PartialEq, Eq)]
pub struct Cap {
    pub name: u32,
    pub parent: u32,
    pub start: u32,
    pub length: u32,
    pub right: u32,
    pub depth: u32,
    /// `REFERENCE`, `RAW` or `CELL`.
    pub kind: u32,
    /// 0 or `FRESH`.
    pub fresh: u32,
    /// The domain that made it.
    pub maker: u32,
    /// The mask of those that hold it, in two halves.
    pub holders_low: u32,
    pub holders_high: u32,
}

/// The kinds of capabilities.
pub const REFERENCE: u32 = 0;
pub const RAW: u32 = 1;
pub const CELL: u32 = 2;

pub(crate) const EMPTY: Cap = Cap {
    name: 0,
    parent: 0,
    start: 0,
    length: 0,
    right: 0,
    depth: 0,
    kind: 0,
    fresh: 0,
    maker: 0,
    holders_low: 0,
    holders_high: 0,
};

#[derive(Clone, Copy)]
pub(crate) struct Span {
    pub(crate) start: u64,
    pub(crate) end: u64,
}

impl Span {
    /// Every address; a root's span is inside it.
    pub(crate) const WHOLE: Span = Span {
        start: 0,
        end: ADDRESSES,
    };

    #[inline]
    pub(crate) fn new(start: u32, length: u32) -> Span {
        let start = u64::from(start);
        Span {
            start,
            end: start + u64::from(length),
        }
    }

    #[inline]
    pub(crate) fn is_legal(self) -> bool {
        self.end <= ADDRESSES
    }

    // Both sides are compared whatever the first says: a branch that is guessed wrong costs more.
    #[inline]
    pub(crate) fn is_inside(self, outer: Span) -> bool {
        (outer.start <= self.start) & (self.end <= outer.end)
    }

    #[inline]
    pub(crate) fn touches(self, other: Span) -> bool {
        self.start.max(other.start) < self.end.min(other.end)
    }
}

impl Cap {
    #[inline]
    pub(crate) fn span(&self) -> Span {
        Span::new(self.start, self.length)
    }

    /// The mask of those that hold it.
    #[inline]
    pub fn holders(&self) -> u64 {
        u64::from(self.holders_high) << 32 | u64::from(self.holders_low)
    }

    /// The same row with these holders.
    #[inline]
    pub fn held_by(self, holders: u64) -> Cap {
        Cap {
            holders_low: holders as u32,
            holders_high: (holders >> 32) as u32,
            ..self
        }
    }

    /// Whether its maker is a domain, and holds it.
    #[inline]
    pub(crate) fn is_held(&self) -> bool {
        is_domain(self.maker) & holds(self.holders(), self.maker)
    }
}

/// What a row has to fit into: its parent, or for a root the whole memory.
struct Outer {
    span: Span,
    right: u32,
    depth: u32,
    /// The highest kind that a row may have in it: a root is a reference.
    highest_kind: u32,
    /// The lowest mark and the highest that a row may have in it.
    marks: (u32, u32),
}

impl Outer {
    const MEMORY: Outer = Outer {
        span: Span::WHOLE,
        right: 2,
        depth: 0,
        highest_kind: REFERENCE,
        marks: (0, FRESH),
    };

    #[inline]
    fn of(parent: &Cap) -> Outer {
        Outer {
            span: parent.span(),
            right: parent.right,
            depth: parent.depth,
            highest_kind: CELL,
            marks: (parent.fresh, parent.fresh),
        }
    }

    /// One answer from all comparisons, without a branch for each.
    #[inline]
    fn holds(&self, row: &Cap) -> bool {
        row.span().is_inside(self.span)
            & (row.right.wrapping_sub(1) < 2)
            & (row.right <= self.right)
            & (row.depth == self.depth + 1)
            & (row.depth <= MAX_DEPTH)
            & (row.kind <= self.highest_kind)
            & (self.marks.0 <= row.fresh)
            & (row.fresh <= self.marks.1)
            & ((row.fresh == 0) | (row.span().end <= WRITABLE))
            & row.is_held()
    }
}

/// A table that is known to be in order: how many rows live, and the row of each one's parent. A
/// root has its own row there, so that looking a parent up needs no test for a root.
pub(crate) struct Index<const ROWS: usize> {
    pub(crate) live: usize,
    pub(crate) parents: [u16; ROWS],
}

impl<const ROWS: usize> Index<ROWS> {
    pub(crate) const EMPTY: Index<ROWS> = Index {
        live: 0,
        parents: [0; ROWS],
    };

    /// Checks the order of a table of at most `ROWS` rows in one pass.
    #[inline]
    pub(crate) fn of<const SLOTS: usize>(table: &[Cap], issued: u32) -> Option<Index<ROWS>> {
        debug_assert!(table.len() <= ROWS);
        let mut index = Index::EMPTY;
        let mut places = Places::<SLOTS>::new();
        let mut last_name = 0;
        let mut at = 0;
        while at < table.len().min(ROWS) && table[at].name != 0 {
            let row = &table[at];
            let (place, outer) = match row.parent {
                0 => (at, Outer::MEMORY),
                parent => {
                    let place = places.find(&table[..at], parent)?;
                    (place, Outer::of(&table[place]))
                }
            };
            if !((row.name > last_name) & outer.holds(row)) {
                return None;
            }
            index.parents[at] = place as u16;
            places.note(row.name, at);
            last_name = row.name;
            at += 1;
        }
        index.live = at;
        let fits = issued <= MAX_NAME && last_name <= issued && are_empty(&table[at..]);
        fits.then_some(index)
    }

    #[inline]
    pub(crate) fn parent(&self, at: usize) -> Option<usize> {
        let parent = usize::from(self.parents[at]);
        (parent != at).then_some(parent)
    }
}

/// Where names were last seen, by their low bits. A name is looked for there, then where the last
/// one was found, then by halving.
struct Places<const SLOTS: usize> {
    seen: [u16; SLOTS],
    last: usize,
}

impl<const SLOTS: usize> Places<SLOTS> {
    #[inline]
    fn new() -> Places<SLOTS> {
        Places {
            seen: [0; SLOTS],
            last: 0,
        }
    }

    #[inline]
    fn note(&mut self, name: u32, at: usize) {
        self.seen[name as usize % SLOTS] = at as u16;
    }

    /// The row with this name among rows that rise.
    #[inline]
    fn find(&mut self, rows: &[Cap], name: u32) -> Option<usize> {
        let is_at = |place: usize| rows.get(place).is_some_and(|row| row.name == name);
        let mut place = usize::from(self.seen[name as usize % SLOTS]);
        if !is_at(place) {
            place = match is_at(self.last) {
                true => self.last,
                false => find(rows, name)?,
            };
            self.note(name, place);
        }
        self.last = place;
        Some(place)
    }
}

/// Without an early end, which would keep the compiler from taking several rows at once.
fn are_empty(rows: &[Cap]) -> bool {
    let place = |row: &Cap| row.name | row.parent | row.start | row.length;
    let held = |row: &Cap| row.maker | row.holders_low | row.holders_high;
    let bits = |row: &Cap| place(row) | row.right | row.depth | row.kind | row.fresh | held(row);
    rows.iter().fold(0, |any, row| any | bits(row)) == 0
}

#[inline]
pub(crate) fn find(rows: &[Cap], name: u32) -> Option<usize> {
    rows.binary_search_by_key(&name, |row| row.name).ok()
}
