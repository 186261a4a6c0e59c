//! Events to time the calls on, and their lines.

use interface::{CELL, Cap, MAX_GROUP, Words};

use crate::batch::refused;
use crate::shape::{BESIDE, Lent, READ_WRITE};

pub const CREATE: u32 = 1;
pub const BORROW: u32 = 2;
pub const READ: u32 = 3;
pub const WRITE: u32 = 4;
pub const DROP: u32 = 5;
pub const MARK: u32 = 7;
pub const BACK: u32 = 8;

pub const DISORDERED: u64 = 1;
pub const MISSPELT: u64 = 2;
pub const UNISSUED: u64 = 4;
pub const OUTSIDE: u64 = 6;
pub const TABLE_FULL: u64 = 10;
pub const TOO_SHORT: u64 = 11;
pub const MISGROUPED: u64 = 13;
pub const GIVEN_TWICE: u64 = 14;
pub const NOT_GIVEN: u64 = 15;
pub const NO_HOLDER: u64 = 17;
pub const LIMIT_REACHED: u64 = 18;
pub const NOTHING_STORED: u64 = 19;

/// The row that events go through: the first, or where there is a cell the deepest row inside it.
fn user(lent: &Lent) -> Cap {
    let mut inside: Vec<Cap> = Vec::new();
    for row in &lent.table {
        if row.kind == CELL || inside.iter().any(|above| above.name == row.parent) {
            inside.push(*row);
        }
    }
    let deepest = inside.into_iter().max_by_key(|row| row.depth);
    deepest.unwrap_or(lent.table[0])
}

/// An event over the whole span of the user, through it where the kind has a name: a read lowers what was
/// borrowed from it, a write, drop or create ends it, a borrow takes nothing. It is domain 0's, which alone
/// holds what it makes.
pub fn event_on_user(lent: &Lent, kind: u32) -> Words {
    let user = user(lent);
    Words {
        kind,
        name: user.name,
        start: user.start,
        length: user.length,
        right: READ_WRITE,
        ..Words::default()
    }
    .by(0, 1)
}

/// The event moved behind the shape: a create there touches nothing and so ends nothing, a read there
/// is outside of its span.
pub fn beside(event: Words) -> Words {
    Words {
        start: BESIDE,
        ..event
    }
}

/// A mark or a back.
pub fn slot_event(kind: u32) -> Words {
    Words {
        kind,
        name: 5,
        ..Words::default()
    }
}

/// The event that makes a row.
pub fn making(row: &Cap) -> Words {
    Words {
        kind: if row.parent == 0 { CREATE } else { BORROW },
        name: row.parent,
        start: row.start,
        length: row.length,
        right: row.right,
        cap_kind: row.kind,
        ..Words::default()
    }
    .by(0, 1)
}

/// Names that can be dropped together, over the whole table: those of every second row, or where these would be
/// too many as many as there may be.
pub fn group(lent: &Lent) -> Vec<u32> {
    let live = &lent.table[..lent.live()];
    let step = live.len().div_ceil(MAX_GROUP).max(2);
    live.iter().step_by(step).map(|row| row.name).collect()
}

/// The line of an event.
pub fn line(event: Words) -> Vec<u8> {
    line_of(event, &[])
}

/// The line of an event that may drop names of a list.
pub fn line_of(event: Words, names: &[u32]) -> Vec<u8> {
    let mut line = vec![0; 1_024];
    let answer = interface::baseline().write_words(&event, names, &mut line);
    refused(0, answer);
    line.truncate(answer as usize);
    line
}
