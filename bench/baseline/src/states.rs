//! States to come back to: eight slots in lent memory, each with a head, the rows of a table and its written
//! bits.

use crate::order::{Cap, EMPTY, MAX_ROWS};
use crate::written::WRITTEN_BYTES;

/// How many slots there are, from 0 on.
pub const SLOTS: usize = 8;

/// The rows of a slot: its head, and those of a table.
const SLOT_ROWS: usize = 1 + MAX_ROWS;

/// How many rows are lent for states, and how many bytes for their written bits.
pub const STORED_ROWS: usize = SLOTS * SLOT_ROWS;
pub const STORED_BYTES: usize = SLOTS * WRITTEN_BYTES;

#[inline]
pub(crate) fn is_slot(number: u32) -> bool {
    number < SLOTS as u32
}

/// The lent memory. In the head of a slot the first word is 0 where nothing is stored, else one more than rows
/// are kept, which follow; the second is the number of empty rows that the stored table has behind these.
pub(crate) struct States<'a> {
    rows: &'a mut [Cap],
    bytes: &'a mut [u8],
}

/// What stands in a slot: the number of rows of a table, and those that are kept of them.
pub(crate) struct Stored<'a> {
    pub(crate) rows: usize,
    pub(crate) kept: &'a [Cap],
}

impl<'a> States<'a> {
    /// Nothing where it has not the size that it has to have.
    pub(crate) fn lent(rows: &'a mut [Cap], bytes: &'a mut [u8]) -> Option<States<'a>> {
        let has_its_size = rows.len() == STORED_ROWS && bytes.len() == STORED_BYTES;
        has_its_size.then_some(States { rows, bytes })
    }

    /// No memory, for events of which none marks or goes back.
    pub(crate) fn none() -> States<'a> {
        States {
            rows: &mut [],
            bytes: &mut [],
        }
    }

    /// The same with nothing stored.
    pub(crate) fn cleared(self) -> States<'a> {
        for head in self.rows.iter_mut().step_by(SLOT_ROWS) {
            *head = EMPTY;
        }
        self
    }

    /// Stores the live rows of a table of so many, and its written bits.
    pub(crate) fn store(
        &mut self,
        slot: usize,
        live: &[Cap],
        rows: usize,
        written: &[u8; WRITTEN_BYTES],
    ) {
        let place = &mut self.rows[slot * SLOT_ROWS..][..SLOT_ROWS];
        place[0] = Cap {
            name: live.len() as u32 + 1,
            parent: (rows - live.len()) as u32,
            ..EMPTY
        };
        place[1..][..live.len()].copy_from_slice(live);
        self.bytes[slot * WRITTEN_BYTES..][..WRITTEN_BYTES].copy_from_slice(written);
    }

    /// Whether something is stored.
    pub(crate) fn is_stored(&self, slot: usize) -> bool {
        self.rows[slot * SLOT_ROWS].name != 0
    }

    /// What is stored, where that can be a table: with no more rows than a table has.
    pub(crate) fn stored(&self, slot: usize) -> Option<Stored<'_>> {
        let place = &self.rows[slot * SLOT_ROWS..][..SLOT_ROWS];
        let kept = place[0].name.checked_sub(1)?;
        let rows = u64::from(kept) + u64::from(place[0].parent);
        (rows <= MAX_ROWS as u64).then(|| Stored {
            rows: rows as usize,
            kept: &place[1..][..kept as usize],
        })
    }

    /// Its written bits.
    pub(crate) fn written(&self, slot: usize) -> &[u8] {
        &self.bytes[slot * WRITTEN_BYTES..][..WRITTEN_BYTES]
    }
}
