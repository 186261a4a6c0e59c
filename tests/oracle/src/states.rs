//! Card 11: states to come back to, and the memory that is lent for them.
//!
//! A state is a table and the set of its written addresses, and there are eight slots for one each. Words and
//! bytes are told of only where the lent memory is read and given back.

use crate::table::live_rows;
use crate::values::{MAX_ROWS, Row};
use crate::written::{WRITTEN_BYTES, Written};

/// 'K from 0 to 7.'
pub const SLOTS: u32 = 8;

/// The rows of a slot in the lent memory: its head, and those of a table.
pub const SLOT_ROWS: usize = 1 + MAX_ROWS;

/// How many rows are lent for states.
pub const STORED_ROWS: usize = SLOTS as usize * SLOT_ROWS;

/// How many bytes are lent for their written addresses.
pub const STORED_BYTES: usize = SLOTS as usize * WRITTEN_BYTES;

pub fn is_slot(number: u32) -> bool {
    number < SLOTS
}

/// A table, of as many rows as it had, and the addresses that were written.
#[derive(Clone, Debug, PartialEq, Eq)]
pub struct State {
    pub rows: Vec<Row>,
    pub written: Written,
}

/// What a slot has.
#[derive(Clone, Debug, Default, PartialEq, Eq)]
pub enum Slot {
    #[default]
    Nothing,
    Stored(State),
    /// A table of more rows than a table has: whatever table in order is lent, this one has another number of
    /// rows. No mark leaves it.
    Misfit,
}

/// What the eight slots have.
#[derive(Clone, Debug, Default, PartialEq, Eq)]
pub struct States([Slot; SLOTS as usize]);

impl States {
    /// What a slot has, if there is one of this number.
    pub fn slot(&self, number: u32) -> Option<&Slot> {
        self.0.get(number as usize)
    }

    /// Each slot with its number.
    pub fn each(&self) -> impl Iterator<Item = (usize, &Slot)> {
        self.0.iter().enumerate()
    }

    /// Gives a slot something else.
    pub fn set(&mut self, number: u32, slot: Slot) {
        if let Some(place) = self.0.get_mut(number as usize) {
            *place = slot;
        }
    }

    /// 'Stores the table and written bits.'
    pub fn mark(&mut self, number: u32, rows: &[Row], written: &Written) {
        let state = State {
            rows: rows.to_vec(),
            written: written.clone(),
        };
        self.set(number, Slot::Stored(state));
    }

    /// The states of lent rows and bytes, if they are as many as there have to be.
    pub fn lent(rows: &[Row], bytes: &[u8]) -> Option<States> {
        if rows.len() != STORED_ROWS || bytes.len() != STORED_BYTES {
            return None;
        }
        let mut states = States::default();
        let parts = rows.chunks(SLOT_ROWS).zip(bytes.chunks(WRITTEN_BYTES));
        for (slot, (rows, bytes)) in states.0.iter_mut().zip(parts) {
            *slot = Slot::lent(rows, bytes);
        }
        Some(states)
    }

    /// The lent rows and bytes in which these states stand. Of a misfit there is none.
    pub fn memory(&self) -> (Vec<Row>, Vec<u8>) {
        let mut rows = vec![Row::default(); STORED_ROWS];
        let mut bytes = vec![0; STORED_BYTES];
        let parts = rows
            .chunks_mut(SLOT_ROWS)
            .zip(bytes.chunks_mut(WRITTEN_BYTES));
        for (slot, (rows, bytes)) in self.0.iter().zip(parts) {
            if let Slot::Stored(state) = slot {
                let (kept, written) = state.memory();
                rows[..kept.len()].copy_from_slice(&kept);
                bytes.copy_from_slice(&written);
            }
        }
        (rows, bytes)
    }
}

impl Slot {
    /// What the rows and bytes of one slot hold. The first row is its head: its first word is 0 where nothing
    /// is stored, else one more than rows are kept, which follow, and its second says how many empty rows the
    /// table has behind these.
    pub fn lent(rows: &[Row], bytes: &[u8]) -> Slot {
        let (head, behind) = (&rows[0], &rows[1..]);
        let Some(kept) = head.name.checked_sub(1) else {
            return Slot::Nothing;
        };
        let count = u64::from(kept) + u64::from(head.parent);
        if count > MAX_ROWS as u64 {
            return Slot::Misfit;
        }
        let mut table = behind[..kept as usize].to_vec();
        table.resize(count as usize, Row::default());
        Slot::Stored(State {
            rows: table,
            written: Written::lent(bytes).unwrap_or_default(),
        })
    }
}

impl State {
    /// The head and the rows that follow it, and the bytes.
    pub fn memory(&self) -> (Vec<Row>, Vec<u8>) {
        let live = live_rows(&self.rows);
        let head = Row {
            name: live.len() as u32 + 1,
            parent: (self.rows.len() - live.len()) as u32,
            ..Row::default()
        };
        ([&[head], live].concat(), self.written.bytes())
    }
}

#[cfg(test)]
mod tests {
    use super::*;
    use crate::span::Span;

    fn named(name: u32) -> Row {
        Row {
            name,
            ..Row::default()
        }
    }

    fn written(start: u32, length: u32) -> Written {
        let mut written = Written::default();
        written.add(Span { start, length });
        written
    }

    #[test]
    fn the_sizes_are_those_of_eight_states() {
        assert_eq!((STORED_ROWS, STORED_BYTES), (8_200, 65_536));
        let rows = vec![Row::default(); STORED_ROWS + 1];
        let bytes = vec![0; STORED_BYTES + 1];
        for (row_count, byte_count, is_right) in [
            (8_200, 65_536, true),
            (8_199, 65_536, false),
            (8_201, 65_536, false),
            (8_200, 65_535, false),
            (8_200, 65_537, false),
            (0, 65_536, false),
            (8_200, 0, false),
            (0, 0, false),
        ] {
            let states = States::lent(&rows[..row_count], &bytes[..byte_count]);
            assert_eq!(states.is_some(), is_right);
        }
        assert_eq!(
            States::lent(&rows[..STORED_ROWS], &bytes[..STORED_BYTES]),
            Some(States::default())
        );
    }

    #[test]
    fn what_is_marked_is_read_back() {
        let mut states = States::default();
        let tables = [
            vec![],
            vec![Row::default(); 3],
            vec![named(7), named(9), Row::default()],
            vec![named(5); MAX_ROWS],
        ];
        for (slot, rows) in [0, 1, 6, 7].into_iter().zip(&tables) {
            states.mark(slot, rows, &written(slot, 9));
        }
        let (rows, bytes) = states.memory();
        assert_eq!(States::lent(&rows, &bytes).as_ref(), Some(&states));
        for (slot, rows) in [0, 1, 6, 7].into_iter().zip(tables) {
            let written = written(slot, 9);
            let state = Slot::Stored(State { rows, written });
            assert_eq!(states.slot(slot), Some(&state));
        }
        assert_eq!(states.slot(2), Some(&Slot::Nothing));
        assert_eq!(states.slot(8), None);
        // There is no slot to store this in.
        let before = states.clone();
        states.mark(8, &[named(1)], &Written::default());
        assert_eq!(states, before);
    }

    /// Head 1 stands behind the 1,025 rows of slot 0, and its bits behind 8,192 bytes.
    #[test]
    fn each_slot_has_its_place() {
        let mut rows = vec![Row::default(); STORED_ROWS];
        let mut bytes = vec![0; STORED_BYTES];
        rows[1_025].name = 3;
        rows[1_025].parent = 1;
        rows[1_026] = named(3);
        rows[1_027] = named(8);
        // Behind what is kept, and in the head's other words, anything may stand.
        rows[1_028] = named(99);
        rows[1_025].start = 17;
        bytes[8_192] = 3;
        let states = States::lent(&rows, &bytes).unwrap();
        let stored = Slot::Stored(State {
            rows: vec![named(3), named(8), Row::default()],
            written: written(0, 2),
        });
        assert_eq!(states.slot(1), Some(&stored));
        assert!((0..8).all(|slot| slot == 1 || states.slot(slot) == Some(&Slot::Nothing)));
    }

    #[test]
    fn heads_that_no_mark_leaves() {
        let mut rows = vec![Row::default(); STORED_ROWS];
        let bytes = vec![0; STORED_BYTES];
        for (head, empty, expected) in [
            (0, 0, Slot::Nothing),
            (0, 7, Slot::Nothing),
            (0, u32::MAX, Slot::Nothing),
            (1, 1_025, Slot::Misfit),
            (1_025, 1, Slot::Misfit),
            (1_026, 0, Slot::Misfit),
            (u32::MAX, 0, Slot::Misfit),
            (u32::MAX, u32::MAX, Slot::Misfit),
            // In 32 bits these tables would have 2, 1 and 0 rows.
            (3, u32::MAX, Slot::Misfit),
            (u32::MAX, 3, Slot::Misfit),
            (1 << 31, (1 << 31) + 1, Slot::Misfit),
        ] {
            rows[0].name = head;
            rows[0].parent = empty;
            let states = States::lent(&rows, &bytes).unwrap();
            assert_eq!(states.slot(0), Some(&expected), "{head} {empty}");
        }
        for (head, empty, count) in [
            (1, 0, 0),
            (3, 0, 2),
            (1, 2, 2),
            (2, 7, 8),
            (1_025, 0, 1_024),
            (1, 1_024, 1_024),
            (513, 512, 1_024),
        ] {
            rows[0].name = head;
            rows[0].parent = empty;
            let states = States::lent(&rows, &bytes).unwrap();
            let zeros = Slot::Stored(State {
                rows: vec![Row::default(); count],
                written: Written::default(),
            });
            assert_eq!(states.slot(0), Some(&zeros), "{head} {empty}");
        }
    }
}
