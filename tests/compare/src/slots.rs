//! The memory that is lent for states: laid out anew for each call, or kept word for word from call to call.

use std::cell::Cell;
use std::fmt::{self, Debug, Formatter};
use std::ops::Range;

use interface::{Cap, STORED_BYTES, STORED_ROWS};
use oracle::{Row, SLOT_ROWS, SLOTS, Slot, States, WRITTEN_BYTES};

use crate::agree::{Agreed, GUARD_BYTE, GUARD_BYTES, GUARD_ROW, cap_of, row_of, same};

/// What is lent for states.
#[derive(Clone, Debug, PartialEq)]
pub enum Slots {
    /// States, laid out anew for each call in memory that is zero elsewhere.
    Of(States),
    /// Memory word for word, as one call after the other leaves it.
    Kept(Kept),
    /// So many rows and bytes, which are not as many as there have to be.
    Other(usize, usize),
}

/// Memory word for word, and what the oracle has in it.
#[derive(Clone, PartialEq)]
pub struct Kept {
    pub rows: Vec<Cap>,
    pub bytes: Vec<u8>,
    pub states: States,
}

/// Its words are many.
impl Debug for Kept {
    fn fmt(&self, formatter: &mut Formatter) -> fmt::Result {
        self.states.fmt(formatter)
    }
}

impl Kept {
    /// Memory of zeros.
    pub fn zeros() -> Kept {
        Kept {
            rows: vec![Cap::default(); STORED_ROWS],
            bytes: vec![0; STORED_BYTES],
            states: States::default(),
        }
    }

    /// What its words hold.
    pub fn read(&mut self) {
        for slot in 0..SLOTS as usize {
            let stored = read(&self.rows, &self.bytes, slot);
            self.states.set(slot as u32, stored);
        }
    }

    /// The words of one slot.
    pub fn slot(&self, slot: usize) -> (&[Cap], &[u8]) {
        (&self.rows[rows_of(slot)], &self.bytes[bytes_of(slot)])
    }
}

/// The rows of a slot in the lent memory.
pub fn rows_of(slot: usize) -> Range<usize> {
    slot * SLOT_ROWS..(slot + 1) * SLOT_ROWS
}

/// The bytes of a slot in the lent memory.
pub fn bytes_of(slot: usize) -> Range<usize> {
    slot * WRITTEN_BYTES..(slot + 1) * WRITTEN_BYTES
}

/// What a slot of rows and bytes has. Most have nothing, and then only the head is looked at.
fn read(rows: &[Cap], bytes: &[u8], slot: usize) -> Slot {
    let rows = &rows[rows_of(slot)];
    if rows[0].name == 0 {
        return Slot::Nothing;
    }
    let kept = (rows[0].name as usize - 1).min(SLOT_ROWS - 1);
    let rows: Vec<Row> = rows[..=kept].iter().map(row_of).collect();
    Slot::lent(&rows, &bytes[bytes_of(slot)])
}

impl Slots {
    pub fn nothing() -> Slots {
        Slots::Of(States::default())
    }

    /// Memory of zeros that is kept.
    pub fn kept() -> Slots {
        Slots::Kept(Kept::zeros())
    }

    /// What is stored, if the memory is as large as it has to be.
    pub fn states(&self) -> Option<&States> {
        match self {
            Slots::Of(states) => Some(states),
            Slots::Kept(kept) => Some(&kept.states),
            Slots::Other(..) => None,
        }
    }

    pub fn states_mut(&mut self) -> Option<&mut States> {
        match self {
            Slots::Of(states) => Some(states),
            Slots::Kept(kept) => Some(&mut kept.states),
            Slots::Other(..) => None,
        }
    }

    /// Takes over the words that a call left.
    pub fn keep(&mut self, found: Slots) {
        if let (Slots::Kept(kept), Slots::Kept(found)) = (self, found) {
            kept.rows = found.rows;
            kept.bytes = found.bytes;
        }
    }
}

/// Rows and bytes that are lent, with a row and some bytes behind them that are not.
pub struct Room {
    rows: Vec<Cap>,
    bytes: Vec<u8>,
    size: (usize, usize),
    /// What was laid out in which slots.
    laid: Vec<(usize, Vec<Cap>, Vec<u8>)>,
}

thread_local! {
    /// Memory of zeros for the next call: most calls leave it so, and it is long.
    static ZEROS: Cell<Option<Room>> = const { Cell::new(None) };

    /// How often it was taken.
    static TAKEN: Cell<u64> = const { Cell::new(0) };

    /// Memory that calls work in, as the last of them left it.
    static WORKED_IN: Cell<Option<Room>> = const { Cell::new(None) };
}

/// A call that works in lent memory, whatever stands there, and leaves it so. Where it writes behind it, what it
/// answers is no answer.
pub fn working(call: impl FnOnce(&mut [Cap], &mut [u8]) -> u64) -> u64 {
    let mut room = WORKED_IN
        .take()
        .unwrap_or_else(|| Room::with(vec![Cap::default(); STORED_ROWS], vec![0; STORED_BYTES]));
    let answer = room.work(call);
    WORKED_IN.set(Some(room));
    answer
}

/// The same in memory that is lent so.
pub fn working_in(slots: &Slots, call: impl FnOnce(&mut [Cap], &mut [u8]) -> u64) -> u64 {
    Room::of(slots).work(call)
}

/// One in so many calls has all of the memory looked at for what it may have written beside its slots.
const LOOKED_AT: u64 = 64;

/// What stands in memory of another size.
const NOISE: u32 = 0x0101_0101;

impl Room {
    fn with(mut rows: Vec<Cap>, mut bytes: Vec<u8>) -> Room {
        let size = (rows.len(), bytes.len());
        rows.push(GUARD_ROW);
        bytes.extend([GUARD_BYTE; GUARD_BYTES]);
        Room {
            rows,
            bytes,
            size,
            laid: Vec::new(),
        }
    }

    fn zeros() -> Room {
        ZEROS
            .take()
            .unwrap_or_else(|| Room::with(vec![Cap::default(); STORED_ROWS], vec![0; STORED_BYTES]))
    }

    /// The memory as it is lent.
    pub fn of(slots: &Slots) -> Room {
        match slots {
            Slots::Of(states) => {
                let mut room = Room::zeros();
                for (slot, stored) in states.each() {
                    room.put(slot, stored);
                }
                room
            }
            Slots::Kept(kept) => Room::with(kept.rows.clone(), kept.bytes.clone()),
            Slots::Other(rows, bytes) => {
                let row = Cap {
                    name: NOISE,
                    parent: NOISE,
                    ..Cap::default()
                };
                Room::with(vec![row; *rows], vec![NOISE as u8; *bytes])
            }
        }
    }

    fn put(&mut self, slot: usize, stored: &Slot) {
        let rows = &mut self.rows[rows_of(slot)];
        match stored {
            Slot::Nothing => {}
            Slot::Stored(state) => {
                let (kept, bytes) = state.memory();
                let kept: Vec<Cap> = kept.iter().map(cap_of).collect();
                rows[..kept.len()].copy_from_slice(&kept);
                self.bytes[bytes_of(slot)].copy_from_slice(&bytes);
                self.laid.push((slot, kept, bytes));
            }
            Slot::Misfit => (rows[0].name, rows[0].parent) = (2, 1_024),
        }
    }

    /// Whether a slot is as it was laid out, which is so after most calls.
    fn is_as_laid(&self, slot: usize) -> bool {
        let (rows, bytes) = (&self.rows[rows_of(slot)], &self.bytes[bytes_of(slot)]);
        let is_it = |(at, kept, written): &(usize, Vec<Cap>, Vec<u8>)| {
            *at == slot && rows.starts_with(kept) && bytes == written
        };
        self.laid.iter().any(is_it)
    }

    fn work(&mut self, call: impl FnOnce(&mut [Cap], &mut [u8]) -> u64) -> u64 {
        let (rows, bytes) = self.lent();
        let answer = call(rows, bytes);
        match self.check_behind() {
            Ok(()) => answer,
            Err(_) => u64::MAX,
        }
    }

    /// The lent part of it.
    pub fn lent(&mut self) -> (&mut [Cap], &mut [u8]) {
        (
            &mut self.rows[..self.size.0],
            &mut self.bytes[..self.size.1],
        )
    }

    /// What a call left, for memory that was lent so.
    pub fn found(mut self, slots: &Slots) -> Result<Slots, String> {
        self.check_behind()?;
        match slots {
            Slots::Of(before) => {
                let mut states = States::default();
                for (slot, stored) in before.each() {
                    let now = match self.is_as_laid(slot) {
                        true => stored.clone(),
                        false => read(&self.rows, &self.bytes, slot),
                    };
                    states.set(slot as u32, now);
                }
                self.give_back()?;
                Ok(Slots::Of(states))
            }
            Slots::Kept(_) => {
                let (rows, bytes) = self.lent();
                let mut kept = Kept {
                    rows: rows.to_vec(),
                    bytes: bytes.to_vec(),
                    states: States::default(),
                };
                kept.read();
                Ok(Slots::Kept(kept))
            }
            Slots::Other(..) => {
                let (rows, bytes) = self.lent();
                let is_noise = rows.iter().all(|row| row.name == NOISE)
                    && bytes.iter().all(|byte| *byte == NOISE as u8);
                same("memory of another size stays", true, is_noise)?;
                Ok(slots.clone())
            }
        }
    }

    fn check_behind(&self) -> Agreed {
        let (rows, bytes) = self.size;
        same(
            "the row after the states",
            Some(&GUARD_ROW),
            self.rows.last(),
        )?;
        same("rows for states", rows + 1, self.rows.len())?;
        same(
            "the bytes after the states",
            &[GUARD_BYTE; GUARD_BYTES][..],
            &self.bytes[bytes..],
        )
    }

    /// Clears the slots that have something, and gives the memory back for the next call.
    fn give_back(mut self) -> Agreed {
        for slot in 0..SLOTS as usize {
            if self.rows[rows_of(slot)][0].name != 0 {
                self.rows[rows_of(slot)].fill(Cap::default());
                self.bytes[bytes_of(slot)].fill(0);
            }
        }
        let taken = TAKEN.get();
        TAKEN.set(taken + 1);
        if taken.is_multiple_of(LOOKED_AT) {
            let (rows, bytes) = self.lent();
            let is_zero = rows.iter().all(|row| *row == Cap::default())
                && bytes.iter().all(|byte| *byte == 0);
            same("memory beside the slots stays", true, is_zero)?;
        }
        self.laid.clear();
        ZEROS.set(Some(self));
        Ok(())
    }
}
