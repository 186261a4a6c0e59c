//! The library behind the C interface.
#![allow(unsafe_code)]

use std::ptr;

use crate::{
    AnswerWords, Cap, Columns, ColumnsMut, CountWords, Interface, MAX_GROUP, Memory, SHEET_PLACES,
    ShareWords, SizingWords, Tally, Words, ffi,
};

pub struct Library;

// A call reads and writes as many words of an event as the C struct has.
const _: () = assert!(size_of::<Words>() == size_of::<ffi::EventWords>());

// SAFETY, of each call below: a slice gives a pointer to as many elements as its length says, the
// exclusive ones are borrowed for the call alone, and `Cap`, `Tally` and `Words` are laid out as the
// C structs are.
impl Interface for Library {
    fn name(&self) -> &'static str {
        "C library"
    }

    fn apply_words_by(&self, sheet: &[u8], memory: Memory, words: &Words, names: &[u32]) -> u64 {
        unsafe {
            ffi::kz_abi_apply(
                memory.table.as_mut_ptr(),
                memory.table.len(),
                memory.written.as_mut_ptr(),
                memory.written.len(),
                memory.stored.as_mut_ptr(),
                memory.stored.len(),
                memory.stored_bits.as_mut_ptr(),
                memory.stored_bits.len(),
                memory.tally,
                sheet.as_ptr(),
                sheet.len(),
                memory.limits.as_ptr(),
                memory.limits.len(),
                ptr::from_ref(words).cast(),
                names.as_ptr(),
                names.len(),
            )
        }
    }

    fn apply_all_by(
        &self,
        sheet: &[u8],
        memory: Memory,
        events: &[Words],
        names: &[u32],
        answers: &mut [AnswerWords],
    ) -> usize {
        unsafe {
            ffi::kz_abi_apply_all(
                memory.table.as_mut_ptr(),
                memory.table.len(),
                memory.written.as_mut_ptr(),
                memory.written.len(),
                memory.stored.as_mut_ptr(),
                memory.stored.len(),
                memory.stored_bits.as_mut_ptr(),
                memory.stored_bits.len(),
                memory.tally,
                sheet.as_ptr(),
                sheet.len(),
                memory.limits.as_ptr(),
                memory.limits.len(),
                events.as_ptr().cast(),
                events.len(),
                names.as_ptr(),
                names.len(),
                answers.as_mut_ptr(),
                answers.len(),
            )
        }
    }

    fn charge(&self, table: &[Cap], issued: u32, name: u32) -> ShareWords {
        // What a call leaves as it is shows.
        let mut words = [u32::MAX; 3];
        unsafe { ffi::kz_abi_charge(table.as_ptr(), table.len(), issued, name, &mut words) };
        words
    }

    fn run_by(&self, sheet: &[u8], memory: Memory, text: &[u8]) -> u64 {
        unsafe {
            ffi::kz_abi_run(
                memory.table.as_mut_ptr(),
                memory.table.len(),
                memory.written.as_mut_ptr(),
                memory.written.len(),
                memory.stored.as_mut_ptr(),
                memory.stored.len(),
                memory.stored_bits.as_mut_ptr(),
                memory.stored_bits.len(),
                memory.tally,
                sheet.as_ptr(),
                sheet.len(),
                memory.limits.as_ptr(),
                memory.limits.len(),
                text.as_ptr(),
                text.len(),
            )
        }
    }

    fn write_words(&self, words: &Words, names: &[u32], out: &mut [u8]) -> u64 {
        let event = ptr::from_ref(words).cast();
        let size = out.len();
        let out = out.as_mut_ptr();
        unsafe { ffi::kz_abi_write_event(event, names.as_ptr(), names.len(), out, size) }
    }

    fn read_line(
        &self,
        named: u32,
        line: &[u8],
        words: &mut Words,
        names: &mut [u32; MAX_GROUP],
    ) -> u64 {
        let event = ptr::from_mut(words).cast();
        unsafe { ffi::kz_abi_read_event(named, line.as_ptr(), line.len(), event, names) }
    }

    fn write_listing(&self, table: &[Cap], issued: u32, out: &mut [u8]) -> u64 {
        let size = out.len();
        let out = out.as_mut_ptr();
        unsafe { ffi::kz_abi_write_listing(table.as_ptr(), table.len(), issued, out, size) }
    }

    fn read_listing(&self, text: &[u8], table: &mut [Cap], tally: &mut Tally) -> u64 {
        let rows = table.len();
        let table = table.as_mut_ptr();
        unsafe { ffi::kz_abi_read_listing(table, rows, tally, text.as_ptr(), text.len()) }
    }

    fn read_sheet(&self, text: &[u8], sheet: &mut [u8; SHEET_PLACES]) -> u64 {
        unsafe { ffi::kz_abi_read_sheet(text.as_ptr(), text.len(), sheet) }
    }

    fn write_sheet(&self, sheet: &[u8], out: &mut [u8]) -> u64 {
        let size = out.len();
        let out = out.as_mut_ptr();
        unsafe { ffi::kz_abi_write_sheet(sheet.as_ptr(), sheet.len(), out, size) }
    }

    fn to_columns(&self, events: &[Words], columns: ColumnsMut, used: &mut CountWords) -> u64 {
        unsafe {
            ffi::kz_abi_to_columns(
                events.as_ptr().cast(),
                events.len(),
                columns.kinds.as_mut_ptr(),
                columns.kinds.len(),
                columns.names.as_mut_ptr(),
                columns.names.len(),
                columns.starts.as_mut_ptr(),
                columns.starts.len(),
                columns.lengths.as_mut_ptr(),
                columns.lengths.len(),
                columns.rights.as_mut_ptr(),
                columns.rights.len(),
                used,
            )
        }
    }

    fn from_columns(&self, columns: Columns, events: &mut [Words], used: &mut CountWords) -> u64 {
        unsafe {
            ffi::kz_abi_from_columns(
                columns.kinds.as_ptr(),
                columns.kinds.len(),
                columns.names.as_ptr(),
                columns.names.len(),
                columns.starts.as_ptr(),
                columns.starts.len(),
                columns.lengths.as_ptr(),
                columns.lengths.len(),
                columns.rights.as_ptr(),
                columns.rights.len(),
                events.as_mut_ptr().cast(),
                events.len(),
                used,
            )
        }
    }

    fn sizes(&self, text: &[u8], lengths: &[u32], report: &mut SizingWords) -> u64 {
        let count = lengths.len();
        unsafe { ffi::kz_abi_sizes(text.as_ptr(), text.len(), lengths.as_ptr(), count, report) }
    }

    fn check(
        &self,
        input: &[u8],
        stored: &mut [Cap],
        stored_bits: &mut [u8],
        out: &mut [u8],
    ) -> u64 {
        unsafe {
            ffi::kz_abi_check(
                input.as_ptr(),
                input.len(),
                stored.as_mut_ptr(),
                stored.len(),
                stored_bits.as_mut_ptr(),
                stored_bits.len(),
                out.as_mut_ptr(),
                out.len(),
            )
        }
    }
}
