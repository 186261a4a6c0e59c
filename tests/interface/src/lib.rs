//! The C interface as a trait, over the library or over the baseline, so that whatever tests or
//! measures the one can test or measure the other.

pub use baseline::{
    BACK, CELL, Cap, Columns, ColumnsMut, DOMAINS, Event, FRESH, MARK, MAX_GROUP, RAW, REFERENCE,
    SHEET_PLACES, SLOTS, STORED_BYTES, STORED_ROWS, Tally, WRITTEN_BYTES,
};
pub use words::{AnswerWords, CountWords, DROP_ALL, ShareWords, SizingWords, Words};

#[cfg(library)]
#[allow(unsafe_code)]
#[path = "../../../bindings/rust/src/ffi.rs"]
mod ffi;
#[cfg(library)]
mod library;
mod plain;
mod words;

/// What a caller lends for events. Written bits are bytes of any number, of which but one is right, and so are
/// the rows and the bytes for states. Limits are numbers, as many as one likes; none of them means that none are
/// lent.
pub struct Memory<'a> {
    pub table: &'a mut [Cap],
    pub written: &'a mut [u8],
    pub stored: &'a mut [Cap],
    pub stored_bits: &'a mut [u8],
    pub tally: &'a mut Tally,
    pub limits: &'a [u32],
}

/// The functions of the C interface, and below them the same in the shapes that a caller has at hand.
/// Each but those for many events and for a charge answers the refusal's number times 2^32 plus a value. A
/// sheet is its bytes, none of them for the default one.
pub trait Interface {
    fn name(&self) -> &'static str;

    /// `kz_abi_apply`: an event, or names dropped together that stand in the list.
    fn apply_words_by(&self, sheet: &[u8], memory: Memory, words: &Words, names: &[u32]) -> u64;

    /// `kz_abi_apply_all`: as many events as there are answers for, and how many were taken.
    fn apply_all_by(
        &self,
        sheet: &[u8],
        memory: Memory,
        events: &[Words],
        names: &[u32],
        answers: &mut [AnswerWords],
    ) -> usize;

    /// `kz_abi_charge`: the refusal, the share and the rest.
    fn charge(&self, table: &[Cap], issued: u32, name: u32) -> ShareWords;

    fn run_by(&self, sheet: &[u8], memory: Memory, text: &[u8]) -> u64;

    /// `kz_abi_write_event`: the line of what `apply_words` takes.
    fn write_words(&self, words: &Words, names: &[u32], out: &mut [u8]) -> u64;

    /// `kz_abi_read_event`: a line of either sort, in the named spelling where `named` is not 0.
    fn read_line(
        &self,
        named: u32,
        line: &[u8],
        words: &mut Words,
        names: &mut [u32; MAX_GROUP],
    ) -> u64;

    fn write_listing(&self, table: &[Cap], issued: u32, out: &mut [u8]) -> u64;

    fn read_listing(&self, text: &[u8], table: &mut [Cap], tally: &mut Tally) -> u64;

    fn read_sheet(&self, text: &[u8], sheet: &mut [u8; SHEET_PLACES]) -> u64;

    fn write_sheet(&self, sheet: &[u8], out: &mut [u8]) -> u64;

    /// `kz_abi_to_columns`: events into columns, and how many entries were used.
    fn to_columns(&self, events: &[Words], columns: ColumnsMut, used: &mut CountWords) -> u64;

    /// `kz_abi_from_columns`: columns into events, and how many entries were used.
    fn from_columns(&self, columns: Columns, events: &mut [Words], used: &mut CountWords) -> u64;

    /// `kz_abi_sizes`: the fewest rows for clients whose texts stand end to end, and all of the report.
    fn sizes(&self, text: &[u8], lengths: &[u32], report: &mut SizingWords) -> u64;

    /// `kz_abi_check`, whose working space are rows and bytes for states.
    fn check(
        &self,
        input: &[u8],
        stored: &mut [Cap],
        stored_bits: &mut [u8],
        out: &mut [u8],
    ) -> u64;

    /// What `apply_words_by` takes, by the default sheet.
    fn apply_words(&self, memory: Memory, words: &Words, names: &[u32]) -> u64 {
        self.apply_words_by(&[], memory, words, names)
    }

    /// Many events by the default sheet.
    fn apply_all(
        &self,
        memory: Memory,
        events: &[Words],
        names: &[u32],
        answers: &mut [AnswerWords],
    ) -> usize {
        self.apply_all_by(&[], memory, events, names, answers)
    }

    /// A run by the default sheet.
    fn run(&self, memory: Memory, text: &[u8]) -> u64 {
        self.run_by(&[], memory, text)
    }

    /// One event by a sheet.
    fn apply_by(&self, sheet: &[u8], memory: Memory, event: Event) -> u64 {
        self.apply_words_by(sheet, memory, &event.into(), &[])
    }

    /// One event by the default sheet.
    fn apply(&self, memory: Memory, event: Event) -> u64 {
        self.apply_by(&[], memory, event)
    }

    /// Names that domain 0 drops together, with a sheet lent.
    fn drop_all_by(&self, sheet: &[u8], memory: Memory, names: &[u32]) -> u64 {
        let words = Words::drop_all(0, names.len() as u32);
        self.apply_words_by(sheet, memory, &words, names)
    }

    /// Names that domain 0 drops together.
    fn drop_all(&self, memory: Memory, names: &[u32]) -> u64 {
        self.drop_all_by(&[], memory, names)
    }

    /// An event's line, in the named spelling where a name is written.
    fn write_event(&self, event: Event, out: &mut [u8]) -> u64 {
        self.write_words(&event.into(), &[], out)
    }

    /// The line of names that domain 0 drops together.
    fn write_drop(&self, names: &[u32], out: &mut [u8]) -> u64 {
        self.write_words(&Words::drop_all(0, names.len() as u32), names, out)
    }
}

pub fn baseline() -> &'static dyn Interface {
    &plain::Baseline
}

/// The library, where this was built with `KELZOUD_LIB` set.
pub fn library() -> Option<&'static dyn Interface> {
    #[cfg(library)]
    return Some(&library::Library);
    #[cfg(not(library))]
    return None;
}
