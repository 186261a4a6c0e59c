//! The functions that the archive exports, declaration by declaration as `include/kelzoud.h` has them.

use crate::{Cap, Tally};

/// `kz_event`, word for word.
pub type EventWords = [u32; 12];

/// `kz_answer`, word for word.
pub type AnswerWords = [u32; 2];

/// `kz_shares`, word for word.
pub type ShareWords = [u32; 3];

/// `kz_counts`, word for word.
pub type CountWords = [u32; 6];

/// `kz_sizing`, word for word.
pub type SizingWords = [u32; 4];

unsafe extern "C" {
    pub fn kz_abi_apply(
        table: *mut Cap,
        rows: usize,
        written: *mut u8,
        written_size: usize,
        stored: *mut Cap,
        stored_rows: usize,
        stored_bits: *mut u8,
        stored_size: usize,
        tally: *mut Tally,
        sheet: *const u8,
        sheet_len: usize,
        limits: *const u32,
        limit_count: usize,
        event: *const EventWords,
        names: *const u32,
        names_len: usize,
    ) -> u64;

    pub fn kz_abi_apply_all(
        table: *mut Cap,
        rows: usize,
        written: *mut u8,
        written_size: usize,
        stored: *mut Cap,
        stored_rows: usize,
        stored_bits: *mut u8,
        stored_size: usize,
        tally: *mut Tally,
        sheet: *const u8,
        sheet_len: usize,
        limits: *const u32,
        limit_count: usize,
        events: *const EventWords,
        count: usize,
        names: *const u32,
        names_len: usize,
        answers: *mut AnswerWords,
        answers_len: usize,
    ) -> usize;

    pub fn kz_abi_charge(
        table: *const Cap,
        rows: usize,
        issued: u32,
        name: u32,
        charge: *mut ShareWords,
    );

    pub fn kz_abi_run(
        table: *mut Cap,
        rows: usize,
        written: *mut u8,
        written_size: usize,
        stored: *mut Cap,
        stored_rows: usize,
        stored_bits: *mut u8,
        stored_size: usize,
        tally: *mut Tally,
        sheet: *const u8,
        sheet_len: usize,
        limits: *const u32,
        limit_count: usize,
        text: *const u8,
        text_len: usize,
    ) -> u64;

    pub fn kz_abi_write_event(
        event: *const EventWords,
        names: *const u32,
        names_len: usize,
        out: *mut u8,
        out_len: usize,
    ) -> u64;

    pub fn kz_abi_read_event(
        named: u32,
        line: *const u8,
        line_len: usize,
        event: *mut EventWords,
        names: *mut [u32; 64],
    ) -> u64;

    pub fn kz_abi_write_listing(
        table: *const Cap,
        rows: usize,
        issued: u32,
        out: *mut u8,
        out_len: usize,
    ) -> u64;

    pub fn kz_abi_read_listing(
        table: *mut Cap,
        rows: usize,
        tally: *mut Tally,
        text: *const u8,
        text_len: usize,
    ) -> u64;

    pub fn kz_abi_read_sheet(text: *const u8, text_len: usize, sheet: *mut [u8; 18]) -> u64;

    pub fn kz_abi_write_sheet(
        sheet: *const u8,
        sheet_len: usize,
        out: *mut u8,
        out_len: usize,
    ) -> u64;

    pub fn kz_abi_to_columns(
        events: *const EventWords,
        count: usize,
        kinds: *mut u8,
        kinds_len: usize,
        names: *mut u32,
        names_len: usize,
        starts: *mut u32,
        starts_len: usize,
        lengths: *mut u32,
        lengths_len: usize,
        rights: *mut u8,
        rights_len: usize,
        used: *mut CountWords,
    ) -> u64;

    pub fn kz_abi_from_columns(
        kinds: *const u8,
        kinds_len: usize,
        names: *const u32,
        names_len: usize,
        starts: *const u32,
        starts_len: usize,
        lengths: *const u32,
        lengths_len: usize,
        rights: *const u8,
        rights_len: usize,
        events: *mut EventWords,
        events_len: usize,
        used: *mut CountWords,
    ) -> u64;

    pub fn kz_abi_check(
        input: *const u8,
        input_len: usize,
        stored: *mut Cap,
        stored_rows: usize,
        stored_bits: *mut u8,
        stored_size: usize,
        out: *mut u8,
        out_len: usize,
    ) -> u64;

    pub fn kz_abi_sizes(
        text: *const u8,
        text_len: usize,
        lengths: *const u32,
        count: usize,
        report: *mut SizingWords,
    ) -> u64;
}
