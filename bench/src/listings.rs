//! Listings of tables, written and read, and refused.

use crate::batch::{BATCH_ROWS, repeated_refused};
use crate::rows::Measurement;
use crate::shape::{Case, Lent};
use crate::timing::Batch;
use crate::workload::{MISSPELT, TABLE_FULL, TOO_SHORT};

pub const LISTINGS: [Measurement; 8] = [
    ("write_listing", "w_list", |case| write(0, 0, case)),
    ("write_listing short", "w_short", |case| {
        write(TOO_SHORT, 1, case)
    }),
    ("read_listing", "r_list", |case| {
        let lent = case.with_room(0);
        read_into(0, listing(&lent), lent.table.len(), lent)
    }),
    ("read_listing early", "r_early", |case| changed(case, |_| 0)),
    ("read_listing middle", "r_middle", |case| {
        changed(case, middle_form)
    }),
    ("read_listing digit", "r_digit", |case| {
        changed(case, |text| middle_form(text) + 1)
    }),
    ("read_listing late", "r_late", |case| {
        changed(case, |text| text.len() - 1)
    }),
    ("read_listing few", "r_few", |case| {
        let lent = case.with_room(0);
        read_into(TABLE_FULL, listing(&lent), lent.live() - 1, lent)
    }),
];

/// The listing of what is lent.
fn listing(lent: &Lent) -> Vec<u8> {
    let mut text = vec![0; 64 * (lent.table.len() + 1)];
    let length = interface::baseline().write_listing(&lent.table, lent.tally.issued, &mut text);
    text.truncate(length as usize);
    text
}

/// Writes into a buffer that is so many bytes too short.
fn write(refusal: u64, too_short: usize, case: Case) -> Box<dyn Batch> {
    let lent = case.with_room(0);
    let mut out = listing(&lent);
    out.truncate(out.len() - too_short);
    let times = BATCH_ROWS / lent.table.len();
    repeated_refused(refusal, times, move |implementation, _| {
        implementation.write_listing(&lent.table, lent.tally.issued, &mut out)
    })
}

/// Reads the listing with another byte at this place.
fn changed(case: Case, place: fn(&[u8]) -> usize) -> Box<dyn Batch> {
    let lent = case.with_room(0);
    let mut text = listing(&lent);
    let at = place(&text);
    text[at] = b'?';
    read_into(MISSPELT, text, lent.table.len(), lent)
}

/// The place of the last bracket up to the middle that opens a form.
fn middle_form(text: &[u8]) -> usize {
    let half = &text[..=text.len() / 2];
    half.iter().rposition(|byte| *byte == b'(').unwrap_or(0)
}

/// Reads a text into so many of the rows.
fn read_into(refusal: u64, text: Vec<u8>, rows: usize, mut lent: Lent) -> Box<dyn Batch> {
    let times = BATCH_ROWS / lent.table.len();
    repeated_refused(refusal, times, move |implementation, _| {
        implementation.read_listing(&text, &mut lent.table[..rows], &mut lent.tally)
    })
}
