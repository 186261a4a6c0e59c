//! The library's promises kept by plain Rust, without `unsafe` and without allocation.
//!
//! It is the yardstick of the benchmarks, so it is written to be fast: one pass checks the order of
//! a table and finds every parent's row, one more pass carries an event out on the lent rows, and a
//! run or a call for many events checks the order once.

mod charge;
mod columns;
mod domain;
mod event;
mod group;
mod lines;
mod listing;
mod many;
mod order;
mod run;
mod sheet;
mod sizes;
mod states;
mod step;
mod text;
mod written;

pub use charge::charge;
pub use columns::{
    Columns, ColumnsMut, EventWords, MAX_COLUMN_EVENTS, Used, from_columns, to_columns,
};
pub use domain::DOMAINS;
pub use event::{BACK, DROP_ALL, Event, Kind, MARK, Refusal};
pub use group::{MAX_GROUP, drop_all, read_drop, write_drop};
pub use lines::{Spelling, read_event, write_event};
pub use listing::{read_listing, write_listing};
pub use many::apply_all;
pub use order::{CELL, Cap, MAX_DEPTH, MAX_NAME, MAX_ROWS, RAW, REFERENCE};
pub use run::{check, run};
pub use sheet::{SHEET_PLACES, read_sheet, write_sheet};
pub use sizes::{MAX_CLIENTS, sizes};
pub use states::{SLOTS, STORED_BYTES, STORED_ROWS};
pub use step::{Lent, Tally, apply};
pub use written::{FRESH, WRITTEN_BYTES};
