//! A second checker, written from document 01 and cards 1, 2 and 4 to 13 alone and for clarity alone.
//!
//! It shares no code and no plan with what it judges: the history derives everything from its notes
//! each time it is asked, the rows of a lent table are searched from end to end, and text is taken
//! apart strictly as it is read. Written addresses are a set, and so are holders: they have bits only in the
//! lent bytes and masks. A stored state is a table and such a set, and the history keeps notes in its place. The
//! history and the lent table share values and spans, and no rule. A trace goes into columns and comes out of them as
//! text. How many rows are needed is found by trying them.

mod columns;
pub mod domain_traces;
mod domains;
mod history;
pub mod independence;
mod lines;
pub mod random;
mod sheet;
mod sizes;
mod span;
pub mod state_traces;
mod states;
mod table;
mod text;
mod together;
pub mod traces;
mod values;
mod written;

pub use columns::{Columns, MAX_COLUMN_EVENTS, from_columns, to_columns};
pub use domains::{
    Charge, DOMAINS, Holders, Limits, charge, holders_of, is_domain, mask_of, mask_word,
};
pub use history::History;
pub use lines::{Spelling, drop_line, event_line, read_drop_line, read_event_line};
pub use sheet::{Access, CARD_6, Combination, Outcome, Sheet, Source, combinations, write_sheet};
pub use sizes::{MAX_CLIENTS, Stop, sizes, try_rows, try_rows_by_history};
pub use span::Span;
pub use states::{SLOT_ROWS, SLOTS, STORED_BYTES, STORED_ROWS, Slot, State, States, is_slot};
pub use table::{By, Lent, apply, holds, in_order, live_rows, read_strikes, strikes};
pub use text::{
    HEADER, Run, check, check_without_states, listing, read_listing, run, write_drop, write_event,
    write_listing,
};
pub use together::{drop_all, is_group};
pub use values::{
    Act, CELL, Event, FRESH, Fields, MAX_DEPTH, MAX_GROUP, MAX_INPUT, MAX_NAME, MAX_ROWS, RAW,
    READ_ONLY, READ_WRITE, REFERENCE, Refused, Row, Tally,
};
pub use written::{WRITABLE, WRITTEN_BYTES, Written};
