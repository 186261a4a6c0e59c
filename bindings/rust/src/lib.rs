//! Run-time borrow checking with capabilities that are revoked on use.
//!
//! The caller lends a table of capabilities, written bits, room for states to come back to, and a
//! tally. Each event (create, borrow, read, write, drop) is allowed or refused, and the table follows the allowed ones: a read lowers to
//! read-only, and a write ends, every capability that it touches and that is neither its user nor an
//! ancestor of its user, with their subtrees. A create is a new allocation and ends every capability
//! that it touches. Nothing is taken away when a borrow is made. Borrows that stand for raw pointers and
//! cells say so, and are struck by less, or strike less ([`Kind`]).
//!
//! ```
//! use kelzoud::{
//!     apply, Addr, Answer, Cap, Event, Kind, Name, Refusal, Right, Span, States, Tally, Written,
//! };
//!
//! let mut table = [Cap::EMPTY; 16];
//! let mut written = Written::NONE;
//! let mut states = Box::new(States::NOTHING);
//! let mut tally = Tally::default();
//! let span = Span { start: Addr(0), length: 64 };
//!
//! let (right, holders) = (Right::ReadWrite, None);
//! let mut apply = |event| apply(&mut table, &mut written, &mut states, &mut tally, event);
//! let create = Event::Create { written: None, span, right, fresh: false, holders };
//! assert_eq!(apply(create), Answer::Allowed(Some(Name(1))));
//!
//! let (parent, kind) = (Name(1), Kind::Reference);
//! let borrow = Event::Borrow { written: None, parent, span, right, kind, holders };
//! assert_eq!(apply(borrow), Answer::Allowed(Some(Name(2))));
//!
//! // A write through the parent ends the borrow.
//! let write = Event::Write { name: Name(1), span };
//! assert_eq!(apply(write), Answer::Allowed(None));
//! let read = Event::Read { name: Name(2), span };
//! assert_eq!(apply(read), Answer::Refused(Refusal::Ended));
//! ```
//!
//! Memory that is handed out again, without a drop, leaves no stale capability behind:
//!
//! ```
//! use kelzoud::{run, Cap, Refusal, RunAnswer, States, Tally, Written};
//!
//! let mut table = [Cap::EMPTY; 16];
//! let mut written = Written::NONE;
//! let mut states = Box::new(States::NOTHING);
//! let mut tally = Tally::default();
//! let text = b"(create 0 64 rw)\n(borrow 1 0 8 rw)\n(create 32 16 rw)\n(read 2 0 8)\n";
//! let answer = run(&mut table, &mut written, &mut states, &mut tally, text);
//! assert_eq!(answer, RunAnswer::Refused { refusal: Refusal::Ended, line: 4 });
//! ```
//!
//! A log may write out the name of what each create and borrow makes, and is then checked for it:
//!
//! ```
//! use kelzoud::{run, Cap, Refusal, RunAnswer, States, Tally, Written};
//!
//! let mut table = [Cap::EMPTY; 16];
//! let mut written = Written::NONE;
//! let mut states = Box::new(States::NOTHING);
//! let mut tally = Tally::default();
//! let text = b"(trace 2)\n(create 1 0 64 rw)\n(borrow 3 1 0 8 rw)\n";
//! let answer = run(&mut table, &mut written, &mut states, &mut tally, text);
//! assert_eq!(answer, RunAnswer::Refused { refusal: Refusal::Misnamed, line: 3 });
//! ```
//!
//! A function's return drops all its objects at once, which a log writes as one line:
//!
//! ```
//! use kelzoud::{drop_all, run, Answer, Cap, Name, Refusal, RunAnswer, States, Tally, Written};
//!
//! let mut table = [Cap::EMPTY; 16];
//! let mut written = Written::NONE;
//! let mut states = Box::new(States::NOTHING);
//! let mut tally = Tally::default();
//! let text = b"(create 0 8 rw)\n(create 8 8 rw)\n(create 16 8 rw)\n(drop 1 3)\n";
//! let answer = run(&mut table, &mut written, &mut states, &mut tally, text);
//! assert_eq!(answer, RunAnswer::Allowed { lines: 4 });
//! let answer = drop_all(&mut table, &mut written, &mut states, &mut tally, &[Name(1), Name(2)]);
//! assert_eq!(answer, Answer::Refused(Refusal::Ended));
//! assert_eq!((table[0].name, tally.drops), (2, 1));
//! ```
//!
//! A raw pointer and what it was made from are used in turn. Here 2 stands for a `&mut`, and 3 for a
//! `*mut` made from it; a write through 1, from which the `&mut` was borrowed, ends both:
//!
//! ```
//! use kelzoud::{run, Cap, Refusal, RunAnswer, States, Tally, Written};
//!
//! let mut table = [Cap::EMPTY; 16];
//! let mut written = Written::NONE;
//! let mut states = Box::new(States::NOTHING);
//! let mut tally = Tally::default();
//! let text = b"(create 0 64 rw)\n(borrow 1 0 8 rw)\n(borrow 2 0 8 rw raw)\n\
//!     (write 3 0 8)\n(write 2 0 8)\n(write 3 0 8)\n";
//! let answer = run(&mut table, &mut written, &mut states, &mut tally, text);
//! assert_eq!(answer, RunAnswer::Allowed { lines: 6 });
//! let text = b"(write 1 0 8)\n(read 3 0 8)\n";
//! let answer = run(&mut table, &mut written, &mut states, &mut tally, text);
//! assert_eq!(answer, RunAnswer::Refused { refusal: Refusal::Ended, line: 2 });
//! ```
//!
//! A create may say that its memory is [fresh](Event::Create::fresh): then it is not read before it is
//! written, whatever it is read through. Here 2 is fresh, over memory that held something else before,
//! and 3 is borrowed from it; only the first four bytes are written since:
//!
//! ```
//! use kelzoud::{run, Cap, Refusal, RunAnswer, States, Tally, Written};
//!
//! let mut table = [Cap::EMPTY; 16];
//! let mut written = Written::NONE;
//! let mut states = Box::new(States::NOTHING);
//! let mut tally = Tally::default();
//! let text = b"(create 0 8 rw)\n(write 1 0 8)\n(create 0 8 rw fresh)\n\
//!     (write 2 0 4)\n(borrow 2 0 8 ro)\n(read 3 0 4)\n(read 3 0 8)\n";
//! let answer = run(&mut table, &mut written, &mut states, &mut tally, text);
//! assert_eq!(answer, RunAnswer::Refused { refusal: Refusal::NotWritten, line: 7 });
//! ```
//!
//! All this goes by the default [conflict sheet](Sheet), which says for each [`Kind`], each [`Access`]
//! and each [`Origin`] whether what is struck stays, is lowered or ends. A checker for a language with
//! other rules makes a sheet of its own, and lends it with the table in a [`Lent`]. Here a read ends
//! what the default sheet lets it lower:
//!
//! ```
//! use kelzoud::{
//!     Access, Cap, Effect, Kind, Lent, Origin, Refusal, RunAnswer, Sheet, States, Tally, Written,
//! };
//!
//! let sheet = Sheet::DEFAULT.with(Kind::Reference, Access::Read, Origin::Kin, Effect::End);
//! let mut table = [Cap::EMPTY; 16];
//! let mut written = Written::NONE;
//! let mut states = Box::new(States::NOTHING);
//! let mut tally = Tally::default();
//! let mut lent = Lent { sheet, ..Lent::new(&mut table, &mut written, &mut states, &mut tally) };
//! let answer = lent.run(b"(create 0 64 rw)\n(borrow 1 0 8 rw)\n(read 1 0 8)\n(read 2 0 8)\n");
//! assert_eq!(answer, RunAnswer::Refused { refusal: Refusal::Ended, line: 4 });
//! ```
//!
//! Up to 64 [domains](Domain) act on one table, such as the cores of a board. What a domain makes it
//! makes for the [holders](Holders) that it says, and no other domain may use it; an event is
//! [by](Event::by) a domain, and by domain 0 where nothing is said. A sheet of [`Limits`] gives each
//! domain its part of the rows ([`Lent`] has an example), and [`charge`] tells what the holders of a
//! capability pay for it. Here domain 1 lets domain 2 read, and nobody else:
//!
//! ```
//! use kelzoud::{run, Cap, Refusal, RunAnswer, States, Tally, Written};
//!
//! let mut table = [Cap::EMPTY; 16];
//! let mut written = Written::NONE;
//! let mut states = Box::new(States::NOTHING);
//! let mut tally = Tally::default();
//! let text = b"(as 1 (create 0 64 rw))\n(as 1 (borrow 1 0 8 ro 0000000000000006))\n\
//!     (as 2 (read 2 0 8))\n(read 2 0 8)\n";
//! let answer = run(&mut table, &mut written, &mut states, &mut tally, text);
//! assert_eq!(answer, RunAnswer::Refused { refusal: Refusal::NotHolder, line: 4 });
//! ```
//!
//! A debugger steps back. [`Event::Mark`] stores the table and the written bits in one of eight
//! [slots](Slot) of the lent [`States`], and [`Event::Back`] brings them back. The tally and the names
//! given out are never turned back, so that no name is given twice:
//!
//! ```
//! use kelzoud::{run, Cap, Refusal, RunAnswer, States, Tally, Written};
//!
//! let mut table = [Cap::EMPTY; 16];
//! let mut written = Written::NONE;
//! let mut states = Box::new(States::NOTHING);
//! let mut tally = Tally::default();
//! let text = b"(create 0 64 rw)\n(mark 0)\n(borrow 1 0 8 rw)\n(back 0)\n(borrow 1 0 8 rw)\n\
//!     (write 3 0 8)\n(write 2 0 8)\n";
//! let answer = run(&mut table, &mut written, &mut states, &mut tally, text);
//! assert_eq!(answer, RunAnswer::Refused { refusal: Refusal::Ended, line: 7 });
//! ```
//!
//! Many events are handed over in one call by [`apply_all`], and a log is read line by line by
//! [`read_event`]. Who stores traces keeps them [by column](Columns), with like beside like. Who wonders how
//! many rows a table is to have tries recorded traces by [`sizes()`].
//!
//! The calls are those of the C library `libkelzoud.a`, which the build script links from the
//! directory in `KELZOUD_LIB`. They keep nothing between calls and allocate nothing.

#![no_std]
#![deny(missing_docs)]

mod answers;
mod calls;
mod columns;
mod domains;
mod ffi;
mod lent;
mod requests;
mod sheets;
mod sizes;
mod states;
mod values;

pub use answers::{Answer, Outcome, Refusal, RunAnswer};
pub use calls::{
    apply, apply_all, charge, check, drop_all, read_event, read_listing, run, write_drop,
    write_drop_by, write_event, write_listing,
};
pub use columns::{from_columns, to_columns, Columns, ColumnsMut, Counts};
pub use domains::{Charge, Domain, Holders, HoldersIter, Limits};
pub use lent::Lent;
pub use requests::{Group, Line, Request, Spelling};
pub use sheets::{Access, Effect, Origin, Sheet};
pub use sizes::{sizes, ClientRefusal};
pub use states::{Slot, States};
pub use values::{Addr, Cap, Event, Kind, Name, Right, Span, Tally, Written};

/// The most rows of a table.
pub const MAX_ROWS: usize = 1_024;

/// The last name that is given out.
pub const MAX_NAME: u32 = 1_000_000;

/// The greatest depth of a capability.
pub const MAX_DEPTH: u32 = 64;

/// The most names that are dropped together.
pub const MAX_GROUP: usize = 64;

/// How many domains there are, from 0 on.
pub const DOMAINS: usize = 64;

/// How many slots there are for states to come back to, from 0 on.
pub const SLOTS: usize = 8;

/// How many bytes of written bits a table has.
pub const WRITTEN_BYTES: usize = 8_192;

/// How many addresses have a written bit, from 0 on. A fresh capability ends there or below.
pub const WRITTEN_ADDRESSES: u32 = 65_536;

/// The most events that are put into [columns](Columns), or taken from them, in one call.
pub const MAX_COLUMN_EVENTS: usize = 4_096;

/// The most clients whose traces [`sizes()`] takes together.
pub const MAX_CLIENTS: usize = 8;

/// The most bytes of input that [`check`] runs.
pub const MAX_INPUT: usize = 65_536;

/// The most bytes of a line of [`write_event`] without a written name, its newline included.
pub const MAX_LINE: usize = 75;

/// The most bytes of a line of [`write_event`] with a written name, its newline included.
pub const MAX_NAMED_LINE: usize = 86;

/// The most bytes of a line of [`write_drop`], its newline included.
pub const MAX_DROP_LINE: usize = 719;

/// The most bytes of the text of [`Sheet::write`].
pub const MAX_SHEET: usize = 1_005;

/// The first line of a text in which new names are written out.
pub const NAMED_HEADER: &[u8] = b"(trace 2)\n";

/// The most bytes of a listing.
pub const MAX_LISTING: usize = 60_429;

/// The most bytes that [`check`] writes.
pub const MAX_CHECK: usize = 60_448;
