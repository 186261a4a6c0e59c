//! The calls whose time depends on a table: how it grows with the rows, and how it depends on the shape.

use crate::batch;
use crate::growth::growth_rows;
use crate::listings::LISTINGS;
use crate::print;
use crate::shape::{Case, Lent, SHAPES, cases, cells};
use crate::timing::{Batch, Bench, Place};
use crate::workload::{
    BACK, BORROW, CREATE, DISORDERED, DROP, MARK, NOTHING_STORED, OUTSIDE, READ, UNISSUED, WRITE,
    beside, event_on_user, group, slot_event,
};

pub const NOTES: &str = "\
Times are medians of the processor time of one call, both implementations taking turns; 'growth' is the
time over the time at a quarter of the rows. All rows are live: two trees of borrows, their rows in
turn. Each timed apply has a fresh copy of the table, made outside the timed part. 'apply create' makes
a root beside the trees and ends nothing; 'apply reuse' is a create over one tree's whole span and ends
its rows, half of all. The read, write and drop go through one tree's root over its whole span and so
meet half of the rows; 'drop_all' drops every second row, at most 64 together, and is 'refused' for its
last name. 'apply refused' is a read through the root outside of its span, 'apply disordered' any event
where the last row is in no order. A 'mark' stores the table, and a 'back' goes to what the table is
already, 'refused' to where nothing is stored; 'charge' is of a row in the middle, 'refused' of a name
that is not issued. A listing is written into and read from the same buffers each time, and refused
where the buffer is a byte too short, where a byte is changed, the first, 'early', the last, 'late', or
in the 'middle' a bracket or the 'digit' behind it, and where the table has a row too 'few'. All these
rows are references; 'by sheet' the default sheet is lent. The write in 'cells' goes through the deepest
row inside a cell and touches all rows: half of them are outside the cell and kept, and of those inside
all but the ones above the deepest end. All addresses are behind those that have a written bit.";

pub const SHAPE_NOTES: &str = "\
The same calls by shape, through the first row over its whole span, where there are cells through the
deepest row inside one: the library's time over the baseline's. Random trees have a root in eight rows;
a star is one root and its borrows; chains are 64 deep; a spread star's names lie over a million; in a
covered star the first borrow's name is the root's plus 2,048; shared slots are two trees whose names
are equal modulo 2,048, at 1,024 rows of three such kinds; cells are a root, a cell below it, and the
other rows in turn inside the cell and outside, all of one span; '16 of 1,024' has 16 live rows of the
two trees of 1,024 lent.";

const SIZES: [usize; 4] = [16, 64, 256, 1_024];

/// Makes the batch that times a call on a table.
pub type Timed = fn(Case) -> Box<dyn Batch>;

/// A call by its long and its short name.
pub type Measurement = (&'static str, &'static str, Timed);

/// Events. Where all rows are live, creates and the borrow begin with one row less; after the create beside the
/// rows and after the borrow the table is full.
const EVENTS: [Measurement; 15] = [
    ("apply create", "create", |case| {
        let lent = case.with_room(1);
        batch::apply(beside(event_on_user(&lent, CREATE)), lent)
    }),
    ("apply reuse", "reuse", |case| {
        apply_on_user(CREATE, case.with_room(1))
    }),
    ("apply borrow", "borrow", |case| {
        apply_on_user(BORROW, case.with_room(1))
    }),
    ("apply read", "read", |case| {
        apply_on_user(READ, case.with_room(0))
    }),
    ("apply write", "write", write),
    ("apply drop", "drop", |case| {
        apply_on_user(DROP, case.with_room(0))
    }),
    ("drop_all", "drop_all", |case| {
        let lent = case.with_room(0);
        batch::apply_group(0, group(&lent), lent)
    }),
    ("drop_all refused", "unissued", |case| {
        let lent = case.with_room(0);
        let mut names = group(&lent);
        names.pop();
        names.push(lent.tally.issued + 1);
        batch::apply_group(UNISSUED, names, lent)
    }),
    ("apply refused", "refused", |case| {
        let lent = case.with_room(0);
        batch::apply_refused(OUTSIDE, beside(event_on_user(&lent, READ)), lent)
    }),
    ("apply disordered", "disorder", |case| {
        let lent = case.with_room(0);
        batch::apply_refused(DISORDERED, event_on_user(&lent, READ), lent.disordered())
    }),
    ("mark", "mark", |case| batch::turn(MARK, case.with_room(0))),
    ("back", "back", |case| batch::turn(BACK, case.with_room(0))),
    ("back refused", "no_state", |case| {
        batch::apply_refused(NOTHING_STORED, slot_event(BACK), case.with_room(0))
    }),
    ("charge", "charge", |case| batch::charge(case.with_room(0))),
    ("charge refused", "no_name", |case| {
        let lent = case.with_room(0);
        batch::charge_for(UNISSUED, lent.tally.issued + 1, lent)
    }),
];

/// Events by a lent sheet.
const BY_SHEET: [(&str, u32); 2] = [("read by sheet", READ), ("write by sheet", WRITE)];

fn apply_on_user(kind: u32, lent: Lent) -> Box<dyn Batch> {
    batch::apply(event_on_user(&lent, kind), lent)
}

fn write(case: Case) -> Box<dyn Batch> {
    apply_on_user(WRITE, case.with_room(0))
}

pub fn growth_by_rows(bench: &mut Bench) {
    let (name, shape) = SHAPES[0];
    print::times_heading(bench, "shape", "rows", "growth");
    for (call, _, batch) in EVENTS.into_iter().chain(LISTINGS) {
        growth_rows(bench, call, name, &SIZES, |rows| {
            batch(Case::full(shape, rows))
        });
    }
    for (call, kind) in BY_SHEET {
        growth_rows(bench, call, name, &SIZES, |rows| {
            apply_on_user(kind, Case::full(shape, rows).with_room(0).with_sheet())
        });
    }
    growth_rows(bench, "apply write", "cells", &SIZES, |rows| {
        write(Case::full(cells, rows))
    });
}

pub fn ratios_by_shape(bench: &mut Bench) {
    ratios(bench, &EVENTS);
    println!();
    ratios(bench, &LISTINGS);
}

fn ratios(bench: &mut Bench, calls: &[Measurement]) {
    let short_names: Vec<&str> = calls.iter().map(|(_, name, _)| *name).collect();
    print::shape_heading(&short_names);
    for (shape, case) in cases(&SHAPES[1..], &SIZES) {
        let size = Some(case.lent);
        let mut time = |(call, _, batch): &Measurement| {
            bench.time(Place { call, shape, size }, &mut *batch(case))
        };
        let all_times: Vec<Vec<f64>> = calls.iter().map(&mut time).collect();
        print::shape_row(shape, case.lent, &all_times);
    }
}
