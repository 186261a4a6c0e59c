//! Many events in one call.

use crate::batch;
use crate::print;
use crate::rounds::{
    ROUND_ROWS, Using, events_up_to, grouped, limited, named, of_cells, outside, references,
    rounds, shared, turned,
};
use crate::runs::{ASKED, SIZES, by_sheet, on_cells, on_domains, on_limited, on_trees};
use crate::shape::{Lent, SHAPES, TWO_TREES, cases};
use crate::timing::{Bench, Place};
use crate::workload::{DISORDERED, OUTSIDE};

pub const NOTES: &str = "\
Time for one event of 1,000, by a call for each and by one call for all, on tables nearly full; 'gain'
is the one over the other, and 'each' stands for 'apply in turn' below. The events are a run's, and so
are the sorts on the two trees: 'refused' are reads outside of their span, and 'disordered' is a table
whose last row is in no order.";

/// How many events one call is given.
const MANY_EVENTS: usize = 1_000;

/// A sort of events: its table, the refusal of each, 0 where all are allowed, and what a round has.
type Sort = (&'static str, fn(usize) -> Lent, u64, Using);

const SORTS: [Sort; 9] = [
    ("apply_all named", on_trees, 0, named),
    ("apply_all shared", on_domains, 0, shared),
    ("apply_all grouped", on_trees, 0, grouped),
    ("apply_all turned", on_trees, 0, turned),
    ("apply_all of cells", on_cells, 0, of_cells),
    ("apply_all limited", on_limited, 0, limited),
    ("apply_all by sheet", by_sheet, 0, references),
    ("apply_all refused", on_trees, OUTSIDE, outside),
    ("apply_all disordered", disordered, DISORDERED, references),
];

fn disordered(rows: usize) -> Lent {
    on_trees(rows).disordered()
}

pub fn many_events(bench: &mut Bench) {
    print::many_heading(bench);
    for (shape, case) in cases(&SHAPES, &SIZES) {
        let lent = case.with_room(ROUND_ROWS);
        many_row(bench, shape, ("apply_all", 0, references), &lent);
    }
    for (call, lending, refusal, using) in SORTS {
        for rows in ASKED {
            many_row(bench, TWO_TREES, (call, refusal, using), &lending(rows));
        }
    }
}

fn many_row(
    bench: &mut Bench,
    shape: &'static str,
    (call, refusal, using): (&'static str, u64, Using),
    lent: &Lent,
) {
    let size = Some(lent.table.len());
    let place = Place { call, shape, size };
    let events = events_up_to(MANY_EVENTS, rounds(lent, using));
    let mut each = batch::apply_each(refusal, events.clone(), lent.clone());
    let mut all = batch::apply_all(refusal, events, lent.clone());
    let each_place = Place {
        call: "apply in turn",
        ..place
    };
    let each = bench.time(each_place, &mut *each);
    let all = bench.time(place, &mut *all);
    print::many_row(&place, &each, &all);
}
