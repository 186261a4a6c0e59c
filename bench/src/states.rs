//! States: what a mark and a back cost beside a copy of what they store.

use crate::batch;
use crate::print;
use crate::shape::{Case, MOST_ROWS, two_trees};
use crate::timing::{Bench, Place};
use crate::workload::{BACK, MARK};

pub const NOTES: &str = "\
A mark and a back on the two trees, beside a copy of the same bytes, the live rows and 8,192 bytes of
written bits, that takes its turn with them: 'copies' is the time over that of the copy. The back goes
to what the table is already. Both judge the order of the table, and the back that of what is stored.";

const CALLS: [(&str, u32); 2] = [("mark", MARK), ("back", BACK)];

/// So many live rows of so many lent.
const LIVE_OF: [(&str, usize, usize); 3] = [
    ("16 live", 16, 16),
    ("16 live", 16, MOST_ROWS),
    ("1,024 live", MOST_ROWS, MOST_ROWS),
];

pub fn beside_a_copy(bench: &mut Bench) {
    print::copy_heading(bench);
    for (call, kind) in CALLS {
        for (shape, live, lent) in LIVE_OF {
            let case = Case {
                shape: two_trees,
                live,
                lent,
            };
            let place = Place {
                call,
                shape,
                size: Some(lent),
            };
            let mut turn = batch::turn(kind, case.with_room(0));
            let mut copy = batch::copy(case.with_room(0));
            let (times, copied) = bench.time_beside(place, &mut *turn, &mut *copy);
            print::copy_row(&place, &times, copied);
        }
    }
}
