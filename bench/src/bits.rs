//! Written bits: how the times grow with the addresses.

use interface::{FRESH, Words};

use crate::batch;
use crate::growth::growth_rows;
use crate::print;
use crate::shape::{Case, marked};
use crate::timing::{Batch, Bench};
use crate::workload::{CREATE, READ, WRITE, event_on_user};

pub const NOTES: &str = "\
Writes and reads through a marked root of all 65,536 addresses that have a written bit, alone in 16
rows, and marked creates beside it that end it: 'length' is how many addresses are written, read or
created, and 'growth' the time over that of the row above. For writes and reads all are written already,
so that a read looks at every bit and a write sets each again; for creates none is, and each is cleared
again. Those 'within' start in the middle of a byte, the others at its 'edge'.";

const ROWS: usize = 16;

const LENGTHS: [usize; 4] = [1, 64, 4_096, 65_536];
const LENGTHS_WITHIN: [usize; 4] = [1, 64, 4_096, 65_528];

/// Where the addresses start, and how many there are.
const PLACES: [(&str, u32, [usize; 4]); 2] = [("edge", 0, LENGTHS), ("within", 4, LENGTHS_WITHIN)];

const CALLS: [(&str, u32); 3] = [
    ("write of bits", WRITE),
    ("read of bits", READ),
    ("create of bits", CREATE),
];

pub fn growth_by_bits(bench: &mut Bench) {
    print::times_heading(bench, "from", "length", "growth");
    for (call, kind) in CALLS {
        for (from, start, lengths) in PLACES {
            growth_rows(bench, call, from, &lengths, |length| {
                on_bits(kind, start, length as u32)
            });
        }
    }
}

fn on_bits(kind: u32, start: u32, length: u32) -> Box<dyn Batch> {
    let case = Case {
        shape: marked,
        live: 1,
        lent: ROWS,
    };
    let lent = case.with_room(1);
    let event = Words {
        start,
        length,
        fresh: if kind == CREATE { FRESH } else { 0 },
        ..event_on_user(&lent, kind)
    };
    batch::apply(event, lent)
}
