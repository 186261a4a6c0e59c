//! Domains and limits: what they cost.

use crate::batch;
use crate::growth::growth_rows;
use crate::print;
use crate::rounds::ACTOR;
use crate::rows::Timed;
use crate::shape::{Case, Lent, MOST_ROWS, domains, two_trees};
use crate::timing::{Batch, Bench};
use crate::workload::{CREATE, LIMIT_REACHED, NO_HOLDER, READ, WRITE, beside, event_on_user};

pub const NOTES: &str = "\
Calls on the two trees, of which each of the 64 domains in turn made a row, and all are held by all. The
create is beside the trees and the write through one tree's root, as above; the 'limited' ones are the
same with limits lent, of which the domain that acts has the empty rows and each other domain what it
made. 'no holder' is a read through a row of domain 0 alone by another, 'limit reached' a create of a
domain that has no row left; 'charge' is of a row in the middle.";

const SIZES: [usize; 4] = [16, 64, 256, MOST_ROWS];

/// Calls on rows of all domains, each made for all, with limits and without: pairs of the same event.
const CALLS: [(&str, Timed); 7] = [
    ("charge", |case| batch::charge(case.with_room(0))),
    ("apply create", |case| by_actor(CREATE, case.with_room(1))),
    ("limited create", |case| {
        by_actor(CREATE, case.with_room(1).limited_for(ACTOR))
    }),
    ("apply write", |case| by_actor(WRITE, case.with_room(0))),
    ("limited write", |case| {
        by_actor(WRITE, case.with_room(0).limited_for(ACTOR))
    }),
    ("no holder", |case| {
        let shape = two_trees;
        let lent = Case { shape, ..case }.with_room(0);
        let read = event_on_user(&lent, READ);
        batch::apply_refused(NO_HOLDER, read.by(ACTOR, 0), lent)
    }),
    ("limit reached", |case| {
        let lent = case.with_room(1).limited_for(ACTOR);
        let create = beside(event_on_user(&lent, CREATE));
        batch::apply_refused(LIMIT_REACHED, create.by(ACTOR + 1, u64::MAX), lent)
    }),
];

/// An event by the domain that acts, for all: a create beside the rows, else through the user.
fn by_actor(kind: u32, lent: Lent) -> Box<dyn Batch> {
    let event = event_on_user(&lent, kind).by(ACTOR, u64::MAX);
    let event = if kind == CREATE { beside(event) } else { event };
    batch::apply(event, lent)
}

pub fn growth_by_domains(bench: &mut Bench) {
    print::times_heading(bench, "shape", "rows", "growth");
    for (call, batch) in CALLS {
        growth_rows(bench, call, "domains", &SIZES, |rows| {
            batch(Case::full(domains, rows))
        });
    }
}
