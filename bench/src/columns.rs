//! Traces by column: the two ways, on lists of events.

use interface::{Columns, ColumnsMut, CountWords, Words};

use crate::batch::repeated_refused;
use crate::growth::growth_rows;
use crate::print;
use crate::random::Random;
use crate::shape::READ_WRITE;
use crate::timing::{Batch, Bench};
use crate::workload::{BORROW, CREATE, DROP, MARK, MISSPELT, READ, TOO_SHORT, WRITE};

pub const NOTES: &str = "\
Events put into columns, and made of columns again, all of a list by one call: 'events' is how many a
list has, and 'growth' the time over that of the row above, with a sixteenth of the events. Of 16 events
about 7 are reads, 5 writes, 2 borrows, 1 a create and 1 a drop. 'mixed' are in random order; 'in runs'
each list has first its creates, then its borrows, reads, writes and drops. Those 'refused' are mixed,
and their last event has 'no columns', or its kind is none, or there is 'no room' for it. Each call has
another list; there are 4,096 events in all.";

/// How many events a list has; the last is the most that a call takes.
const SIZES: [usize; 3] = [16, 256, ALL_EVENTS];

/// How many events the lists of a batch have together.
const ALL_EVENTS: usize = 4_096;

/// The kinds of sixteen events.
const MIX: [u32; 16] = [
    CREATE, BORROW, BORROW, READ, READ, READ, READ, READ, READ, READ, WRITE, WRITE, WRITE, WRITE,
    WRITE, DROP,
];

/// How the kinds of a list follow each other.
#[derive(Clone, Copy)]
enum Order {
    Mixed,
    InRuns,
}

/// A way by its name, the order of the kinds, and the batch that times it.
type Measurement = (
    &'static str,
    &'static str,
    Order,
    fn(Vec<Vec<Words>>) -> Box<dyn Batch>,
);

const WAYS: [Measurement; 8] = [
    ("to_columns", "mixed", Order::Mixed, |lists| {
        to_columns(0, 0, lists)
    }),
    ("to_columns", "in runs", Order::InRuns, |lists| {
        to_columns(0, 0, lists)
    }),
    ("from_columns", "mixed", Order::Mixed, |lists| {
        from_columns(0, 0, of_all(&lists))
    }),
    ("from_columns", "in runs", Order::InRuns, |lists| {
        from_columns(0, 0, of_all(&lists))
    }),
    (
        "to_columns refused",
        "no columns",
        Order::Mixed,
        |mut lists| {
            for list in &mut lists {
                if let Some(event) = list.last_mut() {
                    event.kind = MARK;
                }
            }
            to_columns(MISSPELT, 0, lists)
        },
    ),
    ("to_columns refused", "no room", Order::Mixed, |lists| {
        to_columns(TOO_SHORT, 1, lists)
    }),
    ("from_columns refused", "no kind", Order::Mixed, |lists| {
        let mut columns = of_all(&lists);
        for lent in &mut columns {
            if let Some(kind) = lent.kinds.last_mut() {
                *kind = MARK as u8;
            }
        }
        from_columns(MISSPELT, 0, columns)
    }),
    ("from_columns refused", "no room", Order::Mixed, |lists| {
        from_columns(TOO_SHORT, 1, of_all(&lists))
    }),
];

/// The times of both ways as lists grow.
pub fn growth_by_events(bench: &mut Bench) {
    print::times_heading(bench, "order", "events", "growth");
    for (call, name, order, batch) in WAYS {
        growth_rows(bench, call, name, &SIZES, |size| batch(lists(size, order)));
    }
}

/// Lists of so many events.
fn lists(size: usize, order: Order) -> Vec<Vec<Words>> {
    let mut random = Random::new();
    let mut list = || {
        let mut kinds: Vec<u32> = (0..size).map(|_| random.pick(&MIX)).collect();
        if let Order::InRuns = order {
            kinds.sort();
        }
        kinds.iter().map(|kind| event(*kind, &mut random)).collect()
    };
    (0..ALL_EVENTS / size).map(|_| list()).collect()
}

/// An event of a kind, with the values that this has.
fn event(kind: u32, random: &mut Random) -> Words {
    let makes = matches!(kind, CREATE | BORROW);
    let mut own = |has: bool, bound| if has { 1 + random.below(bound) } else { 0 };
    Words {
        kind,
        name: own(kind != CREATE, 1_000_000),
        start: own(kind != DROP, 1 << 24),
        length: own(kind != DROP, 64),
        right: own(makes, READ_WRITE),
        ..Words::default()
    }
    .by(0, makes.into())
}

/// Columns, or room for them.
struct Lent {
    kinds: Vec<u8>,
    names: Vec<u32>,
    starts: Vec<u32>,
    lengths: Vec<u32>,
    rights: Vec<u8>,
}

impl Lent {
    /// Room for any events, so many.
    fn room(events: usize) -> Lent {
        Lent {
            kinds: vec![0; events],
            names: vec![0; events],
            starts: vec![0; events],
            lengths: vec![0; events],
            rights: vec![0; events],
        }
    }

    /// The columns of some events.
    fn of(events: &[Words]) -> Lent {
        let mut lent = Lent::room(events.len());
        let mut used = CountWords::default();
        let answer = interface::baseline().to_columns(events, lent.columns_mut(), &mut used);
        assert_eq!(answer, events.len() as u64);
        let [_, _, names, starts, lengths, rights] = used.map(|count| count as usize);
        lent.names.truncate(names);
        lent.starts.truncate(starts);
        lent.lengths.truncate(lengths);
        lent.rights.truncate(rights);
        lent
    }

    fn columns(&self) -> Columns<'_> {
        Columns {
            kinds: &self.kinds,
            names: &self.names,
            starts: &self.starts,
            lengths: &self.lengths,
            rights: &self.rights,
        }
    }

    fn columns_mut(&mut self) -> ColumnsMut<'_> {
        ColumnsMut {
            kinds: &mut self.kinds,
            names: &mut self.names,
            starts: &mut self.starts,
            lengths: &mut self.lengths,
            rights: &mut self.rights,
        }
    }
}

/// The columns of some lists.
fn of_all(lists: &[Vec<Words>]) -> Vec<Lent> {
    lists.iter().map(|list| Lent::of(list)).collect()
}

/// Lists put into columns with room for all but so many events.
fn to_columns(refusal: u64, less: usize, lists: Vec<Vec<Words>>) -> Box<dyn Batch> {
    let mut lent = Lent::room(lists[0].len() - less);
    let mut used = CountWords::default();
    repeated_refused(refusal, lists.len(), move |implementation, at| {
        implementation.to_columns(&lists[at], lent.columns_mut(), &mut used)
    })
}

/// Lists made of columns, with room for all but so many events.
fn from_columns(refusal: u64, less: usize, lists: Vec<Lent>) -> Box<dyn Batch> {
    let mut events = vec![Words::default(); lists[0].kinds.len() - less];
    let mut used = CountWords::default();
    repeated_refused(refusal, lists.len(), move |implementation, at| {
        implementation.from_columns(lists[at].columns(), &mut events, &mut used)
    })
}
