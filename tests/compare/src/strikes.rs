//! What the kinds of capabilities spare and do not spare: how often events have met it.

use interface::Event;
use oracle::{CELL, RAW, REFERENCE, Refused, Row};

use crate::acting::is_known;
use crate::agree::{Lent, span_of};
use crate::report::{Met, Report};

/// Strikes that a raw capability is spared, and would not be if it were a reference.
const SPARED_RAW: [&str; 4] = [
    "a write through its parent",
    "a write from below its parent",
    "a read from below its parent",
    "a stranger's read",
];

/// Strikes that what stands outside a cell is spared, and would not be without the cell.
const SPARED_OUTSIDE: [&str; 4] = [
    "a write through a cell",
    "a write from below a cell",
    "a write from inside a cell on another cell",
    "a write from inside two cells on what is inside one of them",
];

/// Strikes that remain.
const REMAINING: [&str; 8] = [
    "a stranger's write ends a raw one, and not its parent",
    "a create ends a raw one",
    "a create ends a cell",
    "a write from inside a cell ends what is inside",
    "a write from outside a cell ends it",
    "a read from inside a cell lowers what is outside",
    "a read lowers a raw one with its parent",
    "a write ends a raw one with its parent",
];

/// Kinds that are refused, and where nothing else is wrong.
const REFUSED: [&str; 4] = [
    "2, in a borrow",
    "1, above 2 in a live row",
    "1, raw or cell in a root",
    "1, in an empty row",
];

static SPARED_RAW_MET: Met<4> = Met::none();
static SPARED_OUTSIDE_MET: Met<4> = Met::none();
static REMAINING_MET: Met<8> = Met::none();
static REFUSED_MET: Met<4> = Met::none();

/// How often each must be met.
const LEAST: u64 = 200;

pub fn groups(report: &mut Report) {
    report.met("strikes that raw capabilities are spared were met", || {
        SPARED_RAW_MET.every_sort(&SPARED_RAW, LEAST)
    });
    report.met("strikes that cells spare were met", || {
        SPARED_OUTSIDE_MET.every_sort(&SPARED_OUTSIDE, LEAST)
    });
    report.met("strikes that kinds do not spare were met", || {
        REMAINING_MET.every_sort(&REMAINING, LEAST)
    });
    report.met("every refusal of a kind was met", || {
        REFUSED_MET.every_sort(&REFUSED, LEAST)
    });
}

/// Counts an event for the kinds that it meets.
pub fn count(before: &Lent, after: &Lent, event: Event, verdict: Result<u32, Refused>) {
    match (verdict, event.kind) {
        (Ok(_), 1 | 3 | 4) => count_strikes(before, after, event),
        (Err(1), _) => count_disorder(before),
        (Err(2), 2) => {
            let is_kind_alone = matches!(event.right, 1 | 2) && is_known(event);
            REFUSED_MET.count([is_kind_alone, false, false, false]);
        }
        _ => {}
    }
}

/// Counts a table that is in order but for its kinds, where the bits are in order too.
fn count_disorder(lent: &Lent) {
    if lent.bits.written().is_none() {
        return;
    }
    let any = |holds: fn(&Row) -> bool| lent.rows.iter().any(holds);
    let mut without = lent.rows.clone();
    without.iter_mut().for_each(|row| row.kind = REFERENCE);
    if oracle::in_order(&without, lent.tally.issued) {
        REFUSED_MET.count([
            false,
            any(|row| row.name != 0 && row.kind > CELL),
            any(|row| row.name != 0 && row.parent == 0 && matches!(row.kind, RAW | CELL)),
            any(|row| row.name == 0 && row.kind != REFERENCE),
        ]);
    }
}

/// The row of a name among rows that rise.
fn find(rows: &[Row], name: u32) -> Option<&Row> {
    let at = rows.binary_search_by_key(&name, |row| row.name).ok()?;
    Some(&rows[at])
}

/// The name, its parent, and so on up to its root.
pub fn path(live: &[Row], name: u32) -> Vec<&Row> {
    let above = |row: &&Row| find(live, row.parent);
    std::iter::successors(find(live, name), above).collect()
}

/// A row that an access touches from outside the row's subtree, and what was left of it.
struct Touched<'a> {
    row: &'a Row,
    left: Option<&'a Row>,
    /// Whether its parent lives on.
    parent_lives: bool,
    /// Whether the user is its parent, or below that.
    is_kin: bool,
    /// How many cells there are at or above the user that the row is not inside.
    cells_between: usize,
    /// Whether there is another cell at or above the user.
    is_inside_a_cell: bool,
}

fn count_strikes(before: &Lent, after: &Lent, event: Event) {
    let live = oracle::live_rows(&before.rows);
    let left = oracle::live_rows(&after.rows);
    // What a create makes is below nothing.
    let user = if event.kind == 1 { 0 } else { event.name };
    let above = path(live, user);
    let cells: Vec<&Row> = above
        .iter()
        .copied()
        .filter(|row| row.kind == CELL)
        .collect();
    for row in live {
        if !row.span().touches(span_of(event)) || above.contains(&row) {
            continue;
        }
        let inside = path(live, row.name);
        let cells_between = cells.iter().filter(|cell| !inside.contains(cell)).count();
        let touched = Touched {
            row,
            left: find(left, row.name),
            parent_lives: find(left, row.parent).is_some(),
            is_kin: above.iter().any(|one| one.name == row.parent),
            cells_between,
            is_inside_a_cell: cells_between < cells.len(),
        };
        count_touched(
            &touched,
            event,
            above.first().is_some_and(|user| user.kind == CELL),
        );
    }
}

fn count_touched(touched: &Touched, event: Event, is_through_cell: bool) {
    let Touched {
        row,
        left,
        parent_lives,
        is_kin,
        cells_between,
        is_inside_a_cell,
    } = *touched;
    let [creates, reads, writes] = [1, 3, 4].map(|kind| event.kind == kind);
    let (is_raw, is_cell) = (row.kind == RAW, row.kind == CELL);
    let ended = left.is_none();
    let lowered = row.right == 2 && left.is_some_and(|left| left.right == 1);
    let kept = row.right == 2 && left.is_some_and(|left| left.right == 2);
    let by_parent = row.parent == event.name;
    let outside = cells_between > 0;
    SPARED_RAW_MET.count([
        writes && is_raw && is_kin && !outside && by_parent && !ended,
        writes && is_raw && is_kin && !outside && !by_parent && !ended,
        reads && is_raw && is_kin && kept,
        reads && is_raw && !is_kin && kept,
    ]);
    let spared_outside = writes && outside && !(is_raw && is_kin) && !ended;
    SPARED_OUTSIDE_MET.count([
        spared_outside && is_through_cell,
        spared_outside && !is_through_cell,
        spared_outside && is_cell,
        spared_outside && is_inside_a_cell,
    ]);
    REMAINING_MET.count([
        writes && is_raw && ended && parent_lives,
        creates && is_raw && ended,
        creates && is_cell && ended,
        writes && is_inside_a_cell && !outside && ended,
        writes && is_cell && !outside && ended,
        reads && outside && lowered,
        reads && is_raw && lowered,
        writes && is_raw && ended && !parent_lives,
    ]);
}
