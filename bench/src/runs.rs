//! Runs of lines, and what `capcheck` prints, which is a run and a listing: the time of a line.

use interface::{Cap, STORED_BYTES, STORED_ROWS};

use crate::batch::{self, on_lines};
use crate::growth::{growth_rows, single_row};
use crate::print;
use crate::rounds::{
    ACTOR, ROUND_ROWS, Using, grouped, limited, named, of_cells, references, rounds, rounds_at,
    shared, text_up_to, turned,
};
use crate::shape::{
    BESIDE, Case, Lent, MOST_ROWS, SHAPES, Shape, TWO_TREES, WITHOUT_NAMES, cells, domains,
    few_live, renamed, two_trees,
};
use crate::timing::{Batch, Bench};
use crate::workload::{MISSPELT, UNISSUED, line, making};

pub const NOTES: &str = "\
The time of a line: of a run of up to 65,536 bytes of lines, all allowed and in the same proportions on
every table, that keep the table nearly full; its creates are beside the rows and end nothing. A 'check'
makes the rows by lines first, with names from 1 on, and writes the listing behind its run. 'growth' is
the time over that of the row above. Its input has 'no line', one 'long line' of 65,536 bytes, or is
'too long' by a byte. The others are runs on the two trees: 'named' with new names written out; 'shared'
by domain 63 and for others too, on rows of all domains; 'grouped', where all that a round makes is
dropped together; 'turned', where it begins with a mark and ends with a back; 'of cells', where each
object is written through a borrow of a cell of it; 'limited', by a domain that has the empty rows; and
'by sheet' with the default sheet lent. They are refused for the 'last' line or the 'first', whose time
is then that of the whole call, and for one line of 65,536 bytes.";

/// How many rows there are, and at which of these the time of a line is asked for.
pub const SIZES: [usize; 4] = [16, 64, 256, 1_000];
pub const ASKED: [usize; 2] = [16, 1_000];

const RUN_BYTES: usize = 65_536;

/// A sort of runs: its table, its refusal, 0 where all is allowed, and its text.
type Sort = (&'static str, fn(usize) -> Lent, u64, fn(&Lent) -> Vec<u8>);

const SORTS: [Sort; 11] = [
    ("run named", on_trees, 0, |lent| {
        [b"(trace 2)\n", text(lent, named).as_slice()].concat()
    }),
    ("run shared", on_domains, 0, |lent| text(lent, shared)),
    ("run grouped", on_trees, 0, |lent| text(lent, grouped)),
    ("run turned", on_trees, 0, |lent| text(lent, turned)),
    ("run of cells", on_cells, 0, |lent| text(lent, of_cells)),
    ("run limited", on_limited, 0, |lent| text(lent, limited)),
    ("run by sheet", by_sheet, 0, |lent| text(lent, references)),
    ("run last unissued", on_trees, UNISSUED, |lent| {
        [&text(lent, references), b"(drop 0)\n".as_slice()].concat()
    }),
    ("run last misspelt", on_trees, MISSPELT, |lent| {
        [&text(lent, references), b"(drop)\n".as_slice()].concat()
    }),
    ("run first misspelt", on_trees, MISSPELT, |lent| {
        [b"(drop)\n", text(lent, references).as_slice()].concat()
    }),
    ("run one long line", on_trees, MISSPELT, |_| {
        [b"(drop ", [b'1'; RUN_BYTES].as_slice()].concat()
    }),
];

/// A table with room for a round.
pub fn nearly_full(shape: Shape, rows: usize) -> Lent {
    Case::full(shape, rows).with_room(ROUND_ROWS)
}

pub fn on_trees(rows: usize) -> Lent {
    nearly_full(two_trees, rows)
}

pub fn on_cells(rows: usize) -> Lent {
    nearly_full(cells, rows)
}

pub fn on_domains(rows: usize) -> Lent {
    nearly_full(domains, rows)
}

pub fn on_limited(rows: usize) -> Lent {
    on_domains(rows).limited_for(ACTOR)
}

pub fn by_sheet(rows: usize) -> Lent {
    on_trees(rows).with_sheet()
}

/// The lines of rounds on a table.
fn text(lent: &Lent, using: Using) -> Vec<u8> {
    text_up_to(RUN_BYTES, rounds(lent, using))
}

/// The lines that make rows, and rounds behind them.
fn whole_text(table: Vec<Cap>) -> Vec<u8> {
    let mut text: Vec<u8> = table.iter().flat_map(|row| line(making(row))).collect();
    let issued = table.len() as u32;
    let rounds = rounds_at(BESIDE, table, issued, references);
    text.extend(text_up_to(RUN_BYTES - text.len(), rounds));
    text
}

/// How many inputs of a line or none stand in a batch.
const BATCH_INPUTS: usize = 16;

/// A check of an input, whose lines are timed, all allowed; without any the call is.
fn check(text: Vec<u8>) -> Box<dyn Batch> {
    let (times, lines) = match text.iter().filter(|byte| **byte == b'\n').count() {
        0 => (BATCH_INPUTS, 1),
        lines => (1, lines),
    };
    let mut stored = vec![Cap::default(); STORED_ROWS];
    let mut stored_bits = vec![0; STORED_BYTES];
    let mut out = vec![0; RUN_BYTES];
    on_lines(times, lines, move |implementation, _| {
        let answer = implementation.check(&text, &mut stored, &mut stored_bits, &mut out);
        assert!(times > 1 || out.starts_with(b"(allowed"));
        answer
    })
}

pub fn times_of_a_line(bench: &mut Bench) {
    print::times_heading(bench, "shape", "rows", "growth");
    for (name, shape) in SHAPES {
        growth_rows(bench, "run", name, &SIZES, |rows| {
            run_on(nearly_full(shape, rows))
        });
    }
    for (name, case) in few_live() {
        growth_rows(bench, "run", name, &[MOST_ROWS], |_| {
            run_on(case.with_room(ROUND_ROWS))
        });
    }
    for (call, lending, refusal, text) in SORTS {
        growth_rows(bench, call, TWO_TREES, &ASKED, |rows| {
            let lent = lending(rows);
            let text = text(&lent);
            batch::run(refusal, lent, text)
        });
    }
    times_of_checks(bench);
}

fn times_of_checks(bench: &mut Bench) {
    for (name, shape) in &SHAPES[..WITHOUT_NAMES] {
        growth_rows(bench, "check", name, &SIZES, |rows| {
            check(whole_text(renamed(shape(rows))))
        });
    }
    single_row(bench, "check", "no line", check(Vec::new()));
    single_row(bench, "check", "long line", check(vec![b'1'; RUN_BYTES]));
    single_row(bench, "check", "too long", check(vec![b'1'; RUN_BYTES + 1]));
}

fn run_on(lent: Lent) -> Box<dyn Batch> {
    let text = text(&lent, references);
    batch::run(0, lent, text)
}
