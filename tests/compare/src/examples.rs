//! Every trace and example of document 01 and of cards 1, 2, 4, 6 and 9, with the answers written out. Listings
//! leave out that every row is of domain 0 alone; `whole` puts that in.

use interface::{Event, Words};
use oracle::{MAX_DEPTH, MAX_GROUP, MAX_NAME, MAX_ROWS, Spelling, Tally, traces};

use oracle::traces::whole;

use crate::agree::{self, Agreed, Lent, Subject, packed, same_answer};
use crate::generate::{self, Request};
use crate::histories::check_list;
use crate::kinds;
use crate::report::{Checked, Report};

/// A line and its answer.
pub type Step<'a> = (&'a str, Result<u32, u8>);

/// Lines on a table, with their answers and the whole listing after them.
pub struct Trace<'a> {
    pub rows: usize,
    pub issued: u32,
    pub limits: &'a [u32],
    pub steps: &'a [Step<'a>],
    pub listing: &'a str,
}

const ROOT: Step = ("(create 0 64 rw)", Ok(1));

/// The starts of the traces with two borrows of the same span.
const TWINS: [Step; 3] = [
    ROOT,
    ("(borrow 1 0 8 rw)", Ok(2)),
    ("(borrow 1 0 8 rw)", Ok(3)),
];

/// Traces on a table with room and no name issued.
const TRACES: [(&str, &[Step], &str); 15] = [
    (
        "trace 1",
        &[
            ROOT,
            ("(borrow 1 0 64 rw)", Ok(2)),
            ("(borrow 1 1 64 rw)", Err(6)),
        ],
        "(issued 2)\n(1 0 64 rw (2 0 64 rw))\n",
    ),
    (
        "trace 2, beside the borrowed span",
        &[ROOT, TWINS[1], ("(write 1 8 1)", Ok(0))],
        "(issued 2)\n(1 0 64 rw (2 0 8 rw))\n",
    ),
    (
        "trace 2, in the borrowed span",
        &[ROOT, TWINS[1], ("(write 1 7 1)", Ok(0))],
        "(issued 2)\n(1 0 64 rw)\n",
    ),
    (
        "trace 3",
        &[ROOT, TWINS[1], TWINS[2], ("(write 2 0 8)", Ok(0))],
        "(issued 3)\n(1 0 64 rw (2 0 8 rw))\n",
    ),
    (
        "trace 4",
        &[
            ROOT,
            TWINS[1],
            TWINS[2],
            ("(read 2 0 1)", Ok(0)),
            ("(read 3 0 1)", Ok(0)),
        ],
        "(issued 3)\n(1 0 64 rw (2 0 8 ro) (3 0 8 ro))\n",
    ),
    (
        "trace 5",
        &[
            ROOT,
            ("(borrow 1 0 32 rw)", Ok(2)),
            ("(borrow 2 16 16 rw)", Ok(3)),
            ("(write 1 0 1)", Ok(0)),
        ],
        "(issued 3)\n(1 0 64 rw)\n",
    ),
    (
        "trace 6, by card 2",
        &[ROOT, ("(drop 1)", Ok(0)), ("(read 1 0 0)", Err(5))],
        "(issued 1)\n",
    ),
    (
        "trace 7, length 1",
        &[("(create 4294967295 1 rw)", Ok(1))],
        "(issued 1)\n(1 4294967295 1 rw)\n",
    ),
    (
        "trace 7, length 2",
        &[("(create 4294967295 2 rw)", Err(3))],
        "(issued 0)\n",
    ),
    (
        "length 0 touches nothing",
        &[
            ("(create 0 8 rw)", Ok(1)),
            ("(borrow 1 0 8 rw)", Ok(2)),
            ("(write 1 4 0)", Ok(0)),
        ],
        "(issued 2)\n(1 0 8 rw (2 0 8 rw))\n",
    ),
    (
        "length 0 at the end, and behind it",
        &[
            ("(create 0 8 rw)", Ok(1)),
            ("(borrow 1 8 0 rw)", Ok(2)),
            ("(borrow 1 9 0 rw)", Err(6)),
        ],
        "(issued 2)\n(1 0 8 rw (2 8 0 rw))\n",
    ),
    (
        "length 0 through an ended name",
        &[
            ("(create 0 8 rw)", Ok(1)),
            ("(drop 1)", Ok(0)),
            ("(read 1 0 0)", Err(5)),
        ],
        "(issued 1)\n",
    ),
    (
        "length 0 through `ro`",
        &[
            ("(create 0 8 rw)", Ok(1)),
            ("(borrow 1 0 8 ro)", Ok(2)),
            ("(write 2 0 0)", Err(7)),
        ],
        "(issued 2)\n(1 0 8 rw (2 0 8 ro))\n",
    ),
    (
        "length 0 at the last address",
        &[
            ("(create 4294967295 1 rw)", Ok(1)),
            ("(create 4294967295 0 rw)", Ok(2)),
        ],
        "(issued 2)\n(1 4294967295 1 rw)\n(2 4294967295 0 rw)\n",
    ),
    (
        "trace 10",
        &[
            ("(create 4096 8 rw)", Ok(1)),
            ("(borrow 1 4096 8 rw)", Ok(2)),
            ("(borrow 2 4096 8 rw)", Ok(3)),
            ("(write 2 4096 8)", Ok(0)),
            ("(write 3 4096 8)", Err(5)),
        ],
        "(issued 3)\n(1 4096 8 rw (2 4096 8 rw))\n",
    ),
];

/// The examples of refusals 3 to 7 and 10, on two rows after `(create 0 64 rw)`.
const REFUSALS: [(&str, &[Step], &str); 6] = [
    (
        "refusal 3",
        &[
            ROOT,
            ("(read 1 0 0)", Ok(0)),
            ("(read 1 4294967295 2)", Err(3)),
        ],
        "(issued 1)\n(1 0 64 rw)\n",
    ),
    (
        "refusal 4",
        &[ROOT, ("(read 9 0 8)", Err(4))],
        "(issued 1)\n(1 0 64 rw)\n",
    ),
    (
        "refusal 5",
        &[ROOT, ("(drop 1)", Ok(0)), ("(read 1 0 8)", Err(5))],
        "(issued 1)\n",
    ),
    (
        "refusal 6",
        &[ROOT, ("(read 1 60 8)", Err(6))],
        "(issued 1)\n(1 0 64 rw)\n",
    ),
    (
        "refusal 7",
        &[
            ROOT,
            ("(borrow 1 0 8 ro)", Ok(2)),
            ("(write 2 0 8)", Err(7)),
        ],
        "(issued 2)\n(1 0 64 rw (2 0 8 ro))\n",
    ),
    (
        "refusal 10",
        &[
            ROOT,
            ("(borrow 1 0 8 ro)", Ok(2)),
            ("(create 0 8 rw)", Err(10)),
        ],
        "(issued 2)\n(1 0 64 rw (2 0 8 ro))\n",
    ),
];

/// Tables with room for the traces of cards 6, 9 and 10.
pub const ROOM_FOR_ALL: &[usize] = &[6, 16, 64, MAX_ROWS];

/// Tables with room for the traces of reused memory.
const ROOM: &[usize] = &[4, 16, MAX_ROWS];

/// Card 4: rows on which a trace is taken, and the trace.
const REUSED: [(&str, &[usize], &[Step], &str); 12] = [
    (
        "a create ends a root that it touches, and its untouched child",
        ROOM,
        &[
            ROOT,
            ("(borrow 1 0 8 rw)", Ok(2)),
            ("(create 32 16 rw)", Ok(3)),
            ("(read 2 0 8)", Err(5)),
        ],
        "(issued 3)\n(3 32 16 rw)\n",
    ),
    (
        "a create beside a root ends nothing",
        ROOM,
        &[
            ROOT,
            ("(borrow 1 0 8 rw)", Ok(2)),
            ("(create 64 16 rw)", Ok(3)),
            ("(write 2 0 8)", Ok(0)),
        ],
        "(issued 3)\n(1 0 64 rw (2 0 8 rw))\n(3 64 16 rw)\n",
    ),
    (
        "a create in a part of a child ends it and its root, and no other root",
        ROOM,
        &[
            ROOT,
            ("(create 64 64 rw)", Ok(2)),
            ("(borrow 1 0 16 rw)", Ok(3)),
            ("(create 8 4 rw)", Ok(4)),
            ("(read 3 0 8)", Err(5)),
            ("(read 1 32 8)", Err(5)),
        ],
        "(issued 4)\n(2 64 64 rw)\n(4 8 4 rw)\n",
    ),
    (
        "a create across a root's end, read-only",
        ROOM,
        &[ROOT, ("(create 63 2 ro)", Ok(2))],
        "(issued 2)\n(2 63 2 ro)\n",
    ),
    (
        "a create into a full table, though it would free rows",
        &[2],
        &[
            ROOT,
            ("(borrow 1 0 8 rw)", Ok(2)),
            ("(create 0 64 rw)", Err(10)),
            ("(drop 2)", Ok(0)),
            ("(create 0 64 rw)", Ok(3)),
            ("(borrow 3 0 8 rw)", Ok(4)),
        ],
        "(issued 4)\n(3 0 64 rw (4 0 8 rw))\n",
    ),
    (
        "a create of length 0 ends nothing, and one over it spares it",
        ROOM,
        &[ROOT, ("(create 8 0 rw)", Ok(2)), ("(create 8 1 rw)", Ok(3))],
        "(issued 3)\n(2 8 0 rw)\n(3 8 1 rw)\n",
    ),
    (
        "a child of length 0 ends with its root",
        ROOM,
        &[
            ROOT,
            ("(borrow 1 8 0 rw)", Ok(2)),
            ("(create 0 1 rw)", Ok(3)),
            ("(read 2 8 0)", Err(5)),
        ],
        "(issued 3)\n(3 0 1 rw)\n",
    ),
    (
        "the same memory on one row",
        &[1],
        &[
            ROOT,
            ("(create 0 64 rw)", Err(10)),
            ("(read 1 0 64)", Ok(0)),
        ],
        "(issued 1)\n(1 0 64 rw)\n",
    ),
    (
        "the same memory on two rows",
        &[2],
        &[
            ROOT,
            ("(create 0 64 rw)", Ok(2)),
            ("(create 0 64 ro)", Ok(3)),
            ("(create 0 64 rw)", Ok(4)),
        ],
        "(issued 4)\n(4 0 64 rw)\n",
    ),
    (
        "a create that is refused ends nothing",
        ROOM,
        &[ROOT, ("(create 32 4294967295 rw)", Err(3))],
        "(issued 1)\n(1 0 64 rw)\n",
    ),
    (
        "creates up to the last address",
        ROOM,
        &[
            ("(create 4294967295 1 rw)", Ok(1)),
            ("(create 0 4294967295 rw)", Ok(2)),
            ("(read 1 4294967295 1)", Ok(0)),
            ("(create 1 4294967295 rw)", Ok(3)),
        ],
        "(issued 3)\n(3 1 4294967295 rw)\n",
    ),
    (
        "names of the old object and of the new one",
        ROOM,
        &STALE,
        "(issued 3)\n(3 4096 32 rw)\n",
    ),
];

/// An object is not dropped, its memory is handed out again, and its names are used.
const STALE: [Step; 7] = [
    ("(create 4096 32 rw)", Ok(1)),
    ("(borrow 1 4096 8 rw)", Ok(2)),
    ("(create 4096 32 rw)", Ok(3)),
    ("(write 3 4096 8)", Ok(0)),
    ("(write 2 4096 8)", Err(5)),
    ("(read 1 4104 8)", Err(5)),
    ("(drop 1)", Err(5)),
];

const REUSED_INPUT: &str = "\
(create 0 64 rw)
(borrow 1 0 8 rw)
(create 32 16 rw)
(read 2 0 8)
";

const REUSED_OUTPUT: &str = "\
(refused 5 4)
(issued 3)
(3 32 16 rw 0 0000000000000001)
";

const CAPCHECK_INPUT: &str = "\
(create 0 64 rw)
(borrow 1 0 16 rw)
(borrow 1 16 16 rw)
(write 2 0 8)
(read 1 0 4)
(write 2 0 8)
";

const CAPCHECK_OUTPUT: &str = "\
(refused 7 6)
(issued 3)
(1 0 64 rw 0 0000000000000001 (2 0 16 ro 0 0000000000000001) (3 16 16 rw 0 0000000000000001))
";

pub fn groups(report: &mut Report, subject: Subject) {
    for (name, steps, listing) in TRACES {
        let sizes = &[3, 4, 16, MAX_ROWS];
        report.group(name, |_| in_sizes(subject, sizes, steps, &whole(listing)));
    }
    report.group("trace 8", |_| check_trace(subject, &one_row()));
    report.group("trace 9", |_| check_trace(subject, &no_rows()));
    report.group("trace 11, depth, and refusal 8", |_| depth(subject));
    report.group("trace 11, names", |_| check_trace(subject, &last_name()));
    for (name, steps, listing) in REFUSALS {
        report.group(name, |_| in_sizes(subject, &[2], steps, &whole(listing)));
    }
    report.group("refusal 1", |_| disordered(subject));
    report.group("refusal 2", |_| misspelt(subject));
    report.group("refusal 9", |_| check_trace(subject, &names_spent()));
    report.group("refusal 11", |_| short_buffer(subject));
    report.group("capcheck's example", |_| {
        capcheck(subject, CAPCHECK_INPUT, CAPCHECK_OUTPUT)
    });
    for (name, sizes, steps, listing) in REUSED {
        report.group(name, |_| in_sizes(subject, sizes, steps, &whole(listing)));
    }
    report.group("what reused memory adds to the tally", |_| {
        reused_tally(subject)
    });
    report.group("capcheck on reused memory", |_| {
        capcheck(subject, REUSED_INPUT, REUSED_OUTPUT)
    });
    for (name, steps, listing) in traces::KINDS.into_iter().chain(traces::MARKS) {
        let listing = whole(listing);
        report.group(name, |_| in_sizes(subject, ROOM_FOR_ALL, steps, &listing));
    }
    report.group("capcheck on raw capabilities and cells", |_| {
        capcheck(subject, kinds::INPUT, kinds::OUTPUT)
    });
    report.group("named traces and refusals", |_| named_traces(subject));
    report.group("refusal 12, misnamed", |_| misnamed(subject));
    report.group("capcheck's examples, named", |_| named_capcheck(subject));
}

fn one_row() -> Trace<'static> {
    Trace {
        rows: 1,
        issued: 0,
        limits: &[],
        steps: &[
            ("(create 0 64 rw)", Ok(1)),
            ("(borrow 1 0 64 rw)", Err(10)),
            ("(drop 1)", Ok(0)),
            ("(create 0 64 rw)", Ok(2)),
        ],
        listing: "(issued 2)\n(2 0 64 rw 0 0000000000000001)\n",
    }
}

fn no_rows() -> Trace<'static> {
    Trace {
        rows: 0,
        issued: 0,
        limits: &[],
        steps: &[("(create 0 64 rw)", Err(10))],
        listing: "(issued 0)\n",
    }
}

fn last_name() -> Trace<'static> {
    Trace {
        rows: 4,
        issued: MAX_NAME - 1,
        limits: &[],
        steps: &[
            ("(create 0 8 rw)", Ok(1_000_000)),
            ("(create 0 8 rw)", Err(9)),
            ("(borrow 1000000 0 8 rw)", Err(9)),
        ],
        listing: "(issued 1000000)\n(1000000 0 8 rw 0 0000000000000001)\n",
    }
}

fn names_spent() -> Trace<'static> {
    Trace {
        rows: 2,
        issued: MAX_NAME,
        limits: &[],
        steps: &[("(create 0 8 rw)", Err(9))],
        listing: "(issued 1000000)\n",
    }
}

/// The trace on so many rows, for each of the sizes.
pub fn in_sizes(subject: Subject, sizes: &[usize], steps: &[Step], listing: &str) -> Checked {
    let mut cases = 0;
    for rows in sizes {
        cases += check_trace(
            subject,
            &Trace {
                rows: *rows,
                issued: 0,
                limits: &[],
                steps,
                listing,
            },
        )?;
    }
    Ok(cases)
}

/// Takes the steps one by one as events, each as a run of its own, and all of them beside the history
/// where the trace begins with no name issued.
pub fn check_trace(subject: Subject, trace: &Trace) -> Checked {
    let mut lent = Lent::empty(trace.rows);
    lent.tally.issued = trace.issued;
    lent.limits = trace.limits.to_vec();
    let empty = lent.clone();
    let mut requests = Vec::new();
    for (line, expected) in trace.steps {
        let before = lent.clone();
        let event = read(subject, line)?;
        let answer = agree::apply(subject, &mut lent, event)?;
        same_answer(packed(*expected), answer).map_err(|why| format!("{line}: {why}"))?;
        check_run(subject, before, line, *expected)?;
        requests.push(Request::Single(event));
    }
    check_listing(subject, &lent, trace.listing)?;
    if trace.issued == 0 {
        check_list(subject, &empty, &requests)?;
    }
    Ok(trace.steps.len() as u64)
}

/// The line as a run of its own.
fn check_run(subject: Subject, mut lent: Lent, line: &str, expected: Result<u32, u8>) -> Agreed {
    let answer = agree::run(subject, &mut lent, format!("{line}\n").as_bytes())?;
    let as_run = expected.map(|_| 1).map_err(|number| (number, 1));
    same_answer(agree::packed_run(as_run), answer).map_err(|why| format!("run of {line}: {why}"))
}

fn check_listing(subject: Subject, lent: &Lent, expected: &str) -> Agreed {
    agree::write_listing(subject, lent)?;
    agree::read_listing(subject, expected.as_bytes(), lent)?;
    let written = oracle::listing(&lent.rows, lent.tally.issued);
    match written == expected {
        true => Ok(()),
        false => Err(format!("expected {expected}found {written}")),
    }
}

/// The event of a line, as the implementation reads it.
fn read(subject: Subject, line: &str) -> Result<Event, String> {
    let line = format!("{line}\n");
    agree::read_line(subject, line.as_bytes(), Spelling::Plain)?;
    let mut words = Words::default();
    same_answer(0, read_into(subject, line.as_bytes(), &mut words))?;
    Ok(Event {
        kind: words.kind as u8,
        written: None,
        name: words.name,
        start: words.start,
        length: words.length,
        right: words.right as u8,
        cap_kind: words.cap_kind as u8,
        fresh: words.fresh as u8,
        actor: words.actor,
        holders: agree::mask(words.holders_low, words.holders_high),
    })
}

/// A line that is no names dropped together.
fn read_into(subject: Subject, line: &[u8], words: &mut Words) -> u64 {
    subject.read_line(0, line, words, &mut [0; MAX_GROUP])
}

/// A chain of borrows down to depth 64; one more is refused.
fn depth(subject: Subject) -> Checked {
    let borrow = |newest: u32| format!("(borrow {newest} 0 8 rw)");
    let borrows: Vec<String> = (1..=MAX_DEPTH).map(borrow).collect();
    let answer = |newest: u32| match newest {
        MAX_DEPTH => Err(8),
        _ => Ok(newest + 1),
    };
    let answers = (1..=MAX_DEPTH).map(answer);
    let mut steps = vec![ROOT];
    steps.extend(borrows.iter().map(String::as_str).zip(answers));
    let below: String = (2..=MAX_DEPTH)
        .map(|name| format!(" ({name} 0 8 rw"))
        .collect();
    let closing = ")".repeat(MAX_DEPTH as usize);
    let trace = Trace {
        rows: MAX_ROWS,
        issued: 0,
        limits: &[],
        steps: &steps,
        listing: &whole(&format!("(issued 64)\n(1 0 64 rw{below}{closing}\n")),
    };
    check_trace(subject, &trace)
}

/// Rows both named 3: every call that judges the table refuses with 1 and leaves everything.
fn disordered(subject: Subject) -> Checked {
    let mut lent = Lent::empty(2);
    lent.tally.issued = 3;
    for row in &mut lent.rows {
        row.name = 3;
        row.length = 64;
        row.right = 2;
        row.depth = 1;
        row.holders = 1;
    }
    let lines = ["(create 0 8 rw)", "(borrow 3 0 8 rw)", "(read 3 0 8)"];
    for line in lines {
        let event = read(subject, line)?;
        same_answer(1 << 32, agree::apply(subject, &mut lent, event)?)?;
    }
    for text in ["", "(drop 3)\n", "\n", "(drop 3", "?"] {
        same_answer(1 << 32, agree::run(subject, &mut lent, text.as_bytes())?)?;
    }
    agree::write_listing(subject, &lent)?;
    Ok(9)
}

fn misspelt(subject: Subject) -> Checked {
    let line = b"(read 01 0 8)\n";
    same_answer(2 << 32, read_into(subject, line, &mut Words::default()))?;
    let mut lent = Lent::empty(2);
    let create = read(subject, "(create 0 64 rw)")?;
    agree::apply(subject, &mut lent, create)?;
    same_answer((2 << 32) + 1, agree::run(subject, &mut lent, line)?)?;
    let expected = Tally {
        issued: 1,
        creates: 1,
        refused: 1,
        ..Tally::default()
    };
    match lent.tally == expected {
        true => Ok(2),
        false => Err(format!("tally {:?}", lent.tally)),
    }
}

fn short_buffer(subject: Subject) -> Checked {
    let drop = read(subject, "(drop 1)")?;
    let mut out = *b"????????";
    same_answer(11 << 32, subject.write_event(drop, &mut out))?;
    if out != *b"????????" {
        return Err("the buffer was touched".to_string());
    }
    let mut out = *b"??????????";
    same_answer(9, subject.write_event(drop, &mut out))?;
    match &out {
        b"(drop 1)\n?" => Ok(2),
        _ => Err(format!("the buffer has {out:?}")),
    }
}

/// What a create ends is counted nowhere: the create is counted once, as a create.
fn reused_tally(subject: Subject) -> Checked {
    let mut lent = Lent::empty(4);
    for (line, _) in STALE {
        let event = read(subject, line)?;
        agree::apply(subject, &mut lent, event)?;
    }
    let expected = Tally {
        issued: 3,
        creates: 2,
        borrows: 1,
        writes: 1,
        refused: 3,
        ..Tally::default()
    };
    agree::same("tally", expected, lent.tally)?;
    Ok(1)
}

pub fn capcheck(subject: Subject, input: &str, output: &str) -> Checked {
    let mut out = [0; 256];
    let answer = agree::print(subject, input.as_bytes(), &mut out);
    same_answer(output.len() as u64, answer)?;
    if !out.starts_with(output.as_bytes()) {
        return Err(String::from_utf8_lossy(&out).into_owned());
    }
    agree::check(subject, input.as_bytes())?;
    Ok(7)
}

/// Inputs with names written, and what capcheck prints.
const NAMED_CAPCHECK: [(&str, &str); 6] = [
    (
        "(trace 2)\n(create 1 0 64 rw)\n(borrow 2 1 0 8 rw)\n",
        "(allowed 3)\n(issued 2)\n(1 0 64 rw 0 0000000000000001 (2 0 8 rw 0 0000000000000001))\n",
    ),
    ("(trace 2)\n", "(allowed 1)\n(issued 0)\n"),
    ("(trace 2)", "(refused 2 1)\n(issued 0)\n"),
    ("(trace 1)\n", "(refused 2 1)\n(issued 0)\n"),
    ("(trace 2)\n(trace 2)\n", "(refused 2 2)\n(issued 0)\n"),
    (
        "(trace 2)\n(create 1 0 64 rw)\n(borrow 3 1 0 8 rw)\n",
        "(refused 12 3)\n(issued 1)\n(1 0 64 rw 0 0000000000000001)\n",
    ),
];

fn named_capcheck(subject: Subject) -> Checked {
    let mut cases = 0;
    for (input, output) in NAMED_CAPCHECK {
        cases += capcheck(subject, input, output)?;
    }
    Ok(cases)
}

/// The traces and refusals above with right names and with wrong ones.
fn named_traces(subject: Subject) -> Checked {
    let in_room = TRACES.map(|(_, steps, listing)| (16, steps, listing));
    let in_two = REFUSALS.map(|(_, steps, listing)| (2, steps, listing));
    let reused = REUSED.map(|(_, sizes, steps, listing)| (sizes[0], steps, listing));
    let of_cards = traces::KINDS.into_iter().chain(traces::MARKS);
    let of_cards = of_cards.map(|(_, steps, listing)| (ROOM_FOR_ALL[0], steps, listing));
    let traces = in_room.into_iter().chain(in_two).chain(reused);
    let traces = traces.chain(of_cards);
    let traces = traces.map(|(rows, steps, listing)| Trace {
        rows,
        issued: 0,
        limits: &[],
        steps,
        listing,
    });
    let others = [one_row(), no_rows(), last_name(), names_spent()];
    let mut cases = 0;
    for trace in traces.chain(others) {
        cases += check_named(subject, &trace)?;
    }
    Ok(cases)
}

/// A trace with right names and with wrong ones.
pub fn check_named(subject: Subject, trace: &Trace) -> Checked {
    let mut lent = Lent::empty(trace.rows);
    lent.tally.issued = trace.issued;
    lent.limits = trace.limits.to_vec();
    for (line, expected) in trace.steps {
        let event = read(subject, line)?;
        check_names(subject, &lent, event, *expected)
            .map_err(|why| format!("{line}, named: {why}"))?;
        agree::apply(subject, &mut lent, event)?;
    }
    Ok(trace.steps.len() as u64 * 12)
}

/// An event with its right name has the answer that it has without. With a wrong one it is refused
/// 12 where it makes something, unless a refusal up to 9 comes first.
fn check_names(subject: Subject, lent: &Lent, event: Event, expected: Result<u32, u8>) -> Agreed {
    let next = lent.tally.issued + 1;
    let makes = event.kind <= 2;
    let with_wrong = match expected {
        Ok(_) | Err(10 | 18) if makes => Err(12),
        other => other,
    };
    check_name(subject, lent.clone(), event, next, expected)?;
    for wrong in [0, next - 1, next + 1, MAX_NAME + 2, u32::MAX] {
        check_name(subject, lent.clone(), event, wrong, with_wrong)?;
    }
    Ok(())
}

/// The event with a written name, by itself and as a run of its own.
fn check_name(
    subject: Subject,
    lent: Lent,
    event: Event,
    name: u32,
    expected: Result<u32, u8>,
) -> Agreed {
    let event = Event {
        written: Some(name),
        ..event
    };
    let answer = agree::apply(subject, &mut lent.clone(), event)?;
    same_answer(packed(expected), answer).map_err(|why| format!("name {name}: {why}"))?;
    let text = generate::trace(&[event], Spelling::Named);
    let answer = agree::run(subject, &mut lent.clone(), &text)?;
    let as_run = expected.map(|_| 2).map_err(|number| (number, 2));
    same_answer(agree::packed_run(as_run), answer).map_err(|why| format!("run, {name}: {why}"))
}

/// Lines of a trace with names on two rows, each as a run after `(create 1 0 64 rw)`, and their
/// answers: 12 comes after 2 to 8 and before 10.
const MISNAMED: [Step; 12] = [
    ("(borrow 2 1 0 8 rw)", Ok(2)),
    ("(borrow 3 1 0 8 rw)", Err(12)),
    ("(borrow 1 1 0 8 rw)", Err(12)),
    ("(borrow 0 1 0 8 rw)", Err(12)),
    ("(borrow 1000001 1 0 8 rw)", Err(12)),
    ("(borrow 4294967295 1 0 8 rw)", Err(12)),
    ("(create 3 0 8 rw)", Err(12)),
    ("(borrow 3 01 0 8 rw)", Err(2)),
    ("(create 3 4294967295 2 rw)", Err(3)),
    ("(borrow 3 2 0 8 rw)", Err(4)),
    ("(borrow 3 1 60 8 rw)", Err(6)),
    ("(create 0 8 rw)", Err(2)),
];

fn misnamed(subject: Subject) -> Checked {
    let mut cases = 0;
    for (line, expected) in MISNAMED {
        let text = format!("(trace 2)\n(create 1 0 64 rw)\n{line}\n");
        let mut lent = Lent::empty(2);
        let answer = agree::run(subject, &mut lent, text.as_bytes())?;
        let as_run = expected.map(|_| 3).map_err(|number| (number, 3));
        same_answer(agree::packed_run(as_run), answer).map_err(|why| format!("{line}: {why}"))?;
        let refused = u32::from(expected.is_err());
        agree::same("refused", refused, lent.tally.refused)?;
        cases += 1;
    }
    Ok(cases)
}
