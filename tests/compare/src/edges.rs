//! Every pair of spans over a few places: spans that meet at their ends, that start or end where
//! another does, that have length 0 there, and that end at the last address or above it.

use interface::Event;
use oracle::{CELL, RAW, Row, Span};

use crate::agree::{self, Agreed, Lent, Subject};
use crate::events::chain;
use crate::generate::Request;
use crate::histories::check_list;
use crate::report::{Checked, Report};

const MIDDLE: u64 = 1 << 31;
/// The highest end of a legal span.
const TOP: u64 = 1 << 32;

/// Places at which spans start and end.
const PLACES: [(&str, &[u64]); 4] = [
    ("the first addresses", &[0, 1, 2, 3, 4, 5]),
    (
        "the middle",
        &[
            MIDDLE - 2,
            MIDDLE - 1,
            MIDDLE,
            MIDDLE + 1,
            MIDDLE + 2,
            MIDDLE + 3,
        ],
    ),
    (
        "the last address",
        &[TOP - 4, TOP - 3, TOP - 2, TOP - 1, TOP, TOP + 1],
    ),
    (
        "everywhere",
        &[0, 1, 2, MIDDLE, TOP - 2, TOP - 1, TOP, TOP + 1],
    ),
];

pub fn groups(report: &mut Report, subject: Subject) {
    for (name, places) in PLACES {
        report.group(&format!("spans that meet, {name}"), |_| {
            for_pairs(places, |one, other| on_tables(subject, one, other))
        });
        report.group(
            &format!("spans that meet and their history, {name}"),
            |_| {
                let whole = *spans(places).iter().max_by_key(|span| span.length).unwrap();
                for_pairs(places, |one, other| in_lists(subject, whole, one, other))
            },
        );
    }
}

/// The spans from each place to each that is not before it.
fn spans(places: &[u64]) -> Vec<Span> {
    let from = |start: &u64| {
        let start = *start;
        let lengths = places.iter().filter_map(move |end| end.checked_sub(start));
        lengths.filter_map(move |length| {
            Some(Span {
                start: start.try_into().ok()?,
                length: length.try_into().ok()?,
            })
        })
    };
    places.iter().flat_map(from).collect()
}

fn for_pairs(places: &[u64], check: impl Fn(Span, Span) -> Checked) -> Checked {
    let spans = spans(places);
    let mut cases = 0;
    for one in &spans {
        for other in &spans {
            cases += check(*one, *other).map_err(|why| format!("{why}\n  {one:?}, {other:?}"))?;
        }
    }
    Ok(cases)
}

/// An event of domain 0 over a span, with both rights and for itself alone where it makes something.
pub fn event(kind: u8, name: u32, span: Span) -> Event {
    Event {
        kind,
        name,
        start: span.start,
        length: span.length,
        right: 2,
        holders: 1,
        ..Event::default()
    }
}

fn borrow_as(cap_kind: u32, parent: u32, span: Span) -> Event {
    Event {
        cap_kind: cap_kind as u8,
        ..event(2, parent, span)
    }
}

fn row(name: u32, parent: u32, span: Span) -> Row {
    let depth = if parent == 0 { 1 } else { 2 };
    Row {
        name,
        parent,
        start: span.start,
        length: span.length,
        depth,
        ..chain(1, 1)[0]
    }
}

/// Events of the second span beside a root of the first, between roots of both, and on a row of the
/// second below one of the first, which is in order only if it is inside.
fn on_tables(subject: Subject, one: Span, other: Span) -> Checked {
    let alone = [row(1, 0, one)];
    let beside = [row(1, 0, one), row(2, 0, other)];
    let below = [row(1, 0, one), row(2, 1, other)];
    let cases = [
        (&alone[..], event(1, 0, other)),
        (&alone, event(2, 1, other)),
        (&alone, event(3, 1, other)),
        (&alone, event(4, 1, other)),
        (&beside, event(3, 2, other)),
        (&beside, event(4, 2, other)),
        (&below, event(3, 1, one)),
        (&below, event(4, 1, one)),
    ];
    for (rows, event) in cases {
        agree::apply(subject, &mut lent(rows), event)?;
    }
    listed(subject, &lent(&below))?;
    Ok(cases.len() as u64)
}

/// The rows, and one that is empty.
fn lent(rows: &[Row]) -> Lent {
    let mut lent = Lent::empty(rows.len() + 1);
    lent.rows[..rows.len()].copy_from_slice(rows);
    lent.tally.issued = rows.len() as u32;
    lent
}

/// A root and its child as a listing, written and read, whether it is one or not.
fn listed(subject: Subject, lent: &Lent) -> Agreed {
    agree::write_listing(subject, lent)?;
    let text = oracle::listing(&lent.rows, lent.tally.issued);
    agree::read_listing(subject, text.as_bytes(), &Lent::empty(2))
}

/// Both borrowed from a capability of all the places, once as a cell and a raw one, and the one from the
/// other, with accesses to what they share and at last a create over it.
fn in_lists(subject: Subject, whole: Span, one: Span, other: Span) -> Checked {
    let side_by_side = [
        event(1, 0, whole),
        event(2, 1, one),
        event(2, 1, other),
        event(3, 3, other),
        event(4, 3, other),
        event(1, 0, one),
    ];
    let nested = [
        event(1, 0, one),
        event(2, 1, one),
        event(2, 2, other),
        event(3, 1, other),
        event(4, 1, other),
        event(1, 0, other),
    ];
    let of_kinds = [
        event(1, 0, whole),
        borrow_as(CELL, 1, one),
        borrow_as(RAW, 1, other),
        event(4, 2, one),
        event(4, 1, other),
        event(3, 3, other),
        event(4, 3, other),
        event(1, 0, one),
    ];
    let mut cases = 0;
    for events in [&side_by_side[..], &nested, &of_kinds] {
        let requests: Vec<Request> = events.iter().copied().map(Request::Single).collect();
        check_list(subject, &Lent::empty(6), &requests)?;
        cases += events.len() as u64;
    }
    Ok(cases)
}
