//! Card 6: raw capabilities and cells. Its traces, every small tree of kinds, and kinds in rows, words,
//! lines and listings.

use interface::{Event, Words};
use oracle::traces::whole;
use oracle::{CELL, MAX_ROWS, RAW, REFERENCE, Row};

use crate::agree::{self, Agreed, Lent, Subject, same, same_answer};
use crate::events::chain;
use crate::generate::{NO_KINDS, Request};
use crate::histories::check_list;
use crate::lines::check_text;
use crate::many::{self, check_words};
use crate::report::{Checked, Report};

/// What capcheck is given, and prints.
pub const INPUT: &str = "\
(create 0 64 rw)
(borrow 1 0 8 rw raw)
(borrow 1 0 8 rw cell)
(write 3 0 8)
(write 1 8 8)
(write 2 0 8)
(write 3 0 8)
";

pub const OUTPUT: &str = "\
(refused 5 7)
(issued 3)
(1 0 64 rw 0 0000000000000001 (2 0 8 rw raw 0 0000000000000001))
";

pub fn groups(report: &mut Report, subject: Subject) {
    for rows in 2..=5 {
        report.group(
            &format!("every tree of {rows} kinds and its history"),
            |_| for_trees(rows, |tree| in_list(subject, tree)),
        );
    }
    report.group("every tree of 6 kinds", |_| {
        for_trees(6, |tree| on_tree(subject, tree))
    });
    report.group("kinds that there are not, and roots with kinds", |_| {
        refused(subject)
    });
    report.group("kinds in rows", |_| in_rows(subject));
    report.group("kinds of what is borrowed in words", |_| in_words(subject));
    report.group("kinds in lines", |_| in_lines(subject));
    report.group("kinds in listings", |_| in_listings(subject));
    report.group("kinds in the longest lines and listings", |_| {
        longest(subject)
    });
}

/// A row of a tree: the place of its parent among those before it, and its kind.
pub type Node = (usize, u32);

/// Every tree of a root and so many rows in all, with every kind in each place but the root's.
pub fn for_trees(rows: usize, check: impl Fn(&[Node]) -> Checked) -> Checked {
    let mut trees: Vec<Vec<Node>> = vec![vec![(0, REFERENCE)]];
    for at in 1..rows {
        let kinds = [REFERENCE, RAW, CELL];
        let nodes: Vec<Node> = (0..at)
            .flat_map(|parent| kinds.map(|kind| (parent, kind)))
            .collect();
        let mut larger = Vec::new();
        for tree in &trees {
            larger.extend(nodes.iter().map(|node| [&tree[..], &[*node]].concat()));
        }
        trees = larger;
    }
    let mut cases = 0;
    for tree in trees {
        cases += check(&tree).map_err(|why| format!("{why}\n  {tree:?}"))?;
    }
    Ok(cases)
}

/// The addresses of every capability of a tree, and of every access to it.
const LENGTH: u32 = 8;

fn event(kind: u8, name: u32) -> Event {
    Event {
        kind,
        name,
        length: LENGTH,
        right: 2,
        holders: 1,
        ..Event::default()
    }
}

fn name_at(place: usize) -> u32 {
    place as u32 + 1
}

/// The tree made by a create and borrows.
fn made(tree: &[Node]) -> Vec<Event> {
    let borrow = |(parent, kind): &Node| Event {
        cap_kind: *kind as u8,
        ..event(2, name_at(*parent))
    };
    let borrows = tree[1..].iter().map(borrow);
    [event(1, 0)].into_iter().chain(borrows).collect()
}

/// The tree as rows, and a row that is empty.
pub fn table(tree: &[Node]) -> Lent {
    let mut rows: Vec<Row> = Vec::new();
    for (at, (parent, kind)) in tree.iter().enumerate() {
        rows.push(match at {
            0 => chain(1, 1)[0],
            _ => Row {
                name: name_at(at),
                parent: name_at(*parent),
                depth: rows[*parent].depth + 1,
                kind: *kind,
                ..rows[0]
            },
        });
    }
    rows.push(Row::default());
    let mut lent = Lent::empty(rows.len());
    lent.rows = rows;
    lent.tally.issued = tree.len() as u32;
    lent
}

/// A read and a write through each of a tree, and a create over it.
pub fn accesses(tree: &[Node]) -> Vec<Event> {
    let through = |at| [event(3, name_at(at)), event(4, name_at(at))];
    let accesses = (0..tree.len()).flat_map(through);
    accesses.chain([event(1, 0)]).collect()
}

/// Each access after the events that make the tree, beside the history, and after it a write through
/// each that is left.
fn in_list(subject: Subject, tree: &[Node]) -> Checked {
    let made = made(tree);
    let accesses = accesses(tree);
    for access in &accesses {
        let writes = (0..tree.len()).rev().map(|at| event(4, name_at(at)));
        let events = made.iter().copied().chain([*access]).chain(writes);
        let requests: Vec<Request> = events.map(Request::Single).collect();
        check_list(subject, &Lent::empty(tree.len() + 1), &requests)?;
    }
    Ok(accesses.len() as u64)
}

/// Each access on the rows of the tree.
fn on_tree(subject: Subject, tree: &[Node]) -> Checked {
    let lent = table(tree);
    let accesses = accesses(tree);
    for access in &accesses {
        agree::apply(subject, &mut lent.clone(), *access)?;
    }
    Ok(accesses.len() as u64)
}

/// A chain of so many rows, and a row that is empty.
fn chain_with_room(rows: usize) -> Lent {
    let mut lent = Lent::empty(rows + 1);
    lent.rows[..rows].copy_from_slice(&chain(1, rows));
    lent.tally.issued = rows as u32;
    lent
}

/// Another kind is 2 in an event, before what its name is refused with, and 1 in a row, as are the two
/// kinds in a root.
fn refused(subject: Subject) -> Checked {
    let lent = chain_with_room(2);
    let mut cases = 0;
    for cap_kind in NO_KINDS {
        for name in [0, 1, 9] {
            let borrow = Words {
                cap_kind,
                ..event(2, name).into()
            };
            let answer = agree::apply_words(subject, &mut lent.clone(), &borrow, &[])?;
            same_answer(2 << 32, answer)?;
            cases += 1;
        }
    }
    let anywhere = NO_KINDS.into_iter().flat_map(|kind| [(0, kind), (1, kind)]);
    for (at, kind) in anywhere.chain([(0, RAW), (0, CELL)]) {
        let mut lent = lent.clone();
        lent.rows[at].kind = kind;
        same_answer(1 << 32, agree::apply(subject, &mut lent, event(3, 1))?)?;
        cases += 1;
    }
    Ok(cases)
}

/// Every number as the kind of a root, of a borrow, of one below it, and of an empty row, for every call
/// that judges a table.
fn in_rows(subject: Subject) -> Checked {
    let mut cases = 0;
    for number in [REFERENCE, RAW, CELL].into_iter().chain(NO_KINDS) {
        for at in 0..4 {
            for others in [REFERENCE, RAW, CELL] {
                let mut lent = chain_with_room(3);
                lent.rows[1].kind = others;
                lent.rows[at].kind = number;
                cases += every_call(subject, &lent).map_err(|why| format!("{why}\n  {lent:?}"))?;
            }
        }
    }
    Ok(cases)
}

fn every_call(subject: Subject, lent: &Lent) -> Checked {
    for kind in 1..=5 {
        agree::apply(subject, &mut lent.clone(), event(kind, 2))?;
    }
    agree::drop_all(subject, &mut lent.clone(), 0, &[2, 3])?;
    agree::run(subject, &mut lent.clone(), b"(write 2 0 8)\n")?;
    agree::write_listing(subject, lent)?;
    Ok(8)
}

/// Every number as the kind of what is borrowed, in every event and in what is none.
fn in_words(subject: Subject) -> Checked {
    let lent = chain_with_room(2);
    let mut cases = 0;
    for kind in many::KINDS {
        for cap_kind in (0..=255).chain(NO_KINDS) {
            for (right, named) in [(1, 0), (2, 1), (3, 0)] {
                let words = Words {
                    kind,
                    name: 2,
                    length: 1,
                    right,
                    named,
                    written: 3,
                    cap_kind,
                    holders_low: 1,
                    ..Words::default()
                };
                check_words(subject, &lent, &words, &[2])?;
                cases += 1;
            }
        }
    }
    Ok(cases)
}

/// What may stand in the place of a kind: right, doubled, of both kinds, nearly one, or another word.
const WORDS: [&str; 30] = [
    "",
    " raw",
    " cell",
    " reference",
    " raw raw",
    " cell cell",
    " raw cell",
    " cell raw",
    " reference raw",
    "raw",
    "cell",
    " ",
    "  raw",
    " raw ",
    " cell ",
    "\traw",
    " ra",
    " rawr",
    " cel",
    " cells",
    " Raw",
    " CELL",
    " rwa",
    " fresh",
    " 0",
    " 1",
    " 2",
    " rw",
    " (raw)",
    " (cell",
];

/// Lines with a place for a kind, and with places where none may stand.
const LINES: [&str; 20] = [
    "(borrow 1 0 8 rw{})\n",
    "(borrow 1 0 8 ro{})\n",
    "(borrow 2 1 0 8 ro{})\n",
    "(borrow 4294967295 4294967295 4294967295 rw{})\n",
    "(borrow 1 0 8{} rw)\n",
    "(borrow 1 0 8{})\n",
    "(borrow 1{} 0 8 rw)\n",
    "(borrow{} 1 0 8 rw)\n",
    "({}borrow 1 0 8 rw)\n",
    "{}(borrow 1 0 8 rw)\n",
    "(borrow 1 0 8 rw){}\n",
    "(borrow 1 0 8 rw)\n{}",
    "(borrow 1 0 8 rw raw{})\n",
    "(borrow 1 0 8 rw{} cell)\n",
    "(create 0 8 rw{})\n",
    "(create 1 0 8 ro{})\n",
    "(read 1 0 8{})\n",
    "(write 1 0 8{})\n",
    "(drop 1{})\n",
    "(drop 1 2{})\n",
];

fn in_lines(subject: Subject) -> Checked {
    in_places(&LINES, |text| {
        agree::read_both(subject, text)?;
        for first in [&b""[..], b"(trace 2)\n"] {
            let text = [first, b"(create 0 64 rw)\n", text].concat();
            agree::run(subject, &mut Lent::empty(3), &text)?;
        }
        Ok(())
    })
}

/// Every word in every place.
fn in_places(texts: &[impl AsRef<str>], check: impl Fn(&[u8]) -> Agreed) -> Checked {
    for text in texts {
        for word in WORDS {
            check_text(text.as_ref().replace("{}", word).as_bytes(), &check)?;
        }
    }
    Ok((texts.len() * WORDS.len()) as u64)
}

/// The same for listings, in which each row is of domain 0 alone. In the last ones every place has the same
/// word.
const LISTINGS: [&str; 16] = [
    "(issued 2)\n(1 0 64 rw (2 0 8 rw{}))\n",
    "(issued 2)\n(1 0 64 rw (2 0 8 ro{}))\n",
    "(issued 1)\n(1 0 64 rw{})\n",
    "(issued 2)\n(1 0 64 rw{} (2 0 8 rw))\n",
    "(issued 3)\n(1 0 64 rw (2 0 8 rw{} (3 0 4 ro)))\n",
    "(issued 3)\n(1 0 64 rw (2 0 8 rw (3 0 4 ro){}))\n",
    "(issued 3)\n(1 0 64 rw (2 0 8 rw{} (3 0 4 ro{})))\n",
    "(issued 3)\n(1 0 64 rw (2 0 8 rw{}) (3 0 8 rw{}))\n",
    "(issued 2)\n(1 0 64 rw (2 0 8{} rw))\n",
    "(issued 2)\n(1 0 64 rw (2 0 8{}))\n",
    "(issued 2)\n(1 0 64 rw (2{} 0 8 rw))\n",
    "(issued 2)\n(1 0 64 rw ({}2 0 8 rw))\n",
    "(issued 2)\n(1 0 64 rw (2 0 8 rw raw{}))\n",
    "(issued 2)\n(1 0 64 rw (2 0 8 rw){})\n",
    "(issued 2)\n(1 0 64 rw (2 0 8 rw)){}\n",
    "(issued 2{})\n(1 0 64 rw (2 0 8 rw))\n",
];

fn in_listings(subject: Subject) -> Checked {
    in_places(&LISTINGS.map(whole), |text| {
        agree::read_listing(subject, text, &Lent::empty(3))?;
        agree::read_listing(subject, text, &Lent::empty(1))
    })
}

/// The lengths that the C header gives for buffers that are always long enough.
const LONGEST_LINE: usize = 75;
const LONGEST_NAMED_LINE: usize = 86;
const LONGEST_LISTING: usize = 60_429;

/// A borrow of the longest numbers and for all domains, and a table of the longest: one root, and cells below
/// it.
fn longest(subject: Subject) -> Checked {
    let borrow = Event {
        kind: 2,
        written: None,
        name: u32::MAX,
        start: u32::MAX,
        length: u32::MAX,
        right: 2,
        cap_kind: CELL as u8,
        fresh: 0,
        actor: 63,
        holders: u64::MAX,
    };
    let written = Some(u32::MAX);
    let lines = [
        (LONGEST_LINE, borrow),
        (LONGEST_NAMED_LINE, Event { written, ..borrow }),
    ];
    for (length, event) in lines {
        agree::write_event(subject, event)?;
        let mut line = vec![0; length];
        same_answer(length as u64, subject.write_event(event, &mut line))?;
        let spelling = agree::spelling_of(event);
        agree::read_line(subject, &line, spelling)?;
        let read = oracle::read_event_line(&line, spelling);
        same("event", Some(agree::oracle_act(event)), read)?;
    }
    let lent = longest_table();
    let text = oracle::listing(&lent.rows, lent.tally.issued);
    same("length", LONGEST_LISTING, text.len())?;
    agree::write_listing(subject, &lent)?;
    agree::read_listing(subject, text.as_bytes(), &lent)?;
    Ok(6)
}

fn longest_table() -> Lent {
    let last = oracle::MAX_NAME;
    let first = last - MAX_ROWS as u32 + 1;
    let row = |name: u32| Row {
        name,
        parent: if name == first { 0 } else { first },
        start: 1_000_000_000,
        length: 1_000_000_000,
        right: 2,
        depth: if name == first { 1 } else { 2 },
        kind: if name == first { REFERENCE } else { CELL },
        fresh: 0,
        maker: 63,
        holders: u64::MAX,
    };
    let mut lent = Lent::empty(0);
    lent.rows = (first..=last).map(row).collect();
    lent.tally.issued = last;
    lent
}
