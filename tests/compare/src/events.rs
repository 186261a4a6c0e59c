//! Random events on lent tables.

use interface::Event;
use oracle::random::Random;
use oracle::{MAX_DEPTH, MAX_NAME, MAX_ROWS, Row, Spelling};

use crate::agree::{self, Lent, Subject, same_answer};
use crate::generate::{self, Shape};
use crate::report::{Checked, Report, check_few};

/// Tables of one sort: how many of them, how many events on each, and how one is made.
pub struct Tables {
    pub name: &'static str,
    pub count: u64,
    pub events: usize,
    pub table: fn(&mut Random) -> Lent,
}

pub const TABLES: [Tables; 10] = [
    Tables {
        name: "ordered tables",
        count: 8_000,
        events: 8,
        table: |random| {
            let shape = Shape::partly_full(random, 16);
            generate::ordered(random, &shape)
        },
    },
    Tables {
        name: "tables of any size",
        count: 300,
        events: 2,
        table: |random| {
            let shape = Shape::partly_full(random, MAX_ROWS);
            generate::ordered(random, &shape)
        },
    },
    Tables {
        name: "full tables",
        count: 4_000,
        events: 4,
        table: |random| {
            let rows = random.between(1, 40);
            let shape = Shape::full(random, rows);
            generate::ordered(random, &shape)
        },
    },
    Tables {
        name: "deep tables",
        count: 1_600,
        events: 2,
        table: |random| {
            let live = random.between(60, 140);
            let rows = live + random.index(3);
            let deep = true;
            generate::ordered(random, &Shape { rows, live, deep })
        },
    },
    Tables {
        name: "tables of raw capabilities and cells",
        count: 4_000,
        events: 4,
        table: |random| {
            let live = random.between(2, 16);
            let rows = live + random.index(4);
            generate::crowded(random, rows, live)
        },
    },
    Tables {
        name: "large tables",
        count: 120,
        events: 4,
        table: |random| {
            let rows = random.between(900, MAX_ROWS);
            let live = rows - random.index(3);
            let deep = random.one_in(6);
            generate::ordered(random, &Shape { rows, live, deep })
        },
    },
    Tables {
        name: "disordered tables",
        count: 30_000,
        events: 2,
        table: |random| {
            let shape = Shape::partly_full(random, 12);
            let mut lent = generate::ordered(random, &shape);
            for _ in 0..random.between(1, 2) {
                generate::disturb(random, &mut lent);
            }
            lent
        },
    },
    Tables {
        name: "large disordered tables",
        count: 600,
        events: 1,
        table: |random| {
            let rows = random.between(1_000, MAX_ROWS);
            let shape = Shape::full(random, rows);
            let mut lent = generate::ordered(random, &shape);
            generate::disturb(random, &mut lent);
            lent
        },
    },
    Tables {
        name: "tables of noise",
        count: 10_000,
        events: 1,
        table: noise,
    },
    Tables {
        name: "more than 1,024 rows",
        count: 60,
        events: 2,
        table: |random| {
            let mut lent = Lent::empty(random.pick(&[1_025, 1_026, 2_048, 6_000]));
            lent.tally = generate::tally(random);
            lent
        },
    },
];

pub fn groups(report: &mut Report, subject: Subject) {
    for (events, spelling) in [
        ("events", Spelling::Plain),
        ("named events", Spelling::Named),
    ] {
        for tables in &TABLES {
            report.group(&format!("{events} on {}", tables.name), |random| {
                on_tables(random, subject, tables, spelling)
            });
        }
        report.group(&format!("{events} on tables at their limits"), |random| {
            at_limits(random, subject, spelling)
        });
    }
    report.group("creates beside writes through what they made", |random| {
        creates_as_writes(random, subject)
    });
}

fn noise(random: &mut Random) -> Lent {
    let rows = (0..random.between(1, 3)).map(|_| generate::noise_row(random));
    let rows = rows.collect();
    let mut tally = generate::tally(random);
    tally.issued = random.number();
    Lent::of(rows, tally)
}

/// A root and a chain of borrows below it, named from a number on, of domain 0 alone.
pub fn chain(first_name: u32, rows: usize) -> Vec<Row> {
    let row = |depth: u32| Row {
        name: first_name + depth - 1,
        parent: if depth == 1 {
            0
        } else {
            first_name + depth - 2
        },
        start: 0,
        length: 8,
        right: 2,
        depth,
        kind: 0,
        fresh: 0,
        maker: 0,
        holders: 1,
    };
    (1..=rows as u32).map(row).collect()
}

/// Roots of eight addresses, each so far behind the last: side by side, or all over the same ones.
pub fn roots(rows: usize, apart: u32) -> Vec<Row> {
    let row = |name| Row {
        name,
        start: name * apart,
        ..chain(1, 1)[0]
    };
    (1..=rows as u32).map(row).collect()
}

/// Tables in order but for one limit, and tables just within it.
fn at_limits(random: &mut Random, subject: Subject, spelling: Spelling) -> Checked {
    let depth = MAX_DEPTH as usize;
    let mut tables = Vec::new();
    for rows in depth - 1..=depth + 2 {
        tables.push((chain(1, rows), rows as u32));
    }
    for last_name in MAX_NAME - 1..=MAX_NAME + 1 {
        for issued in MAX_NAME - 1..=MAX_NAME + 1 {
            tables.push((chain(last_name - 3, 4), issued));
        }
    }
    for rows in MAX_ROWS - 1..=MAX_ROWS + 1 {
        tables.push((roots(rows, 0), rows as u32));
        tables.push((roots(rows, 8), rows as u32));
    }
    let mut cases = 0;
    for (mut rows, issued) in tables {
        for spare in 0..3 {
            rows.extend((0..spare).map(|_| Row::default()));
            let mut tally = generate::tally(random);
            tally.issued = issued;
            let lent = Lent::of(rows.clone(), tally);
            for _ in 0..2 {
                cases += on_table(random, subject, &lent, 6, spelling)?;
            }
        }
    }
    Ok(cases)
}

/// Some events, one after the other, on each of many tables.
fn on_tables(
    random: &mut Random,
    subject: Subject,
    tables: &Tables,
    spelling: Spelling,
) -> Checked {
    let mut cases = 0;
    for _ in 0..tables.count {
        let lent = (tables.table)(random);
        cases += on_table(random, subject, &lent, tables.events, spelling)?;
    }
    Ok(cases)
}

fn on_table(
    random: &mut Random,
    subject: Subject,
    lent: &Lent,
    count: usize,
    spelling: Spelling,
) -> Checked {
    let events = generate::events(random, lent.clone(), count, spelling);
    let check =
        |events: &[Event]| agree::check_rows(lent, |lent| agree::apply_each(subject, lent, events));
    check_few(&events, check).map_err(|(why, events)| format!("{why}\n  events {events:?}"))?;
    Ok(count as u64)
}

/// Creates on tables in order. Refused ones are not counted.
fn creates_as_writes(random: &mut Random, subject: Subject) -> Checked {
    let mut cases = 0;
    while cases < 6_000 {
        let shape = Shape::partly_full(random, 16);
        let lent = generate::ordered(random, &shape);
        let event = generate::events(random, lent.clone(), 1, Spelling::Plain)[0];
        let (kind, right) = (1, 2);
        let create = Event {
            kind,
            right,
            ..event
        };
        let same = create_as_write(subject, &lent, create);
        cases += same.map_err(|why| format!("{why}\n  {lent:?}\n  {create:?}"))?;
    }
    Ok(cases)
}

/// Card 4: a create is a write from outside every subtree but its own. It leaves what a write to its
/// span through its name leaves, once that name has a row, and a write after it ends nothing more.
fn create_as_write(subject: Subject, lent: &Lent, create: Event) -> Checked {
    let mut created = lent.clone();
    let answer = agree::apply(subject, &mut created, create)?;
    if answer >> 32 != 0 {
        return Ok(0);
    }
    let name = answer as u32;
    let mut written = lent.clone();
    written.tally.issued = name;
    let new_row = oracle::live_rows(&lent.rows).len();
    written.rows[new_row] = Row {
        name,
        start: create.start,
        length: create.length,
        fresh: create.fresh.into(),
        maker: create.actor,
        holders: create.holders,
        ..chain(1, 1)[0]
    };
    let kind = 4;
    let write = Event {
        kind,
        name,
        ..create
    };
    same_answer(0, agree::apply(subject, &mut written, write)?)?;
    agree::same("rows", &created.rows, &written.rows)?;
    same_answer(0, agree::apply(subject, &mut written, write)?)?;
    agree::same("rows", &created.rows, &written.rows)?;
    Ok(1)
}
