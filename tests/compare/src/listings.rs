//! Listings, written and read.

use oracle::random::Random;
use oracle::traces::{OF_DOMAIN_0, whole};
use oracle::{MAX_DEPTH, MAX_NAME, MAX_ROWS};

use crate::agree::{self, Agreed, Lent, Subject};
use crate::generate::{self, Shape};
use crate::lines::{check_text, each_byte};
use crate::report::{Checked, Report};

/// Listings in which each row is of domain 0 alone.
const SAMPLES: [&str; 7] = [
    "(issued 0)\n",
    "(issued 3)\n(1 0 64 rw (2 0 16 ro) (3 16 16 rw))\n",
    "(issued 12)\n(2 0 8 rw (5 0 8 ro (9 1 2 ro)))\n(10 4294967295 1 ro)\n",
    "(issued 1000000)\n(999999 0 1 rw)\n(1000000 0 1 ro)\n",
    "(issued 2)\n(2 0 8 rw (1 0 8 rw))\n",
    "(issued 4)\n(1 0 64 rw (2 0 8 rw raw (3 0 4 ro)) (4 8 8 ro cell))\n",
    "(issued 3)\n(1 0 8 rw fresh (2 0 4 ro cell fresh))\n(3 8 8 ro)\n",
];

pub fn groups(report: &mut Report, subject: Subject) {
    report.group("listings written", |random| written(random, subject));
    report.group("listings of disordered tables", |random| {
        written_disordered(random, subject)
    });
    report.group("large listings", |random| large(random, subject));
    report.group("listings read", |random| read_whole(random, subject));
    report.group("listings damaged", |random| damaged(random, subject));
    report.group("listings with other values", |random| {
        other_values(random, subject)
    });
    report.group("every change of one byte of a listing", |_| {
        each_byte(&SAMPLES.map(whole), |text| {
            agree::read_listing(subject, text, &Lent::empty(4))
        })
    });
    report.group("listings at their limits", |_| limits(subject));
}

fn ordered(random: &mut Random, most_rows: usize) -> Lent {
    let shape = Shape::partly_full(random, most_rows);
    generate::ordered(random, &shape)
}

fn check_written(subject: Subject, lent: &Lent) -> Agreed {
    agree::write_listing(subject, lent).map_err(|why| format!("{why}\n  {lent:?}"))
}

fn written(random: &mut Random, subject: Subject) -> Checked {
    let tables = 5_000;
    for _ in 0..tables {
        check_written(subject, &ordered(random, 24))?;
    }
    Ok(tables)
}

fn written_disordered(random: &mut Random, subject: Subject) -> Checked {
    let tables = 8_000;
    for _ in 0..tables {
        let mut lent = ordered(random, 10);
        generate::disturb(random, &mut lent);
        check_written(subject, &lent)?;
    }
    Ok(tables)
}

/// Tables of up to 1,024 live rows, written and read back.
fn large(random: &mut Random, subject: Subject) -> Checked {
    let tables = 40;
    for _ in 0..tables {
        let rows = random.between(800, MAX_ROWS);
        let shape = Shape::full(random, rows);
        let lent = generate::ordered(random, &shape);
        check_written(subject, &lent)?;
        let text = oracle::listing(&lent.rows, lent.tally.issued);
        agree::read_listing(subject, text.as_bytes(), &lent_for(random, &lent))?;
    }
    Ok(tables * 2)
}

/// A table for a listing to be read into: as many rows or not, with old contents that nobody
/// judges.
fn lent_for(random: &mut Random, listed: &Lent) -> Lent {
    let live = oracle::live_rows(&listed.rows).len();
    let rows = match random.below(8) {
        0 => live.saturating_sub(1),
        1 => live,
        2 => live + 1,
        3 => random.pick(&[0, MAX_ROWS, MAX_ROWS + 1, 3_000]),
        _ => listed.rows.len(),
    };
    let old_row = generate::noise_row(random);
    let mut tally = generate::tally(random);
    tally.issued = random.number();
    let bits = match random.one_in(4) {
        true => generate::other_bits(random),
        false => listed.bits.clone(),
    };
    Lent {
        rows: vec![old_row; rows],
        bits,
        slots: listed.slots.clone(),
        tally,
        limits: listed.limits.clone(),
    }
}

fn check_read(random: &mut Random, subject: Subject, text: &[u8], listed: &Lent) -> Agreed {
    let lent = lent_for(random, listed);
    check_text(text, |text| agree::read_listing(subject, text, &lent)).map_err(|why| {
        let rows = lent.rows.len();
        format!("{why}\n  into {rows} rows")
    })
}

fn read_whole(random: &mut Random, subject: Subject) -> Checked {
    let tables = 8_000;
    for _ in 0..tables {
        let listed = ordered(random, 16);
        let text = oracle::listing(&listed.rows, listed.tally.issued);
        check_read(random, subject, text.as_bytes(), &listed)?;
    }
    Ok(tables)
}

fn damaged(random: &mut Random, subject: Subject) -> Checked {
    let texts = 30_000;
    for _ in 0..texts {
        let listed = ordered(random, 8);
        let mut text = oracle::listing(&listed.rows, listed.tally.issued).into_bytes();
        for _ in 0..random.between(1, 2) {
            generate::damage(random, &mut text);
        }
        check_read(random, subject, &text, &listed)?;
    }
    Ok(texts)
}

fn other_values(random: &mut Random, subject: Subject) -> Checked {
    let texts = 20_000;
    for _ in 0..texts {
        let listed = ordered(random, 10);
        let text = generate::disturbed_listing(random, &listed);
        check_read(random, subject, &text, &listed)?;
    }
    Ok(texts)
}

/// As many roots as named, or one chain of borrows as deep.
fn tall_or_wide(count: usize, deep: bool) -> Vec<u8> {
    let mut text = format!("(issued {count})\n");
    for name in 1..=count {
        let opening = if deep && name > 1 { " " } else { "" };
        let closing = if deep { "" } else { ")\n" };
        text += &format!("{opening}({name} 0 8 rw{OF_DOMAIN_0}{closing}");
    }
    if deep {
        text += &(")".repeat(count) + "\n");
    }
    text.into_bytes()
}

/// Numbers of capabilities, depths and issued numbers on both sides of their limits.
fn limits(subject: Subject) -> Checked {
    let mut cases = 0;
    let mut one = |text: &[u8], rows: usize| {
        cases += 1;
        agree::read_listing(subject, text, &Lent::empty(rows))
            .map_err(|why| format!("{why}\n  into {rows} rows\n  {}", text.escape_ascii()))
    };
    for count in MAX_ROWS - 1..=MAX_ROWS + 2 {
        for rows in [0, MAX_ROWS - 1, MAX_ROWS, MAX_ROWS + 1] {
            one(&tall_or_wide(count, false), rows)?;
        }
    }
    for depth in MAX_DEPTH as usize - 1..=MAX_DEPTH as usize + 2 {
        for rows in [0, 63, 64, 65, MAX_ROWS] {
            one(&tall_or_wide(depth, true), rows)?;
        }
    }
    // Far deeper than any table: a reader that follows brackets must stop in time.
    one(&tall_or_wide(100_000, true), MAX_ROWS)?;
    one("(".repeat(100_000).as_bytes(), MAX_ROWS)?;
    for issued in MAX_NAME - 1..=MAX_NAME + 1 {
        one(format!("(issued {issued})\n").as_bytes(), 1)?;
        one(
            whole(&format!("(issued {issued})\n({issued} 0 8 rw)\n")).as_bytes(),
            1,
        )?;
        one(
            whole(&format!("(issued {issued})\n(1000000 0 8 rw)\n")).as_bytes(),
            0,
        )?;
    }
    Ok(cases)
}
