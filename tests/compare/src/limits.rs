//! Card 10: sheets of limits of any length and content, for every call that is lent one.

use interface::Words;
use oracle::domain_traces::limits;
use oracle::random::Random;
use oracle::{DOMAINS, MAX_ROWS, Row, Span};

use crate::acting::{OTHER_COUNTS, mask_of};
use crate::agree::{self, Lent, Subject, halves, same};
use crate::edges::event;
use crate::events::{chain, roots};
use crate::generate;
use crate::many::{self, check_words};
use crate::report::{Checked, Report};

pub fn groups(report: &mut Report, subject: Subject) {
    report.group("limits of every other length", |random| {
        of_other_lengths(random, subject)
    });
    report.group("limits whose sums are near the rows", |_| {
        near_the_rows(subject)
    });
    report.group("limits whose sums are above 32 bits", |_| {
        above_32_bits(subject)
    });
    report.group("limits near what each domain made", |_| {
        near_what_is_made(subject)
    });
    report.group("limits of any numbers", |random| {
        of_any_numbers(random, subject)
    });
    report.group("limits on full tables of 1,024 rows", |_| {
        on_all_rows(subject)
    });
}

const SPAN: Span = Span {
    start: 0,
    length: 8,
};

/// A chain of domain 0 of so many rows, of which some are empty.
fn table(live: usize, rows: usize) -> Lent {
    let mut lent = Lent::empty(rows);
    lent.rows[..live].copy_from_slice(&chain(1, live));
    lent.tally.issued = live as u32;
    lent
}

/// Texts that are run, some of which are allowed where the limits are not refused.
const TEXTS: [&str; 7] = [
    "",
    "(read 1 0 8)\n(write 1 0 8)\n",
    "(create 8 8 rw)\n(create 16 8 rw)\n",
    "(trace 2)\n(as 1 (create 4 8 8 rw))\n",
    "(drop 1 2)\n",
    "(as 64 (drop 1))\n",
    "?",
];

/// Every call that is lent limits, where they are refused or not.
fn every_call(subject: Subject, lent: &Lent, is_refused: bool) -> Checked {
    let is_as_due = |answer: u64| same("refusal 1", is_refused, answer == 1 << 32);
    let mut cases = 0;
    for actor in [0, 1, 63, 64] {
        for kind in 0..=7 {
            let (holders_low, holders_high) = halves(mask_of(actor));
            let words = Words {
                kind,
                actor,
                holders_low,
                holders_high,
                ..event(1, 2, SPAN).into()
            };
            let answer = agree::apply_words(subject, &mut lent.clone(), &words, &[1, 2])?;
            is_as_due(answer)?;
            check_words(subject, lent, &words, &[1, 2])?;
            cases += 2;
        }
        for names in [&[][..], &[2, 1], &[1, 2], &[9]] {
            is_as_due(agree::drop_all(subject, &mut lent.clone(), actor, names)?)?;
            cases += 1;
        }
    }
    for text in TEXTS {
        is_as_due(agree::run(subject, &mut lent.clone(), text.as_bytes())?)?;
        cases += 1;
    }
    Ok(cases)
}

/// The same; says what was lent where it fails.
fn check(subject: Subject, lent: &Lent, is_refused: bool) -> Checked {
    every_call(subject, lent, is_refused).map_err(|why| format!("{why}\n  {lent:?}"))
}

/// Numbers of every other count, and of the right one, that are all the same.
fn of_other_lengths(random: &mut Random, subject: Subject) -> Checked {
    let mut cases = 0;
    let counts = (0..=70).chain(OTHER_COUNTS);
    for (count, number) in counts.flat_map(|count| [0, 1, u32::MAX].map(|number| (count, number))) {
        let mut lent = table(0, 64);
        lent.tally = generate::tally(random);
        lent.limits = vec![number; count];
        let is_refused = count != 0 && (count != 64 || number == u32::MAX);
        cases += check(subject, &lent, is_refused)?;
    }
    Ok(cases)
}

/// Each domain's limit, with another's, so that their sum is one less than the rows, as many, and one more.
fn near_the_rows(subject: Subject) -> Checked {
    let mut cases = 0;
    for rows in [0_usize, 1, 2, 5] {
        for one in 0..DOMAINS as usize {
            let other = (one + 31) % 64;
            for more in 0..=2 {
                for with_other in 0..=1 {
                    let sum = (rows + more).saturating_sub(1);
                    let first = sum.saturating_sub(with_other);
                    let mut lent = table(0, rows);
                    lent.limits = limits(&[(one, first as u32), (other, with_other as u32)]);
                    cases += check(subject, &lent, first + with_other > rows)?;
                }
            }
        }
    }
    Ok(cases)
}

/// Sums that are small in 32 bits, and the greatest.
fn above_32_bits(subject: Subject) -> Checked {
    let half = 1 << 31;
    let many = |count: usize, limit: u32| [vec![limit; count], vec![0; 64 - count]].concat();
    let all = [
        limits(&[(0, u32::MAX), (1, 1)]),
        limits(&[(62, u32::MAX), (63, 3)]),
        limits(&[(0, half), (63, half)]),
        limits(&[(5, half), (6, half), (7, 2)]),
        limits(&[(0, 3), (9, u32::MAX), (10, 1)]),
        limits(&[(0, u32::MAX)]),
        limits(&[(63, half)]),
        many(4, 1 << 30),
        many(16, 1 << 28),
        many(64, 1 << 26),
        many(64, 1 << 27),
        many(64, u32::MAX),
        many(64, half),
    ];
    let mut cases = 0;
    for limits in all {
        for (live, rows) in [(0, 0), (0, 4), (2, 4), (3, 3), (2, MAX_ROWS)] {
            let mut lent = table(live, rows);
            lent.limits.clone_from(&limits);
            cases += check(subject, &lent, true)?;
        }
    }
    Ok(cases)
}

/// Limits of one less than a domain made, as many, and one more, for each domain.
fn near_what_is_made(subject: Subject) -> Checked {
    let mut cases = 0;
    for maker in 0..DOMAINS {
        for (made, limit) in [(1, 0), (1, 1), (1, 2), (3, 2), (3, 3), (3, 4), (0, 0)] {
            let mut lent = table(made, 5);
            for row in &mut lent.rows[..made] {
                row.maker = maker;
                row.holders = mask_of(maker) | 3;
            }
            lent.limits = limits(&[(maker as usize, limit)]);
            cases += check(subject, &lent, made as u32 > limit)?;
        }
    }
    Ok(cases)
}

/// Limits of which some numbers are large, beside the oracle alone.
fn of_any_numbers(random: &mut Random, subject: Subject) -> Checked {
    let cases = 20_000;
    for _ in 0..cases {
        let shape = generate::Shape::partly_full(random, 10);
        let mut lent = generate::ordered(random, &shape);
        lent.limits = limits(&[]);
        for _ in 0..random.between(0, 4) {
            let domain = random.index(64);
            lent.limits[domain] = match random.one_in(2) {
                true => random.number(),
                false => random.below(5) as u32,
            };
        }
        let kind = random.pick(&many::KINDS);
        let words = Words {
            kind,
            actor: random.below(65) as u32,
            holders_low: u32::MAX,
            holders_high: u32::MAX,
            ..event(1, random.below(8) as u32, SPAN).into()
        };
        check_words(subject, &lent, &words, &[1, 2])?;
    }
    Ok(cases)
}

/// All rows, made by all domains in turn, with limits that are just enough, and where one is too low.
fn on_all_rows(subject: Subject) -> Checked {
    let mut lent = Lent::of(roots(MAX_ROWS, 8), Lent::empty(0).tally);
    lent.tally.issued = MAX_ROWS as u32;
    let made_in_turn = |(row, maker): (&mut Row, u32)| {
        row.maker = maker;
        row.holders = mask_of(maker);
    };
    let makers = (0..DOMAINS).cycle();
    lent.rows.iter_mut().zip(makers).for_each(made_in_turn);
    let mut cases = 0;
    for (changed, limit) in [(0, 16), (0, 15), (63, 15), (31, 17), (32, 0)] {
        lent.limits = vec![16; 64];
        lent.limits[changed] = limit;
        cases += check(subject, &lent, limit != 16)?;
    }
    Ok(cases)
}
