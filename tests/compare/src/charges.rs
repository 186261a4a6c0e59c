//! Card 10: charges, on any table and for any name.

use oracle::random::Random;
use oracle::{DOMAINS, Row};

use crate::agree::{self, Lent, Subject, same};
use crate::events::{TABLES, Tables, chain};
use crate::generate;
use crate::report::{Checked, Met, Report};

pub fn groups(report: &mut Report, subject: Subject) {
    for tables in &TABLES {
        report.group(&format!("charges on {}", tables.name), |random| {
            on_tables(random, subject, tables)
        });
    }
    report.group("charges of every number of holders", |_| {
        of_every_number(subject)
    });
    report.group("charges of every pair of holders", |_| {
        of_every_pair(subject)
    });
    report.group(
        "charges look at no domain's limits and at no bits",
        |random| on_nothing_else(random, subject),
    );
    report.met("every sort of charge was met", || {
        SORTS_MET.every_sort(&SORTS, 200)
    });
}

const SORTS: [&str; 7] = [
    "one holder",
    "several holders, and nothing left over",
    "several holders, and something left over",
    "more holders than addresses",
    "1",
    "4",
    "5",
];

static SORTS_MET: Met<7> = Met::none();

/// A charge, counted for what it came to.
fn charge(subject: Subject, lent: &Lent, name: u32) -> Checked {
    let [refusal, share, left] =
        agree::charge(subject, lent, name).map_err(|why| format!("{why}\n  {name} of {lent:?}"))?;
    let row = lent.rows.iter().find(|row| row.name == name);
    let row = row.filter(|_| refusal == 0);
    let among = row.map_or(0, |row| row.holders.count_ones());
    let length = row.map_or(0, |row| row.length);
    SORTS_MET.count([
        among == 1,
        among > 1 && left == 0 && share > 0,
        among > 1 && left > 0 && share > 0,
        among > length && length > 0,
        refusal == 1,
        refusal == 4,
        refusal == 5,
    ]);
    Ok(1)
}

/// Every live name of small tables and some of large ones, names that have ended or were not issued, and any.
fn on_tables(random: &mut Random, subject: Subject, tables: &Tables) -> Checked {
    let mut cases = 0;
    for _ in 0..tables.count / 2 {
        let lent = (tables.table)(random);
        let issued = lent.tally.issued;
        let live = oracle::live_rows(&lent.rows).iter().map(|row| row.name);
        let mut names: Vec<u32> = live.take(8).collect();
        names.extend([0, issued, issued.wrapping_add(1), random.number()]);
        names.push(generate::stray_name(random, issued));
        for name in names {
            cases += charge(subject, &lent, name)?;
        }
    }
    Ok(cases)
}

/// A root of so many addresses with these holders.
fn root(length: u32, maker: u32, holders: u64) -> Lent {
    let mut lent = Lent::empty(1);
    lent.rows[0] = Row {
        length,
        maker,
        holders,
        ..chain(1, 1)[0]
    };
    lent.tally.issued = 1;
    lent
}

const LENGTHS: [u32; 20] = [
    0,
    1,
    2,
    3,
    7,
    31,
    32,
    33,
    63,
    64,
    65,
    127,
    128,
    1_000,
    65_535,
    65_536,
    1 << 31,
    4_294_967_232,
    u32::MAX - 1,
    u32::MAX,
];

/// Lengths shared among 1 to 64 holders, the first and the last of the domains; the shares and what is left
/// over are the length again.
fn of_every_number(subject: Subject) -> Checked {
    let mut cases = 0;
    for among in 1..=DOMAINS {
        for (maker, holders) in [
            (0, u64::MAX >> (DOMAINS - among)),
            (63, u64::MAX << (DOMAINS - among)),
        ] {
            for length in LENGTHS {
                let lent = root(length, maker, holders);
                cases += charge(subject, &lent, 1)?;
                let [_, share, left] = agree::charge(subject, &lent, 1)?;
                let total = u64::from(share) * u64::from(among) + u64::from(left);
                same("all shares", u64::from(length), total)?;
                same("left over", true, left < among)?;
            }
        }
    }
    Ok(cases)
}

/// Each two domains, and each domain by itself.
fn of_every_pair(subject: Subject) -> Checked {
    let mut cases = 0;
    for one in 0..DOMAINS {
        for other in 0..DOMAINS {
            let lent = root(9, one, 1 << one | 1 << other);
            cases += charge(subject, &lent, 1)?;
        }
    }
    Ok(cases)
}

/// The same charge whatever is lent for limits and bits, which no charge is lent.
fn on_nothing_else(random: &mut Random, subject: Subject) -> Checked {
    let mut cases = 0;
    for _ in 0..500 {
        let shape = generate::Shape::partly_full(random, 8);
        let mut lent = generate::ordered(random, &shape);
        let name = generate::stray_name(random, lent.tally.issued);
        let first = agree::charge(subject, &lent, name)?;
        lent.limits = vec![u32::MAX; random.pick(&[1, 63, 64, 65])];
        lent.bits = generate::other_bits(random);
        same("charge", first, agree::charge(subject, &lent, name)?)?;
        cases += 1;
    }
    Ok(cases)
}
