//! Names dropped together: on lent tables, by domains that hold them and others, and beside single drops.

use interface::Event;
use oracle::random::Random;
use oracle::{MAX_GROUP, MAX_ROWS, Row};

use crate::acting::dropper;
use crate::agree::{self, Agreed, Lent, Subject, same, same_answer};
use crate::events::{TABLES, Tables, chain, roots};
use crate::generate::{self, Shape};
use crate::report::{Checked, Met, Report, check_few};

pub fn groups(report: &mut Report, subject: Subject) {
    for tables in &TABLES {
        let name = format!("names dropped together on {}", tables.name);
        report.group(&name, |random| on_tables(random, subject, tables));
    }
    report.group("names dropped together at every place", |random| {
        at_every_place(random, subject)
    });
    report.group("names dropped together beside single drops", |random| {
        beside_single_drops(random, subject)
    });
    report.met("every sort of names dropped together was met", || {
        SORTS_MET.every_sort(&SORTS, 50)
    });
}

/// Sorts of names that are dropped together, for what they meet.
const SORTS: [&str; 14] = [
    "allowed, one name",
    "allowed, a name and one below it",
    "allowed, two below the same parent",
    "allowed, two roots, and some stay",
    "allowed, 64 names",
    "refused by the first name alone",
    "refused by the last name alone",
    "refused by a name between allowed ones",
    "refused 5, though a later name is 4",
    "refused 4, though a later name is 5",
    "refused 13, no name",
    "refused 13, more than 64 rising names",
    "refused 13, though a name is live",
    "refused 13, and a name is refused too",
];

/// How often calls were of each sort.
static SORTS_MET: Met<14> = Met::none();

fn count_sorts(lent: &Lent, names: &[u32], answer: u64) {
    let (allowed, number) = (answer >> 32 == 0, answer >> 32);
    let row = |name: &u32| lent.rows.iter().find(|row| row.name == *name && *name != 0);
    let pairs = |holds: &dyn Fn(&Row, &Row) -> bool| {
        let rows: Vec<&Row> = names.iter().filter_map(row).collect();
        let later = |at: usize| rows[at + 1..].iter();
        (0..rows.len()).any(|at| later(at).any(|other| holds(rows[at], other)))
    };
    let unissued = |name: &u32| *name == 0 || *name > lent.tally.issued;
    let ended = |name: &u32| !unissued(name) && row(name).is_none();
    let live: Vec<bool> = names.iter().map(|name| row(name).is_some()).collect();
    let refused_at: Vec<usize> = (0..live.len()).filter(|at| !live[*at]).collect();
    let alone = names.len() > 1 && refused_at.len() == 1;
    let root = |row: &Row| row.parent == 0;
    let rising = names.windows(2).all(|pair| pair[0] < pair[1]);
    let roots = lent.rows.iter().filter(|row| row.name != 0 && root(row));
    SORTS_MET.count([
        allowed && names.len() == 1,
        allowed && pairs(&|one, other| other.parent == one.name),
        allowed && pairs(&|one, other| other.parent == one.parent && !root(one)),
        allowed && pairs(&|one, other| root(one) && root(other)) && roots.count() > names.len(),
        allowed && names.len() == MAX_GROUP,
        matches!(number, 4 | 5) && alone && refused_at[0] == 0,
        matches!(number, 4 | 5) && alone && refused_at[0] == names.len() - 1,
        matches!(number, 4 | 5) && alone && (1..names.len() - 1).contains(&refused_at[0]),
        number == 5 && names.iter().any(unissued),
        number == 4 && names.iter().any(ended),
        number == 13 && names.is_empty(),
        number == 13 && names.len() > MAX_GROUP && rising,
        number == 13 && live.contains(&true),
        number == 13 && !refused_at.is_empty(),
    ]);
}

/// Names dropped together, as [`agree::drop_all`], and counted for what they meet.
pub fn drop_all(
    subject: Subject,
    lent: &mut Lent,
    actor: u32,
    names: &[u32],
) -> Result<u64, String> {
    let before = lent.clone();
    let answer = agree::drop_all(subject, lent, actor, names)?;
    count_sorts(&before, names, answer);
    Ok(answer)
}

/// The same; on failure gives few names and few rows that still fail.
fn check_names(subject: Subject, lent: &mut Lent, actor: u32, names: &[u32]) -> Agreed {
    let before = lent.clone();
    let Err(why) = drop_all(subject, lent, actor, names) else {
        return Ok(());
    };
    let again = |names: &[u32]| {
        agree::check_rows(&before, |mut lent| {
            agree::drop_all(subject, &mut lent, actor, names).map(|_| ())
        })
    };
    check_few(names, again)
        .map_err(|(why, names)| format!("{why}\n  domain {actor}, names {names:?}"))?;
    Err(why)
}

/// Some names, one list after the other, on each of many tables.
fn on_tables(random: &mut Random, subject: Subject, tables: &Tables) -> Checked {
    let mut cases = 0;
    for _ in 0..tables.count / 2 {
        let mut lent = (tables.table)(random);
        for _ in 0..tables.events {
            let names = match random.one_in(6) {
                true => generate::bad_group(random, &lent),
                false => generate::group(random, &lent),
            };
            let actor = dropper(random, oracle::live_rows(&lent.rows), &names);
            check_names(subject, &mut lent, actor, &names)?;
            cases += 1;
        }
    }
    Ok(cases)
}

/// Lists of all lengths around the limits, from tables with room for them, whole and with one name
/// at each place that is ended, not issued, 0, the one before it again, or below the one before it.
fn at_every_place(random: &mut Random, subject: Subject) -> Checked {
    let mut cases = 0;
    for count in [0, 1, 2, 3, 5, 63, 64, 65, 66] {
        for rows in [roots(70, 8), chain(1, 64), tree(70), roots(MAX_ROWS, 8)] {
            let lent = with_gaps(random, rows);
            let live = oracle::live_rows(&lent.rows);
            let whole: Vec<u32> = live.iter().map(|row| row.name).take(count).collect();
            check_names(subject, &mut lent.clone(), 0, &whole)?;
            cases += 1 + with_one_changed(random, subject, &lent, &whole)?;
            cases += by_other_domains(subject, &lent, &whole)?;
        }
    }
    Ok(cases)
}

/// The same names made and held by other domains, dropped by one of them and by another.
fn by_other_domains(subject: Subject, lent: &Lent, names: &[u32]) -> Checked {
    let cases = [
        (5, u64::MAX, 63),
        (63, 1 << 63, 63),
        (63, 1 << 63, 62),
        (0, 1 << 32 | 1, 32),
    ];
    for (maker, holders, actor) in cases {
        let mut lent = lent.clone();
        for row in &mut lent.rows {
            row.maker = maker;
            row.holders = holders;
        }
        check_names(subject, &mut lent, actor, names)?;
    }
    Ok(cases.len() as u64)
}

fn with_one_changed(random: &mut Random, subject: Subject, lent: &Lent, whole: &[u32]) -> Checked {
    // Large tables take long, and a few places tell as much.
    let places: Vec<usize> = match lent.rows.len() > 100 {
        true => (0..whole.len().min(2)).collect(),
        false => (0..whole.len()).collect(),
    };
    let issued = lent.tally.issued;
    for at in &places {
        let last = if *at > 0 { whole[*at - 1] } else { 0 };
        let far = random.number();
        for other in [
            last + 1,
            issued + 1,
            0,
            last,
            last.saturating_sub(1),
            u32::MAX,
            far,
        ] {
            let mut names = whole.to_vec();
            names[*at] = other;
            check_names(subject, &mut lent.clone(), 0, &names)?;
        }
    }
    Ok(places.len() as u64 * 7)
}

/// A root with children, of which each has one child.
fn tree(rows: u32) -> Vec<Row> {
    let below = |name: u32, parent, depth| Row {
        name,
        parent,
        depth,
        ..chain(1, 1)[0]
    };
    let row = |name: u32| match name {
        1 => chain(1, 1)[0],
        _ if name.is_multiple_of(2) => below(name, 1, 2),
        _ => below(name, name - 1, 3),
    };
    (1..=rows).map(row).collect()
}

/// The rows with every name doubled, so that an ended one stands before each.
fn with_gaps(random: &mut Random, rows: Vec<Row>) -> Lent {
    let doubled = |row: Row| Row {
        name: row.name * 2,
        parent: row.parent * 2,
        ..row
    };
    let mut tally = generate::tally(random);
    tally.issued = rows.len() as u32 * 2 + 1;
    Lent::of(rows.into_iter().map(doubled).collect(), tally)
}

/// Names on tables in order. Refused lists are not counted.
fn beside_single_drops(random: &mut Random, subject: Subject) -> Checked {
    let mut cases = 0;
    while cases < 8_000 {
        let most_rows = random.pick(&[6, 16, 16, 90]);
        let shape = match random.one_in(3) {
            true => Shape::full(random, most_rows),
            false => Shape::partly_full(random, most_rows),
        };
        let lent = generate::ordered(random, &shape);
        let names = generate::group(random, &lent);
        let actor = dropper(random, oracle::live_rows(&lent.rows), &names);
        let same = as_single_drops(subject, &lent, actor, &names);
        cases += same.map_err(|why| format!("{why}\n  {lent:?}\n  {actor}, names {names:?}"))?;
    }
    Ok(cases)
}

fn drop_of(actor: u32, name: u32) -> Event {
    let kind = 5;
    Event {
        kind,
        name,
        actor,
        ..Event::default()
    }
}

/// A group leaves what single drops in falling order leave, but for the count of drops.
fn as_single_drops(subject: Subject, lent: &Lent, actor: u32, names: &[u32]) -> Checked {
    let mut together = lent.clone();
    let answer = drop_all(subject, &mut together, actor, names)?;
    if names.len() == 1 {
        // One name is the drop, refused ones included.
        let mut singly = lent.clone();
        same_answer(
            answer,
            agree::apply(subject, &mut singly, drop_of(actor, names[0]))?,
        )?;
        same("what is lent", &together, &singly)?;
    }
    if answer >> 32 != 0 {
        return Ok(0);
    }
    let mut singly = lent.clone();
    for name in names.iter().rev() {
        let drop = drop_of(actor, *name);
        same_answer(0, agree::apply(subject, &mut singly, drop)?)?;
    }
    let once = lent.tally.drops.saturating_add(1);
    same("drops", once, together.tally.drops)?;
    singly.tally.drops = once;
    same("what is lent", &together, &singly)?;
    Ok(1)
}
