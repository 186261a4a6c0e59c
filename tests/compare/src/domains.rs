//! Card 10: domains and holders. Its traces, every number as the domain that acts and as the maker of a row,
//! masks with and without them, the places of refusals 17 and 18, and what events have met of all this.

use interface::{Event, Words};
use oracle::domain_traces::{self, limits};
use oracle::{DOMAINS, FRESH, Limits, MAX_NAME, Refused, Row, Span};

use crate::acting::{NO_DOMAINS, is_known, mask_of};
use crate::agree::{self, Lent, Subject, halves, same};
use crate::edges::event;
use crate::events::chain;
use crate::examples::{self, ROOM_FOR_ALL, Trace};
use crate::many::{self, check_words};
use crate::report::{Checked, Met, Report};

/// What capcheck is given, and prints.
const INPUT: &str = "\
(as 3 (create 0 64 rw 0000000000000009))
(borrow 1 0 8 rw raw)
(as 3 (write 1 0 8))
(as 3 (borrow 1 8 8 ro cell ffffffffffffffff))
(as 63 (read 3 8 8))
(as 3 (read 2 0 8))
";

const OUTPUT: &str = "\
(refused 17 6)
(issued 3)
(1 0 64 rw 3 0000000000000009 (2 0 8 rw raw 0 0000000000000001) (3 8 8 ro cell 3 ffffffffffffffff))
";

pub fn groups(report: &mut Report, subject: Subject) {
    for (name, steps, listing) in domain_traces::DOMAINS {
        report.group(name, |_| {
            let trace = |rows: &usize| Trace {
                rows: *rows,
                issued: 0,
                limits: &[],
                steps,
                listing,
            };
            in_both_spellings(subject, ROOM_FOR_ALL.iter().map(trace))
        });
    }
    for (name, rows, some, steps, listing) in domain_traces::LIMITS {
        let limits = &limits(some)[..];
        let trace = Trace {
            rows,
            issued: 0,
            limits,
            steps,
            listing,
        };
        report.group(name, |_| in_both_spellings(subject, [trace].into_iter()));
    }
    report.group("capcheck on domains", |_| {
        examples::capcheck(subject, INPUT, OUTPUT)
    });
    report.group("every number as the domain that acts", |_| {
        in_words(subject)
    });
    report.group("every number as the maker of a row", |_| in_rows(subject));
    report.group("the place of refusal 17", |_| place_of_17(subject));
    report.group("the place of refusal 18", |_| place_of_18(subject));
}

/// Behind all groups, for what they have met.
pub fn met(report: &mut Report) {
    report.met("every sort of domain was met", || {
        SORTS_MET.every_sort(&SORTS, LEAST)
    });
    report.met("every refusal of a domain was met", || {
        REFUSED_MET.every_sort(&REFUSED, LEAST)
    });
    report.met(
        "every sort of names that domains drop together was met",
        || DROPS_MET.every_sort(&DROPS, LEAST),
    );
    report.met("with limits 10 was never met", never_10);
}

fn in_both_spellings<'a>(subject: Subject, traces: impl Iterator<Item = Trace<'a>>) -> Checked {
    let mut cases = 0;
    for trace in traces {
        cases += examples::check_trace(subject, &trace)?;
        cases += examples::check_named(subject, &trace)?;
    }
    Ok(cases)
}

// ---- what is met

/// Sorts of events, for who acts and whose capabilities they meet.
const SORTS: [&str; 15] = [
    "allowed, by the maker of what it goes through",
    "allowed, by another holder",
    "allowed, a create by another domain than 0",
    "allowed, a borrow from what another domain made",
    "allowed, a borrow for holders that do not hold its parent",
    "allowed, with a mask of some that makes nothing",
    "refused 17, a borrow",
    "refused 17, a read",
    "refused 17, a write",
    "refused 17, a drop",
    "refused 17, outside the capability's span",
    "refused 18, a create",
    "refused 18, a borrow",
    "refused 18, with an empty row",
    "allowed, the last that a limit leaves",
];

static SORTS_MET: Met<15> = Met::none();

/// What is refused for its domains, and where nothing else is wrong.
const REFUSED: [&str; 10] = [
    "2, no domain acts, in an event that makes nothing",
    "2, no domain acts, in one that makes something",
    "2, a mask without its maker",
    "1, a maker that is no domain",
    "1, a mask without its maker",
    "1, a maker or a mask in an empty row",
    "1, limits of another length",
    "1, limits whose sum is above the rows",
    "1, the same, and in 32 bits it is not",
    "1, limits that the table exceeds",
];

static REFUSED_MET: Met<10> = Met::none();

/// Sorts of names that are dropped together.
const DROPS: [&str; 7] = [
    "allowed, by a domain that made none of them",
    "allowed, and what the domain does not hold goes along",
    "refused 17, the first name",
    "refused 17, a name behind ones that it holds",
    "refused 4 or 5, and it does not hold a later name",
    "refused 2, no domain",
    "refused 13, no domain",
];

static DROPS_MET: Met<7> = Met::none();

/// Refusals 18 and 10 of events with limits.
static LIMITED_MET: Met<2> = Met::none();

/// How often each sort must be met.
const LEAST: u64 = 200;

/// 'So with one 10 never occurs.'
fn never_10() -> Checked {
    match LIMITED_MET.counts() {
        [reached, 0] => Ok(reached),
        [reached, ten] => Err(format!("with limits, 18: {reached}, 10: {ten}")),
    }
}

/// The row of a name that lives.
fn find(lent: &Lent, name: u32) -> Option<&Row> {
    lent.rows.iter().find(|row| row.name == name && name != 0)
}

fn is_held(row: &Row, domain: u32) -> bool {
    row.holders & mask_of(domain) != 0
}

/// Counts an event for who acts, and for the limits.
pub fn count(before: &Lent, event: Event, verdict: Result<u32, Refused>) {
    if !before.limits.is_empty() {
        LIMITED_MET.count([verdict == Err(18), verdict == Err(10)]);
    }
    match verdict {
        Err(1) => count_disorder(before),
        Err(2) => count_unknown(event),
        Ok(_) | Err(17 | 18) => count_sorts(before, event, verdict),
        _ => {}
    }
}

fn count_sorts(before: &Lent, event: Event, verdict: Result<u32, Refused>) {
    let Event {
        kind,
        actor,
        holders,
        ..
    } = event;
    let user = find(before, event.name).filter(|_| matches!(kind, 2..=5));
    let [allowed, no_holder, reached] =
        [Ok(()), Err(17), Err(18)].map(|one| one == verdict.map(|_| ()));
    let is = |wanted: u8| kind == wanted;
    let user_is = |holds: fn(&Row, &Event) -> bool| user.is_some_and(|user| holds(user, &event));
    let its = before
        .rows
        .iter()
        .filter(|row| row.name != 0 && row.maker == actor);
    let limit = before.limits.get(actor as usize).copied();
    let is_last = limit == Some(its.count() as u32 + 1);
    SORTS_MET.count([
        allowed && user_is(|user, event| user.maker == event.actor),
        allowed && user_is(|user, event| user.maker != event.actor),
        allowed && is(1) && actor != 0,
        allowed && is(2) && user_is(|user, event| user.maker != event.actor),
        allowed && is(2) && user_is(|user, event| event.holders & !user.holders != 0),
        allowed && !is(1) && !is(2) && holders & mask_of(actor) == 0 && holders != 0,
        no_holder && is(2),
        no_holder && is(3),
        no_holder && is(4),
        no_holder && is(5),
        no_holder
            && !is(5)
            && user_is(|user, event| !agree::span_of(*event).is_inside(user.span())),
        reached && is(1),
        reached && is(2),
        reached && before.rows.last().is_some_and(|row| row.name == 0),
        allowed && (is(1) || is(2)) && is_last,
    ]);
}

fn count_refused(sort: usize, is_of_sort: bool) {
    let mut sorts = [false; 10];
    sorts[sort] = is_of_sort;
    REFUSED_MET.count(sorts);
}

/// Counts an event that is 2 in itself for its domains alone.
fn count_unknown(event: Event) {
    let known = Event {
        actor: 0,
        holders: 1,
        ..event
    };
    if is_known(event)
        || oracle::event_line(agree::oracle_act(known), agree::spelling_of(event)).is_none()
    {
        return;
    }
    let makes = matches!(event.kind, 1 | 2);
    match event.actor < DOMAINS {
        true => count_refused(2, makes),
        false => count_refused(usize::from(makes), true),
    }
}

/// Counts a table that is in order but for its domains, or refused for its limits alone.
fn count_disorder(lent: &Lent) {
    let issued = lent.tally.issued;
    if lent.bits.written().is_none() || lent.slots.states().is_none() {
        return;
    }
    if oracle::in_order(&lent.rows, issued) {
        return count_limits(lent);
    }
    let of_domain_0 = |row: &Row| {
        let is_live = row.name != 0;
        Row {
            maker: 0,
            holders: u64::from(is_live),
            ..*row
        }
    };
    let without: Vec<Row> = lent.rows.iter().map(of_domain_0).collect();
    if oracle::in_order(&without, issued) {
        let any = |holds: fn(&Row) -> bool| lent.rows.iter().any(holds);
        count_refused(3, any(|row| row.name != 0 && row.maker >= DOMAINS));
        count_refused(
            4,
            any(|row| row.name != 0 && row.maker < DOMAINS && !is_held(row, row.maker)),
        );
        count_refused(
            5,
            any(|row| row.name == 0 && (row.maker, row.holders) != (0, 0)),
        );
    }
}

/// Of a table that goes with its limits it is what a back goes to that does not fit.
fn count_limits(lent: &Lent) {
    if !Limits::lent(&lent.limits).is_refused(&lent.rows) {
        return;
    }
    let Limits::Each(limits) = Limits::lent(&lent.limits) else {
        return count_refused(6, !lent.limits.is_empty());
    };
    let rows = lent.rows.len() as u64;
    let sum: u64 = limits.values().sum();
    count_refused(7, sum > rows);
    count_refused(8, sum > rows && sum % (1 << 32) <= rows);
    count_refused(9, sum <= rows);
}

/// Counts names that are dropped together for who drops them.
pub fn count_drop(before: &Lent, actor: u32, names: &[u32], verdict: Result<u32, Refused>) {
    let rows: Vec<Option<&Row>> = names.iter().map(|name| find(before, *name)).collect();
    let held = |row: &&Row| is_held(row, actor);
    let first = rows.first().copied().flatten();
    let known: Vec<&Row> = rows.iter().copied().flatten().collect();
    let below = |row: &Row| names.contains(&row.parent) && !is_held(row, actor);
    DROPS_MET.count([
        verdict == Ok(0) && known.iter().all(|row| row.maker != actor),
        verdict == Ok(0) && before.rows.iter().any(below),
        verdict == Err(17) && !first.as_ref().is_some_and(held),
        verdict == Err(17) && first.as_ref().is_some_and(held),
        matches!(verdict, Err(4 | 5)) && known.iter().any(|row| !held(row)),
        verdict == Err(2),
        verdict == Err(13) && actor >= DOMAINS,
    ]);
}

// ---- every number

/// Masks with a domain and without it.
fn masks(domain: u32) -> [u64; 7] {
    let alone = mask_of(domain);
    [
        0,
        1,
        alone,
        !alone,
        u64::MAX,
        alone.rotate_left(32),
        alone | 1 << 40,
    ]
}

/// A row of a chain with this maker and these holders.
fn held(row: Row, maker: u32, holders: u64) -> Row {
    Row {
        maker,
        holders,
        ..row
    }
}

/// A root that domains 0 and 1 hold, what domain 1 borrowed from it for itself, another root that all hold and
/// 63 made, and an empty row.
fn three_makers() -> Lent {
    let mut lent = Lent::empty(4);
    let rows = chain(1, 2);
    lent.rows[0] = held(rows[0], 0, 3);
    lent.rows[1] = held(rows[1], 1, 2);
    lent.rows[2] = Row {
        name: 3,
        start: 8,
        ..held(rows[0], 63, u64::MAX)
    };
    lent.tally.issued = 3;
    lent
}

/// Every number as the domain that acts, in every event and in what is none, with each sort of mask, without
/// limits and with such as are reached.
fn in_words(subject: Subject) -> Checked {
    let free = three_makers();
    let mut full = free.clone();
    full.limits = limits(&[(0, 1), (1, 1), (2, 1), (63, 1)]);
    let mut cases = 0;
    for lent in [free, full] {
        for actor in (0..=66).chain(NO_DOMAINS) {
            for holders in masks(actor) {
                cases += by_domain(subject, &lent, actor, holders)?;
            }
        }
    }
    Ok(cases)
}

/// Every event through each name, and what is none.
fn by_domain(subject: Subject, lent: &Lent, actor: u32, holders: u64) -> Checked {
    let (holders_low, holders_high) = halves(holders);
    let mut cases = 0;
    for (kind, name) in many::KINDS
        .into_iter()
        .flat_map(|kind| [1, 2, 3].map(|name| (kind, name)))
    {
        let words = Words {
            kind,
            name,
            // Row 3 begins there.
            start: if name == 3 { 8 } else { 0 },
            length: 2,
            right: 2,
            actor,
            holders_low,
            holders_high,
            ..Words::default()
        };
        check_words(subject, lent, &words, &[1, 2])?;
        cases += 1;
    }
    Ok(cases)
}

/// Every number as the maker of each row, and of an empty one, with each sort of mask, for every call that
/// judges a table.
fn in_rows(subject: Subject) -> Checked {
    let mut cases = 0;
    for maker in (0..=66).chain(NO_DOMAINS) {
        for holders in masks(maker) {
            for at in 0..4 {
                let mut lent = three_makers();
                lent.rows[at] = held(lent.rows[at], maker, holders);
                cases += every_call(subject, &lent).map_err(|why| format!("{why}\n  {lent:?}"))?;
            }
        }
    }
    Ok(cases)
}

fn every_call(subject: Subject, lent: &Lent) -> Checked {
    let span = Span {
        start: 0,
        length: 8,
    };
    for kind in 1..=5 {
        agree::apply(subject, &mut lent.clone(), event(kind, 1, span))?;
    }
    agree::drop_all(subject, &mut lent.clone(), 1, &[1, 2])?;
    agree::run(subject, &mut lent.clone(), b"(as 1 (write 2 0 8))\n")?;
    agree::write_listing(subject, lent)?;
    agree::charge(subject, lent, 1)?;
    Ok(9)
}

// ---- the places of 17 and 18

/// What holds of an event, and the refusals in their order: the first that applies.
fn first_of(conditions: &[(u64, bool)]) -> u64 {
    let first = conditions.iter().find(|(_, applies)| *applies);
    first.map_or(0, |(number, _)| *number)
}

/// A marked root of domain 0, a read-only borrow of it, and 3, which has ended; nothing is written.
fn of_domain_0() -> Lent {
    let mut lent = Lent::empty(4);
    for (row, made) in lent.rows.iter_mut().zip(chain(1, 2)) {
        *row = Row {
            fresh: FRESH,
            ..made
        };
    }
    lent.rows[1].right = 1;
    lent.tally.issued = 3;
    lent
}

const SPANS: [(u32, u32); 7] = [
    (0, 8),
    (7, 1),
    (8, 0),
    (0, 9),
    (9, 0),
    (u32::MAX, 1),
    (u32::MAX, 2),
];

/// Every use with every name and span, by a holder, by another domain and by none.
fn place_of_17(subject: Subject) -> Checked {
    let mut cases = 0;
    for limits in [Vec::new(), limits(&[(0, 4)]), limits(&[(0, 1), (1, 3)])] {
        for (actor, name) in (0..5).flat_map(|name| [0, 1, 63, 64].map(|actor| (actor, name))) {
            for (start, length) in SPANS {
                for (kind, right) in [(2, 1), (2, 2), (3, 0), (4, 0), (5, 0)] {
                    let mut lent = of_domain_0();
                    lent.limits.clone_from(&limits);
                    let used = Event {
                        right,
                        actor,
                        holders: mask_of(actor) | 1 << 5,
                        ..event(kind, name, Span { start, length })
                    };
                    let answer = agree::apply(subject, &mut lent, used)?;
                    same("refusal", refusal_of_use(used, &limits), answer >> 32)
                        .map_err(|why| format!("{why}\n  {used:?}\n  limits {limits:?}"))?;
                    cases += 1;
                }
            }
        }
    }
    Ok(cases)
}

fn refusal_of_use(used: Event, limits: &[u32]) -> u64 {
    let span = agree::span_of(used);
    let needs_read_write = used.kind == 4 || (used.kind == 2 && used.right == 2);
    let has_span = used.kind != 5;
    first_of(&[
        (1, limits.first() == Some(&1)),
        (2, used.actor > 63),
        (3, has_span && !span.is_legal()),
        (4, used.name == 0 || used.name > 3),
        (5, used.name == 3),
        (17, used.actor != 0),
        (6, has_span && span.end() > 8),
        (7, used.name == 2 && needs_read_write),
        (16, used.kind == 3 && span.length > 0),
    ])
}

/// Creates and borrows of each sort where a limit is reached, where the table is full, and where neither is.
fn place_of_18(subject: Subject) -> Checked {
    let mut cases = 0;
    for (rows, limits) in [
        (3, Vec::new()),
        (2, Vec::new()),
        (3, limits(&[(0, 2), (1, 1)])),
        (2, limits(&[(0, 2)])),
        (3, limits(&[(0, 3)])),
    ] {
        for issued in [3, MAX_NAME] {
            let mut lent = of_domain_0();
            lent.rows.truncate(rows);
            lent.tally.issued = issued;
            lent.limits.clone_from(&limits);
            for made in made_in_many_ways() {
                let answer = agree::apply(subject, &mut lent.clone(), made)?;
                same("refusal", refusal_of_made(made, &lent), answer >> 32)
                    .map_err(|why| format!("{why}\n  {made:?}\n  {lent:?}"))?;
                cases += 1;
            }
        }
    }
    Ok(cases)
}

/// Creates and borrows, each with a right and a wrong actor, mask, right, name, span and written name.
fn made_in_many_ways() -> Vec<Event> {
    let mut all = Vec::new();
    for (kind, name) in [(1, 0), (2, 0), (2, 1), (2, 2), (2, 3), (2, 9)] {
        for (start, length) in [(0, 8), (0, 9), (u32::MAX, 2)] {
            for (actor, holders) in [(0, 1), (0, 2), (1, 2), (64, 1)] {
                for (right, written) in [(1, None), (2, Some(4)), (2, Some(5)), (3, None)] {
                    all.push(Event {
                        written,
                        right,
                        actor,
                        holders,
                        ..event(kind, name, Span { start, length })
                    });
                }
            }
        }
    }
    all
}

fn refusal_of_made(made: Event, lent: &Lent) -> u64 {
    let span = agree::span_of(made);
    let issued = lent.tally.issued;
    let borrows = made.kind == 2;
    let limit = lent.limits.get(made.actor as usize);
    // Domain 0 made two rows, and the others none.
    let its = if made.actor == 0 { 2 } else { 0 };
    first_of(&[
        (
            2,
            made.actor > 63 || made.holders & mask_of(made.actor) == 0 || made.right == 3,
        ),
        (3, !span.is_legal()),
        (4, borrows && (made.name == 0 || made.name > issued)),
        (5, borrows && made.name > 2),
        (17, borrows && made.actor != 0),
        (6, borrows && span.end() > 8),
        (7, borrows && made.name == 2 && made.right == 2),
        (9, issued == MAX_NAME),
        (12, made.written.is_some_and(|name| name != issued + 1)),
        (18, limit.is_some_and(|limit| its >= *limit)),
        (10, limit.is_none() && lent.rows.len() == 2),
    ])
}
