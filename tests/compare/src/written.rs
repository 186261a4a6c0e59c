//! Card 9: marks and written addresses. Spans at the edges of bytes and of the addresses that have a bit, by
//! single events, many in one call, runs and lists beside their history; the place of refusal 16; lent bytes
//! of other lengths; and marks in rows, words, lines and listings.

use interface::{Event, Words};
use oracle::random::Random;
use oracle::traces::whole;
use oracle::{
    FRESH, MAX_DEPTH, MAX_ROWS, Refused, Row, Span, Spelling, WRITABLE, WRITTEN_BYTES, Written,
};

use crate::acting::{self, is_known};
use crate::agree::{self, Agreed, Bits, By, Lent, LentSheet, Subject, same, same_answer};
use crate::edges::event;
use crate::events::chain;
use crate::generate::{self, NO_MARKS, OTHER_LENGTHS, Request, Shape, oracle_answer_by};
use crate::histories::check_list_by;
use crate::lines::check_text;
use crate::many::{self, check_words};
use crate::report::{Checked, Counts, Met, MetAnswers, Report, check_few};
use crate::sheets;
use crate::turning;

pub fn groups(report: &mut Report, subject: Subject) {
    report.group("written bits by every span over a few bytes", |_| {
        over_few_bytes(subject)
    });
    report.group("marked reads with one address not written", |_| {
        one_missing(subject)
    });
    report.group("written bits by every span across 65,536", |_| {
        across_the_last(subject)
    });
    report.group("written bits by spans of many bytes", |_| {
        over_many_bytes(subject)
    });
    report.group("the place of refusal 16", |_| in_its_place(subject));
    report.group("written bits of another length", |random| {
        of_other_lengths(random, subject)
    });
    report.group_saying("events on tables with marks", |random| {
        on_tables(random, subject)
    });
    report.group_saying("many events with marks in one call", |random| {
        in_one_call(random, subject)
    });
    report.group_saying("runs with marks", |random| in_runs(random, subject));
    report.group_saying("lists with marks and their history", |random| {
        in_lists(random, subject, &FEW_BYTES)
    });
    report.group_saying(
        "lists with marks over all written bits and their history",
        |random| in_lists(random, subject, &ALL_BYTES),
    );
    report.group("marks in rows", |_| in_rows(subject));
    report.group("marks of what is created in words", |_| in_words(subject));
    report.group("marks in lines", |_| in_lines(subject));
    report.group("marks in listings", |_| in_listings(subject));
    report.group("marks in the longest lines and listings", |_| {
        longest(subject)
    });
    report.met("every sort of written address was met", || {
        SORTS_MET.every_sort(&SORTS, LEAST)
    });
    report.met("every refusal of a mark was met", || {
        REFUSED_MET.every_sort(&REFUSED, LEAST)
    });
    report.met("every answer to an event with marks was met", || {
        ANSWERS_MET.every_answer_but(&agree::OF_TEXTS)
    });
}

// ---- what is met

/// Sorts of reads, writes and creates, for the bits that they meet.
const SORTS: [&str; 14] = [
    "a marked read of what is written",
    "a marked read of what is written, over more than one byte",
    "a marked read of length 0",
    "an unmarked read of what is not written",
    "refused 16, nothing written",
    "refused 16, all but the first address written",
    "refused 16, all but the last address written",
    "refused 16, the first address and the last written",
    "a marked write of what is not written",
    "a write that ends above 65,536",
    "a write above 65,536",
    "a marked create over what is written",
    "an unmarked create over what is written",
    "a create over what is written that ends above 65,536",
];

static SORTS_MET: Met<14> = Met::none();

/// Marks that are refused, and where nothing else is wrong.
const REFUSED: [&str; 7] = [
    "2, in a create",
    "3, a marked create that ends above 65,536",
    "1, above 1 in a live row",
    "1, another than the parent's",
    "1, in a row that ends above 65,536",
    "1, in an empty row",
    "1, bits of another length",
];

static REFUSED_MET: Met<7> = Met::none();

/// The answers to events of the groups here.
static ANSWERS_MET: MetAnswers = Met::none();

/// How often each sort must be met.
const LEAST: u64 = 200;

/// Counts an event for the marks and the bits that it meets.
pub fn count(before: &Lent, event: Event, verdict: Result<u32, Refused>) {
    let Some(written) = before.bits.written() else {
        if oracle::in_order(&before.rows, before.tally.issued) {
            REFUSED_MET.count([false, false, false, false, false, false, true]);
        }
        return;
    };
    match (event.kind, verdict) {
        (_, Err(1)) => count_disorder(before),
        (1, Err(2)) => count_refused(0, matches!(event.right, 1 | 2) && is_known(event)),
        (1, Err(3)) => count_refused(1, agree::span_of(event).is_legal()),
        (1 | 3 | 4, Ok(_)) | (3, Err(16)) => count_bits(before, written, event, verdict),
        _ => {}
    }
}

fn count_refused(sort: usize, is_of_sort: bool) {
    let mut sorts = [false; 7];
    sorts[sort] = is_of_sort;
    REFUSED_MET.count(sorts);
}

/// Counts a table that is in order but for its marks.
fn count_disorder(lent: &Lent) {
    let mut without = lent.rows.clone();
    without.iter_mut().for_each(|row| row.fresh = 0);
    if !oracle::in_order(&without, lent.tally.issued) {
        return;
    }
    let live = oracle::live_rows(&without).len();
    let (live, empty) = lent.rows.split_at(live);
    let is_marked = |row: &&Row| row.fresh == FRESH;
    let mark_of = |name: u32| {
        live.iter()
            .find(|row| row.name == name)
            .map(|row| row.fresh)
    };
    REFUSED_MET.count([
        false,
        false,
        live.iter().any(|row| row.fresh > FRESH),
        live.iter()
            .any(|row| mark_of(row.parent).is_some_and(|mark| mark != row.fresh)),
        live.iter()
            .filter(is_marked)
            .any(|row| ends_above(row.span())),
        empty.iter().any(|row| row.fresh != 0),
        false,
    ]);
}

fn ends_above(span: Span) -> bool {
    span.end() > u64::from(WRITABLE)
}

/// Whether some address of the span is written.
fn any_written(written: &Written, span: Span) -> bool {
    let mut without = written.clone();
    without.remove(span);
    without != *written
}

fn count_bits(before: &Lent, written: &Written, event: Event, verdict: Result<u32, Refused>) {
    let span = agree::span_of(event);
    let Span { start, length } = span;
    let user = before.rows.iter().find(|row| row.name == event.name);
    let [creates, reads, writes] = [1, 3, 4].map(|kind| event.kind == kind);
    let marked = match creates {
        true => u32::from(event.fresh) == FRESH,
        false => user.is_some_and(|user| user.fresh == FRESH),
    };
    let refused = verdict == Err(16);
    let read = reads && !refused;
    let has = |offset: u32, length: u32| {
        let start = start + offset;
        written.has_all(Span { start, length })
    };
    let all = has(0, length);
    let any = any_written(written, span);
    // Of one address the first is the last.
    let several = refused && length > 1;
    let over_bytes = length > 0 && u64::from(start) / 8 != (span.end() - 1) / 8;
    SORTS_MET.count([
        read && marked && length > 0,
        read && marked && over_bytes,
        read && marked && length == 0,
        read && !marked && !all,
        refused && !any,
        several && has(1, length - 1),
        several && has(0, length - 1),
        several && has(0, 1) && has(length - 1, 1),
        writes && marked && !all,
        writes && ends_above(span) && start < WRITABLE,
        writes && start >= WRITABLE,
        creates && marked && any,
        creates && !marked && any,
        creates && any && ends_above(span),
    ]);
}

/// None yet of the answers to requests of a group.
fn no_counts() -> Counts<1> {
    Counts::of([16], &ANSWERS_MET)
}

// ---- every span

fn span(start: u32, length: u32) -> Span {
    Span { start, length }
}

/// Every span inside another.
fn spans_inside(outer: Span) -> Vec<Span> {
    let from = |offset: u32| {
        let lengths = 0..=outer.length - offset;
        lengths.map(move |length| span(outer.start + offset, length))
    };
    (0..=outer.length).flat_map(from).collect()
}

fn create(span: Span, fresh: u32) -> Event {
    Event {
        fresh: fresh as u8,
        ..event(1, 0, span)
    }
}

/// A root with this mark, a borrow of all of it, and a row that is empty.
fn root_and_borrow(whole: Span, fresh: u32) -> Lent {
    let mut lent = Lent::empty(3);
    for (row, made) in lent.rows.iter_mut().zip(chain(1, 2)) {
        *row = Row {
            start: whole.start,
            length: whole.length,
            fresh,
            ..made
        };
    }
    lent.tally.issued = 2;
    lent
}

/// Bits of which none are set, all, every second, and all but those of the span or these alone.
fn patterns(whole: Span) -> Vec<Bits> {
    let mut inside = Written::default();
    inside.add(whole);
    let mut outside = Written::default();
    outside.add(span(0, WRITABLE));
    outside.remove(whole);
    let bytes = [0, 255, 0b0101_0101].map(|byte| Bits::lent(&[byte; WRITTEN_BYTES]));
    bytes
        .into_iter()
        .chain([inside, outside].map(Bits::Of))
        .collect()
}

/// One event on what is lent.
fn check_event(subject: Subject, lent: &Lent, event: Event) -> Result<u64, String> {
    let answer = agree::apply(subject, &mut lent.clone(), event).map_err(|why| {
        let Lent { rows, bits, .. } = lent;
        format!("{why}\n  rows {rows:?}\n  bits {bits:?}\n  {event:?}")
    })?;
    ANSWERS_MET.count_refusal(answer >> 32);
    Ok(answer)
}

/// A write, a read and both sorts of creates of a span, with each of the bits.
fn each_event(subject: Subject, whole: Span, fresh: u32, spans: &[Span]) -> Checked {
    let mut lent = root_and_borrow(whole, fresh);
    let mut cases = 0;
    for bits in patterns(whole) {
        lent.bits = bits;
        for span in spans {
            let span = *span;
            let events = [
                event(3, 1, span),
                event(3, 2, span),
                event(4, 1, span),
                event(4, 2, span),
                create(span, 0),
                create(span, FRESH),
            ];
            for event in events {
                check_event(subject, &lent, event)?;
                cases += 1;
            }
        }
    }
    Ok(cases)
}

/// The first bytes, bytes from within one on, and the last ones.
const BYTES: [Span; 3] = [
    Span {
        start: 0,
        length: 20,
    },
    Span {
        start: 4_093,
        length: 14,
    },
    Span {
        start: WRITABLE - 20,
        length: 20,
    },
];

fn over_few_bytes(subject: Subject) -> Checked {
    let mut cases = 0;
    for whole in BYTES {
        for fresh in [0, FRESH] {
            cases += each_event(subject, whole, fresh, &spans_inside(whole))?;
        }
    }
    Ok(cases)
}

/// Every span with every address not written, inside it and outside.
fn one_missing(subject: Subject) -> Checked {
    let mut cases = 0;
    for whole in BYTES {
        let mut lent = root_and_borrow(whole, FRESH);
        for missing in whole.start..whole.end() as u32 {
            let mut written = Written::default();
            written.add(whole);
            written.remove(span(missing, 1));
            lent.bits = Bits::Of(written);
            for read in spans_inside(whole) {
                let is_in = read.start <= missing && u64::from(missing) < read.end();
                let answer = check_event(subject, &lent, event(3, 2, read))?;
                same("refusal", if is_in { 16 } else { 0 }, answer >> 32)?;
                cases += 1;
            }
        }
    }
    Ok(cases)
}

/// Spans below, across and above the last address that has a bit. Nothing above is marked.
fn across_the_last(subject: Subject) -> Checked {
    let whole = span(WRITABLE - 10, 20);
    each_event(subject, whole, 0, &spans_inside(whole))
}

const LENGTHS: [u32; 18] = [
    0, 1, 7, 8, 9, 63, 64, 65, 127, 128, 129, 1_023, 1_024, 1_025, 4_096, 32_768, 65_527, 65_528,
];

/// Long spans from every bit of a byte on, and those up to the last address and of all.
fn over_many_bytes(subject: Subject) -> Checked {
    let from = |start: u32| LENGTHS.map(|length| span(start, length));
    let mut spans: Vec<Span> = (0..8).flat_map(from).collect();
    spans.extend((0..=9).map(|start| span(start, WRITABLE - start)));
    let whole = span(0, WRITABLE);
    let mut cases = each_event(subject, whole, FRESH, &spans)?;
    let mut lent = root_and_borrow(whole, FRESH);
    for read in spans.into_iter().filter(|span| span.length > 0) {
        let (first, last) = (read.start, read.end() as u32 - 1);
        let middle = first + read.length / 2;
        for missing in [first, last, middle, first.wrapping_sub(1), last + 1] {
            let mut written = Written::default();
            written.add(whole);
            written.remove(span(missing, 1));
            lent.bits = Bits::Of(written);
            check_event(subject, &lent, event(3, 2, read))?;
            cases += 1;
        }
    }
    Ok(cases)
}

// ---- the place of refusal 16

/// What a use is refused with where nothing is written, on a marked root 1, a read-only borrow 2 of it, and
/// 3, which has ended: the first of these that applies.
fn refusal_of_use(event: Event) -> u64 {
    let span = agree::span_of(event);
    let needs_read_write = event.kind == 4 || (event.kind == 2 && event.right == 2);
    let conditions = [
        (3, !span.is_legal()),
        (4, event.name == 0 || event.name > 3),
        (5, event.name == 3),
        (6, span.end() > 8),
        (7, event.name == 2 && needs_read_write),
        (16, event.kind == 3 && span.length > 0),
    ];
    let first = conditions.into_iter().find(|(_, applies)| *applies);
    first.map_or(0, |(number, _)| number)
}

/// Every use with every name and span, where each refusal up to 7 stands before 16.
fn in_its_place(subject: Subject) -> Checked {
    let mut lent = root_and_borrow(span(0, 8), FRESH);
    lent.rows[1].right = 1;
    lent.tally.issued = 3;
    let spans = [
        span(0, 8),
        span(7, 1),
        span(8, 0),
        span(0, 9),
        span(9, 0),
        span(u32::MAX, 1),
        span(u32::MAX, 2),
    ];
    let mut cases = 0;
    for name in 0..=4 {
        for span in spans {
            for (kind, right) in [(2, 1), (2, 2), (3, 0), (4, 0)] {
                let used = Event {
                    right,
                    ..event(kind, name, span)
                };
                let answer = check_event(subject, &lent, used)?;
                same("refusal", refusal_of_use(used), answer >> 32)
                    .map_err(|why| format!("{why}\n  {used:?}"))?;
                cases += 1;
            }
        }
    }
    Ok(cases + beside_others(subject)?)
}

/// Beside 1, and beside 8, which no read meets.
fn beside_others(subject: Subject) -> Checked {
    let depth = MAX_DEPTH as usize;
    let mut deep = Lent::of(chain(1, depth), Lent::empty(0).tally);
    deep.rows.iter_mut().for_each(|row| row.fresh = FRESH);
    deep.rows.push(Row::default());
    deep.tally.issued = MAX_DEPTH;
    let mut disordered = deep.clone();
    disordered.rows[1].fresh = 0;
    let mut short = deep.clone();
    short.bits = Bits::lent(&[0; WRITTEN_BYTES - 1]);
    let whole = span(0, 8);
    let cases = [
        (&deep, event(3, MAX_DEPTH, whole), 16),
        (&deep, event(2, MAX_DEPTH, whole), 8),
        (&deep, event(4, MAX_DEPTH, whole), 0),
        (&disordered, event(3, MAX_DEPTH, whole), 1),
        (&short, event(3, MAX_DEPTH, whole), 1),
    ];
    for (lent, event, expected) in cases {
        let answer = check_event(subject, lent, event)?;
        same("refusal", expected, answer >> 32)?;
    }
    Ok(cases.len() as u64)
}

// ---- other lengths

/// Bytes of every wrong number, and of the right one, for every call that is lent them.
fn of_other_lengths(random: &mut Random, subject: Subject) -> Checked {
    let mut cases = 0;
    for length in OTHER_LENGTHS.into_iter().chain([WRITTEN_BYTES]) {
        for byte in [0, 255, 0xA5] {
            let mut lent = root_and_borrow(span(0, 8), FRESH);
            lent.bits = Bits::lent(&vec![byte; length]);
            lent.tally = oracle::Tally {
                issued: 2,
                ..generate::tally(random)
            };
            let is_right = length == WRITTEN_BYTES;
            cases += every_call(subject, &lent, is_right)
                .map_err(|why| format!("{why}\n  {length} bytes {byte}"))?;
        }
    }
    Ok(cases)
}

/// Texts that are run, some of which are allowed where the bytes are right.
const TEXTS: [&str; 6] = [
    "",
    "(write 2 0 8)\n(read 2 0 8)\n",
    "(trace 2)\n(create 3 0 8 rw fresh)\n",
    "(drop 1 2)\n",
    "(drop 2 1)\n",
    "?",
];

fn every_call(subject: Subject, lent: &Lent, is_right: bool) -> Checked {
    let is_as_due = |answer: u64| same("refusal 1", !is_right, answer == 1 << 32);
    let mut cases = 0;
    for kind in many::KINDS {
        let words = Words {
            kind,
            ..event(1, 2, span(0, 8)).into()
        };
        let answer = agree::apply_words(subject, &mut lent.clone(), &words, &[1, 2])?;
        is_as_due(answer)?;
        check_words(subject, lent, &words, &[1, 2])?;
        cases += 2;
    }
    for names in [&[][..], &[2, 1], &[1, 2], &[9]] {
        is_as_due(agree::drop_all(subject, &mut lent.clone(), 0, names)?)?;
        cases += 1;
    }
    for text in TEXTS {
        is_as_due(agree::run(subject, &mut lent.clone(), text.as_bytes())?)?;
        cases += 1;
    }
    agree::write_listing(subject, lent)?;
    let listing = whole("(issued 1)\n(1 0 8 rw fresh)\n");
    agree::read_listing(subject, listing.as_bytes(), lent)?;
    Ok(cases + 2)
}

// ---- random requests

/// The addresses that requests are made over: from the first byte on, within bytes, up to the last
/// address that has a bit, across it, and above.
fn area(random: &mut Random) -> Span {
    random.pick(&[
        span(0, 24),
        span(5, 30),
        span(4_090, 21),
        span(WRITABLE - 24, 24),
        span(WRITABLE - 13, 13),
        span(WRITABLE - 12, 20),
        span(WRITABLE, 16),
    ])
}

/// A place from one address to another, in most cases at the edge of a byte or beside it.
fn place(random: &mut Random, first: u64, last: u64) -> u64 {
    let any = first + random.below(last - first + 1);
    match random.one_in(3) {
        true => any,
        false => (any / 8 * 8 + random.below(3)).saturating_sub(1),
    }
    .clamp(first, last)
}

/// A span inside another, from one such place to another.
fn inside(random: &mut Random, outer: Span) -> Span {
    let (first, last) = (u64::from(outer.start), outer.end());
    let [one, other] = [(); 2].map(|()| place(random, first, last));
    let (start, end) = (one.min(other), one.max(other));
    // A span of length 0 may start at the end of the last address, which is none.
    let start = start.min(u32::MAX.into());
    span(start as u32, (end - start) as u32)
}

/// A request that has something to do with what is lent.
fn request(random: &mut Random, lent: &Lent, area: Span, spelling: Spelling) -> Request {
    if random.one_in(24) {
        return Request::Single(turning::turn(random, lent));
    }
    let live = oracle::live_rows(&lent.rows);
    if random.one_in(30) {
        let names = match random.one_in(4) {
            true => generate::bad_group(random, lent),
            false => generate::group(random, lent),
        };
        return generate::with_dropper(random, lent, names);
    }
    let user = live.get(random.index(live.len().max(1))).copied();
    let kind = match user {
        None => 1,
        Some(_) => random.pick(&[1, 1, 2, 2, 3, 3, 3, 4, 4, 4, 5]),
    };
    let outer = match (kind, user) {
        (2..=4, Some(user)) => user.span(),
        _ => area,
    };
    let issued = lent.tally.issued;
    let written = match (spelling, random.one_in(15)) {
        (Spelling::Plain, _) => None,
        (_, true) => Some(generate::wrong_name(random, issued)),
        (_, false) => Some(issued.wrapping_add(1)),
    };
    let actor = acting::actor(random, live, user.as_ref().filter(|_| kind != 1));
    let event = Event {
        written,
        right: if random.one_in(8) { 1 } else { 2 },
        cap_kind: random.pick(&[0, 0, 1, 2]),
        fresh: random.pick(&[0, 1, 1]),
        actor,
        holders: acting::holders_asked(random, live, actor, kind),
        ..event(
            kind,
            user.map_or(0, |user| user.name),
            inside(random, outer),
        )
    };
    Request::Single(match random.one_in(12) {
        true => spoilt(random, event, issued),
        false => event,
    })
}

/// The event with something wrong, in most cases.
fn spoilt(random: &mut Random, event: Event, issued: u32) -> Event {
    let mut event = event;
    match random.below(6) {
        0 => event.name = generate::stray_name(random, issued),
        1 => event.start = event.start.wrapping_sub(1),
        2 => event.length = event.length.wrapping_add(random.pick(&[1, 8, u32::MAX])),
        3 => event.start = random.pick(&[u32::MAX, WRITABLE, WRITABLE + 1]),
        4 => event.fresh = random.pick(&[2, 3, 128, 255]),
        _ => event.right = random.pick(&[0, 3]),
    }
    event
}

/// A read of what was just written, or of one address more or less at either end.
fn read_back(random: &mut Random, write: Event) -> Event {
    let mut read = write;
    read.kind = 3;
    match random.below(4) {
        0 => read.length = read.length.saturating_add(1),
        1 => read.length = read.length.saturating_sub(1),
        2 if read.start > 0 => {
            read.start -= 1;
            read.length = read.length.saturating_add(1);
        }
        _ => {}
    }
    read
}

/// What requests are made for: the sheet, the addresses, and how names are written.
#[derive(Clone, Copy)]
struct Setting<'a> {
    by: By<'a>,
    area: Span,
    spelling: Spelling,
}

/// Requests made one after the other on what the last left. Reads follow some of the writes at once.
fn requests(random: &mut Random, setting: Setting, mut lent: Lent, count: usize) -> Vec<Request> {
    let Setting { by, area, spelling } = setting;
    let mut requests: Vec<Request> = Vec::with_capacity(count);
    while requests.len() < count {
        let next = match requests.last() {
            Some(Request::Single(write)) if write.kind == 4 && random.one_in(2) => {
                Request::Single(read_back(random, *write))
            }
            _ => request(random, &lent, area, spelling),
        };
        let mut after = lent.clone();
        let is_allowed = oracle_answer_by(by, &mut after, &next).is_ok();
        if is_allowed || random.one_in(2) {
            lent = after;
            requests.push(next);
        }
    }
    requests
}

/// No sheet, one by which creates leave what they touch, so that marked and unmarked share addresses, or any.
fn sheet(random: &mut Random) -> Option<LentSheet> {
    match random.below(4) {
        0 | 1 => None,
        2 => Some(LentSheet::of(&[random.pick(&[0, 0, 1]); 18])),
        _ => Some(sheets::sheet(random)),
    }
}

fn spelling(random: &mut Random) -> Spelling {
    match random.one_in(3) {
        true => Spelling::Named,
        false => Spelling::Plain,
    }
}

/// A table in order with rows over an area, some deep, some full, and some with all names issued.
fn table(random: &mut Random, area: Span) -> Lent {
    let deep = random.one_in(6);
    let live = if deep {
        random.between(60, 70)
    } else {
        random.between(0, 10)
    };
    let rows = live + random.index(5);
    let mut lent = generate::ordered(random, &Shape { rows, live, deep });
    let fresh = u32::from(!ends_above(area) && !random.one_in(4)) * FRESH;
    for row in lent.rows.iter_mut().filter(|row| row.name != 0) {
        row.start = area.start;
        row.length = area.length;
        row.fresh = fresh;
    }
    lent.bits = generate::bits(random, area);
    lent
}

fn on_tables(random: &mut Random, subject: Subject) -> Result<String, String> {
    let mut counts = no_counts();
    for _ in 0..5_000 {
        let (by, area, spelling) = (sheet(random), area(random), spelling(random));
        let by = by.as_ref();
        let mut lent = table(random, area);
        let setting = Setting { by, area, spelling };
        let requests = requests(random, setting, lent.clone(), 6);
        if random.one_in(20) {
            generate::disturb(random, &mut lent);
        }
        for request in requests {
            let answer = one_request(subject, by, &mut lent, &request)?;
            counts.count(answer >> 32);
        }
    }
    Ok(counts.to_string())
}

/// A request on what is lent; on failure gives few rows that still fail.
fn one_request(
    subject: Subject,
    by: By,
    lent: &mut Lent,
    request: &Request,
) -> Result<u64, String> {
    let take = |lent: &mut Lent| match request {
        Request::Single(event) => agree::apply_by(subject, by, lent, *event),
        Request::Group(actor, names) => agree::drop_all_by(subject, by, lent, *actor, names),
    };
    let before = lent.clone();
    take(lent).map_err(|why| {
        let again = agree::check_rows(&before, |mut lent| take(&mut lent).map(|_| ()));
        let sheet = agree::bytes_of(by);
        format!(
            "{}\n  {request:?}\n  sheet {sheet:?}",
            again.err().unwrap_or(why)
        )
    })
}

fn in_one_call(random: &mut Random, subject: Subject) -> Result<String, String> {
    let mut counts = no_counts();
    for _ in 0..4_000 {
        let (by, area, spelling) = (sheet(random), area(random), spelling(random));
        let by = by.as_ref();
        let mut lent = match random.one_in(2) {
            true => Lent::empty(random.between(1, 12)),
            false => table(random, area),
        };
        let setting = Setting { by, area, spelling };
        let count = random.between(0, 20);
        let requests = requests(random, setting, lent.clone(), count);
        if random.one_in(30) {
            lent.bits = generate::other_bits(random);
        }
        let (events, names) = sheets::words_of(&requests);
        let all = |events: &[Words]| {
            let lent = &mut lent.clone();
            agree::apply_all_by(subject, by, lent, events, &names, events.len())
        };
        check_few(&events, |events| all(events).map(|_| ())).map_err(|(why, events)| {
            let sheet = agree::bytes_of(by);
            format!("{why}\n  {lent:?}\n  {events:?}\n  names {names:?}\n  sheet {sheet:?}")
        })?;
        for [refusal, _] in all(&events)? {
            counts.count(refusal.into());
        }
    }
    Ok(counts.to_string())
}

/// Runs of lines, and what capcheck prints for those from empty tables.
fn in_runs(random: &mut Random, subject: Subject) -> Result<String, String> {
    let mut counts = no_counts();
    for _ in 0..6_000 {
        let (by, area, spelling) = (sheet(random), area(random), spelling(random));
        let by = by.as_ref();
        let is_empty = random.one_in(2);
        let mut lent = match is_empty {
            true => Lent::empty(random.between(4, 12)),
            false => table(random, area),
        };
        let setting = Setting { by, area, spelling };
        let count = random.between(0, 20);
        let mut text = text(random, setting, &lent, count);
        match random.below(12) {
            0 => generate::damage(random, &mut text),
            1 => lent.bits = generate::other_bits(random),
            _ => {}
        }
        let run = |text: &[u8]| agree::run_by(subject, by, &mut lent.clone(), text);
        check_text(&text, |text| run(text).map(|_| ()))
            .map_err(|why| format!("{why}\n  {lent:?}\n  sheet {:?}", agree::bytes_of(by)))?;
        counts.count(run(&text)? >> 32);
        if is_empty && by.is_none() {
            check_text(&text, |text| agree::check(subject, text))?;
        }
    }
    Ok(counts.to_string())
}

/// A text of whose lines all are allowed in some cases, and all but the last in most others.
fn text(random: &mut Random, setting: Setting, lent: &Lent, count: usize) -> Vec<u8> {
    let mut lent = lent.clone();
    let mut lines = Vec::new();
    let keeps_refused = random.one_in(2);
    for request in requests(random, setting, lent.clone(), count) {
        let mut after = lent.clone();
        let is_allowed = oracle_answer_by(setting.by, &mut after, &request).is_ok();
        if is_allowed || (keeps_refused && random.one_in(4)) {
            lent = after;
            lines.push(request);
        }
    }
    generate::requests_text(&lines, setting.spelling)
}

/// Lists of one sort: how many of them, how long, and over which addresses.
struct Lists {
    count: u64,
    length: usize,
    area: fn(&mut Random) -> Span,
}

const FEW_BYTES: Lists = Lists {
    count: 8_000,
    length: 20,
    area,
};

const ALL_BYTES: Lists = Lists {
    count: 800,
    length: 24,
    area: |random| random.pick(&[span(0, WRITABLE), span(3, WRITABLE), span(1, WRITABLE - 1)]),
};

fn in_lists(random: &mut Random, subject: Subject, lists: &Lists) -> Result<String, String> {
    let mut counts = no_counts();
    for _ in 0..lists.count {
        let by = sheet(random);
        let setting = Setting {
            by: by.as_ref(),
            area: (lists.area)(random),
            spelling: spelling(random),
        };
        let mut lent = Lent::empty(random.between(2, 14));
        lent.tally = generate::tally(random);
        let requests = requests(random, setting, lent.clone(), lists.length);
        check_list_by(subject, setting.by, &lent, &requests)
            .map_err(|why| format!("{why}\n  sheet {:?}", agree::bytes_of(setting.by)))?;
        for request in &requests {
            let answer = oracle_answer_by(setting.by, &mut lent, request);
            counts.count(answer.err().unwrap_or(0).into());
        }
    }
    Ok(counts.to_string())
}

// ---- marks in rows, words, lines and listings

/// A chain of so many rows with these marks, of so many addresses, and a row that is empty.
fn chain_of_marks(length: u32, marks: [u32; 3]) -> Lent {
    let mut rows = chain(1, 3);
    for (row, fresh) in rows.iter_mut().zip(marks) {
        row.length = length;
        row.fresh = fresh;
    }
    rows.push(Row::default());
    let mut lent = Lent::of(rows, Lent::empty(0).tally);
    lent.tally.issued = 3;
    lent
}

/// Every number as the mark of each row and of all of them, on both sides of the last address that has a
/// bit, for every call that judges a table.
fn in_rows(subject: Subject) -> Checked {
    let mut cases = 0;
    for number in [0, FRESH].into_iter().chain(NO_MARKS) {
        for other in [0, FRESH] {
            for length in [8, WRITABLE - 1, WRITABLE, WRITABLE + 1] {
                let mut all = vec![chain_of_marks(length, [number; 3])];
                for at in 0..4 {
                    let mut lent = chain_of_marks(length, [other; 3]);
                    lent.rows[at].fresh = number;
                    all.push(lent);
                }
                for lent in all {
                    cases += on_rows(subject, &lent).map_err(|why| format!("{why}\n  {lent:?}"))?;
                }
            }
        }
    }
    Ok(cases)
}

fn on_rows(subject: Subject, lent: &Lent) -> Checked {
    for kind in 1..=5 {
        check_event(subject, lent, event(kind, 2, span(0, 8)))?;
    }
    agree::drop_all(subject, &mut lent.clone(), 0, &[2, 3])?;
    agree::run(subject, &mut lent.clone(), b"(write 2 0 8)\n(read 3 0 8)\n")?;
    agree::write_listing(subject, lent)?;
    Ok(8)
}

/// Every number as the mark of what is created, in every event and in what is none.
fn in_words(subject: Subject) -> Checked {
    let mut lent = root_and_borrow(span(0, 8), FRESH);
    lent.bits = Bits::lent(&[0b0011_1100; WRITTEN_BYTES]);
    let mut cases = 0;
    for kind in many::KINDS {
        for fresh in (0..=255).chain(NO_MARKS) {
            for (right, named, start) in [(1, 0, 2), (2, 1, 0), (3, 0, 2), (2, 0, WRITABLE)] {
                let words = Words {
                    kind,
                    name: 2,
                    start,
                    length: 1,
                    right,
                    named,
                    written: 3,
                    fresh,
                    holders_low: 1,
                    ..Words::default()
                };
                check_words(subject, &lent, &words, &[1, 2, 3])?;
                cases += 1;
            }
        }
    }
    Ok(cases)
}

/// What may stand in the place of a mark: right, doubled, with kinds on either side, nearly one, or another
/// word.
const WORDS: [&str; 28] = [
    "",
    " fresh",
    " fresh fresh",
    " raw fresh",
    " cell fresh",
    " fresh raw",
    " fresh cell",
    " raw",
    " cell",
    "fresh",
    " ",
    "  fresh",
    " fresh ",
    "\tfresh",
    " fres",
    " freshh",
    " refresh",
    " Fresh",
    " FRESH",
    " frehs",
    " f",
    " 0",
    " 1",
    " 2",
    " rw",
    " (fresh)",
    " (fresh",
    " fresh)",
];

/// Lines with a place for a mark, and with places where none may stand.
const LINES: [&str; 18] = [
    "(create 0 8 rw{})\n",
    "(create 0 8 ro{})\n",
    "(create 1 0 8 rw{})\n",
    "(create 65528 8 rw{})\n",
    "(create 65528 9 rw{})\n",
    "(create 4294967295 4294967295 ro{})\n",
    "(create 0 8{} rw)\n",
    "(create 0 8{})\n",
    "(create{} 0 8 rw)\n",
    "({}create 0 8 rw)\n",
    "(create 0 8 rw){}\n",
    "(create 0 8 rw)\n{}",
    "(create 0 8 rw fresh{})\n",
    "(borrow 1 0 8 rw{})\n",
    "(borrow 2 1 0 8 rw{})\n",
    "(read 1 0 8{})\n",
    "(write 1 0 8{})\n",
    "(drop 1{})\n",
];

/// Every word in every place.
fn in_places(texts: &[impl AsRef<str>], check: impl Fn(&[u8]) -> Agreed) -> Checked {
    for text in texts {
        for word in WORDS {
            check_text(text.as_ref().replace("{}", word).as_bytes(), &check)?;
        }
    }
    Ok((texts.len() * WORDS.len()) as u64)
}

fn in_lines(subject: Subject) -> Checked {
    in_places(&LINES, |text| {
        agree::read_both(subject, text)?;
        for first in [
            "",
            "(create 0 64 rw fresh)\n",
            "(trace 2)\n",
            "(trace 2)\n(create 1 0 64 rw fresh)\n",
        ] {
            let text = [first.as_bytes(), text].concat();
            agree::run(subject, &mut Lent::empty(3), &text)?;
            agree::check(subject, &text)?;
        }
        Ok(())
    })
}

/// The same for listings, in which each row is of domain 0 alone. In the last ones every place has the same
/// word.
const LISTINGS: [&str; 17] = [
    "(issued 1)\n(1 0 64 rw{})\n",
    "(issued 1)\n(1 0 64 ro{})\n",
    "(issued 1)\n(1 65528 8 rw{})\n",
    "(issued 1)\n(1 65528 9 rw{})\n",
    "(issued 1)\n(1 65536 0 rw{})\n",
    "(issued 2)\n(1 0 64 rw (2 0 8 rw{}))\n",
    "(issued 2)\n(1 0 64 rw fresh (2 0 8 rw{}))\n",
    "(issued 2)\n(1 0 64 rw{} (2 0 8 rw fresh))\n",
    "(issued 2)\n(1 0 64 rw{})\n(2 0 64 rw fresh)\n",
    "(issued 1)\n(1 0 64{} rw)\n",
    "(issued 1)\n(1 0 64{})\n",
    "(issued 1)\n({}1 0 64 rw)\n",
    "(issued 1)\n(1 0 64 rw){}\n",
    "(issued 1{})\n(1 0 64 rw)\n",
    "(issued 2)\n(1 0 64 rw{} (2 0 8 rw{}))\n",
    "(issued 3)\n(1 0 64 rw{} (2 0 8 rw cell{} (3 0 4 ro raw{})))\n",
    "(issued 3)\n(1 0 64 rw{} (2 0 8 rw{}) (3 0 8 rw{}))\n",
];

/// Listings are read into rows beside bits that are not theirs, which stay.
fn in_listings(subject: Subject) -> Checked {
    in_places(&LISTINGS.map(whole), |text| {
        for bits in [0, 255].map(|byte| Bits::lent(&[byte; WRITTEN_BYTES])) {
            let mut lent = Lent::empty(3);
            lent.bits = bits;
            agree::read_listing(subject, text, &lent)?;
        }
        agree::read_listing(subject, text, &Lent::empty(1))
    })
}

/// The longest lines of marked creates, and a marked table of the longest listing: each is shorter than
/// without marks.
fn longest(subject: Subject) -> Checked {
    let create = Event {
        actor: 63,
        holders: u64::MAX,
        ..create(span(u32::MAX, u32::MAX), FRESH)
    };
    let written = Some(u32::MAX);
    for (length, event) in [(65, create), (76, Event { written, ..create })] {
        agree::write_event(subject, event)?;
        let mut line = vec![0; length];
        same_answer(length as u64, subject.write_event(event, &mut line))?;
        agree::read_line(subject, &line, agree::spelling_of(event))?;
    }
    let last = oracle::MAX_NAME;
    let first = last - MAX_ROWS as u32 + 1;
    let row = |name: u32| Row {
        name,
        parent: if name == first { 0 } else { first },
        start: 10_000,
        length: 10_000,
        right: 2,
        depth: if name == first { 1 } else { 2 },
        kind: if name == first { 0 } else { 2 },
        fresh: FRESH,
        maker: 10,
        holders: u64::MAX,
    };
    let mut lent = Lent::of((first..=last).map(row).collect(), Lent::empty(0).tally);
    lent.tally.issued = last;
    let text = oracle::listing(&lent.rows, last);
    agree::write_listing(subject, &lent)?;
    agree::read_listing(subject, text.as_bytes(), &lent)?;
    Ok(4)
}
