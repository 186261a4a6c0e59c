//! Many events in one call, and events word by word: the words that no caller means, and the places of
//! names in a list.

use interface::{AnswerWords, DROP_ALL, Words};
use oracle::random::Random;
use oracle::{MAX_GROUP, MAX_ROWS, Spelling};

use crate::agree::{self, Agreed, Asked, Lent, Subject, asked};
use crate::events::{TABLES, Tables, chain};
use crate::generate::{self, Request, Shape};
use crate::lines::check_text;
use crate::report::{Checked, Met, Report, check_few};

pub fn groups(report: &mut Report, subject: Subject) {
    for tables in &TABLES {
        report.group(&format!("many events on {}", tables.name), |random| {
            on_tables(random, subject, tables)
        });
    }
    report.group("many events on no rows", |random| {
        on_no_rows(random, subject)
    });
    report.group("long lists of many events", |random| {
        long_lists(random, subject)
    });
    report.group("many events and every number of answers", |random| {
        every_room(random, subject)
    });
    report.group("names at every place of a list", |_| {
        at_every_place(subject)
    });
    report.group("kinds, rights and names in words", |_| edges(subject));
    report.group("lines of words written", |random| written(random, subject));
    report.group("lines read by any number for their spelling", |random| {
        read(random, subject, 0)
    });
    report.group("the same of damaged lines", |random| {
        read(random, subject, 2)
    });
    report.met("every sort of many events was met", || {
        SORTS_MET.every_sort(&SORTS, 50)
    });
}

/// Sorts of calls with many events, for what they meet.
const SORTS: [&str; 30] = [
    "a refused event between allowed ones",
    "allowed, names within the list",
    "refused 5, names that an allowed event before it has in the list too",
    "refused 13, names past the end of the list",
    "refused 13, names whose end is above 32 bits and within the list without the rest",
    "refused 13, no names within the list",
    "refused 13, more than 64 names within the list",
    "refused 4 or 5, names within the list",
    "allowed, a name is written",
    "refused 12",
    "refused 2, a kind above a byte whose last byte is known",
    "refused 2, a kind of 0 or from 7 to 255",
    "refused 2, a right above a byte whose last byte is known",
    "allowed, what is borrowed has a kind",
    "refused 2, a kind of what is borrowed above a byte whose last byte is known",
    "allowed, another event with a number that is no kind",
    "allowed, what is created is marked",
    "refused 2, a mark above a byte whose last byte is known",
    "allowed, another event with a number that is no mark",
    "refused 16",
    "bits of another length, two events or more",
    "allowed, a number above 1 says that a name is written",
    "refused 12, a number above a byte whose last byte is 0 says so",
    "every event allowed, two or more",
    "not in order, two events or more",
    "no rows",
    "more rows than there may be",
    "fewer answers than events",
    "more answers than events",
    "no events",
];

/// How often calls were of each sort.
static SORTS_MET: Met<30> = Met::none();

/// Events, and the list in which their names stand.
#[derive(Clone, Debug)]
struct Many {
    events: Vec<Words>,
    names: Vec<u32>,
}

fn count_sorts(lent: &Lent, many: &Many, room: usize, answers: &[AnswerWords]) {
    let Many { events, names } = many;
    let taken: Vec<(&Words, AnswerWords)> = events.iter().zip(answers.iter().copied()).collect();
    let any = |holds: &dyn Fn(&Words, u32) -> bool| {
        taken.iter().any(|(words, answer)| holds(words, answer[0]))
    };
    let allowed: Vec<bool> = answers.iter().map(|answer| answer[0] == 0).collect();
    let first = allowed.iter().position(|allowed| *allowed);
    let last = allowed.iter().rposition(|allowed| *allowed);
    let between = first.zip(last).map(|(first, last)| &allowed[first..=last]);
    let end = |words: &Words| u64::from(words.start) + u64::from(words.length);
    let count = names.len() as u64;
    let is_group = |words: &Words| words.kind == DROP_ALL;
    let is_within = |words: &Words| is_group(words) && end(words) <= count;
    let inner = |words: &Words| is_within(words) && words.start > 0 && end(words) < count;
    let makes = |words: &Words| words.kind == 1 || words.kind == 2;
    let shares = |one: &Words, other: &Words| {
        let overlap = u64::from(one.start) < end(other) && u64::from(other.start) < end(one);
        is_within(one) && is_within(other) && overlap
    };
    let shared = taken.iter().enumerate().any(|(at, (words, answer))| {
        let shares_it =
            |(other, answer): &(&Words, AnswerWords)| answer[0] == 0 && shares(words, other);
        answer[0] == 5 && taken[..at].iter().any(shares_it)
    });
    let disordered = any(&|_, refusal| refusal == 1);
    let last_byte = |number: u32| number > 255 && matches!(number & 255, 1..=6);
    let last_right = |number: u32| number > 255 && matches!(number & 255, 1 | 2);
    let last_kind = |number: u32| number > 255 && number & 255 <= 2;
    let last_mark = |number: u32| number > 255 && number & 255 <= 1;
    let borrows = |words: &Words| words.kind == 2;
    let creates = |words: &Words| words.kind == 1;
    let is_known_right = |words: &Words| matches!(words.right, 1 | 2);
    SORTS_MET.count([
        between.is_some_and(|between| between.contains(&false)),
        any(&|words, refusal| refusal == 0 && inner(words)),
        shared,
        any(&|words, refusal| refusal == 13 && is_group(words) && end(words) > count),
        any(&|words, refusal| {
            let wrapped = u64::from(words.start.wrapping_add(words.length));
            refusal == 13 && is_group(words) && end(words) > u64::from(u32::MAX) && wrapped <= count
        }),
        any(&|words, refusal| refusal == 13 && is_within(words) && words.length == 0),
        any(&|words, refusal| {
            refusal == 13 && is_within(words) && words.length as usize > MAX_GROUP
        }),
        any(&|words, refusal| matches!(refusal, 4 | 5) && inner(words)),
        any(&|words, refusal| refusal == 0 && makes(words) && words.named != 0),
        any(&|_, refusal| refusal == 12),
        any(&|words, refusal| refusal == 2 && last_byte(words.kind)),
        any(&|words, refusal| refusal == 2 && matches!(words.kind, 0 | 7..=255)),
        any(&|words, refusal| refusal == 2 && makes(words) && last_right(words.right)),
        any(&|words, refusal| refusal == 0 && borrows(words) && words.cap_kind != 0),
        any(&|words, refusal| {
            refusal == 2 && borrows(words) && is_known_right(words) && last_kind(words.cap_kind)
        }),
        any(&|words, refusal| refusal == 0 && !borrows(words) && words.cap_kind > 2),
        any(&|words, refusal| refusal == 0 && creates(words) && words.fresh == 1),
        any(&|words, refusal| {
            refusal == 2 && creates(words) && is_known_right(words) && last_mark(words.fresh)
        }),
        any(&|words, refusal| refusal == 0 && !creates(words) && words.fresh > 1),
        any(&|_, refusal| refusal == 16),
        lent.bits.written().is_none() && answers.len() > 1,
        any(&|words, refusal| refusal == 0 && makes(words) && words.named > 1),
        any(&|words, refusal| refusal == 12 && words.named > 255 && words.named & 255 == 0),
        allowed.len() > 1 && !allowed.contains(&false),
        disordered && answers.len() > 1,
        lent.rows.is_empty(),
        lent.rows.len() > MAX_ROWS,
        room < events.len(),
        room > events.len(),
        events.is_empty(),
    ]);
}

/// Numbers that say that a name is written.
const NAMED: [u32; 8] = [1, 2, 3, 255, 256, 65_536, 1 << 31, u32::MAX];

/// Kinds: the known ones, and others of which some end in the byte of a known one.
pub const KINDS: [u32; 24] = [
    0,
    1,
    2,
    3,
    4,
    5,
    6,
    7,
    8,
    128,
    255,
    256,
    257,
    258,
    259,
    260,
    261,
    262,
    65_537,
    65_542,
    1 << 31,
    (1 << 31) + 1,
    u32::MAX - 1,
    u32::MAX,
];

/// The same of rights.
const RIGHTS: [u32; 14] = [
    0,
    1,
    2,
    3,
    4,
    128,
    255,
    256,
    257,
    258,
    65_538,
    (1 << 31) + 1,
    (1 << 31) + 2,
    u32::MAX,
];

/// Words of an event, with anything in those that its kind lacks.
fn words_of_event(random: &mut Random, event: interface::Event) -> Words {
    let mut words = Words::from(event);
    if words.named != 0 && random.one_in(2) {
        words.named = random.pick(&NAMED);
    }
    if !matches!(words.kind, 1 | 2) {
        words.named = random.pick(&[0, 1, 7, 256, u32::MAX]);
        words.written = random.number();
        words.right = random.pick(&RIGHTS);
    }
    if words.kind != 2 && random.one_in(2) {
        words.cap_kind = random.number();
    }
    if words.kind != 1 && random.one_in(2) {
        words.fresh = random.number();
    }
    match random.below(64) {
        0 | 1 => words.kind = random.pick(&KINDS),
        2 => words.kind |= 1 << random.between(8, 31),
        3 | 4 => words.right = random.pick(&RIGHTS),
        5 => words.right |= 1 << random.between(8, 31),
        6..=9 => words.written = random.number(),
        10 | 11 => words.cap_kind = random.pick(&generate::NO_KINDS),
        12 => words.cap_kind |= 1 << random.between(8, 31),
        13 | 14 => words.fresh = random.pick(&generate::NO_MARKS),
        15 | 16 => words.fresh |= 1 << random.between(8, 31),
        17 => words.actor |= 1 << random.between(6, 31),
        18 => words.holders_low ^= 1 << random.below(32),
        19 => words.holders_high ^= 1 << random.below(32),
        20 => (words.holders_low, words.holders_high) = (words.holders_high, words.holders_low),
        _ => {}
    }
    words
}

/// The place of names in the list, which gets them where they are not in it yet, or at times again.
fn place(random: &mut Random, list: &mut Vec<u32>, names: &[u32]) -> Words {
    let in_list = match names.is_empty() || random.one_in(3) {
        true => None,
        false => list.windows(names.len()).position(|part| part == names),
    };
    let start = in_list.unwrap_or_else(|| {
        // Others stand between, so that no place is right by chance.
        for _ in 0..random.below(3) {
            list.push(random.number());
        }
        list.extend(names);
        list.len() - names.len()
    });
    Words {
        name: random.number(),
        right: random.number(),
        named: random.pick(&[0, 1, u32::MAX]),
        written: random.number(),
        cap_kind: random.number(),
        fresh: random.number(),
        holders_low: random.number(),
        holders_high: random.number(),
        ..Words::drop_all(start as u32, names.len() as u32)
    }
}

/// Places that a list of so many names does not have, or at which it has no names.
fn misplaced(random: &mut Random, count: u32, words: Words) -> Words {
    let length = words.length.max(1);
    let (start, length) = match random.below(8) {
        0 => ((count + 1).saturating_sub(length), length),
        1 => (count, length),
        2 => (count + 1, 0),
        3 => (random.below(u64::from(count) + 1) as u32, 0),
        4 => (u32::MAX, length),
        5 => (words.start, u32::MAX - random.below(3) as u32),
        // The end comes back into the list where it is cut at 32 bits.
        6 => (
            u32::MAX - length + 1,
            length + random.below(u64::from(count) + 1) as u32,
        ),
        _ => (1 << 31, 1 << 31),
    };
    Words {
        start,
        length,
        ..words
    }
}

/// Events that follow each other from what is lent, with those above among them.
fn many(random: &mut Random, lent: &Lent, count: usize) -> Many {
    let spelling = match random.one_in(2) {
        true => Spelling::Plain,
        false => Spelling::Named,
    };
    let requests = generate::requests(random, lent.clone(), count, spelling);
    let mut names = Vec::new();
    let mut events: Vec<Words> = Vec::with_capacity(count);
    for request in requests {
        events.push(match request {
            Request::Single(event) => {
                let written = event.written.filter(|_| !random.one_in(5));
                words_of_event(random, interface::Event { written, ..event })
            }
            Request::Group(actor, group) => Words {
                actor,
                ..place(random, &mut names, &group)
            },
        });
    }
    for _ in 0..random.below(3) {
        names.push(random.number());
    }
    let mut before = None;
    for words in events.iter_mut().filter(|words| words.kind == DROP_ALL) {
        match (random.below(12), before) {
            (0 | 1, _) => *words = misplaced(random, names.len() as u32, *words),
            // A part of the names that an event before it has.
            (2, Some((start, length))) => {
                words.start = start;
                words.length = random.between(1, length as usize) as u32;
            }
            _ if words.length > 0 => before = Some((words.start, words.length)),
            _ => {}
        }
    }
    Many { events, names }
}

/// How many answers are lent for so many events: as many in most cases.
fn room(random: &mut Random, count: usize) -> usize {
    match random.below(6) {
        0 => random.index(count + 1),
        1 => count + random.between(1, 4),
        _ => count,
    }
}

/// The events in one call; on failure gives few of them and few rows that still fail.
fn check_many(subject: Subject, lent: &Lent, many: &Many, room: usize) -> Agreed {
    let Many { events, names } = many;
    let Err(why) = agree::apply_all(subject, &mut lent.clone(), events, names, room)
        .map(|answers| count_sorts(lent, many, room, &answers))
    else {
        return Ok(());
    };
    let again = |events: &[Words]| {
        agree::check_rows(lent, |mut lent| {
            agree::apply_all(subject, &mut lent, events, names, room).map(|_| ())
        })
    };
    check_few(events, again).map_err(|(why, events)| {
        format!("{why}\n  events {events:?}\n  names {names:?}\n  {room} answers")
    })?;
    Err(why)
}

fn on_table(random: &mut Random, subject: Subject, lent: &Lent, count: usize) -> Checked {
    let many = many(random, lent, count);
    let room = room(random, count);
    check_many(subject, lent, &many, room)?;
    Ok(count as u64)
}

/// Some events in one call on each of many tables.
fn on_tables(random: &mut Random, subject: Subject, tables: &Tables) -> Checked {
    let mut cases = 0;
    for _ in 0..tables.count / 2 {
        let lent = (tables.table)(random);
        let count = random.between(0, tables.events + 3);
        cases += on_table(random, subject, &lent, count)?;
    }
    Ok(cases)
}

fn on_no_rows(random: &mut Random, subject: Subject) -> Checked {
    let mut cases = 0;
    for _ in 0..1_000 {
        let mut lent = Lent::empty(0);
        lent.tally = generate::tally(random);
        lent.tally.issued = random.pick(&[0, 0, 5, 999_999, 1_000_000, 1_000_001]);
        cases += on_table(random, subject, &lent, 5)?;
    }
    Ok(cases)
}

/// Calls with so many events that rows come free and are filled again and again.
fn long_lists(random: &mut Random, subject: Subject) -> Checked {
    let mut cases = 0;
    for _ in 0..60 {
        let rows = random.between(1, 40);
        let shape = Shape::partly_full(random, rows);
        let lent = generate::ordered(random, &shape);
        let count = random.between(100, 400);
        cases += on_table(random, subject, &lent, count)?;
    }
    Ok(cases)
}

/// Each number of answers from none to more than there are events.
fn every_room(random: &mut Random, subject: Subject) -> Checked {
    let mut cases = 0;
    for _ in 0..300 {
        let shape = Shape::partly_full(random, 10);
        let mut lent = generate::ordered(random, &shape);
        if random.one_in(6) {
            generate::disturb(random, &mut lent);
        }
        let count = random.between(0, 6);
        let many = many(random, &lent, count);
        for room in 0..=count + 2 {
            check_many(subject, &lent, &many, room)?;
            cases += 1;
        }
    }
    Ok(cases)
}

/// One event by itself, in a call of many, and as a line.
pub fn check_words(subject: Subject, lent: &Lent, words: &Words, names: &[u32]) -> Agreed {
    let one = [*words];
    let outcome = agree::apply_all(subject, &mut lent.clone(), &one, names, 1)
        .and_then(|_| agree::write_words(subject, words, names));
    outcome.map_err(|why| format!("{why}\n  {lent:?}\n  {words:?}\n  names {names:?}"))
}

/// Every start and length over a short list and over one of more than 64 names, and those above 32 bits.
fn at_every_place(subject: Subject) -> Checked {
    let long: Vec<u32> = (1..=70).collect();
    let lists = [&[][..], &[3], &[1, 2, 4], &[2, 3, 1, 2, 5], &long];
    let mut lent = Lent::empty(8);
    lent.rows[..5].copy_from_slice(&chain(1, 5));
    lent.tally.issued = 5;
    let mut cases = 0;
    for names in lists {
        let count = names.len() as u32;
        let far = [u32::MAX - 1, u32::MAX, 1 << 31, 1 << 16];
        let step = if count > 10 { 7 } else { 1 };
        let near = (0..count + 3).step_by(step);
        let limits = [63, 64, 65, 66];
        let numbers: Vec<u32> = near.chain(far).chain(limits).collect();
        for start in &numbers {
            for length in &numbers {
                check_words(subject, &lent, &Words::drop_all(*start, *length), names)?;
                cases += 1;
            }
        }
    }
    Ok(cases)
}

/// Every kind with every right, and every number that says whether a name is written with a right name
/// and wrong ones, on a table in order and on one that is not.
fn edges(subject: Subject) -> Checked {
    let mut lent = Lent::empty(4);
    lent.rows[..2].copy_from_slice(&chain(1, 2));
    lent.tally.issued = 2;
    let mut disordered = lent.clone();
    disordered.rows.swap(0, 1);
    let mut cases = 0;
    for kind in KINDS {
        for right in RIGHTS {
            for named in NAMED.iter().copied().chain([0]) {
                for written in [0, 3, 4] {
                    let words = Words {
                        kind,
                        name: 1,
                        start: 0,
                        length: 2,
                        right,
                        named,
                        written,
                        holders_low: 1,
                        ..Words::default()
                    };
                    check_words(subject, &lent, &words, &[1, 2])?;
                    cases += 1;
                }
            }
            let words = Words {
                kind,
                right,
                ..Words::drop_all(0, 1)
            };
            check_words(subject, &disordered, &words, &[1])?;
            cases += 1;
        }
    }
    Ok(cases)
}

/// The lines of events that follow each other, as words.
fn written(random: &mut Random, subject: Subject) -> Checked {
    let mut lines = 0;
    while lines < 8_000 {
        let shape = Shape::partly_full(random, 12);
        let lent = generate::ordered(random, &shape);
        let Many { events, names } = many(random, &lent, 8);
        for words in &events {
            agree::write_words(subject, words, &names)
                .map_err(|why| format!("{why}\n  {words:?}\n  names {names:?}"))?;
            lines += 1;
        }
    }
    Ok(lines)
}

/// The line of words, if they have one.
fn line_of(words: &Words, names: &[u32]) -> Option<String> {
    match asked(words, names) {
        Asked::Names(actor, names) => oracle::drop_line(actor, names),
        Asked::Act(act) => {
            let spelling = match words.named {
                0 => Spelling::Plain,
                _ => Spelling::Named,
            };
            oracle::event_line(act, spelling)
        }
    }
}

/// Lines of both sorts and both spellings, damaged up to so many times, each read by every number.
fn read(random: &mut Random, subject: Subject, damages: usize) -> Checked {
    let mut cases = 0;
    while cases < 60_000 {
        let shape = Shape::partly_full(random, 12);
        let lent = generate::ordered(random, &shape);
        let Many { events, names } = many(random, &lent, 8);
        for line in events.iter().filter_map(|words| line_of(words, &names)) {
            let mut line = line.into_bytes();
            for _ in 0..damages.min(random.between(1, 2)) {
                generate::damage(random, &mut line);
            }
            for named in NAMED.iter().copied().chain([0]) {
                check_text(&line, |line| agree::read_line_as(subject, line, named))?;
                cases += 1;
            }
        }
    }
    Ok(cases)
}
