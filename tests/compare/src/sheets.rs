//! Card 7: events by conflict sheets. Its traces, small trees by sheets of few results, lists of requests
//! beside their history, lent tables, many events in one call, and runs.

use std::array;

use interface::{Event, SHEET_PLACES, Words};
use oracle::random::Random;
use oracle::{
    CELL, Combination, MAX_ROWS, Outcome, RAW, REFERENCE, Refused, Row, Span, Spelling,
    combinations, traces,
};

use crate::acting;
use crate::agree::{self, Agreed, Lent, LentSheet, Subject, oracle_act, same};
use crate::events::{TABLES, Tables};
use crate::generate::{self, Request, Shape};
use crate::histories::check_list_by;
use crate::kinds::{self, Node, for_trees};
use crate::lines::check_text;
use crate::report::{Checked, Met, MetAnswers, Report, check_few};
use crate::turning;

/// How many sheets there are, each with a list of its own.
const LISTS: u64 = 100_000;

pub fn groups(report: &mut Report, subject: Subject) {
    for (name, text, steps, listing) in traces::SHEETS {
        report.group(name, |_| by_hand(subject, text, steps, listing));
    }
    report.group("card 6's traces by its sheet, lent", |_| {
        card_6_traces(subject)
    });
    report.group("lists by card 6's sheet, lent and not", |random| {
        card_6_lists(random, subject)
    });
    for rows in 2..=4 {
        report.group(
            &format!("every tree of {rows} kinds by sheets of one other result"),
            |_| for_trees(rows, |tree| by_one_other(subject, tree)),
        );
    }
    report.group("lists by random sheets and their history", |random| {
        lists(random, subject)
    });
    for tables in &TABLES {
        report.group(&format!("events by sheets on {}", tables.name), |random| {
            on_tables(random, subject, tables)
        });
    }
    report.group("many events by sheets in one call", |random| {
        in_one_call(random, subject)
    });
    report.group("runs by sheets", |random| in_runs(random, subject));
    report.met("every combination and result was met", || {
        every_sort(&STRIKES_MET, LEAST)
    });
    report.met("every kind and result of a create was met", || {
        every_sort(&CREATES_MET, LEAST)
    });
    report.met("every sort of lent sheet was met", || {
        SHEETS_MET.every_sort(&SHEETS, LEAST)
    });
    report.met("every answer to an event by a sheet was met", || {
        ANSWERS_MET.every_answer_but(&agree::OF_TEXTS)
    });
}

/// The answers to events by sheets.
pub static ANSWERS_MET: MetAnswers = Met::none();

/// How often accesses had each combination and result, and the result alone is what was left by it.
static STRIKES_MET: Met<54> = Met::none();

/// The same of creates, by the kind and the result alone.
static CREATES_MET: Met<9> = Met::none();

/// How often each must be met.
const LEAST: u64 = 500;

/// Sorts of sheets, as they are lent with events that strike.
const SHEETS: [&str; 6] = [
    "no byte",
    "fewer than 18",
    "18",
    "more than 18",
    "struck by a result above 2",
    "struck by a result behind the last byte",
];

static SHEETS_MET: Met<6> = Met::none();

/// The sorts of strikes: a combination and a result, and of creates a kind and a result.
fn every_sort<const SORTS: usize>(met: &Met<SORTS>, least: u64) -> Checked {
    let outcomes = [Outcome::Keep, Outcome::Lower, Outcome::End];
    let name = |sort: usize| match SORTS {
        54 => format!("{:?} {:?}", combinations()[sort / 3], outcomes[sort % 3]),
        _ => format!("kind {} {:?}", sort / 3, outcomes[sort % 3]),
    };
    let names: [String; SORTS] = array::from_fn(name);
    met.every_sort(&names.each_ref().map(String::as_str), least)
}

/// The row of a name among rows that rise.
fn find(lent: &Lent, name: u32) -> Option<&Row> {
    let live = oracle::live_rows(&lent.rows);
    let at = live.binary_search_by_key(&name, |row| row.name).ok()?;
    Some(&live[at])
}

/// Counts an event for what it strikes.
pub fn count(
    by: &LentSheet,
    before: &Lent,
    after: &Lent,
    event: Event,
    verdict: Result<u32, Refused>,
) {
    if verdict.is_err() {
        return;
    }
    let live = oracle::live_rows(&before.rows);
    for (name, combination) in oracle::strikes(live, oracle_act(event).event) {
        let outcome = by.sheet.outcome(combination);
        if let Some(row) = find(before, name)
            && shows(row, outcome, after)
        {
            count_strike(by, event, combination, outcome);
        }
    }
}

/// Whether what was left of a row is the result by which it was struck, and is not by an ancestor's.
fn shows(row: &Row, outcome: Outcome, after: &Lent) -> bool {
    let left = find(after, row.name);
    let parent = find(after, row.parent);
    let is_root = row.parent == 0;
    let is_writable = |row: &Row| row.right == 2;
    is_writable(row)
        && match outcome {
            Outcome::Keep => left.is_some_and(is_writable),
            Outcome::Lower => {
                left.is_some_and(|left| !is_writable(left))
                    && (is_root || parent.is_some_and(is_writable))
            }
            Outcome::End => left.is_none() && (is_root || parent.is_some()),
        }
}

fn count_strike(by: &LentSheet, event: Event, combination: Combination, outcome: Outcome) {
    let is_it = |one: &Combination| *one == combination;
    let place = combinations().iter().position(is_it).unwrap_or(0);
    let sort = place * 3 + outcome as usize;
    STRIKES_MET.count(array::from_fn(|one| one == sort));
    if event.kind == 1 {
        let sort = combination.0 as usize * 3 + outcome as usize;
        CREATES_MET.count(array::from_fn(|one| one == sort));
    }
    let count = by.bytes.len();
    SHEETS_MET.count([
        count == 0,
        count > 0 && count < SHEET_PLACES,
        count == SHEET_PLACES,
        count > SHEET_PLACES,
        by.bytes.get(place).is_some_and(|byte| *byte > 2),
        count > 0 && place >= count,
    ]);
}

/// Numbers that are the end in a sheet, of which some have the low bits of another result.
const ENDS: [u8; 8] = [2, 3, 4, 16, 128, 129, 254, 255];

/// The bytes of a lent sheet: mostly 18 results, at times other numbers or another count.
pub fn sheet(random: &mut Random) -> LentSheet {
    // Where most are the end, little lives on.
    let weights = random.pick(&[
        [1, 1, 1],
        [4, 1, 1],
        [2, 2, 1],
        [1, 4, 1],
        [6, 0, 1],
        [1, 1, 4],
    ]);
    let count = match random.below(8) {
        0 => random.between(0, 25),
        _ => SHEET_PLACES,
    };
    let odd_ends = random.one_in(6);
    let bytes: Vec<u8> = (0..count)
        .map(|_| match result(random, weights) {
            2 if odd_ends => random.pick(&ENDS),
            result => result,
        })
        .collect();
    LentSheet::of(&bytes)
}

/// A result, each as likely as its weight says.
fn result(random: &mut Random, weights: [u64; 3]) -> u8 {
    let [keep, lower, _] = weights;
    match random.below(weights.iter().sum()) {
        at if at < keep => 0,
        at if at < keep + lower => 1,
        _ => 2,
    }
}

/// The few addresses that requests are made over.
pub fn area(random: &mut Random) -> Span {
    Span {
        start: random.pick(&[0, 0, 4_093, 65_532, u32::MAX - 7]),
        length: 8,
    }
}

/// A request on what is lent, over few addresses, or at times a mark or a back.
pub fn turning_request(
    random: &mut Random,
    lent: &Lent,
    area: Span,
    spelling: Spelling,
) -> Request {
    match random.one_in(40) {
        true => Request::Single(turning::turn(random, lent)),
        false => request(random, lent, area, spelling),
    }
}

/// A request on what is lent, over few addresses, that neither marks nor goes back.
pub fn request(random: &mut Random, lent: &Lent, area: Span, spelling: Spelling) -> Request {
    let live = oracle::live_rows(&lent.rows);
    if random.one_in(24) {
        let names = match random.one_in(4) {
            true => generate::bad_group(random, lent),
            false => generate::group(random, lent),
        };
        return generate::with_dropper(random, lent, names);
    }
    let user = live.get(random.index(live.len().max(1))).copied();
    let kind = match live.len() {
        0 => 1,
        // Trees come before what strikes them.
        1..=4 if !random.one_in(4) => 2,
        _ => random.pick(&[1, 2, 2, 2, 2, 3, 3, 3, 3, 4, 4, 4, 4, 5]),
    };
    let outer = match (kind, user) {
        (2..=4, Some(user)) => user.span(),
        _ => area,
    };
    let span = match random.one_in(2) {
        true => outer,
        false => generate::inside(random, outer),
    };
    let issued = lent.tally.issued;
    let written = match (spelling, random.one_in(12)) {
        (Spelling::Plain, _) => None,
        (_, true) => Some(generate::wrong_name(random, issued)),
        (_, false) => Some(issued.wrapping_add(1)),
    };
    let actor = acting::actor(random, live, user.as_ref().filter(|_| kind != 1));
    let event = Event {
        kind,
        written,
        name: user.map_or(0, |user| user.name),
        start: span.start,
        length: span.length,
        right: if random.one_in(8) { 1 } else { 2 },
        cap_kind: random.pick(&[REFERENCE, REFERENCE, RAW, CELL]) as u8,
        fresh: random.pick(&[0, 0, 0, 1]),
        actor,
        holders: acting::holders_asked(random, live, actor, kind),
    };
    Request::Single(match random.one_in(16) {
        true => spoilt(random, event, issued),
        false => event,
    })
}

/// The event with something wrong, in most cases.
fn spoilt(random: &mut Random, event: Event, issued: u32) -> Event {
    match random.below(8) {
        0 | 1 => Event {
            name: generate::stray_name(random, issued),
            ..event
        },
        2 => Event {
            start: random.number(),
            ..event
        },
        3 => Event {
            length: random.number(),
            ..event
        },
        4 => Event {
            right: random.pick(&[0, 3, 255]),
            ..event
        },
        5 => Event {
            cap_kind: random.pick(&[3, 4, 255]),
            ..event
        },
        6 => Event {
            fresh: random.pick(&[2, 3, 255]),
            ..event
        },
        _ => Event {
            kind: random.pick(&[0, 9, 255]),
            ..event
        },
    }
}

fn oracle_answer(by: &LentSheet, lent: &mut Lent, request: &Request) -> Result<u32, Refused> {
    generate::oracle_answer_by(Some(by), lent, request)
}

/// Requests made one after the other on what the last left by the sheet, most of them allowed.
pub fn requests(
    random: &mut Random,
    by: &LentSheet,
    mut lent: Lent,
    count: usize,
    spelling: Spelling,
) -> Vec<Request> {
    let area = area(random);
    let mut requests = Vec::with_capacity(count);
    for _ in 0..count {
        let mut next = turning_request(random, &lent, area, spelling);
        let mut after = lent.clone();
        let mut tries = random.below(3);
        while oracle_answer(by, &mut after, &next).is_err() && tries > 0 {
            next = turning_request(random, &lent, area, spelling);
            after = lent.clone();
            tries -= 1;
        }
        lent = after;
        requests.push(next);
    }
    requests
}

fn spelling(random: &mut Random) -> Spelling {
    match random.one_in(4) {
        true => Spelling::Named,
        false => Spelling::Plain,
    }
}

/// Lists of 10 to 30 requests from empty tables, each by a sheet of its own.
fn lists(random: &mut Random, subject: Subject) -> Checked {
    for _ in 0..LISTS {
        let by = sheet(random);
        let mut lent = Lent::empty(match random.below(500) {
            0 => MAX_ROWS + 1,
            1..=50 => random.between(0, 5),
            _ => random.between(6, 14),
        });
        lent.tally = generate::tally(random);
        let (count, spelling) = (random.between(10, 30), spelling(random));
        let requests = requests(random, &by, lent.clone(), count, spelling);
        check_list_by(subject, Some(&by), &lent, &requests)
            .map_err(|why| format!("{why}\n  sheet {:?}", by.bytes))?;
    }
    Ok(LISTS)
}

/// Events one after the other on each of many tables, by one sheet or by several in turn.
fn on_tables(random: &mut Random, subject: Subject, tables: &Tables) -> Checked {
    let mut cases = 0;
    for _ in 0..tables.count / 2 {
        let mut by = sheet(random);
        let mut lent = (tables.table)(random);
        let spelling = spelling(random);
        for event in generate::events(random, lent.clone(), tables.events, spelling) {
            if random.one_in(3) {
                by = sheet(random);
            }
            let answer = check_event(subject, &by, &mut lent, event)?;
            ANSWERS_MET.count_refusal(answer >> 32);
            cases += 1;
        }
    }
    Ok(cases)
}

/// An event; on failure gives few rows that still fail.
fn check_event(
    subject: Subject,
    by: &LentSheet,
    lent: &mut Lent,
    event: Event,
) -> Result<u64, String> {
    let before = lent.clone();
    agree::apply_by(subject, Some(by), lent, event).map_err(|why| {
        let again = agree::check_rows(&before, |mut lent| {
            agree::apply_by(subject, Some(by), &mut lent, event).map(|_| ())
        });
        let why = again.err().unwrap_or(why);
        format!("{why}\n  {event:?}\n  sheet {:?}", by.bytes)
    })
}

/// A table in which trees have kinds and spans touch, or an empty one.
fn table(random: &mut Random) -> Lent {
    let live = random.between(2, 14);
    let rows = live + random.index(6);
    match random.below(4) {
        0 => Lent::empty(rows),
        1 => {
            let shape = Shape::partly_full(random, 16);
            generate::ordered(random, &shape)
        }
        _ => generate::crowded(random, rows, live),
    }
}

/// Requests as words, and the list in which the names of groups stand.
pub fn words_of(requests: &[Request]) -> (Vec<Words>, Vec<u32>) {
    let mut names = Vec::new();
    let mut events = Vec::with_capacity(requests.len());
    for request in requests {
        events.push(match request {
            Request::Single(event) => Words::from(*event),
            Request::Group(actor, group) => {
                names.extend(group);
                let start = names.len() - group.len();
                Words {
                    actor: *actor,
                    ..Words::drop_all(start as u32, group.len() as u32)
                }
            }
        });
    }
    (events, names)
}

/// Many events in one call beside one call for each.
fn in_one_call(random: &mut Random, subject: Subject) -> Checked {
    let mut cases = 0;
    for _ in 0..8_000 {
        let by = sheet(random);
        let mut lent = table(random);
        let (count, spelling) = (random.between(0, 14), spelling(random));
        let requests = requests(random, &by, lent.clone(), count, spelling);
        if random.one_in(20) {
            generate::disturb(random, &mut lent);
        }
        let (events, names) = words_of(&requests);
        let room = match random.one_in(6) {
            true => random.between(0, count + 2),
            false => count,
        };
        let again = |events: &[Words]| {
            let mut lent = lent.clone();
            agree::apply_all_by(subject, Some(&by), &mut lent, events, &names, room).map(|_| ())
        };
        check_few(&events, again).map_err(|(why, events)| {
            let LentSheet { bytes, .. } = &by;
            format!("{why}\n  {lent:?}\n  {events:?}\n  names {names:?}\n  sheet {bytes:?}")
        })?;
        cases += count as u64;
    }
    Ok(cases)
}

/// Runs of lines, of which all are allowed in most cases.
fn in_runs(random: &mut Random, subject: Subject) -> Checked {
    let mut runs = 0;
    for _ in 0..8_000 {
        let by = sheet(random);
        let mut lent = table(random);
        let (count, spelling) = (random.between(0, 14), spelling(random));
        let requests = requests(random, &by, lent.clone(), count, spelling);
        let mut allowed = lent.clone();
        let is_allowed = |request: &&Request| {
            let mut after = allowed.clone();
            let verdict = oracle_answer(&by, &mut after, request);
            if verdict.is_ok() {
                allowed = after;
            }
            verdict.is_ok()
        };
        let chosen: Vec<Request> = match random.one_in(3) {
            true => requests,
            false => requests.iter().filter(is_allowed).cloned().collect(),
        };
        let mut text = generate::requests_text(&chosen, spelling);
        match random.below(12) {
            0 => generate::damage(random, &mut text),
            1 => generate::disturb(random, &mut lent),
            _ => {}
        }
        check_text(&text, |text| {
            agree::run_by(subject, Some(&by), &mut lent.clone(), text).map(|_| ())
        })
        .map_err(|why| format!("{why}\n  {lent:?}\n  sheet {:?}", by.bytes))?;
        runs += 1;
    }
    Ok(runs)
}

/// A trace and its listing by a sheet that is read from its text: on tables, as one run, and beside the
/// history.
fn by_hand(subject: Subject, text: &str, steps: &[traces::Step], listing: &str) -> Checked {
    let mut bytes = [0; SHEET_PLACES];
    same("answer", 0, subject.read_sheet(text.as_bytes(), &mut bytes))?;
    let by = LentSheet::of(&bytes);
    for rows in [6, 16, 64, MAX_ROWS] {
        let mut lent = Lent::empty(rows);
        let mut requests = Vec::new();
        for (line, expected) in steps {
            let mut words = Words::default();
            let line = format!("{line}\n");
            let mut names = [0; oracle::MAX_GROUP];
            same(
                "line",
                0,
                subject.read_line(0, line.as_bytes(), &mut words, &mut names),
            )?;
            let event = Event::from(words);
            agree::run_by(subject, Some(&by), &mut lent.clone(), line.as_bytes())?;
            let answer = agree::apply_by(subject, Some(&by), &mut lent, event)?;
            agree::same_answer(agree::packed(*expected), answer)
                .map_err(|why| format!("{line}: {why}"))?;
            requests.push(Request::Single(event));
        }
        same(
            "listing",
            traces::whole(listing),
            oracle::listing(&lent.rows, lent.tally.issued),
        )?;
        if rows < MAX_ROWS {
            check_list_by(subject, Some(&by), &Lent::empty(rows), &requests)?;
        }
    }
    Ok(steps.len() as u64 * 4)
}

/// Card 6's sheet, as it can be lent: by no byte, or by its bytes and others behind them.
pub fn card_6_sheets() -> [LentSheet; 3] {
    let [none, bytes] = [Vec::new(), LentSheet::of(&[]).sheet.bytes()];
    let more = [&bytes[..], &[0, 1, 2]].concat();
    [none, bytes, more].map(|bytes| LentSheet::of(&bytes))
}

/// 'The sheet of card 6 gives card 6's verdicts': on its traces.
fn card_6_traces(subject: Subject) -> Checked {
    let text = oracle::CARD_6;
    let mut cases = 0;
    for (name, steps, listing) in traces::KINDS {
        cases += by_hand(subject, text, steps, listing).map_err(|why| format!("{name}: {why}"))?;
    }
    Ok(cases)
}

/// The same on lists, beside the history and beside card 6's sentences.
fn card_6_lists(random: &mut Random, subject: Subject) -> Checked {
    let lists = 1_500;
    let sheets = card_6_sheets();
    for _ in 0..lists {
        let mut lent = Lent::empty(random.between(0, 14));
        lent.tally = generate::tally(random);
        let (count, spelling) = (random.between(5, 20), spelling(random));
        let requests = requests(random, &sheets[0], lent.clone(), count, spelling);
        check_list_by(subject, None, &lent, &requests)?;
        for by in &sheets {
            check_list_by(subject, Some(by), &lent, &requests)?;
            same_by_sentences(by, &lent, &requests)?;
        }
    }
    Ok(lists * 3)
}

/// The oracle by a sheet beside the oracle by card 6's sentences.
fn same_by_sentences(by: &LentSheet, lent: &Lent, requests: &[Request]) -> Agreed {
    let (mut one, mut other) = (lent.clone(), lent.clone());
    for request in requests {
        let expected = generate::oracle_answer(&mut one, request);
        same(
            "answer by the sheet",
            expected,
            oracle_answer(by, &mut other, request),
        )?;
        same("what it leaves", &one, &other)?;
    }
    Ok(())
}

/// Sheets of one result throughout, but for one place.
fn sheets_of_one_other() -> Vec<LentSheet> {
    let mut sheets = Vec::new();
    for (all, other) in [(0, 1), (0, 2), (1, 0), (1, 2), (2, 0), (2, 1)] {
        for place in 0..SHEET_PLACES {
            let mut bytes = [all; SHEET_PLACES];
            bytes[place] = other;
            sheets.push(LentSheet::of(&bytes));
        }
    }
    sheets
}

/// Each access on the rows of a tree by each of these sheets.
fn by_one_other(subject: Subject, tree: &[Node]) -> Checked {
    let lent = kinds::table(tree);
    let accesses = kinds::accesses(tree);
    let mut cases = 0;
    for by in sheets_of_one_other() {
        for access in &accesses {
            agree::apply_by(subject, Some(&by), &mut lent.clone(), *access)
                .map_err(|why| format!("{why}\n  {access:?}\n  sheet {:?}", by.bytes))?;
            cases += 1;
        }
    }
    Ok(cases)
}
