//! Lists of requests from empty tables, beside the history of document 01.

use std::collections::BTreeSet;

use interface::{BACK, Event};
use oracle::random::Random;
use oracle::{Act, History, MAX_ROWS, Span, Spelling};

use crate::acting;
use crate::agree::{
    self, Agreed, By, Lent, Subject, oracle_act, packed, same, same_answer, span_of,
};
use crate::generate::{self, Request};
use crate::report::{Checked, Met, MetAnswers, Report, check_few};
use crate::sheets;
use crate::together;

/// Lists of one sort: how many of them, how many requests in each, and how one is made.
struct Lists {
    name: &'static str,
    count: u64,
    length: usize,
    spelling: Spelling,
    list: fn(&mut Random, Lent, usize, Spelling) -> Vec<Request>,
}

const LISTS: [Lists; 7] = [
    Lists {
        name: "lists of events",
        count: 1_600,
        length: 24,
        spelling: Spelling::Plain,
        list: events,
    },
    Lists {
        name: "long lists of events",
        count: 40,
        length: 90,
        spelling: Spelling::Plain,
        list: events,
    },
    Lists {
        name: "lists of named events",
        count: 1_600,
        length: 24,
        spelling: Spelling::Named,
        list: events,
    },
    Lists {
        name: "long lists of named events",
        count: 40,
        length: 90,
        spelling: Spelling::Named,
        list: events,
    },
    Lists {
        name: "lists with names dropped together",
        count: 1_200,
        length: 20,
        spelling: Spelling::Plain,
        list: generate::requests,
    },
    Lists {
        name: "long lists with names dropped together",
        count: 30,
        length: 80,
        spelling: Spelling::Plain,
        list: generate::requests,
    },
    Lists {
        name: "named lists with names dropped together",
        count: 1_200,
        length: 20,
        spelling: Spelling::Named,
        list: generate::requests,
    },
];

pub fn groups(report: &mut Report, subject: Subject) {
    for lists in &LISTS {
        report.group(&format!("{} and their history", lists.name), |random| {
            random_lists(random, subject, lists)
        });
    }
}

/// Events alone. In the named spelling some write no name all the same.
fn events(random: &mut Random, lent: Lent, count: usize, spelling: Spelling) -> Vec<Request> {
    let events = generate::events(random, lent, count, spelling);
    let some_unnamed = events.into_iter().map(|event| Event {
        written: event.written.filter(|_| !random.one_in(4)),
        ..event
    });
    some_unnamed.map(Request::Single).collect()
}

fn random_lists(random: &mut Random, subject: Subject, lists: &Lists) -> Checked {
    for _ in 0..lists.count {
        let lent = empty_table(random);
        let requests = (lists.list)(random, lent.clone(), lists.length, lists.spelling);
        check_list(subject, &lent, &requests)?;
    }
    Ok(lists.count * lists.length as u64)
}

/// An empty table with no name issued.
fn empty_table(random: &mut Random) -> Lent {
    let mut lent = Lent::empty(match random.below(20) {
        0 => MAX_ROWS,
        1 => MAX_ROWS + 1,
        _ => random.between(0, 14),
    });
    lent.tally = generate::tally(random);
    lent
}

/// The answers that the history gave.
static MET: MetAnswers = Met::none();

/// Whether the history gave every answer that it can in lists of some length, and how often: no list
/// is so long that the names are spent.
pub fn every_answer_met() -> Checked {
    let names_spent = 9;
    MET.every_answer_but(&[&agree::OF_TEXTS[..], &[names_spent]].concat())
}

/// Checks a list; on failure gives a short list that still fails.
pub fn check_list(subject: Subject, lent: &Lent, requests: &[Request]) -> Agreed {
    check_list_by(subject, None, lent, requests)
}

/// The same by a sheet.
pub fn check_list_by(subject: Subject, by: By, lent: &Lent, requests: &[Request]) -> Agreed {
    let limited = |request: &Request| (lent.limits.clone(), request.clone());
    let requests: Vec<Limited> = requests.iter().map(limited).collect();
    check_limited(subject, by, lent, &requests)
}

/// A request, and the limits that are lent with it.
pub type Limited = (Vec<u32>, Request);

/// The same with limits that may change from request to request.
pub fn check_limited(subject: Subject, by: By, lent: &Lent, requests: &[Limited]) -> Agreed {
    let check = |requests: &[Limited]| follow(subject, by, lent.clone(), requests);
    check_few(requests, check).map_err(|(why, requests)| {
        let rows = lent.rows.len();
        let tally = lent.tally;
        format!("{why}\n  {rows} empty rows\n  tally {tally:?}\n  requests {requests:?}")
    })
}

fn follow(subject: Subject, by: By, mut lent: Lent, requests: &[Limited]) -> Agreed {
    let rows = lent.rows.len();
    let mut history = match by {
        None => History::new(rows),
        Some(sheet) => History::by(sheet.sheet.clone(), rows),
    };
    let mut lost = Lost::default();
    let mut spans = Vec::new();
    for (limits, request) in requests {
        lent.limits.clone_from(limits);
        if let Request::Single(event) = request {
            spans.push(span_of(*event));
        }
        let expected = answer(&mut history, limits, request)?;
        let found = ask(subject, by, &mut lent, request)?;
        match by {
            None => MET.count_answer(expected),
            Some(_) => sheets::ANSWERS_MET.count_answer(expected),
        }
        same_answer(packed(expected), found).map_err(|why| format!("history: {why}"))?;
        if history.table() != lent.rows || history.count() != lent.tally.issued {
            return Err(format!("history: another table, {:?}", history.table()));
        }
        let written = history.written();
        same("history: written", Some(&written), lent.bits.written())?;
        lost.follow(request, expected);
        lost.check(&lent)?;
    }
    let last_spans = match by {
        None => 4,
        // There are many more lists by sheets.
        Some(_) => 1,
    };
    let spans = spans.into_iter().rev().take(last_spans);
    demand_three(subject, by, &lent, &history, spans)
}

/// A request on what is lent.
fn ask(subject: Subject, by: By, lent: &mut Lent, request: &Request) -> Result<u64, String> {
    match (request, by) {
        (Request::Single(event), _) => agree::apply_by(subject, by, lent, *event),
        (Request::Group(actor, names), None) => together::drop_all(subject, lent, *actor, names),
        (Request::Group(actor, names), _) => agree::drop_all_by(subject, by, lent, *actor, names),
    }
}

/// The history's answer.
fn answer(
    history: &mut History,
    limits: &[u32],
    request: &Request,
) -> Result<Result<u32, u8>, String> {
    match request {
        Request::Single(event) => Ok(history.answer(limits, oracle_act(*event))),
        Request::Group(actor, names) => answer_all(history, limits, *actor, names),
    }
}

/// The history's answer to a group. Where that is allowed so are single drops in falling order, and
/// they leave the same notes.
fn answer_all(
    history: &mut History,
    limits: &[u32],
    actor: u32,
    names: &[u32],
) -> Result<Result<u32, u8>, String> {
    let mut singly = history.clone();
    let expected = history.answer_all(limits, actor, names);
    if expected.is_ok() {
        for name in names.iter().rev() {
            let event = oracle::Event::Drop { name: *name };
            let answer = singly.answer(limits, Act { actor, event });
            same("history, singly", Ok(0), answer)?;
        }
    }
    same("notes", &*history, &singly)?;
    Ok(expected)
}

/// Names that have ended, and names that are not `rw`: neither ever changes back but by a back.
#[derive(Default)]
struct Lost {
    ended: BTreeSet<u32>,
    read_only: BTreeSet<u32>,
}

impl Lost {
    /// Card 11: 'here alone a right may return'.
    fn follow(&mut self, request: &Request, answer: Result<u32, u8>) {
        let goes_back = matches!(request, Request::Single(event) if event.kind == BACK);
        if goes_back && answer.is_ok() {
            *self = Lost::default();
        }
    }

    fn check(&mut self, lent: &Lent) -> Agreed {
        for name in 1..=lent.tally.issued {
            let row = lent.rows.iter().find(|row| row.name == name);
            let lives = row.is_some();
            let writable = row.is_some_and(|row| row.right == 2);
            if (lives && self.ended.contains(&name)) || (writable && self.read_only.contains(&name))
            {
                return Err(format!("name {name} has a right again that it lost"));
            }
            if !lives {
                self.ended.insert(name);
            }
            if !writable {
                self.read_only.insert(name);
            }
        }
        Ok(())
    }
}

/// Reads and writes through every name are allowed exactly when demand 3 says.
fn demand_three(
    subject: Subject,
    by: By,
    lent: &Lent,
    history: &History,
    spans: impl Iterator<Item = Span>,
) -> Agreed {
    for span in spans {
        for name in 0..=history.count() + 1 {
            for actor in users(lent, name) {
                let may_read = history.may_read(&lent.limits, actor, name, span);
                let may_write = history.may_write(&lent.limits, actor, name, span);
                for (kind, expected) in [(3, may_read), (4, may_write)] {
                    let event = used(kind, name, span, actor);
                    let answer = agree::apply_by(subject, by, &mut lent.clone(), event)?;
                    if (answer >> 32 == 0) != expected {
                        return Err(format!("demand 3 on {event:?}: allowed is {expected}"));
                    }
                }
            }
        }
    }
    Ok(())
}

/// Who uses a name: the last of its holders and its maker, and one that may be none of them.
fn users(lent: &Lent, name: u32) -> BTreeSet<u32> {
    let row = lent.rows.iter().find(|row| row.name == name && name != 0);
    let last = row.and_then(|row| oracle::holders_of(row.holders).pop_last());
    let maker = row.map(|row| row.maker);
    let all = [last, maker, Some(name % 3)];
    all.into_iter().flatten().collect()
}

/// A read or write, with anything in what it lacks.
fn used(kind: u8, name: u32, span: Span, actor: u32) -> Event {
    Event {
        kind,
        written: None,
        name,
        start: span.start,
        length: span.length,
        right: 0,
        cap_kind: u8::MAX,
        fresh: u8::MAX,
        actor,
        holders: acting::mask_of(name % 64),
    }
}
