//! Card 10: random requests of several domains, with limits that change from request to request: on lent
//! tables, many in one call, as texts, and beside their history; and pairs of sequences for independence.

use interface::{Event, Words};
use oracle::independence::{self, Answered, Cast, World, leaves_alone};
use oracle::random::Random;
use oracle::{Act, Refused, Row, Span, Spelling};

use crate::acting::{fitting_limits, holders_asked, other_limits, recast};
use crate::agree::{self, By, Lent, LentSheet, Subject, same};
use crate::domain_texts::damage_domains;
use crate::generate::{self, Request, oracle_answer_by};
use crate::histories::{Limited, check_limited};
use crate::lines::check_text;
use crate::report::{Counts, Met, MetAnswers, Report, check_few};
use crate::sheets;

pub fn groups(report: &mut Report, subject: Subject) {
    report.group_saying("events of domains on tables", |random| {
        on_tables(random, subject)
    });
    report.group_saying("many events of domains in one call", |random| {
        in_one_call(random, subject)
    });
    report.group_saying("runs of domains", |random| in_runs(random, subject));
    report.group_saying("lists of domains and their history", |random| {
        in_lists(random, subject)
    });
    report.group_saying("independence by card 6's sheet", |random| {
        independent(random, subject, |_| None)
    });
    report.group_saying("independence by any sheet", |random| {
        independent(random, subject, |random| Some(sheets::sheet(random)))
    });
    report.met("every answer to an event of a domain was met", || {
        ANSWERS_MET.every_answer_but(&agree::OF_TEXTS)
    });
}

/// The answers to requests of the groups here.
static ANSWERS_MET: MetAnswers = Met::none();

/// None yet of the answers to requests of a group.
fn no_counts() -> Counts<2> {
    Counts::of([17, 18], &ANSWERS_MET)
}

/// What requests are made for: the domains, the sheet, the addresses, and how names are written.
struct Setting {
    cast: Vec<u32>,
    sheet: Option<LentSheet>,
    area: Span,
    spelling: Spelling,
}

impl Setting {
    fn some(random: &mut Random) -> Setting {
        let Cast { domain, others } = Cast::some(random);
        Setting {
            cast: others.into_iter().chain([domain]).collect(),
            sheet: random.one_in(3).then(|| sheets::sheet(random)),
            area: sheets::area(random),
            spelling: random.pick(&[Spelling::Plain, Spelling::Plain, Spelling::Named]),
        }
    }

    fn by(&self) -> By<'_> {
        self.sheet.as_ref()
    }

    /// A table of these domains, empty or with rows.
    fn table(&self, random: &mut Random) -> Lent {
        let live = match random.below(4) {
            0 => 0,
            1 => random.between(60, 70),
            _ => random.between(1, 10),
        };
        let rows = live + random.index(6);
        let deep = live > 50;
        let mut lent = generate::ordered(random, &generate::Shape { rows, live, deep });
        recast(random, &mut lent.rows, &self.cast);
        lent.limits = self.limits(random, &lent);
        lent
    }

    /// No limits, some that fit what is lent, or at times some that do not.
    fn limits(&self, random: &mut Random, lent: &Lent) -> Vec<u32> {
        match random.below(12) {
            0..=2 => Vec::new(),
            3 => other_limits(random, lent.rows.len()),
            _ => fitting_limits(random, &lent.rows, &self.cast),
        }
    }

    /// A request that has something to do with what is lent.
    fn request(&self, random: &mut Random, lent: &Lent) -> Request {
        let request = sheets::turning_request(random, lent, self.area, self.spelling);
        let Request::Single(event) = request else {
            return request;
        };
        // One of the domains makes a capability, or tries to use one that it may not hold.
        if event.kind != 1 && !random.one_in(5) {
            return request;
        }
        let live = oracle::live_rows(&lent.rows);
        let actor = random.pick(&self.cast);
        let holders = holders_asked(random, live, actor, event.kind);
        Request::Single(Event {
            actor,
            holders,
            ..event
        })
    }

    /// Requests made one after the other on what the last left, by one sheet of limits or by several.
    fn requests(
        &self,
        random: &mut Random,
        mut lent: Lent,
        count: usize,
        keeps: bool,
    ) -> Vec<Limited> {
        let mut requests = Vec::with_capacity(count);
        while requests.len() < count {
            if !keeps && random.one_in(4) {
                lent.limits = self.limits(random, &lent);
            }
            let next = self.request(random, &lent);
            let mut after = lent.clone();
            let is_allowed = oracle_answer_by(self.by(), &mut after, &next).is_ok();
            if is_allowed || random.one_in(2) {
                lent = after;
                requests.push((lent.limits.clone(), next));
            }
        }
        requests
    }

    fn sheet_bytes(&self) -> &[u8] {
        agree::bytes_of(self.by())
    }
}

/// Without the limits that come with them.
fn alone(requests: Vec<Limited>) -> Vec<Request> {
    requests.into_iter().map(|(_, request)| request).collect()
}

fn on_tables(random: &mut Random, subject: Subject) -> Result<String, String> {
    let mut counts = no_counts();
    for _ in 0..6_000 {
        let setting = Setting::some(random);
        let mut lent = setting.table(random);
        let requests = setting.requests(random, lent.clone(), 6, false);
        if random.one_in(20) {
            generate::disturb(random, &mut lent);
        }
        for (limits, request) in requests {
            lent.limits = limits;
            let answer = one_request(subject, &setting, &mut lent, &request)?;
            counts.count(answer >> 32);
        }
    }
    Ok(counts.to_string())
}

/// A request on what is lent; on failure gives few rows that still fail.
fn one_request(
    subject: Subject,
    setting: &Setting,
    lent: &mut Lent,
    request: &Request,
) -> Result<u64, String> {
    let by = setting.by();
    let take = |lent: &mut Lent| match request {
        Request::Single(event) => agree::apply_by(subject, by, lent, *event),
        Request::Group(actor, names) => agree::drop_all_by(subject, by, lent, *actor, names),
    };
    let before = lent.clone();
    take(lent).map_err(|why| {
        let again = agree::check_rows(&before, |mut lent| take(&mut lent).map(|_| ()));
        let why = again.err().unwrap_or(why);
        format!("{why}\n  {request:?}\n  sheet {:?}", setting.sheet_bytes())
    })
}

fn in_one_call(random: &mut Random, subject: Subject) -> Result<String, String> {
    let mut counts = no_counts();
    for _ in 0..4_000 {
        let setting = Setting::some(random);
        let mut lent = setting.table(random);
        let count = random.between(0, 20);
        let requests = setting.requests(random, lent.clone(), count, true);
        if random.one_in(20) {
            generate::disturb(random, &mut lent);
        }
        let (events, names) = sheets::words_of(&alone(requests));
        let all = |events: &[Words]| {
            let lent = &mut lent.clone();
            agree::apply_all_by(subject, setting.by(), lent, events, &names, events.len())
        };
        check_few(&events, |events| all(events).map(|_| ())).map_err(|(why, events)| {
            let sheet = setting.sheet_bytes();
            format!("{why}\n  {lent:?}\n  {events:?}\n  names {names:?}\n  sheet {sheet:?}")
        })?;
        for [refusal, _] in all(&events)? {
            counts.count(refusal.into());
        }
    }
    Ok(counts.to_string())
}

/// Runs of lines of which most are allowed, whole and damaged, and what capcheck prints for those from empty
/// tables.
fn in_runs(random: &mut Random, subject: Subject) -> Result<String, String> {
    let mut counts = no_counts();
    for _ in 0..8_000 {
        let setting = Setting::some(random);
        let mut lent = setting.table(random);
        let count = random.between(0, 16);
        let requests = alone(setting.requests(random, lent.clone(), count, true));
        let chosen = mostly_allowed(random, &setting, &lent, requests);
        let mut text = generate::requests_text(&chosen, setting.spelling);
        match random.below(12) {
            0 => generate::damage(random, &mut text),
            1..=3 => damage_domains(random, &mut text),
            4 => generate::disturb(random, &mut lent),
            _ => {}
        }
        let run = |text: &[u8]| agree::run_by(subject, setting.by(), &mut lent.clone(), text);
        check_text(&text, |text| run(text).map(|_| ()))
            .map_err(|why| format!("{why}\n  {lent:?}\n  sheet {:?}", setting.sheet_bytes()))?;
        counts.count(run(&text)? >> 32);
        if oracle::live_rows(&lent.rows).is_empty() {
            check_text(&text, |text| agree::check(subject, text))?;
        }
    }
    Ok(counts.to_string())
}

/// The requests that are allowed, and at times one that is not.
fn mostly_allowed(
    random: &mut Random,
    setting: &Setting,
    lent: &Lent,
    requests: Vec<Request>,
) -> Vec<Request> {
    let mut lent = lent.clone();
    let mut is_chosen = |request: &Request| {
        let mut after = lent.clone();
        let is_allowed = oracle_answer_by(setting.by(), &mut after, request).is_ok();
        lent = after;
        is_allowed || random.one_in(8)
    };
    requests
        .into_iter()
        .filter(|request| is_chosen(request))
        .collect()
}

fn in_lists(random: &mut Random, subject: Subject) -> Result<String, String> {
    let mut counts = no_counts();
    for _ in 0..8_000 {
        let setting = Setting::some(random);
        let mut lent = Lent::empty(random.between(0, 12));
        lent.tally = generate::tally(random);
        lent.limits = setting.limits(random, &lent);
        let keeps = random.one_in(3);
        let requests = setting.requests(random, lent.clone(), 20, keeps);
        check_limited(subject, setting.by(), &lent, &requests)
            .map_err(|why| format!("{why}\n  sheet {:?}", setting.sheet_bytes()))?;
        for (limits, request) in &requests {
            lent.limits.clone_from(limits);
            let answer = oracle_answer_by(setting.by(), &mut lent, request);
            counts.count(answer.err().unwrap_or(0).into());
        }
    }
    Ok(counts.to_string())
}

// ---- independence

/// The implementation beside the oracle, from an empty table.
struct Both<'a> {
    subject: Subject,
    by: By<'a>,
    lent: Lent,
}

fn unpacked(answer: u64) -> Result<u32, Refused> {
    match answer >> 32 {
        0 => Ok(answer as u32),
        number => Err(number as Refused),
    }
}

impl World for Both<'_> {
    fn act(&mut self, act: Act) -> Answered {
        let event = Event::from(Words::of(act.words()));
        agree::apply_by(self.subject, self.by, &mut self.lent, event).map(unpacked)
    }

    fn drop_all(&mut self, actor: u32, names: &[u32]) -> Answered {
        agree::drop_all_by(self.subject, self.by, &mut self.lent, actor, names).map(unpacked)
    }

    fn live(&self) -> Vec<Row> {
        oracle::live_rows(&self.lent.rows).to_vec()
    }

    fn issued(&self) -> u32 {
        self.lent.tally.issued
    }
}

/// Pairs of sequences of two to four domains, of which one uses only what it made: its answers and rows are
/// the same in both.
fn independent(
    random: &mut Random,
    subject: Subject,
    sheet: fn(&mut Random) -> Option<LentSheet>,
) -> Result<String, String> {
    let mut counts = independence::Counts::default();
    for _ in 0..3_000 {
        let cast = Cast::some(random);
        let sheet = sheet(random);
        let rows = random.between(2, 14);
        let limits = match random.one_in(40) {
            true => other_limits(random, rows),
            false => cast.limits(random, rows),
        };
        let empty = || Both {
            subject,
            by: sheet.as_ref(),
            lent: Lent {
                limits: limits.clone(),
                ..Lent::empty(rows)
            },
        };
        independence::compare(random, &cast, leaves_alone, empty, &mut counts)?;
        same("sequences that differ", 0, counts.differing)
            .map_err(|why| format!("{why}\n  {cast:?}\n  {rows} rows\n  limits {limits:?}"))?;
    }
    said(&counts)
}

/// What was met, which has to be much.
fn said(counts: &independence::Counts) -> Result<String, String> {
    let independence::Counts {
        pairs,
        allowed,
        limited,
        ended,
        backs,
        others,
        ..
    } = counts;
    let said = format!(
        "{pairs} pairs, in the first of which the domain was allowed {allowed} requests, went back {backs} \
         times, was refused 18 {limited} and 5 {ended}, and others were allowed {others}"
    );
    let met = [allowed, limited, ended, others];
    match met.into_iter().all(|met| *met > pairs / 3) && *backs > pairs / 6 {
        true => Ok(said),
        false => Err(said),
    }
}
