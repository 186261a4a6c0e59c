//! Card 11: random steps forward and back, with domains, limits and fresh memory among them: 1,000 in a row, on lent
//! tables, in memory of any words, many in one call, as texts, and beside their history.

use interface::{BACK, Event, MARK, Words};
use oracle::random::Random;
use oracle::{MAX_ROWS, Row, Slot, Span, Spelling, State};

use crate::acting::{self, fitting_limits, holders_asked, other_limits, recast};
use crate::agree::{self, Agreed, By, Lent, LentSheet, Subject, packed, same, same_answer};
use crate::generate::{self, Request, Shape, oracle_answer_by};
use crate::histories::{Limited, check_limited};
use crate::lines::check_text;
use crate::report::{Checked, Counts, Met, MetAnswers, Report, check_few};
use crate::sheets;
use crate::slots::{Kept, Slots};
use crate::spellings::same_verdicts;
use crate::states::{any_words, only_marks_change};
use crate::turning;

/// How many steps are made in a row.
const STEPS: usize = 1_000;

pub fn groups(report: &mut Report, subject: Subject) {
    report.group_saying("1,000 steps forward and back", |random| {
        in_a_row(random, subject, 24)
    });
    report.group_saying(
        "1,000 steps forward and back beside their history",
        |random| beside_history(random, subject, 4),
    );
    report.group_saying("lists of marks and backs and their history", |random| {
        in_lists(random, subject)
    });
    report.group_saying("marks and backs on tables", |random| {
        on_tables(random, subject)
    });
    report.group_saying("marks and backs in memory of any words", |random| {
        in_any_words(random, subject)
    });
    report.group_saying("many marks and backs in one call", |random| {
        in_one_call(random, subject)
    });
    report.group_saying("runs of marks and backs", |random| in_runs(random, subject));
    report.group("marks and backs in both spellings", |random| {
        both_spellings(random, subject)
    });
    report.group("the line of a back to what does not fit", |random| {
        lines_that_do_not_fit(random, subject)
    });
    report.met("every answer to a step forward or back was met", || {
        ANSWERS_MET.every_answer_but(&agree::OF_TEXTS)
    });
}

/// The answers to requests of the groups here.
static ANSWERS_MET: MetAnswers = Met::none();

/// None yet of the answers to requests of a group.
fn no_counts() -> Counts<2> {
    Counts::of([1, 19], &ANSWERS_MET)
}

/// What requests are made for: the domains, the sheet, the addresses, how names are written, and how seldom a
/// request marks or goes back.
struct Setting {
    cast: Vec<u32>,
    sheet: Option<LentSheet>,
    area: Span,
    spelling: Spelling,
    seldom: u64,
}

impl Setting {
    fn some(random: &mut Random) -> Setting {
        Setting {
            cast: (0..random.between(1, 4))
                .map(|_| random.pick(&[0, 0, 1, 2, 31, 32, 63]))
                .collect(),
            sheet: random.one_in(3).then(|| sheets::sheet(random)),
            area: sheets::area(random),
            spelling: random.pick(&[Spelling::Plain, Spelling::Plain, Spelling::Named]),
            seldom: random.pick(&[2, 3, 6]),
        }
    }

    fn by(&self) -> By<'_> {
        self.sheet.as_ref()
    }

    /// A table of these domains, empty or with rows, and at times with something stored.
    fn table(&self, random: &mut Random) -> Lent {
        let live = match random.below(6) {
            0 => 0,
            1 => random.between(60, 70),
            _ => random.between(1, 10),
        };
        let rows = live + random.index(6);
        let deep = live > 50;
        let mut lent = generate::ordered(random, &Shape { rows, live, deep });
        recast(random, &mut lent.rows, &self.cast);
        lent.limits = self.limits(random, &lent);
        if random.one_in(2) {
            lent.slots = turning::filled_slots(random, &lent);
        }
        lent
    }

    /// No limits in most cases, else some that fit what is lent, and at times some that do not.
    fn limits(&self, random: &mut Random, lent: &Lent) -> Vec<u32> {
        match random.below(16) {
            0 => other_limits(random, lent.rows.len()),
            1..=5 => fitting_limits(random, &lent.rows, &self.cast),
            _ => Vec::new(),
        }
    }

    /// A request that has something to do with what is lent.
    fn request(&self, random: &mut Random, lent: &Lent) -> Request {
        if random.one_in(self.seldom) {
            return Request::Single(turning::turn(random, lent));
        }
        let request = sheets::request(random, lent, self.area, self.spelling);
        let Request::Single(event) = request else {
            return request;
        };
        let live = oracle::live_rows(&lent.rows);
        if event.kind == 2 && random.one_in(6) {
            return Request::Single(from_the_deepest(random, live, event));
        }
        if event.kind != 1 && !random.one_in(6) {
            return request;
        }
        let actor = random.pick(&self.cast);
        let holders = holders_asked(random, live, actor, event.kind);
        Request::Single(Event {
            actor,
            holders,
            ..event
        })
    }

    /// Requests made one after the other on what the last left, by one sheet of limits or by several.
    fn requests(
        &self,
        random: &mut Random,
        mut lent: Lent,
        count: usize,
        keeps: bool,
    ) -> Vec<Limited> {
        let mut requests = Vec::with_capacity(count);
        while requests.len() < count {
            if !keeps && random.one_in(6) {
                lent.limits = self.limits(random, &lent);
            }
            let next = self.request(random, &lent);
            let mut after = lent.clone();
            let is_allowed = oracle_answer_by(self.by(), &mut after, &next).is_ok();
            if is_allowed || random.one_in(3) {
                lent = after;
                requests.push((lent.limits.clone(), next));
            }
        }
        requests
    }

    fn sheet_bytes(&self) -> &[u8] {
        agree::bytes_of(self.by())
    }
}

/// A borrow from the row that is borrowed deepest, by a domain that holds it.
fn from_the_deepest(random: &mut Random, live: &[Row], borrow: Event) -> Event {
    let Some(deepest) = live.iter().max_by_key(|row| row.depth) else {
        return borrow;
    };
    let actor = acting::actor(random, live, Some(deepest));
    Event {
        name: deepest.name,
        start: deepest.start,
        length: deepest.length,
        right: 1,
        actor,
        holders: acting::mask_of(actor),
        ..borrow
    }
}

/// Without the limits that come with them.
fn alone(requests: Vec<Limited>) -> Vec<Request> {
    requests.into_iter().map(|(_, request)| request).collect()
}

/// A request on what is lent.
fn ask(subject: Subject, by: By, lent: &mut Lent, request: &Request) -> Result<u64, String> {
    match request {
        Request::Single(event) => agree::apply_by(subject, by, lent, *event),
        Request::Group(actor, names) => agree::drop_all_by(subject, by, lent, *actor, names),
    }
}

/// The memory that is kept.
fn kept(lent: &Lent) -> Kept {
    match &lent.slots {
        Slots::Kept(kept) => kept.clone(),
        _ => Kept::zeros(),
    }
}

/// The same in memory that is kept, of which every slot but one that is marked stays word for word.
fn ask_in_kept(
    subject: Subject,
    by: By,
    lent: &mut Lent,
    request: &Request,
) -> Result<u64, String> {
    let before = kept(lent);
    let answer = ask(subject, by, lent, request)?;
    let marked = |slot: usize| match request {
        Request::Single(event) => answer == 0 && event.kind == MARK && event.name as usize == slot,
        Request::Group(..) => false,
    };
    only_marks_change(&before, &kept(lent), marked)?;
    Ok(answer)
}

// ---- 1,000 steps

/// Steps on one table, in one memory that no one else writes. At the end every slot is gone back to.
fn in_a_row(random: &mut Random, subject: Subject, runs: u64) -> Result<String, String> {
    let mut counts = no_counts();
    for run in 0..runs {
        let setting = Setting::some(random);
        let mut lent = Lent::empty(match run % 4 {
            0 => random.between(1, 4),
            1 => random.between(60, 80),
            2 => random.between(200, MAX_ROWS),
            _ => random.between(5, 16),
        });
        lent.tally = generate::tally(random);
        lent.slots = Slots::kept();
        let requests = setting.requests(random, lent.clone(), STEPS, false);
        for (step, (limits, request)) in requests.into_iter().enumerate() {
            lent.limits = limits;
            let before = lent.clone();
            let answer = ask_in_kept(subject, setting.by(), &mut lent, &request);
            let answer = answer.map_err(|why| {
                let sheet = setting.sheet_bytes();
                format!("{why}\n  step {step}, {request:?}\n  {before:?}\n  sheet {sheet:?}")
            })?;
            counts.count(answer >> 32);
        }
        lent.limits = Vec::new();
        for slot in 0..8 {
            let back = Event {
                kind: BACK,
                name: slot,
                ..Event::default()
            };
            let request = Request::Single(back);
            ask_in_kept(subject, setting.by(), &mut lent, &request)
                .map_err(|why| format!("at last, slot {slot}: {why}"))?;
        }
    }
    Ok(counts.to_string())
}

/// The same beside the history, on tables of few rows.
fn beside_history(random: &mut Random, subject: Subject, runs: u64) -> Result<String, String> {
    let mut counts = no_counts();
    for _ in 0..runs {
        let setting = Setting {
            seldom: 3,
            ..Setting::some(random)
        };
        let mut lent = Lent::empty(random.between(4, 10));
        lent.tally = generate::tally(random);
        lent.slots = Slots::kept();
        let requests = setting.requests(random, lent.clone(), STEPS, false);
        compare_list(subject, &setting, lent, &requests, &mut counts)?;
    }
    Ok(counts.to_string())
}

fn compare_list(
    subject: Subject,
    setting: &Setting,
    mut lent: Lent,
    requests: &[Limited],
    counts: &mut Counts<2>,
) -> Agreed {
    check_limited(subject, setting.by(), &lent, requests)
        .map_err(|why| format!("{why}\n  sheet {:?}", setting.sheet_bytes()))?;
    for (limits, request) in requests {
        lent.limits.clone_from(limits);
        let answer = oracle_answer_by(setting.by(), &mut lent, request);
        counts.count(answer.err().unwrap_or(0).into());
    }
    Ok(())
}

fn in_lists(random: &mut Random, subject: Subject) -> Result<String, String> {
    let mut counts = no_counts();
    for _ in 0..4_000 {
        let setting = Setting::some(random);
        let mut lent = Lent::empty(random.between(0, 12));
        lent.tally = generate::tally(random);
        lent.limits = setting.limits(random, &lent);
        let keeps = random.one_in(3);
        let requests = setting.requests(random, lent.clone(), 28, keeps);
        compare_list(subject, &setting, lent, &requests, &mut counts)?;
    }
    Ok(counts.to_string())
}

// ---- on tables

/// A request on what is lent; on failure gives few rows that still fail.
fn one_request(
    subject: Subject,
    setting: &Setting,
    lent: &mut Lent,
    request: &Request,
) -> Result<u64, String> {
    let by = setting.by();
    let before = lent.clone();
    ask(subject, by, lent, request).map_err(|why| {
        let again = agree::check_rows(&before, |mut lent| {
            ask(subject, by, &mut lent, request).map(|_| ())
        });
        let why = again.err().unwrap_or(why);
        format!("{why}\n  {request:?}\n  sheet {:?}", setting.sheet_bytes())
    })
}

fn on_tables(random: &mut Random, subject: Subject) -> Result<String, String> {
    let mut counts = no_counts();
    for _ in 0..6_000 {
        let setting = Setting::some(random);
        let mut lent = setting.table(random);
        let requests = setting.requests(random, lent.clone(), 6, false);
        match random.below(24) {
            0 => generate::disturb(random, &mut lent),
            1 => lent.slots = turning::other_slots(random),
            _ => {}
        }
        for (limits, request) in requests {
            lent.limits = limits;
            let answer = one_request(subject, &setting, &mut lent, &request)?;
            counts.count(answer >> 32);
        }
    }
    Ok(counts.to_string())
}

/// The same in memory that something else has written to, by calls for each, for many, and by runs.
fn in_any_words(random: &mut Random, subject: Subject) -> Result<String, String> {
    let mut counts = no_counts();
    for _ in 0..1_500 {
        let setting = Setting::some(random);
        let mut lent = setting.table(random);
        lent.slots = Slots::Kept(any_words(random, &lent));
        let requests = setting.requests(random, lent.clone(), 6, true);
        let said = |why: String, lent: &Lent| {
            let sheet = setting.sheet_bytes();
            format!("{why}\n  {lent:?}\n  {requests:?}\n  sheet {sheet:?}")
        };
        let mut one_by_one = lent.clone();
        for (limits, request) in &requests {
            one_by_one.limits.clone_from(limits);
            let answer = ask_in_kept(subject, setting.by(), &mut one_by_one, request)
                .map_err(|why| said(why, &lent))?;
            counts.count(answer >> 32);
        }
        let (events, names) = sheets::words_of(&alone(requests.clone()));
        let by = setting.by();
        let in_one = &mut lent.clone();
        agree::apply_all_by(subject, by, in_one, &events, &names, events.len())
            .map_err(|why| said(why, &lent))?;
        let text = generate::requests_text(&alone(requests.clone()), setting.spelling);
        agree::run_by(subject, by, &mut lent.clone(), &text).map_err(|why| said(why, &lent))?;
    }
    Ok(counts.to_string())
}

fn in_one_call(random: &mut Random, subject: Subject) -> Result<String, String> {
    let mut counts = no_counts();
    for _ in 0..2_500 {
        let setting = Setting::some(random);
        let mut lent = setting.table(random);
        let count = random.between(0, 20);
        let requests = setting.requests(random, lent.clone(), count, true);
        if random.one_in(20) {
            generate::disturb(random, &mut lent);
        }
        let (events, names) = sheets::words_of(&alone(requests));
        let all = |events: &[Words]| {
            let lent = &mut lent.clone();
            agree::apply_all_by(subject, setting.by(), lent, events, &names, events.len())
        };
        check_few(&events, |events| all(events).map(|_| ())).map_err(|(why, events)| {
            let sheet = setting.sheet_bytes();
            format!("{why}\n  {lent:?}\n  {events:?}\n  names {names:?}\n  sheet {sheet:?}")
        })?;
        for [refusal, _] in all(&events)? {
            counts.count(refusal.into());
        }
    }
    Ok(counts.to_string())
}

// ---- runs

/// The requests that are allowed, and at times one that is not.
fn mostly_allowed(
    random: &mut Random,
    setting: &Setting,
    lent: &Lent,
    requests: Vec<Request>,
) -> Vec<Request> {
    let mut lent = lent.clone();
    let mut is_chosen = |request: &Request| {
        let mut after = lent.clone();
        let is_allowed = oracle_answer_by(setting.by(), &mut after, request).is_ok();
        lent = after;
        is_allowed || random.one_in(8)
    };
    requests
        .into_iter()
        .filter(|request| is_chosen(request))
        .collect()
}

/// Runs of lines of which most are allowed, whole and damaged, and what capcheck prints for those from empty
/// tables.
fn in_runs(random: &mut Random, subject: Subject) -> Result<String, String> {
    let mut counts = no_counts();
    for _ in 0..8_000 {
        let setting = Setting::some(random);
        let mut lent = match random.one_in(3) {
            true => Lent::empty(random.between(4, 12)),
            false => setting.table(random),
        };
        let is_empty = oracle::live_rows(&lent.rows).is_empty();
        let count = random.between(0, 16);
        let requests = alone(setting.requests(random, lent.clone(), count, true));
        let chosen = mostly_allowed(random, &setting, &lent, requests);
        let mut text = generate::requests_text(&chosen, setting.spelling);
        match random.below(12) {
            0 | 1 => generate::damage(random, &mut text),
            2 => generate::disturb(random, &mut lent),
            _ => {}
        }
        let run = |text: &[u8]| agree::run_by(subject, setting.by(), &mut lent.clone(), text);
        check_text(&text, |text| run(text).map(|_| ()))
            .map_err(|why| format!("{why}\n  {lent:?}\n  sheet {:?}", setting.sheet_bytes()))?;
        counts.count(run(&text)? >> 32);
        if is_empty {
            check_text(&text, |text| agree::check(subject, text))?;
        }
    }
    Ok(counts.to_string())
}

/// Card 1: two traces that differ only in their spelling, with right names, get the same verdicts.
fn both_spellings(random: &mut Random, subject: Subject) -> Checked {
    let mut cases = 0;
    for _ in 0..2_000 {
        let setting = Setting {
            sheet: None,
            spelling: Spelling::Plain,
            ..Setting::some(random)
        };
        let lent = setting.table(random);
        let requests = alone(setting.requests(random, lent.clone(), 12, true));
        let requests = mostly_allowed(random, &setting, &lent, requests);
        let mut now = lent.clone();
        let mut named = Vec::new();
        for request in &requests {
            let next = now.tally.issued.wrapping_add(1);
            named.push(match request {
                Request::Single(event) => Request::Single(Event {
                    written: Some(next),
                    ..*event
                }),
                group => group.clone(),
            });
            let _ = oracle_answer_by(None, &mut now, request);
        }
        let plain = generate::requests_text(&requests, Spelling::Plain);
        let named = generate::requests_text(&named, Spelling::Named);
        same_verdicts(subject, &lent, &plain, &named).map_err(|why| {
            let [plain, named] = [&plain, &named].map(|text| text.escape_ascii().to_string());
            format!("{why}\n  {lent:?}\n  {plain}\n  {named}")
        })?;
        cases += 1;
    }
    Ok(cases)
}

/// Texts with a line somewhere that goes back to what does not fit, behind lines that are all allowed: its 1 has its
/// own number, and the lines before it stand.
fn lines_that_do_not_fit(random: &mut Random, subject: Subject) -> Checked {
    const SLOT: u32 = 5;
    let mut cases = 0;
    while cases < 3_000 {
        let setting = Setting::some(random);
        let mut lent = Lent::empty(random.between(1, 12));
        let other = Lent::empty(lent.rows.len() + 1);
        let bad = match random.below(3) {
            0 => Slot::Misfit,
            1 => Slot::Stored(State {
                rows: other.rows,
                written: Default::default(),
            }),
            _ => {
                let mut rows = lent.rows.clone();
                rows[0] = generate::noise_row(random);
                Slot::Stored(State {
                    rows,
                    written: Default::default(),
                })
            }
        };
        if let Some(states) = lent.slots.states_mut() {
            states.set(SLOT, bad);
        }
        let count = random.between(0, 10);
        let requests = alone(setting.requests(random, lent.clone(), count, true));
        let mut now = lent.clone();
        let touches = |request: &Request| matches!(request, Request::Single(event) if turning::turns(request) && event.name == SLOT);
        let mut lines: Vec<Request> = Vec::new();
        for request in requests.into_iter().filter(|request| !touches(request)) {
            let mut after = now.clone();
            if oracle_answer_by(setting.by(), &mut after, &request).is_ok() {
                now = after;
                lines.push(request);
            }
        }
        let number = lines.len() as u64 + 1 + u64::from(setting.spelling == Spelling::Named);
        let actor = random.pick(&[0, 1, 63]);
        let back = Event {
            kind: BACK,
            name: SLOT,
            actor,
            ..Event::default()
        };
        lines.push(Request::Single(back));
        lines.push(Request::Single(Event { kind: MARK, ..back }));
        let text = generate::requests_text(&lines, setting.spelling);
        let mut left = lent.clone();
        let answer = agree::run_by(subject, setting.by(), &mut left, &text)
            .map_err(|why| format!("{why}\n  {lent:?}\n  {}", text.escape_ascii()))?;
        same_answer((1 << 32) + number, answer)?;
        same("what the lines before it left", &now, &left)?;
        let alone = agree::apply_by(subject, setting.by(), &mut left, back)?;
        same_answer(packed(Err(1)), alone)?;
        cases += 1;
    }
    Ok(cases)
}
