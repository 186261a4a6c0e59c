//! Card 8: how far one read reaches. Lists whose every request is allowed, each beside the same list
//! without one of its reads, in calls and in texts.

use std::collections::BTreeSet;
use std::fmt::{self, Display, Formatter};
use std::slice;

use interface::{AnswerWords, Cap, Event, SHEET_PLACES};
use oracle::random::Random;
use oracle::{READ_ONLY, READ_WRITE, Row, Span, Spelling, Tally};

use crate::agree::{self, Agreed, By, Lent, LentSheet, Subject, same, same_answer};
use crate::generate::{self, Request, Shape};
use crate::report::{Met, Report, check_few};
use crate::sheets;
use crate::strikes::path;
use crate::turning;

/// Lists of one sort: how many of them, by which sheets, and on which tables.
struct Lists {
    name: &'static str,
    count: u64,
    sheet: fn(&mut Random) -> Option<LentSheet>,
    lent: fn(&mut Random) -> Lent,
}

const LISTS: [Lists; 4] = [
    Lists {
        name: "by card 6's sheet, from empty tables",
        count: 6_000,
        sheet: card_6_sheet,
        lent: empty,
    },
    Lists {
        name: "by card 6's sheet, from tables in use",
        count: 6_000,
        sheet: card_6_sheet,
        lent: in_use,
    },
    Lists {
        name: "by sheets in which no read ends, from empty tables",
        count: 9_000,
        sheet: |random| Some(sheet(random)),
        lent: empty,
    },
    Lists {
        name: "by sheets in which no read ends, from tables in use",
        count: 9_000,
        sheet: |random| Some(sheet(random)),
        lent: in_use,
    },
];

pub fn groups(report: &mut Report, subject: Subject) {
    for lists in &LISTS {
        report.group_saying(&format!("reads taken out {}", lists.name), |random| {
            taken_out(random, subject, lists)
        });
    }
    report.group_saying("reads taken out by sheets in which reads end", |random| {
        that_end(random, subject)
    });
    report.group_saying("reads taken out of lists with refusals", |random| {
        before_refusals(random, subject)
    });
    report.met("every sort of read taken out was met", || {
        MET.every_sort(&SORTS, LEAST)
    });
}

/// Sorts of reads that were taken out, and of what they reach.
const SORTS: [&str; 9] = [
    "a read that reaches nothing",
    "the last request",
    "a read before a create or a borrow",
    "a read that does not count, at the ceiling",
    "struck, and its right differs",
    "below a struck one and not touched, and its right differs",
    "below a struck one, touched and kept, and its right differs",
    "struck, and read-only without the read too",
    "struck, and ended later",
];

static MET: Met<9> = Met::none();

/// How often each must be met.
const LEAST: u64 = 500;

#[derive(Default)]
struct Counts {
    lists: u64,
    reads: u64,
    rights: u64,
}

impl Display for Counts {
    fn fmt(&self, formatter: &mut Formatter) -> fmt::Result {
        let Counts {
            lists,
            reads,
            rights,
        } = self;
        write!(
            formatter,
            "{lists} traces, {reads} reads taken out, {rights} rights that differ"
        )
    }
}

/// What requests begin on.
#[derive(Clone, Copy)]
struct Start<'a> {
    subject: Subject,
    by: By<'a>,
    lent: &'a Lent,
}

/// How requests were answered, and what they left.
#[derive(Debug, PartialEq)]
struct Ran {
    answers: Vec<AnswerWords>,
    left: Lent,
}

impl Ran {
    fn is_allowed(&self) -> bool {
        self.answers.iter().all(|[refusal, _]| *refusal == 0)
    }
}

impl Start<'_> {
    fn ask(self, requests: &[Request]) -> Result<Ran, String> {
        let (events, names) = sheets::words_of(requests);
        let sheet = agree::bytes_of(self.by);
        let mut answers = vec![[u32::MAX; 2]; requests.len()];
        let (taken, found) = agree::lend(self.lent, |memory| {
            let (call, answers) = (self.subject, &mut answers);
            call.apply_all_by(sheet, memory, &events, &names, answers) as u64
        })?;
        same("events taken", requests.len() as u64, taken)?;
        let left = found.lent();
        Ok(Ran { answers, left })
    }

    /// A text that must be allowed, of so many lines, and leave what requests left.
    fn run(self, text: &[u8], lines: usize, left: &Lent) -> Agreed {
        let sheet = agree::bytes_of(self.by);
        let (answer, found) =
            agree::lend(self.lent, |memory| self.subject.run_by(sheet, memory, text))?;
        same_answer(lines as u64, answer)?;
        same("what a text leaves", left, &found.lent())?;
        if !self.is_checks_own() {
            return Ok(());
        }
        let mut out = vec![0; LONGEST_CHECK];
        let length = agree::print(self.subject, text, &mut out);
        let expected = format!("(allowed {lines})\n").into_bytes();
        let expected = [expected, listing(self.subject, left)?].concat();
        same_answer(expected.len() as u64, length)?;
        same("what is printed", &expected[..], &out[..expected.len()])
    }

    /// Whether `kz_check` begins on the same: no live row, nothing written, no name issued, no limits, and card
    /// 6's sheet. It has all the rows that a list may need, and prints no other count.
    fn is_checks_own(self) -> bool {
        self.by.is_none()
            && self.lent.limits.is_empty()
            && self.lent.tally.issued == 0
            && self.lent.bits == Lent::empty(0).bits
            && oracle::live_rows(&self.lent.rows).is_empty()
    }
}

/// Enough for the verdict and the listing of the lists here.
const LONGEST_CHECK: usize = 4_096;

/// The listing of what was left.
fn listing(subject: Subject, lent: &Lent) -> Result<Vec<u8>, String> {
    let table: Vec<Cap> = lent.rows.iter().map(agree::cap_of).collect();
    let mut out = vec![0; 64 + 80 * table.len()];
    let length = subject.write_listing(&table, lent.tally.issued, &mut out);
    same("refusal of a listing", 0, length >> 32)?;
    out.truncate(length as usize);
    Ok(out)
}

/// A read of a list: what lives before it, what of that it strikes, and what is struck or has a struck
/// ancestor.
struct Read {
    span: Span,
    live: Vec<Row>,
    struck: BTreeSet<u32>,
    reached: BTreeSet<u32>,
}

fn is_read(request: &Request) -> bool {
    matches!(request, Request::Single(Event { kind: 3, .. }))
}

/// The reads of a list, each with its place.
fn reads(start: Start, requests: &[Request]) -> Result<Vec<(usize, Read)>, String> {
    let mut reads = Vec::new();
    for (at, request) in requests.iter().enumerate() {
        if let Request::Single(event) = request
            && is_read(request)
        {
            let before = start.ask(&requests[..at])?.left;
            reads.push((at, read(start, &before, *event)));
        }
    }
    Ok(reads)
}

/// A read on what is lent. What it strikes is said by the oracle.
fn read(start: Start, before: &Lent, event: Event) -> Read {
    let live = oracle::live_rows(&before.rows).to_vec();
    let span = agree::span_of(event);
    let sheet = agree::sheet_of(start.by);
    let struck = oracle::read_strikes(sheet, &live, event.name, span);
    let is_struck = |row: &&Row| struck.contains(&row.name);
    let is_reached = |row: &&Row| path(&live, row.name).iter().any(is_struck);
    let reached = live.iter().filter(is_reached).map(|row| row.name).collect();
    Read {
        span,
        live,
        struck,
        reached,
    }
}

/// The items but those at these places.
fn without<T: Clone>(items: &[T], places: &[usize]) -> Vec<T> {
    let kept = items.iter().enumerate();
    let kept = kept.filter(|(at, _)| !places.contains(at));
    kept.map(|(_, item)| item.clone()).collect()
}

/// Holds what a list got and left without its reads at some places beside what it did with them; these
/// reach so much. Gives how many rights differ.
fn compare(
    whole: &Ran,
    rest: &Ran,
    places: &[usize],
    reached: &BTreeSet<u32>,
) -> Result<u64, String> {
    let answers = without(&whole.answers, places);
    same("answers without the read", &answers, &rest.answers)?;
    same("rows", whole.left.rows.len(), rest.left.rows.len())?;
    let mut rights = 0;
    for (with, without) in whole.left.rows.iter().zip(&rest.left.rows) {
        let right = without.right;
        same("a row but for its right", Row { right, ..*with }, *without)?;
        let expected = match reached.contains(&with.name) {
            true => READ_ONLY.into(),
            false => right,
        };
        same("a right with the read", expected, with.right)?;
        if right != with.right {
            same("a right without the read", READ_WRITE.into(), right)?;
            rights += 1;
        }
    }
    same("written bits", &whole.left.bits, &rest.left.bits)?;
    // With the read the count is one higher, but for its ceiling.
    let reads = rest.left.tally.reads.saturating_add(places.len() as u32);
    let tally = Tally {
        reads,
        ..rest.left.tally
    };
    same("tally", whole.left.tally, tally)?;
    Ok(rights)
}

/// Two listings that must have the same bytes but for so many rights.
fn compare_listings(with: &[u8], without: &[u8], rights: u64) -> Agreed {
    same("length of a listing", with.len(), without.len())?;
    let mut differing = 0;
    for at in (0..with.len()).filter(|at| with[*at] != without[*at]) {
        let words = [with, without].map(|text| str::from_utf8(&text[at.saturating_sub(2)..=at]));
        same("a word of a listing", [Ok(" ro"), Ok(" rw")], words)?;
        differing += 1;
    }
    same("rights in a listing", rights, differing)
}

/// The requests with their new names written out.
fn named(requests: &[Request], answers: &[AnswerWords]) -> Vec<Request> {
    let with_name = |(request, [_, name]): (&Request, &AnswerWords)| match request {
        Request::Single(event) if makes(request) => Request::Single(Event {
            written: Some(*name),
            ..*event
        }),
        _ => request.clone(),
    };
    requests.iter().zip(answers).map(with_name).collect()
}

fn makes(request: &Request) -> bool {
    matches!(request, Request::Single(Event { kind: 1 | 2, .. }))
}

fn borrows(request: &Request) -> bool {
    matches!(request, Request::Single(Event { kind: 2, .. }))
}

/// A list in one spelling, its lines, and how many stand in front of its first.
struct Spelt {
    requests: Vec<Request>,
    lines: Vec<Vec<u8>>,
    front: usize,
}

fn spelt(requests: Vec<Request>, spelling: Spelling) -> Spelt {
    let text = generate::requests_text(&requests, spelling);
    let lines = text.split_inclusive(|byte| *byte == b'\n');
    let lines: Vec<Vec<u8>> = lines.map(<[u8]>::to_vec).collect();
    let front = lines.len() - requests.len();
    Spelt {
        requests,
        lines,
        front,
    }
}

/// Takes each read out of a list, and then several. A list that is not allowed is none of these: it comes
/// of requests that were taken out to find few that fail.
fn check(start: Start, requests: &[Request]) -> Result<Counts, String> {
    let whole = start.ask(requests)?;
    if !whole.is_allowed() {
        return Ok(Counts::default());
    }
    let reads = reads(start, requests)?;
    let both = [
        spelt(requests.to_vec(), Spelling::Plain),
        spelt(named(requests, &whole.answers), Spelling::Named),
    ];
    for spelt in &both {
        let lines = &spelt.lines;
        start.run(&lines.concat(), lines.len(), &whole.left)?;
    }
    let mut rights = 0;
    for (at, read) in &reads {
        let (differing, left) = check_without(start, &whole, &both, &[*at], &read.reached)
            .map_err(|why| format!("{why}\n  without request {at}"))?;
        count(read, &requests[at + 1..], &whole.left, &left);
        rights += differing;
    }
    for (first, step) in [(0, 1), (0, 2), (1, 2)] {
        let some: Vec<&(usize, Read)> = reads.iter().skip(first).step_by(step).collect();
        let places: Vec<usize> = some.iter().map(|(at, _)| *at).collect();
        let reached = some.iter().flat_map(|(_, read)| &read.reached);
        let reached = reached.copied().collect();
        check_without(start, &whole, &both, &places, &reached)
            .map_err(|why| format!("{why}\n  without the requests {places:?}"))?;
    }
    Ok(Counts {
        lists: 1,
        reads: reads.len() as u64,
        rights,
    })
}

/// Takes the reads at some places out of a list, in calls and in texts of both spellings. Gives how many
/// rights differ, and what is left without them.
fn check_without(
    start: Start,
    whole: &Ran,
    both: &[Spelt; 2],
    places: &[usize],
    reached: &BTreeSet<u32>,
) -> Result<(u64, Lent), String> {
    let [plain, named] = both;
    let rest = start.ask(&without(&plain.requests, places))?;
    let rights = compare(whole, &rest, places, reached)?;
    let [with, without_them] = [whole, &rest].map(|ran| listing(start.subject, &ran.left));
    compare_listings(&with?, &without_them?, rights)?;
    let again = start.ask(&without(&named.requests, places))?;
    same("the same with names written out", &rest, &again)?;
    for spelt in both {
        let places: Vec<usize> = places.iter().map(|at| spelt.front + at).collect();
        let lines = without(&spelt.lines, &places);
        start.run(&lines.concat(), lines.len(), &rest.left)?;
    }
    Ok((rights, rest.left))
}

/// Counts a read that was taken out, and all that it reaches.
fn count(read: &Read, behind: &[Request], whole: &Lent, rest: &Lent) {
    let mut sorts = [false; 9];
    sorts[0] = read.reached.is_empty();
    sorts[1] = behind.is_empty();
    sorts[2] = behind.iter().any(makes);
    sorts[3] = whole.tally.reads == rest.tally.reads;
    MET.count(sorts);
    for row in read
        .live
        .iter()
        .filter(|row| read.reached.contains(&row.name))
    {
        let right = |lent: &Lent| {
            let left = lent.rows.iter().find(|left| left.name == row.name);
            left.map(|left| left.right)
        };
        let differs = right(whole) != right(rest);
        let is_struck = read.struck.contains(&row.name);
        let is_touched = row.span().touches(read.span);
        let mut sorts = [false; 9];
        sorts[4] = is_struck && differs;
        sorts[5] = !is_struck && !is_touched && differs;
        sorts[6] = !is_struck && is_touched && differs;
        sorts[7] = is_struck && right(rest) == Some(READ_ONLY.into());
        sorts[8] = is_struck && right(rest).is_none();
        MET.count(sorts);
    }
}

/// Card 6's sheet: none that is lent, or its bytes.
fn card_6_sheet(random: &mut Random) -> Option<LentSheet> {
    let [none, bytes, more] = sheets::card_6_sheets();
    match random.below(6) {
        0 => Some(none),
        1 => Some(bytes),
        2 => Some(more),
        _ => None,
    }
}

/// Whether a sheet has the results of reads at this place.
fn is_of_reads(place: usize) -> bool {
    place % 6 < 3
}

/// A sheet in which no read ends. What is missing counts as the end, so only places of writes are.
fn sheet(random: &mut Random) -> LentSheet {
    let mut bytes = sheets::sheet(random).bytes;
    if !bytes.is_empty() && bytes.len() < SHEET_PLACES {
        bytes.resize(random.between(15, SHEET_PLACES), 2);
    }
    let keeps = random.pick(&[2, 4, 8]);
    for place in (0..bytes.len()).filter(|place| is_of_reads(*place)) {
        bytes[place] = u8::from(!random.one_in(keeps));
    }
    LentSheet::of(&bytes)
}

/// A sheet in which some reads end, and most writes do not.
fn sheet_of_ends(random: &mut Random) -> LentSheet {
    let mut bytes = [0; SHEET_PLACES];
    for (place, byte) in bytes.iter_mut().enumerate() {
        *byte = match is_of_reads(place) {
            true => random.pick(&[0, 1, 2, 2]),
            false => random.pick(&[0, 0, 1, 2]),
        };
    }
    LentSheet::of(&bytes)
}

fn empty(random: &mut Random) -> Lent {
    let mut lent = Lent::empty(random.between(2, 16));
    lent.tally = generate::tally(random);
    lent
}

/// A table in which something lives, with rows to spare or without.
fn in_use(random: &mut Random) -> Lent {
    let live = match random.below(400) {
        0 => random.between(150, 300),
        1..=20 => random.between(20, 70),
        _ => random.between(1, 12),
    };
    let rows = live + random.index(10);
    let deep = random.one_in(4);
    match live > 12 || random.one_in(2) {
        true => generate::ordered(random, &Shape { rows, live, deep }),
        false => generate::crowded(random, rows, live),
    }
}

/// Requests that are allowed, one after the other. Most that end others are passed over: they would leave
/// little of what reads reach.
fn allowed(random: &mut Random, start: Start) -> Result<Vec<Request>, String> {
    let area = sheets::area(random);
    let tries = match random.one_in(40) {
        true => 150,
        false => random.between(8, 40),
    };
    let mut requests = Vec::new();
    let mut lent = start.lent.clone();
    for _ in 0..tries {
        let request = sheets::request(random, &lent, area, Spelling::Plain);
        if !is_read(&request) && !borrows(&request) && !random.one_in(3) {
            continue;
        }
        let now = Start {
            lent: &lent,
            ..start
        };
        let ran = now.ask(slice::from_ref(&request))?;
        if ran.is_allowed() {
            requests.push(request);
            lent = ran.left;
        }
    }
    Ok(requests)
}

fn taken_out(random: &mut Random, subject: Subject, lists: &Lists) -> Result<String, String> {
    let mut counts = Counts::default();
    for _ in 0..lists.count {
        let (by, lent) = ((lists.sheet)(random), (lists.lent)(random));
        let start = Start {
            subject,
            by: by.as_ref(),
            lent: &lent,
        };
        let requests = allowed(random, start)?;
        let found = check(start, &requests).map_err(|_| few(start, &requests))?;
        counts.lists += found.lists;
        counts.reads += found.reads;
        counts.rights += found.rights;
    }
    same("lists", lists.count, counts.lists)?;
    Ok(counts.to_string())
}

/// Why a list fails, with few requests that still do.
fn few(start: Start, requests: &[Request]) -> String {
    let again = check_few(requests, |fewer| check(start, fewer).map(|_| ()));
    let Err((why, requests)) = again else {
        return "a list that failed once".to_string();
    };
    let sheet = agree::bytes_of(start.by);
    format!(
        "{why}\n  {:?}\n  requests {requests:?}\n  sheet {sheet:?}",
        start.lent
    )
}

/// Whether two tables have other rows than such as differ in their rights.
fn differ_in_more(with: &Lent, without: &Lent) -> bool {
    let rows = |lent: &Lent| -> Vec<Row> {
        let no_right = |row: &Row| Row { right: 0, ..*row };
        lent.rows.iter().map(no_right).collect()
    };
    rows(with) != rows(without)
}

/// By sheets in which reads end, more can change: then what is compared above must fail. It does, and some
/// lists come to a full table.
fn that_end(random: &mut Random, subject: Subject) -> Result<String, String> {
    let lists = 3_000;
    let [mut reads, mut more, mut full] = [0; 3];
    for _ in 0..lists {
        let (by, lent) = (sheet_of_ends(random), Lent::empty(random.between(3, 8)));
        let start = Start {
            subject,
            by: Some(&by),
            lent: &lent,
        };
        let requests = allowed(random, start)?;
        let whole = start.ask(&requests)?;
        for (at, read) in self::reads(start, &requests)? {
            let rest = start.ask(&without(&requests, &[at]))?;
            let is_full = rest.answers.iter().any(|[refusal, _]| *refusal == 10);
            let has_more = differ_in_more(&whole.left, &rest.left);
            let is_seen = compare(&whole, &rest, &[at], &read.reached).is_err();
            same("a difference is seen", has_more || is_full, is_seen)?;
            reads += 1;
            more += u64::from(has_more);
            full += u64::from(is_full);
        }
    }
    let said = format!(
        "{lists} traces, {reads} reads taken out, \
         {more} of which change more than rights, {full} lead to a refusal 10"
    );
    match more > 0 && full > 0 {
        true => Ok(said),
        false => Err(said),
    }
}

/// In a list with refusals a read that is taken out can hide one, and then more than rights can change. The
/// first answer that differs is a refusal 7 in the whole list.
fn before_refusals(random: &mut Random, subject: Subject) -> Result<String, String> {
    let lists = 3_000;
    let [mut reads, mut hidden, mut more] = [0; 3];
    for _ in 0..lists {
        let (by, lent) = (sheet(random), Lent::empty(random.between(3, 12)));
        let start = Start {
            subject,
            by: Some(&by),
            lent: &lent,
        };
        let count = random.between(8, 40);
        let mut requests = sheets::requests(random, &by, lent.clone(), count, Spelling::Plain);
        requests.retain(|request| !turning::turns(request));
        let count = requests.len();
        let whole = start.ask(&requests)?;
        let places = (0..count).filter(|at| is_read(&requests[*at]) && whole.answers[*at][0] == 0);
        for at in places {
            let rest = start.ask(&without(&requests, &[at]))?;
            let answers = without(&whole.answers, &[at]);
            let mut both = answers.iter().zip(&rest.answers);
            reads += 1;
            if let Some(([refusal, _], _)) = both.find(|(with, without)| with != without) {
                same("the first answer that differs", 7, *refusal)?;
                hidden += 1;
                more += u64::from(differ_in_more(&whole.left, &rest.left));
            }
        }
    }
    let said = format!(
        "{lists} traces, {reads} reads taken out, \
         {hidden} of which hide a refusal 7, {more} of these change more than rights"
    );
    match hidden > 0 && more > 0 {
        true => Ok(said),
        false => Err(said),
    }
}
