//! Traces in the two spellings: the same events get the same verdicts in both, a wrong name is
//! refused, and the header is one only as the first line.

use interface::Event;
use oracle::random::Random;
use oracle::traces::whole;
use oracle::{HEADER, MAX_INPUT, MAX_ROWS, Spelling};

use crate::agree::{self, Agreed, Lent, Subject, packed_run, same, same_answer};
use crate::generate::{self, Shape};
use crate::lines::{check_text, each_byte};
use crate::report::{Checked, Report, check_few};

pub fn groups(report: &mut Report, subject: Subject) {
    report.group("plain and named runs of the same events", |random| {
        both_runs(random, subject, 8_000, |_, _| {})
    });
    report.group("the same on disordered tables, plain and named", |random| {
        both_runs(random, subject, 2_000, |random, lent| {
            generate::disturb(random, lent)
        })
    });
    report.group("plain and named texts that capcheck is given", |random| {
        both_printed(random, subject, 1_000)
    });
    report.group("plain text within the input, named text above", |_| {
        named_above(subject)
    });
    report.group("named runs with a wrong name", |random| {
        wrong_names(random, subject)
    });
    report.group("headers of named texts and what is nearly one", |_| {
        headers(subject)
    });
    report.group("every change of one byte of a named text", |_| {
        each_byte(&SAMPLES, |text| {
            agree::run(subject, &mut Lent::empty(2), text).map(|_| ())
        })
    });
}

const SAMPLES: [&str; 4] = [
    "(trace 2)\n",
    "(trace 2)\n(create 1 0 64 rw)\n",
    "(create 0 8 ro)\n(trace 2)\n",
    "(trace 2)\n(create 1 0 8 rw)\n(borrow 2 1 0 4 ro)\n(drop 1)\n",
];

/// A line of a text that is written in both spellings.
#[derive(Clone, Copy, Debug)]
enum Line {
    Event(Event),
    /// One that is misspelt in both.
    Misspelt(&'static str),
}

const MISSPELT: [&str; 9] = [
    "\n",
    "(read 01 0 8)\n",
    "(trace 1)\n",
    "(create)\n",
    "(create 0 64)\n",
    "(borrow 1 1 1 1)\n",
    "(drop 1 1)\n",
    "(create 1 0 64 rw",
    "(drop 1)",
];

/// The plain and the named text. The names are right as long as each line is allowed; no later one
/// is looked at.
fn both_texts(lent: &Lent, lines: &[Line]) -> [Vec<u8>; 2] {
    let mut lent = lent.clone();
    let mut plain = String::new();
    let mut named = String::from_utf8_lossy(HEADER).into_owned();
    for line in lines {
        match line {
            Line::Misspelt(line) => {
                plain += line;
                named += line;
            }
            Line::Event(event) => {
                let named_event = rightly_named(&lent, *event);
                plain += &generate::line(*event, Spelling::Plain).unwrap_or_default();
                named += &generate::line(named_event, Spelling::Named).unwrap_or_default();
                let _ = agree::oracle_apply(&mut lent, *event);
            }
        }
    }
    [plain.into_bytes(), named.into_bytes()]
}

pub fn rightly_named(lent: &Lent, event: Event) -> Event {
    Event {
        written: Some(lent.tally.issued.wrapping_add(1)),
        ..event
    }
}

/// Lines of which all are allowed in some cases, and some misspelt in others.
fn lines(random: &mut Random, lent: &Lent, most: usize) -> Vec<Line> {
    let count = random.between(0, most);
    let mut events = generate::events(random, lent.clone(), count, Spelling::Plain);
    if random.one_in(2) {
        let mut lent = lent.clone();
        events.retain(|event| agree::oracle_apply(&mut lent, *event).is_ok());
    }
    let mut lines: Vec<Line> = events.into_iter().map(Line::Event).collect();
    if random.one_in(6) {
        let at = random.index(lines.len() + 1);
        lines.insert(at, Line::Misspelt(random.pick(&MISSPELT)));
    }
    lines
}

fn both_runs(
    random: &mut Random,
    subject: Subject,
    runs: u64,
    change: impl Fn(&mut Random, &mut Lent),
) -> Checked {
    for _ in 0..runs {
        let shape = Shape::partly_full(random, 14);
        let mut lent = generate::ordered(random, &shape);
        let lines = lines(random, &lent, 24);
        change(random, &mut lent);
        check_lines(&lines, &lent, |lines| {
            let [plain, named] = both_texts(&lent, lines);
            same_verdicts(subject, &lent, &plain, &named)
        })?;
    }
    Ok(runs)
}

/// Checks lines; on failure gives few lines that still fail.
fn check_lines(lines: &[Line], lent: &Lent, check: impl Fn(&[Line]) -> Agreed) -> Agreed {
    check_few(lines, check).map_err(|(why, lines)| format!("{why}\n  {lent:?}\n  lines {lines:?}"))
}

/// The answer to the named text whose plain text has this one: the lines allowed, or the line
/// number unless it is 0, are one higher.
pub fn with_header(answer: u64) -> u64 {
    let (number, value) = (answer >> 32, answer as u32);
    match number != 0 && value == 0 {
        true => answer,
        false => answer + 1,
    }
}

/// A plain text and the named one of the same lines, each run on what is lent.
pub fn same_verdicts(subject: Subject, lent: &Lent, plain: &[u8], named: &[u8]) -> Agreed {
    let mut after_plain = lent.clone();
    let mut after_named = lent.clone();
    let answer = agree::run(subject, &mut after_plain, plain)?;
    let with_names = agree::run(subject, &mut after_named, named)?;
    same_answer(with_header(answer), with_names)?;
    same("what is lent", after_plain, after_named)
}

fn both_printed(random: &mut Random, subject: Subject, inputs: u64) -> Checked {
    for _ in 0..inputs {
        let lent = Lent::empty(MAX_ROWS);
        let lines = lines(random, &lent, 40);
        check_lines(&lines, &Lent::empty(0), |lines| {
            let [plain, named] = both_texts(&lent, lines);
            let expected = with_header_printed(&printed(subject, &plain)?);
            same("printed", expected, printed(subject, &named)?)
        })?;
    }
    Ok(inputs)
}

/// What `capcheck` prints, after a comparison with the oracle.
fn printed(subject: Subject, input: &[u8]) -> Result<String, String> {
    agree::check(subject, input)?;
    let mut out = vec![0; 61_000];
    let length = agree::print(subject, input, &mut out);
    out.truncate(length as usize);
    String::from_utf8(out).map_err(|why| why.to_string())
}

/// What is printed for the named text whose plain text has this printed: the last number of the
/// first line is one higher.
fn with_header_printed(printed: &str) -> String {
    let (verdict, rest) = printed.split_once(")\n").expect("a verdict stands first");
    let (words, number) = verdict.rsplit_once(' ').expect("a verdict has a number");
    let number: u32 = number.parse().expect("a verdict has a number");
    format!("{words} {})\n{rest}", number + 1)
}

/// The named text is longer: `(long)` is printed for it alone.
fn named_above(subject: Subject) -> Checked {
    let reads = "(read 1 0 1)\n".repeat((MAX_INPUT - 16) / 13);
    let plain = format!("(create 0 1 rw)\n{reads}");
    let named = format!("(trace 2)\n(create 1 0 1 rw)\n{reads}");
    assert!(plain.len() <= MAX_INPUT && MAX_INPUT < named.len());
    let allowed = whole("(allowed 5041)\n(issued 1)\n(1 0 1 rw)\n");
    same("plain", allowed, printed(subject, plain.as_bytes())?)?;
    let long = "(long)\n".to_string();
    same("named", long, printed(subject, named.as_bytes())?)?;
    Ok(2)
}

/// Texts whose lines are all allowed but for one name, which is wrong.
fn wrong_names(random: &mut Random, subject: Subject) -> Checked {
    let mut runs = 0;
    while runs < 4_000 {
        let shape = Shape::partly_full(random, 14);
        let lent = generate::ordered(random, &shape);
        let mut events = allowed_and_named(random, &lent);
        let makes = |at: &usize| events[*at].kind <= 2;
        let candidates: Vec<usize> = (0..events.len()).filter(makes).collect();
        if candidates.is_empty() {
            continue;
        }
        let at = random.pick(&candidates);
        let right = events[at].written;
        while events[at].written == right {
            let last = right.map_or(0, |name| name - 1);
            events[at].written = Some(generate::wrong_name(random, last));
        }
        refused_there(subject, lent, &events, at)?;
        runs += 1;
    }
    Ok(runs)
}

/// Events that are all allowed, with their right names.
fn allowed_and_named(random: &mut Random, lent: &Lent) -> Vec<Event> {
    let mut lent = lent.clone();
    let events = generate::events(random, lent.clone(), 16, Spelling::Plain);
    let named = events.into_iter().filter_map(|event| {
        let event = rightly_named(&lent, event);
        agree::oracle_apply(&mut lent, event).ok().map(|_| event)
    });
    named.collect()
}

/// The lines before the wrong name stand, and it is refusal 12 at its own line.
fn refused_there(subject: Subject, lent: Lent, events: &[Event], at: usize) -> Agreed {
    let text = generate::trace(events, Spelling::Named);
    let mut before = lent.clone();
    for event in &events[..at] {
        agree::oracle_apply(&mut before, *event).map_err(|number| format!("refusal {number}"))?;
    }
    let outcome = |text: &[u8]| {
        let mut lent = lent.clone();
        let answer = agree::run(subject, &mut lent, text)?;
        // From 1, after the header.
        let line = at as u32 + 2;
        same_answer(packed_run(Err((12, line))), answer)?;
        same("rows", &before.rows, &lent.rows)?;
        same("issued", before.tally.issued, lent.tally.issued)
    };
    outcome(&text).map_err(|why| format!("{why}\n  {lent:?}\n  \"{}\"", text.escape_ascii()))
}

/// What stands first in a text: the header, and what is nearly one.
const FIRST: [&str; 24] = [
    "",
    "(trace 2)\n",
    "(trace 2)\n(trace 2)\n",
    "(trace 2)\n\n",
    "\n(trace 2)\n",
    "(trace 2)",
    "(trace 2)\r\n",
    "(trace 2) \n",
    " (trace 2)\n",
    "(trace 2 )\n",
    "( trace 2)\n",
    "(trace  2)\n",
    "(trace 1)\n",
    "(trace 3)\n",
    "(trace 02)\n",
    "(trace 2.0)\n",
    "(trace 22)\n",
    "(trace)\n",
    "(trace 2 2)\n",
    "(Trace 2)\n",
    "trace 2\n",
    "(trace 2)\0\n",
    "(trace 2)(trace 2)\n",
    "\u{feff}(trace 2)\n",
];

/// What follows.
const REST: [&str; 12] = [
    "",
    "(create 0 64 rw)\n",
    "(create 1 0 64 rw)\n",
    "(create 1 0 64 rw)\n(borrow 2 1 0 8 rw)\n",
    "(create 0 64 rw)\n(borrow 1 0 8 rw)\n",
    "(create 1 0 64 rw)\n(trace 2)\n(read 1 0 8)\n",
    "(create 0 64 rw)\n(trace 2)\n(read 1 0 8)\n",
    "(create 1 0 64 rw)\n(create 0 64 rw)\n",
    "(create 0 64 rw)\n(create 1 0 64 rw)\n",
    "(create 1 0 64 rw)\n(trace 2)",
    "(drop 1)\n",
    "(create 2 0 64 rw)\n",
];

fn headers(subject: Subject) -> Checked {
    let mut cases = 0;
    for first in FIRST {
        for rest in REST {
            let text = format!("{first}{rest}");
            for rows in [0, 1, 3, MAX_ROWS, MAX_ROWS + 1] {
                cases += 1;
                check_text(text.as_bytes(), |text| {
                    agree::run(subject, &mut Lent::empty(rows), text).map(|_| ())
                })?;
            }
            agree::check(subject, text.as_bytes())?;
        }
    }
    Ok(cases)
}
