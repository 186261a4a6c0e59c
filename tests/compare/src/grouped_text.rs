//! Lines of names that are dropped together, written, read, and in both spellings of traces.

use interface::{DROP_ALL, Words};
use oracle::random::Random;
use oracle::traces::whole;
use oracle::{HEADER, MAX_GROUP, MAX_INPUT, MAX_ROWS, Spelling, Tally};

use crate::acting::any_actor;
use crate::agree::{self, Agreed, Lent, Subject, packed, packed_run, same, same_answer};
use crate::generate::{self, Request, Shape};
use crate::lines::{NUMBERS, check_text, each_byte};
use crate::report::{Checked, Report, check_few};
use crate::spellings::{rightly_named, same_verdicts, with_header};

const SAMPLES: [&str; 10] = [
    "(drop 2 5 9)\n",
    "(drop 1)\n",
    "(drop 0 1)\n",
    "(drop 9 10)\n",
    "(drop 1 4294967295)\n",
    "(drop 1 2 3 4 5 6 7 8)\n",
    "(drop 1 1)\n",
    "(drop 2 1)\n",
    "(drop)\n",
    "(drop 1 02)\n",
];

pub fn groups(report: &mut Report, subject: Subject) {
    for (name, rows, steps, listing) in EXAMPLES {
        let name = format!("dropped together: {name}");
        report.group(&name, |_| example(subject, rows, steps, listing));
    }
    report.group("dropped together: the tally", |_| counted_once(subject));
    report.group("dropped together: refusal 13", |_| misgrouped(subject));
    report.group("lines of names dropped together, written", |random| {
        written(random, subject)
    });
    report.group("lines of names dropped together, read", |random| {
        read(random, subject, 0)
    });
    report.group("lines of names dropped together, damaged", |random| {
        read(random, subject, 2)
    });
    report.group("every change of one byte of names dropped together", |_| {
        each_byte(&SAMPLES, |line| agree::read_both(subject, line))
    });
    report.group("numbers in lines of names dropped together", |_| {
        words(subject)
    });
    report.group("lines of names dropped together at their limits", |_| {
        limits(subject)
    });
    report.group(
        "plain and named runs with names dropped together",
        |random| both_spellings(random, subject),
    );
}

/// A line and its answer.
type Step = (&'static str, Result<u32, u8>);

const FRAME: [Step; 5] = [
    ("(create 0 8 rw)", Ok(1)),
    ("(create 8 8 rw)", Ok(2)),
    ("(create 16 8 rw)", Ok(3)),
    ("(borrow 2 8 4 rw)", Ok(4)),
    ("(borrow 4 8 2 ro)", Ok(5)),
];

const ALL: &str = "(issued 5)\n(1 0 8 rw)\n(2 8 8 rw (4 8 4 rw (5 8 2 ro)))\n(3 16 8 rw)\n";

/// Card 5: rows, lines after those of `FRAME`, and the listing after them, in which each row is of domain 0
/// alone.
const EXAMPLES: [(&str, usize, &[Step], &str); 11] = [
    (
        "roots, with subtrees",
        5,
        &[("(drop 1 2)", Ok(0))],
        "(issued 5)\n(3 16 8 rw)\n",
    ),
    (
        "one name is the drop",
        5,
        &[("(drop 2)", Ok(0))],
        "(issued 5)\n(1 0 8 rw)\n(3 16 8 rw)\n",
    ),
    (
        "a name and one below it",
        5,
        &[("(drop 2 4)", Ok(0))],
        "(issued 5)\n(1 0 8 rw)\n(3 16 8 rw)\n",
    ),
    (
        "a chain, and another root",
        16,
        &[
            ("(drop 2 3 4 5)", Ok(0)),
            ("(read 4 8 1)", Err(5)),
            ("(read 1 0 8)", Ok(0)),
        ],
        "(issued 5)\n(1 0 8 rw)\n",
    ),
    (
        "from below a root that stays",
        5,
        &[("(drop 1 5)", Ok(0)), ("(write 4 8 1)", Ok(0))],
        "(issued 5)\n(2 8 8 rw (4 8 4 rw))\n(3 16 8 rw)\n",
    ),
    ("all", 5, &[("(drop 1 2 3 4 5)", Ok(0))], "(issued 5)\n"),
    (
        "the first name refused gives the number",
        7,
        &[
            ("(drop 4)", Ok(0)),
            ("(drop 4 9)", Err(5)),
            ("(drop 0 4)", Err(4)),
            ("(drop 6 9)", Err(4)),
            ("(drop 1 4294967295)", Err(4)),
        ],
        "(issued 5)\n(1 0 8 rw)\n(2 8 8 rw)\n(3 16 8 rw)\n",
    ),
    (
        "all are dropped or none",
        7,
        &[
            ("(drop 5)", Ok(0)),
            ("(drop 1 2 3 5)", Err(5)),
            ("(drop 1 2 3 6)", Err(4)),
        ],
        "(issued 5)\n(1 0 8 rw)\n(2 8 8 rw (4 8 4 rw))\n(3 16 8 rw)\n",
    ),
    (
        "names that do not rise strictly",
        5,
        &[
            ("(drop 2 1)", Err(2)),
            ("(drop 1 1)", Err(2)),
            ("(drop 1 3 2)", Err(2)),
            ("(drop 9 7)", Err(2)),
        ],
        ALL,
    ),
    (
        "lines that are none",
        5,
        &[
            ("(drop)", Err(2)),
            ("(drop )", Err(2)),
            ("(drop 1  2)", Err(2)),
            ("(drop 1 2 )", Err(2)),
            ("(drop 1 02)", Err(2)),
        ],
        ALL,
    ),
    (
        "rows come free",
        5,
        &[
            ("(create 24 8 rw)", Err(10)),
            ("(drop 1 5)", Ok(0)),
            ("(create 24 8 rw)", Ok(6)),
            ("(create 32 8 rw)", Ok(7)),
        ],
        "(issued 7)\n(2 8 8 rw (4 8 4 rw))\n(3 16 8 rw)\n(6 24 8 rw)\n(7 32 8 rw)\n",
    ),
];

/// Takes each line as a run of its own in both spellings of traces, and a line of names as a call too.
fn example(subject: Subject, rows: usize, steps: &[Step], listing: &str) -> Checked {
    let mut lent = Lent::empty(rows);
    for (line, expected) in FRAME.iter().chain(steps) {
        let line = format!("{line}\n");
        let before = lent.clone();
        let as_run = expected.map(|_| 1).map_err(|number| (number, 1));
        let answer = agree::run(subject, &mut lent, line.as_bytes())?;
        same_answer(packed_run(as_run), answer).map_err(|why| format!("{line}: {why}"))?;
        if line.starts_with("(drop") {
            as_named_run(subject, &before, &lent, &line, answer)?;
            as_call(subject, &before, &lent, &line, *expected)?;
        }
    }
    let printed = oracle::listing(&lent.rows, lent.tally.issued);
    same("listing", whole(listing), printed)?;
    Ok(steps.len() as u64)
}

fn as_named_run(subject: Subject, before: &Lent, after: &Lent, line: &str, answer: u64) -> Agreed {
    let mut lent = before.clone();
    let named = [HEADER, line.as_bytes()].concat();
    same_answer(with_header(answer), agree::run(subject, &mut lent, &named)?)?;
    same("what is lent", after, &lent)
}

/// The names of a line, as the implementation reads them, in a call.
fn as_call(
    subject: Subject,
    before: &Lent,
    after: &Lent,
    line: &str,
    expected: Result<u32, u8>,
) -> Agreed {
    agree::read_both(subject, line.as_bytes())?;
    let mut words = Words::default();
    let mut names = [0; MAX_GROUP];
    let answer = subject.read_line(0, line.as_bytes(), &mut words, &mut names);
    if expected == Err(2) {
        return same_answer(packed(Err(2)), answer);
    }
    same_answer(0, answer)?;
    let answer = agree::apply_words(subject, &mut before.clone(), &words, &names)?;
    same_answer(packed(expected), answer)?;
    agree::write_words(subject, &words, &names)?;
    // One name is an event; as a list of one it is the same.
    let names = match words.kind {
        DROP_ALL => &names[..words.length as usize],
        _ => &[words.name],
    };
    let mut lent = before.clone();
    same_answer(
        packed(expected),
        agree::drop_all(subject, &mut lent, 0, names)?,
    )?;
    same("what is lent", after, &lent)?;
    agree::write_drop(subject, 0, names)
}

/// However many are dropped, one drop is counted; however many are refused, one refusal.
fn counted_once(subject: Subject) -> Checked {
    let mut lent = Lent::empty(8);
    let lines: String = FRAME.iter().map(|(line, _)| format!("{line}\n")).collect();
    agree::run(subject, &mut lent, lines.as_bytes())?;
    for names in [&[1, 4][..], &[1, 4], &[2, 7, 8], &[], &[3, 2], &[2, 3]] {
        agree::drop_all(subject, &mut lent, 0, names)?;
    }
    let expected = Tally {
        issued: 5,
        creates: 3,
        borrows: 2,
        drops: 2,
        refused: 4,
        ..Tally::default()
    };
    same("tally", expected, lent.tally)?;
    lent.tally.drops = u32::MAX;
    lent.tally.refused = u32::MAX;
    agree::drop_all(subject, &mut lent, 0, &[0, 1])?;
    agree::run(
        subject,
        &mut lent,
        b"(create 0 8 rw)\n(create 8 8 rw)\n(drop 6 7)\n",
    )?;
    same("drops", u32::MAX, lent.tally.drops)?;
    same("refused", u32::MAX, lent.tally.refused)?;
    Ok(8)
}

/// Lists that are no group: after 1 and before all others, and before 11.
fn misgrouped(subject: Subject) -> Checked {
    let mut lent = Lent::empty(2);
    agree::run(subject, &mut lent, b"(create 0 8 rw)\n(create 8 8 rw)\n")?;
    let mut disordered = lent.clone();
    disordered.rows.swap(0, 1);
    let too_many: Vec<u32> = (1..=65).collect();
    for names in [&[][..], &[1, 1], &[2, 1], &[9, 0], &[1, 2, 2], &too_many] {
        // 13 stands before 2, which is given to what is no domain.
        for actor in [0, 63, 64] {
            let call = |lent: &Lent| agree::drop_all(subject, &mut lent.clone(), actor, names);
            same_answer(13 << 32, call(&lent)?)?;
            same_answer(1 << 32, call(&disordered)?)?;
            let words = agree::dropped(actor, names);
            for size in [0, 8, 800] {
                let mut out = vec![b'?'; size];
                same_answer(13 << 32, subject.write_words(&words, names, &mut out))?;
                same("buffer", vec![b'?'; size], out)?;
            }
        }
    }
    Ok(90)
}

/// Names of any numbers that rise strictly.
fn any_group(random: &mut Random) -> Vec<u32> {
    let most = random.pick(&[1, 2, 3, 8, MAX_GROUP]);
    let count = random.between(1, most);
    let mut names: Vec<u32> = match random.one_in(4) {
        true => {
            let first = random.number().min(u32::MAX - 63);
            (first..=u32::MAX).take(count).collect()
        }
        false => (0..count).map(|_| random.number()).collect(),
    };
    names.sort_unstable();
    names.dedup();
    names
}

fn written(random: &mut Random, subject: Subject) -> Checked {
    let lists = 12_000;
    for _ in 0..lists {
        let names = match random.one_in(6) {
            true => generate::bad_group(random, &Lent::empty(0)),
            false => any_group(random),
        };
        let actor = any_actor(random);
        agree::write_drop(subject, actor, &names)
            .map_err(|why| format!("{why}\n  {actor}, {names:?}"))?;
    }
    Ok(lists)
}

/// Lines of groups and of what is none, damaged up to so many times.
fn read(random: &mut Random, subject: Subject, damages: usize) -> Checked {
    let lines = 16_000;
    for _ in 0..lines {
        let names = match random.one_in(6) {
            true => generate::bad_group(random, &Lent::empty(0)),
            false => any_group(random),
        };
        let request = Request::Group(any_actor(random), names);
        let mut line = generate::requests_text(&[request], Spelling::Plain);
        for _ in 0..damages.min(random.between(1, 2)) {
            generate::damage(random, &mut line);
        }
        check_text(&line, |line| agree::read_both(subject, line))?;
    }
    Ok(lines)
}

/// Strange words in the place of names.
fn words(subject: Subject) -> Checked {
    let mut cases = 0;
    let mut one = |line: String| {
        cases += 1;
        check_text(line.as_bytes(), |text| agree::read_both(subject, text))
    };
    for first in NUMBERS {
        one(format!("(drop {first})\n"))?;
        for second in NUMBERS {
            one(format!("(drop {first} {second})\n"))?;
            one(format!("(drop 0 {first} {second})\n"))?;
            one(format!("(drop {first} {second} 4294967295)\n"))?;
            one(format!("(drop 1 2 {first} 4 {second})\n"))?;
        }
    }
    Ok(cases)
}

/// Lines of numbers of names around 64, the shortest and the longest, and far longer ones, by
/// themselves, in runs and in what capcheck is given.
fn limits(subject: Subject) -> Checked {
    let creates = |name: u32| format!("(create {} 8 rw)\n", name * 8);
    let creates: String = (0..70).map(creates).collect();
    let mut cases = 0;
    for count in [1_u32, 2, 62, 63, 64, 65, 66, 127, 128, 129, 5_000] {
        for first in [0, 1, 2, 7, u32::MAX - count + 1] {
            let names: Vec<u32> = (first..=u32::MAX).take(count as usize).collect();
            agree::write_drop(subject, 0, &names)?;
            let line = generate::requests_text(&[Request::Group(0, names)], Spelling::Plain);
            agree::read_both(subject, &line)?;
            let text = [creates.as_bytes(), &line].concat();
            agree::run(subject, &mut Lent::empty(MAX_ROWS), &text)?;
            agree::check(subject, &text)?;
            cases += 4;
        }
    }
    let longest: Vec<u32> = (u32::MAX - 63..=u32::MAX).collect();
    for (actor, length) in [(0, 711), (9, 718), (63, 719)] {
        let dropped = agree::dropped(actor, &longest);
        let mut out = vec![0; length];
        same_answer(
            length as u64,
            subject.write_words(&dropped, &longest, &mut out),
        )?;
        let mut words = Words::default();
        let answer = subject.read_line(0, &out, &mut words, &mut [0; MAX_GROUP]);
        same_answer(0, answer)?;
        same("words", dropped, words)?;
    }
    for length in [MAX_INPUT, MAX_INPUT + 1] {
        for filling in [" 1", " ", "1", "0"] {
            let mut text = format!("(drop 1{}", filling.repeat(MAX_INPUT)).into_bytes();
            text.truncate(length);
            agree::check(subject, &text)?;
            agree::read_both(subject, &text)?;
            cases += 2;
        }
    }
    Ok(cases)
}

/// The same requests in both spellings, with right names.
fn both_spellings(random: &mut Random, subject: Subject) -> Checked {
    let runs = 4_000;
    for _ in 0..runs {
        let shape = Shape::partly_full(random, 12);
        let lent = generate::ordered(random, &shape);
        let requests = generate::requests(random, lent.clone(), 12, Spelling::Plain);
        let outcome = |requests: &[Request]| {
            let plain = generate::requests_text(requests, Spelling::Plain);
            let named = rightly_named_requests(&lent, requests);
            let named = generate::requests_text(&named, Spelling::Named);
            same_verdicts(subject, &lent, &plain, &named)
        };
        check_few(&requests, outcome)
            .map_err(|(why, requests)| format!("{why}\n  {lent:?}\n  requests {requests:?}"))?;
    }
    Ok(runs)
}

/// The requests with their right names, as long as each is allowed; no later one is looked at.
fn rightly_named_requests(lent: &Lent, requests: &[Request]) -> Vec<Request> {
    let mut lent = lent.clone();
    let mut name = |request: &Request| match request {
        Request::Single(event) => {
            let named = rightly_named(&lent, *event);
            let _ = agree::oracle_apply(&mut lent, *event);
            Request::Single(named)
        }
        Request::Group(actor, names) => {
            let _ = agree::oracle_drop_all(&mut lent, *actor, names);
            request.clone()
        }
    };
    requests.iter().map(&mut name).collect()
}
