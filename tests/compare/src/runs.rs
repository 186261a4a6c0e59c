//! Runs of lines, and what `capcheck` prints.

use oracle::random::Random;
use oracle::{HEADER, MAX_INPUT, MAX_ROWS, Spelling};

use crate::agree::{self, Agreed, Lent, Subject};
use crate::generate::{self, Shape};
use crate::lines::check_text;
use crate::report::{Checked, Report};

/// Runs of one sort: their name, that of their texts, their spelling, and how a text is made.
struct Sort {
    runs: &'static str,
    texts: &'static str,
    spelling: Spelling,
    text: fn(&mut Random, Lent, usize, Spelling) -> Vec<u8>,
}

const SORTS: [Sort; 4] = [
    Sort {
        runs: "runs",
        texts: "texts",
        spelling: Spelling::Plain,
        text: of_events,
    },
    Sort {
        runs: "named runs",
        texts: "named texts",
        spelling: Spelling::Named,
        text: of_events,
    },
    Sort {
        runs: "runs with names dropped together",
        texts: "texts with names dropped together",
        spelling: Spelling::Plain,
        text: of_requests,
    },
    Sort {
        runs: "named runs with names dropped together",
        texts: "named texts with names dropped together",
        spelling: Spelling::Named,
        text: of_requests,
    },
];

fn of_events(random: &mut Random, lent: Lent, lines: usize, spelling: Spelling) -> Vec<u8> {
    generate::trace(&generate::events(random, lent, lines, spelling), spelling)
}

fn of_requests(random: &mut Random, lent: Lent, lines: usize, spelling: Spelling) -> Vec<u8> {
    let requests = generate::requests(random, lent, lines, spelling);
    generate::requests_text(&requests, spelling)
}

pub fn groups(report: &mut Report, subject: Subject) {
    for sort in &SORTS {
        let Sort { runs, texts, .. } = sort;
        report.group(&format!("{runs} on ordered tables"), |random| {
            on_tables(random, subject, 6_000, 12, sort, |_, _| {})
        });
        report.group(&format!("{runs} of damaged texts"), |random| {
            on_tables(random, subject, 10_000, 8, sort, |random, case| {
                generate::damage(random, &mut case.text)
            })
        });
        report.group(&format!("{runs} on disordered tables"), |random| {
            on_tables(random, subject, 6_000, 3, sort, |random, case| {
                generate::disturb(random, &mut case.lent);
                if random.one_in(2) {
                    generate::damage(random, &mut case.text);
                }
            })
        });
        report.group(&format!("{runs} on large tables"), |random| {
            large(random, subject, sort)
        });
        report.group(&format!("capcheck on whole {texts}"), |random| {
            capcheck(random, subject, 1_500, sort, false)
        });
        report.group(&format!("capcheck on damaged {texts}"), |random| {
            capcheck(random, subject, 1_500, sort, true)
        });
    }
    report.group("capcheck on long texts", |_| long_texts(subject));
    report.group("capcheck on long named texts", |_| {
        long_named_texts(subject)
    });
}

struct Case {
    lent: Lent,
    text: Vec<u8>,
}

fn case(random: &mut Random, shape: &Shape, lines: usize, sort: &Sort) -> Case {
    let lent = generate::ordered(random, shape);
    let text = (sort.text)(random, lent.clone(), lines, sort.spelling);
    Case { lent, text }
}

fn on_tables(
    random: &mut Random,
    subject: Subject,
    runs: u64,
    most_lines: usize,
    sort: &Sort,
    change: impl Fn(&mut Random, &mut Case),
) -> Checked {
    for _ in 0..runs {
        let shape = Shape::partly_full(random, 12);
        let lines = random.between(0, most_lines);
        let mut case = case(random, &shape, lines, sort);
        change(random, &mut case);
        check_case(subject, &case)?;
    }
    Ok(runs)
}

fn large(random: &mut Random, subject: Subject, sort: &Sort) -> Checked {
    let runs = 24;
    for _ in 0..runs {
        let rows = random.between(500, MAX_ROWS);
        let shape = Shape::full(random, rows);
        check_case(subject, &case(random, &shape, 12, sort))?;
    }
    Ok(runs)
}

/// A run; on failure gives a short text that still fails, and few rows on which the whole one does.
fn check_case(subject: Subject, case: &Case) -> Agreed {
    let run = |mut lent: Lent, text: &[u8]| agree::run(subject, &mut lent, text).map(|_| ());
    check_text(&case.text, |text| run(case.lent.clone(), text)).map_err(|why| {
        let whole = agree::check_rows(&case.lent, |lent| run(lent, &case.text));
        format!("{why}\n  {}", whole.err().unwrap_or_default())
    })
}

fn capcheck(
    random: &mut Random,
    subject: Subject,
    inputs: u64,
    sort: &Sort,
    damaged: bool,
) -> Checked {
    for _ in 0..inputs {
        let lines = random.between(0, 16);
        let mut text = (sort.text)(random, Lent::empty(MAX_ROWS), lines, sort.spelling);
        if damaged {
            generate::damage(random, &mut text);
        }
        check_text(&text, |text| agree::check(subject, text))?;
    }
    Ok(inputs)
}

/// Inputs at the longest length and one byte above it, allowed and refused: creates over the same
/// address, of which each ends the last, and creates side by side, which fill the table.
fn long_texts(subject: Subject) -> Checked {
    let again = "(create 0 1 rw)\n".repeat(MAX_INPUT / 16);
    let create = |start| format!("(create {start} 1 rw)\n");
    let beside: String = (0..=MAX_ROWS).map(create).collect();
    let reads = "(create 0 1 rw)\n".to_string() + &"(read 1 0 1)\n".repeat((MAX_INPUT - 16) / 13);
    let mut cases = 1;
    for text in [again, filled_up(beside), reads] {
        cases += at_most(subject, &text)?;
    }
    agree::check(subject, &vec![0; 1_000_000])?;
    Ok(cases)
}

/// The text, and after it bytes that are no line, up to the longest input.
fn filled_up(text: String) -> String {
    let rest = MAX_INPUT - text.len();
    text + &"x".repeat(rest)
}

/// The same with names, where the header counts as bytes of the input and as a line.
fn long_named_texts(subject: Subject) -> Checked {
    let header = str::from_utf8(HEADER).expect("the header is text");
    let root = "(create 1 0 64 rw)\n";
    let reads = "(read 1 0 1)\n".repeat((MAX_INPUT - header.len() - root.len()) / 13);
    let creates = |apart: usize| {
        let create = |name| format!("(create {name} {} 1 rw)\n", name * apart);
        let lines: String = (1..=MAX_ROWS + 1).map(create).collect();
        filled_up(format!("{header}{lines}"))
    };
    let mut cases = 0;
    for text in [format!("{header}{root}{reads}"), creates(0), creates(1)] {
        cases += at_most(subject, &text)?;
    }
    Ok(cases)
}

/// An input of the longest length, without its last byte, and with one more.
fn at_most(subject: Subject, text: &str) -> Checked {
    assert_eq!(text.len(), MAX_INPUT);
    let longer = text.to_string() + "\n";
    let shorter = &text[..MAX_INPUT - 1];
    for input in [text, &longer, shorter] {
        agree::check(subject, input.as_bytes())?;
    }
    Ok(3)
}
