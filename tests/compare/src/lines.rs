//! Event lines, written and read, in both spellings.

use interface::{BACK, Event, MARK};
use oracle::random::Random;
use oracle::{SLOTS, Spelling};

use crate::acting;
use crate::agree::{self, Agreed, Subject};
use crate::generate;
use crate::report::{Checked, Report, check_few};

/// One line of each kind and some that are nearly lines.
const SAMPLES: [&str; 19] = [
    "(mark 0)\n",
    "(back 7)\n",
    "(as 2 (mark 3))\n",
    "(mark 8)\n",
    "(create 0 64 rw)\n",
    "(create 8 8 ro fresh)\n",
    "(create 4294967295 1 ro)\n",
    "(borrow 1 10 8 rw)\n",
    "(borrow 1 0 8 rw raw)\n",
    "(borrow 20 0 0 ro cell)\n",
    "(borrow 1000000 4294967295 4294967295 ro)\n",
    "(read 1 0 8)\n",
    "(read 20 4096 4294967290)\n",
    "(write 7 100 1)\n",
    "(drop 1)\n",
    "(drop 4294967295)\n",
    "(read 01 0 8)\n",
    "(drop )\n",
    "\n",
];

/// The same for the named spelling, and lines of the plain one.
const NAMED_SAMPLES: [&str; 19] = [
    "(mark 7)\n",
    "(as 63 (back 0))\n",
    "(create 1 0 64 rw)\n",
    "(create 1 0 8 rw fresh)\n",
    "(create 4294967295 4294967295 1 ro)\n",
    "(create 0 0 0 rw)\n",
    "(borrow 2 1 10 8 rw)\n",
    "(borrow 2 1 0 8 ro cell)\n",
    "(borrow 3 1 10 8 rw raw)\n",
    "(borrow 1000001 1000000 4294967295 4294967295 ro)\n",
    "(read 1 0 8)\n",
    "(write 7 100 1)\n",
    "(drop 1)\n",
    "(create 0 64 rw)\n",
    "(borrow 1 10 8 rw)\n",
    "(read 2 1 0 8)\n",
    "(drop 2 1)\n",
    "(trace 2)\n",
    "\n",
];

/// Words in the place of a number, most of them not one.
pub const NUMBERS: [&str; 21] = [
    "",
    "0",
    "00",
    "01",
    "1",
    "9",
    "10",
    "4294967295",
    "4294967296",
    "4294967300",
    "9999999999",
    "04294967295",
    "42949672950",
    "18446744073709551615",
    "18446744073709551616",
    "18446744073709551617",
    "340282366920938463463374607431768211457",
    "-1",
    "+1",
    "1 ",
    "0x1",
];

const RIGHTS: [&str; 8] = ["ro", "rw", "", "r", "rww", "RW", "1", "wr"];

/// A spelling, the name of its lines, and samples of them.
type Sort = (Spelling, &'static str, &'static [&'static str]);

const SORTS: [Sort; 2] = [
    (Spelling::Plain, "event lines", &SAMPLES),
    (Spelling::Named, "named lines", &NAMED_SAMPLES),
];

pub fn groups(report: &mut Report, subject: Subject) {
    for (spelling, lines, samples) in SORTS {
        report.group(&format!("{lines} written"), |random| {
            written(random, subject, spelling)
        });
        report.group(&format!("{lines} read"), |random| {
            read_whole(random, subject, spelling, spelling)
        });
        report.group(&format!("{lines} damaged"), |random| {
            damaged(random, subject, spelling)
        });
        report.group(&format!("every change of one byte of {lines}"), |_| {
            each_byte(samples, |line| agree::read_line(subject, line, spelling))
        });
    }
    report.group("plain lines read as named ones", |random| {
        read_whole(random, subject, Spelling::Plain, Spelling::Named)
    });
    report.group("named lines read as plain ones", |random| {
        read_whole(random, subject, Spelling::Named, Spelling::Plain)
    });
    report.group("numbers and rights in a line", |_| words(subject));
    report.group("numbers and rights in a named line", |_| {
        named_words(subject)
    });
}

/// An event of any numbers.
fn random_event(random: &mut Random, spelling: Spelling) -> Event {
    let kind = match random.one_in(20) {
        true => random.pick(&[0, 9, 10, 100, 127, 128, 254, 255]),
        false => random.pick(&[1, 2, 3, 4, 5, MARK, BACK]),
    };
    let name = match matches!(kind, MARK | BACK) && !random.one_in(8) {
        true => random.below(SLOTS.into()) as u32,
        false => random.number(),
    };
    let cap_kind = generate::cap_kind(random, kind);
    let fresh = generate::mark(random, kind);
    let actor = acting::any_actor(random);
    let holders = acting::holders_asked(random, &[], actor, kind);
    Event {
        kind,
        name,
        start: random.number(),
        length: random.number(),
        right: match random.one_in(20) {
            true => random.bits() as u8,
            false => random.between(1, 2) as u8,
        },
        written: match spelling {
            Spelling::Plain => None,
            Spelling::Named => Some(random.number()),
        },
        cap_kind,
        fresh,
        actor,
        holders,
    }
}

fn written(random: &mut Random, subject: Subject, spelling: Spelling) -> Checked {
    let events = 20_000;
    for _ in 0..events {
        let event = random_event(random, spelling);
        agree::write_event(subject, event).map_err(|why| format!("{why}\n  {event:?}"))?;
    }
    Ok(events)
}

/// The lines of a few random events, at least one of which has a spelling.
pub fn random_lines(random: &mut Random, most: usize, spelling: Spelling) -> Vec<u8> {
    let count = random.between(1, most);
    let events = (0..count).map(|_| random_event(random, spelling));
    let mut events: Vec<Event> = events.collect();
    let spelt = |event: &Event| generate::line(*event, spelling).is_some();
    if !events.iter().any(spelt) {
        events[0].kind = 5;
    }
    generate::lines(&events, spelling)
}

/// Checks a text; on failure gives a short text that still fails.
pub fn check_text(text: &[u8], check: impl Fn(&[u8]) -> Agreed) -> Agreed {
    check_few(text, check)
        .map_err(|(why, text)| format!("{why}\n  text \"{}\"", text.escape_ascii()))
}

/// Lines written in one spelling and read in one, the same or the other.
fn read_whole(random: &mut Random, subject: Subject, written: Spelling, read: Spelling) -> Checked {
    let lines = 20_000;
    for _ in 0..lines {
        let line = random_lines(random, 1, written);
        check_text(&line, |text| agree::read_line(subject, text, read))?;
    }
    Ok(lines)
}

fn damaged(random: &mut Random, subject: Subject, spelling: Spelling) -> Checked {
    let lines = 60_000;
    for _ in 0..lines {
        let mut line = random_lines(random, 2, spelling);
        for _ in 0..random.between(1, 2) {
            generate::damage(random, &mut line);
        }
        check_text(&line, |text| agree::read_line(subject, text, spelling))?;
    }
    Ok(lines)
}

/// Each text with each byte left out, each byte changed to every other, and every byte put in at
/// each place.
pub fn each_byte(texts: &[impl AsRef<str>], check: impl Fn(&[u8]) -> Agreed) -> Checked {
    let mut cases = 0;
    let mut one = |text: Vec<u8>| {
        cases += 1;
        check_text(&text, &check)
    };
    for text in texts {
        let text = text.as_ref().as_bytes();
        for at in 0..=text.len() {
            for byte in 0..=u8::MAX {
                one([&text[..at], &[byte], &text[at..]].concat())?;
            }
        }
        for at in 0..text.len() {
            one([&text[..at], &text[at + 1..]].concat())?;
            for byte in 0..=u8::MAX {
                one([&text[..at], &[byte], &text[at + 1..]].concat())?;
            }
        }
    }
    Ok(cases)
}

/// Every kind with strange words in the place of its values.
fn words(subject: Subject) -> Checked {
    let mut cases = 0;
    let mut one = |line: String| {
        cases += 1;
        check_text(line.as_bytes(), |text| {
            agree::read_line(subject, text, Spelling::Plain)
        })
    };
    for first in NUMBERS {
        one(format!("(drop {first})\n"))?;
        one(format!("(mark {first})\n"))?;
        one(format!("(back {first})\n"))?;
        for second in NUMBERS {
            one(format!("(read {first} 0 {second})\n"))?;
            one(format!("(write 1 {first} {second})\n"))?;
            for right in RIGHTS {
                one(format!("(create {first} {second} {right})\n"))?;
                one(format!("(borrow 3 {first} {second} {right})\n"))?;
            }
        }
    }
    Ok(cases)
}

/// Creates and borrows with strange words in the place of their new names and others.
fn named_words(subject: Subject) -> Checked {
    let mut cases = 0;
    let mut one = |line: String| {
        cases += 1;
        check_text(line.as_bytes(), |text| {
            agree::read_line(subject, text, Spelling::Named)
        })
    };
    for first in NUMBERS {
        for second in NUMBERS {
            one(format!("(read {first} {second} 0 8)\n"))?;
            one(format!("(drop {first} {second})\n"))?;
            for right in RIGHTS {
                one(format!("(create {first} {second} 8 {right})\n"))?;
                one(format!("(borrow {first} {second} 0 8 {right})\n"))?;
                one(format!("(borrow 3 1 {first} {second} {right})\n"))?;
            }
        }
    }
    Ok(cases)
}
