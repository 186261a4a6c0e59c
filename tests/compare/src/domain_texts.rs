//! Card 10: who acts and who holds, in lines and listings: written, read, and damaged.

use interface::Event;
use oracle::domain_traces::limits;
use oracle::random::Random;
use oracle::traces::OF_DOMAIN_0;
use oracle::{Row, Span, Spelling};

use crate::acting::{NO_DOMAINS, cast, form_of, mask_of, recast};
use crate::agree::{self, Agreed, Lent, Subject};
use crate::edges::event;
use crate::events::chain;
use crate::generate::{self, Shape};
use crate::lines::{NUMBERS, check_text, each_byte, random_lines};
use crate::report::{Checked, Report};

pub fn groups(report: &mut Report, subject: Subject) {
    report.group("lines of every domain written", |_| written(subject));
    report.group("masks in lines", |_| masks_in_lines(subject));
    report.group("domains in lines", |_| domains_in_lines(subject));
    report.group("lines of domains with other brackets", |_| {
        other_brackets(subject)
    });
    report.group("lines with every bit of a mask changed", |_| {
        every_bit(|maker, mask| {
            let as_maker = |form: String| form_of(maker, form);
            check_line(
                subject,
                as_maker(format!("(create 64 8 rw {mask})")).as_bytes(),
            )?;
            check_line(
                subject,
                as_maker(format!("(borrow 4 1 0 8 rw raw {mask})")).as_bytes(),
            )
        })
    });
    report.group("every change of one byte of lines of domains", |_| {
        each_byte(&SAMPLES, |line| agree::read_both(subject, line))
    });
    for spelling in [Spelling::Plain, Spelling::Named] {
        let name = format!("lines of domains damaged, {spelling:?}").to_lowercase();
        report.group(&name, |random| damaged(random, subject, spelling));
    }
    report.group("makers and masks in listings", |_| in_listings(subject));
    report.group("listings with every bit of a mask changed", |_| {
        every_bit(|maker, mask| {
            let text = format!("(issued 1)\n(1 0 64 rw {maker} {mask})\n");
            check_listing(subject, text.as_bytes())
        })
    });
    report.group("every change of one byte of listings of domains", |_| {
        each_byte(&LISTED, |text| check_listing(subject, text))
    });
    report.group("listings of domains damaged", |random| {
        damaged_listings(random, subject)
    });
}

// ---- lines

/// Three rows, which domains 0, 3 and 63 made, each for all, and room for two more.
fn table() -> Lent {
    let mut lent = Lent::empty(5);
    for ((at, row), maker) in lent.rows.iter_mut().enumerate().zip([0, 3, 63]) {
        *row = Row {
            name: at as u32 + 1,
            start: 16 * at as u32,
            maker,
            holders: u64::MAX,
            ..chain(1, 1)[0]
        };
    }
    lent.tally.issued = 3;
    lent
}

/// A line by itself in both spellings, and as a run of its own in both, with limits and without.
fn check_line(subject: Subject, line: &[u8]) -> Agreed {
    check_text(line, |line| {
        agree::read_both(subject, line)?;
        let mut lent = table();
        for limits in [Vec::new(), limits(&[(0, 1), (3, 2), (63, 1)])] {
            lent.limits = limits;
            for first in [&b""[..], b"(trace 2)\n"] {
                agree::run(subject, &mut lent.clone(), &[first, line].concat())?;
            }
        }
        Ok(())
    })
}

/// Events, and two kinds that are none. Names dropped together are written by a call of their own.
const KINDS: [u8; 9] = [0, 1, 2, 3, 4, 5, 7, 8, 9];

/// Every domain, and numbers that are none, in every event with each sort of mask; what has a line is read.
fn written(subject: Subject) -> Checked {
    let span = Span {
        start: 7,
        length: 9,
    };
    let mut cases = 0;
    for actor in (0..=66).chain(NO_DOMAINS) {
        let alone = mask_of(actor);
        for holders in [
            0,
            1,
            alone,
            !alone,
            u64::MAX,
            alone | 1 << 33,
            alone | 0xfeed << 16,
        ] {
            let sorts = KINDS.map(|kind| [(kind, None), (kind, Some(4))]);
            for (kind, written) in sorts.into_iter().flatten() {
                let event = Event {
                    actor,
                    holders,
                    written,
                    fresh: (actor % 2) as u8,
                    cap_kind: (actor % 3) as u8,
                    ..event(kind, 3, span)
                };
                agree::write_event(subject, event).map_err(|why| format!("{why}\n  {event:?}"))?;
                if let Some(line) = generate::line(event, agree::spelling_of(event)) {
                    check_line(subject, line.as_bytes())?;
                }
                cases += 1;
            }
        }
        for names in [&[][..], &[5], &[2, 5, 9], &[9, 5]] {
            agree::write_drop(subject, actor, names)?;
            cases += 1;
        }
    }
    Ok(cases)
}

/// What may stand in the place of a mask: right, wrong, of another length, in other digits, or other words.
const MASKS: [&str; 41] = [
    "",
    " 0000000000000001",
    " 0000000000000003",
    " 0000000000000008",
    " 0000000000000009",
    " 000000000000000a",
    " 000000000000000A",
    " 8000000000000009",
    " ffffffffffffffff",
    " FFFFFFFFFFFFFFFF",
    " fffffffffffffffF",
    " fffffffffffffffe",
    " fffffffffffffff7",
    " 7fffffffffffffff",
    " 0000000000000000",
    " 000000000000009",
    " 00000000000000009",
    "0000000000000009",
    "  0000000000000009",
    " 0000000000000009 ",
    " 0000000000000009 0000000000000009",
    " 000000000000000g",
    " 0x00000000000009",
    " 9",
    " 3 0000000000000009",
    " 0 0000000000000001",
    " raw 0000000000000009",
    " 0000000000000009 raw",
    " cell 0000000000000009",
    " fresh 0000000000000009",
    " 0000000000000009 fresh",
    " cell",
    " fresh",
    " (0000000000000009)",
    "\t0000000000000009",
    " 00000000 00000009",
    " ce00000000000009",
    " f000000000000009",
    " fresh00000000009",
    " cell000000000009",
    " raw0000000000009",
];

/// Lines with a place for a mask, and with places where none may stand.
const LINES: [&str; 24] = [
    "(create 64 8 rw{})\n",
    "(as 3 (create 64 8 rw{}))\n",
    "(as 63 (create 64 8 ro{}))\n",
    "(create 4 64 8 rw{})\n",
    "(as 3 (create 4 64 8 rw{}))\n",
    "(create 64 8 rw fresh{})\n",
    "(as 3 (create 64 8 ro fresh{}))\n",
    "(borrow 1 0 8 rw{})\n",
    "(as 3 (borrow 1 0 8 rw{}))\n",
    "(as 3 (borrow 4 1 0 8 rw{}))\n",
    "(borrow 1 0 8 rw raw{})\n",
    "(as 3 (borrow 1 0 8 ro cell{}))\n",
    "(as 3 (create 64 8{} rw))\n",
    "(as 3 (create 64 8{}))\n",
    "(as 3 (create{} 64 8 rw))\n",
    "(as 3{} (create 64 8 rw))\n",
    "(as 3 (create 64 8 rw){})\n",
    "(as 3 (create 64 8 rw)){}\n",
    "(read 1 0 8{})\n",
    "(as 3 (read 1 0 8{}))\n",
    "(as 3 (write 1 0 8{}))\n",
    "(drop 1{})\n",
    "(as 3 (drop 1{}))\n",
    "(as 3 (drop 1 2{}))\n",
];

fn masks_in_lines(subject: Subject) -> Checked {
    for line in LINES {
        for mask in MASKS {
            check_line(subject, line.replace("{}", mask).as_bytes())?;
        }
    }
    Ok((LINES.len() * MASKS.len()) as u64)
}

/// Words in the place of a domain, besides numbers.
const DOMAINS: [&str; 16] = [
    "2", "3", "5", "31", "32", "62", "63", "64", "65", "99", "063", "630", "a", "(3)", "3 3",
    "as 3",
];

const LINES_OF_DOMAINS: [&str; 10] = [
    "(as {} (read 1 0 8))\n",
    "(as {} (create 64 8 rw))\n",
    "(as {} (create 64 8 rw ffffffffffffffff))\n",
    "(as {} (create 4 64 8 rw ffffffffffffffff))\n",
    "(as {} (borrow 1 0 8 rw cell))\n",
    "(as {} (drop 1 2))\n",
    "(as{} (drop 1))\n",
    "(as {}(drop 1))\n",
    "(as {})\n",
    "(as {} )\n",
];

fn domains_in_lines(subject: Subject) -> Checked {
    let mut cases = 0;
    for line in LINES_OF_DOMAINS {
        for domain in NUMBERS.into_iter().chain(DOMAINS) {
            check_line(subject, line.replace("{}", domain).as_bytes())?;
            cases += 1;
        }
    }
    Ok(cases)
}

/// Forms that a domain may say, or not.
const FORMS: [&str; 9] = [
    "(read 1 0 8)",
    "(create 64 8 rw)",
    "(borrow 1 0 8 rw 0000000000000009)",
    "(drop 1 2)",
    "(as 3 (read 1 0 8))",
    "(trace 2)",
    "(issued 3)",
    "()",
    "",
];

/// Places of a form in a line: in brackets, in too many, in too few.
const BRACKETS: [&str; 22] = [
    "{}\n",
    "(as 3 {})\n",
    "(as 3 {}\n",
    "as 3 {})\n",
    "(as 3 {}))\n",
    "((as 3 {}))\n",
    "(as 3 ({}))\n",
    "(as 3 {} )\n",
    "(as 3 {})",
    "(as 3 {}) \n",
    "(as 3 {})\r\n",
    "(as 3 {})\n\n",
    "(as 3  {})\n",
    "(as  3 {})\n",
    "( as 3 {})\n",
    " (as 3 {})\n",
    "(as 3\t{})\n",
    "(as 3\n{})\n",
    "(as 3 {}\n)\n",
    "(As 3 {})\n",
    "(by 3 {})\n",
    "(as 3 {} {})\n",
];

fn other_brackets(subject: Subject) -> Checked {
    for brackets in BRACKETS {
        for form in FORMS {
            let line = brackets.replace("{}", form);
            check_line(subject, line.as_bytes())?;
            // Without the brackets of the form itself.
            let bare = form.trim_matches(['(', ')']);
            check_line(subject, brackets.replace("{}", bare).as_bytes())?;
        }
    }
    Ok((BRACKETS.len() * FORMS.len() * 2) as u64)
}

/// Masks with each bit changed, of few domains and of all, in small digits and in capital ones.
fn every_bit(check: impl Fn(u32, &str) -> Agreed) -> Checked {
    let mut cases = 0;
    for maker in [0, 3, 31, 32, 63] {
        for whole in [
            mask_of(maker),
            mask_of(maker) | 1,
            0xfedc_ba98_7654_3210,
            u64::MAX,
        ] {
            for bit in 0..64 {
                let mask = format!("{:016x}", whole ^ mask_of(bit));
                check(maker, &mask)?;
                check(maker, &mask.to_uppercase())?;
                cases += 2;
            }
        }
    }
    Ok(cases)
}

const SAMPLES: [&str; 5] = [
    "(as 3 (read 2 0 8))\n",
    "(as 63 (create 0 8 rw fresh 8000000000000001))\n",
    "(borrow 1 0 8 rw cell 0000000000000003)\n",
    "(as 10 (drop 2 5 9))\n",
    "(as 9 (borrow 2 1 0 8 ro 0000000000000201))\n",
];

fn damaged(random: &mut Random, subject: Subject, spelling: Spelling) -> Checked {
    let lines = 40_000;
    for _ in 0..lines {
        let mut line = random_lines(random, 2, spelling);
        damage_domains(random, &mut line);
        if random.one_in(6) {
            damage_domains(random, &mut line);
        }
        check_text(&line, |text| agree::read_line(subject, text, spelling))?;
    }
    Ok(lines)
}

// ---- damage

/// The places at which 16 digits of a mask stand, with those of which it is a part.
fn masks_of(text: &[u8]) -> Vec<usize> {
    let is_digit = |byte: &u8| matches!(byte, b'0'..=b'9' | b'a'..=b'f');
    let is_mask = |at: &usize| text[*at..*at + 16].iter().all(is_digit);
    let places = 0..text.len().saturating_sub(15);
    places.filter(is_mask).collect()
}

/// The places behind each `(as `.
fn actors_of(text: &[u8]) -> Vec<usize> {
    let places = 0..text.len().saturating_sub(3);
    let behind = places.filter(|at| text[*at..].starts_with(b"(as "));
    behind.map(|at| at + 4).collect()
}

/// Changes who acts, who holds, or a bracket; where there is none of these, any bytes.
pub fn damage_domains(random: &mut Random, text: &mut Vec<u8>) {
    let places = match random.below(3) {
        0 => actors_of(text),
        1 => (0..text.len())
            .filter(|at| matches!(text[*at], b'(' | b')'))
            .collect(),
        _ => masks_of(text),
    };
    if places.is_empty() {
        return generate::damage(random, text);
    }
    let at = random.pick(&places);
    match text[at..].first() {
        Some(b'(' | b')') => match random.one_in(2) {
            true => drop(text.remove(at)),
            false => text.insert(at, random.pick(b"()")),
        },
        _ if text[..at].ends_with(b"(as ") => damage_actor(random, text, at),
        _ => damage_mask(random, text, at),
    }
}

/// Another number for who acts, or digits more or fewer.
fn damage_actor(random: &mut Random, text: &mut Vec<u8>, at: usize) {
    let rest = text[at..].iter();
    let digits = rest.take_while(|byte| byte.is_ascii_digit()).count();
    let others = [
        "0",
        "1",
        "3",
        "9",
        "63",
        "64",
        "65",
        "100",
        "4294967299",
        "",
    ];
    match random.below(3) {
        0 => text.insert(at, b'0'),
        1 => text.insert(at + digits, random.pick(b"0123456789")),
        _ => {
            let other = random.pick(&others);
            text.splice(at..at + digits, other.bytes());
        }
    }
}

/// A digit more or fewer, another digit, one bit changed, or a capital one.
fn damage_mask(random: &mut Random, text: &mut Vec<u8>, at: usize) {
    let one = at + random.index(16);
    let digit = char::from(text[one]).to_digit(16).unwrap_or(0);
    let changed = digit ^ 1 << random.below(4);
    match random.below(6) {
        0 => drop(text.remove(one)),
        1 => text.insert(one, random.pick(b"0123456789abcdef")),
        2 => text[one] = text[one].to_ascii_uppercase(),
        3 => drop(text.splice(at..at + 16, format!("{:016x}", random.bits()).bytes())),
        _ => text[one] = char::from_digit(changed, 16).map_or(b'0', |digit| digit as u8),
    }
}

// ---- listings

/// A listing read into rows that are enough and into too few.
fn check_listing(subject: Subject, text: &[u8]) -> Agreed {
    check_text(text, |text| {
        agree::read_listing(subject, text, &Lent::empty(3))?;
        agree::read_listing(subject, text, &Lent::empty(1))
    })
}

const MAKERS: [&str; 16] = [
    "0",
    "00",
    "1",
    "3",
    "03",
    "9",
    "31",
    "32",
    "63",
    "64",
    "100",
    "4294967295",
    "4294967299",
    "-1",
    "a",
    "",
];

/// Listings with a place for a maker and a mask, and with places where they may not stand.
const LISTINGS: [&str; 14] = [
    "(issued 1)\n(1 0 64 rw{})\n",
    "(issued 1)\n(1 0 64 ro fresh{})\n",
    "(issued 2)\n(1 0 64 rw{} (2 0 8 rw{}))\n",
    "(issued 2)\n(1 0 64 rw{} (2 0 8 rw raw{}))\n",
    "(issued 2)\n(1 0 64 rw fresh{} (2 0 8 rw cell fresh{}))\n",
    "(issued 2)\n(1 0 64 rw{})\n(2 64 8 rw{})\n",
    "(issued 2)\n(1 0 64 rw 0 0000000000000001 (2 0 8 rw{}))\n",
    "(issued 2)\n(1 0 64 rw 63 8000000000000000 (2 0 8 rw{}))\n",
    "(issued 2)\n(1 0 64 rw 0 0000000000000001 (2 0 8 rw 0 0000000000000001){})\n",
    "(issued 1)\n(1 0 64{} rw)\n",
    "(issued 1)\n(1{} 0 64 rw)\n",
    "(issued 1)\n(1 0 64 rw 0 0000000000000001{})\n",
    "(issued 1)\n(1 0 64 rw 0 0000000000000001){}\n",
    "(issued 1{})\n(1 0 64 rw 0 0000000000000001)\n",
];

/// Every maker with every mask in every place, and each without the other.
fn in_listings(subject: Subject) -> Checked {
    let mut words: Vec<String> = MASKS.map(String::from).to_vec();
    for maker in MAKERS {
        words.push(format!(" {maker}"));
        words.extend(MASKS.map(|mask| format!(" {maker}{mask}")));
    }
    words.extend([OF_DOMAIN_0.to_string(), " 0000000000000001 0".to_string()]);
    for listing in LISTINGS {
        for word in &words {
            check_listing(subject, listing.replace("{}", word).as_bytes())?;
        }
    }
    Ok((LISTINGS.len() * words.len()) as u64)
}

const LISTED: [&str; 2] = [
    "(issued 1)\n(1 0 8 rw 9 0000000000000201)\n",
    "(issued 2)\n(1 0 8 rw fresh 63 8000000000000001 (2 0 4 ro cell fresh 0 0000000000000001))\n",
];

fn damaged_listings(random: &mut Random, subject: Subject) -> Checked {
    let texts = 30_000;
    for _ in 0..texts {
        let shape = Shape::partly_full(random, 8);
        let mut lent = generate::ordered(random, &shape);
        let cast = cast(random);
        recast(random, &mut lent.rows, &cast);
        let mut text = oracle::listing(&lent.rows, lent.tally.issued).into_bytes();
        damage_domains(random, &mut text);
        check_text(&text, |text| agree::read_listing(subject, text, &lent))?;
    }
    Ok(texts)
}
