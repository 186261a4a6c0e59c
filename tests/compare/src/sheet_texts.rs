//! Card 7: texts of conflict sheets, in many spellings and damaged, and the text that is written.

use interface::SHEET_PLACES;
use oracle::random::Random;
use oracle::{Refused, Sheet};

use crate::agree::{self, Agreed, Subject, same, same_answer};
use crate::generate;
use crate::lines::{check_text, each_byte};
use crate::report::{Checked, Met, Report};

pub fn groups(report: &mut Report, subject: Subject) {
    report.group("sheets read in many spellings", |random| {
        whole(random, subject)
    });
    report.group("sheets read with rules changed", |random| {
        changed(random, subject, change_rules)
    });
    report.group("sheets read with words and brackets changed", |random| {
        changed(random, subject, |random, rules| {
            let mut text = text_of(rules);
            for _ in 0..random.between(1, 2) {
                change_text(random, &mut text);
            }
            text
        })
    });
    report.group("sheets read with bytes damaged", |random| {
        changed(random, subject, |random, rules| {
            let mut text = text_of(rules);
            for _ in 0..random.between(1, 2) {
                generate::damage(random, &mut text);
            }
            text
        })
    });
    report.group("sheets read with each byte changed", |_| {
        each_byte(&SHORT, |text| agree::read_sheet(subject, text).map(|_| ()))
    });
    report.group("lines that are nearly rules", |_| nearly(subject));
    report.group("sheets read with words and rules repeated often", |_| {
        repeated(subject)
    });
    report.group("sheets written and read back", |random| {
        written(random, subject)
    });
    report.group("sheets written into buffers of each size", |random| {
        into_each_size(random, subject)
    });
    report.met("every sort of text of a sheet was met", || {
        SORTS_MET.every_sort(&SORTS, 500)
    });
}

/// Sorts of texts, for what they are answered with.
const SORTS: [&str; 12] = [
    "a sheet of one rule",
    "a sheet of 18 rules",
    "a sheet of a few rules",
    "2, and nothing else is wrong",
    "2, with a combination given twice in other lines",
    "2, with none of the other lines missing",
    "2, in the last line alone",
    "2, in the first line alone",
    "14, by two rules",
    "14, by a word repeated in a bracket",
    "14, with a combination missing too",
    "15, in a text with rules",
];

static SORTS_MET: Met<12> = Met::none();

/// Reads the text, and counts it for what it is answered with.
fn check(subject: Subject, text: &[u8]) -> Agreed {
    let read = agree::read_sheet(subject, text)?;
    count(text, read.err());
    Ok(())
}

/// Counts a text by what its lines are when each stands alone: a rule alone is 14 or 15, or a sheet.
fn count(text: &[u8], refused: Option<Refused>) {
    let lines: Vec<&[u8]> = text.split_inclusive(|byte| *byte == b'\n').collect();
    let alone: Vec<Option<Refused>> = lines.iter().map(|line| Sheet::read(line).err()).collect();
    let rules: Vec<&[u8]> = lines
        .iter()
        .zip(&alone)
        .filter(|(_, refused)| **refused != Some(2))
        .map(|(line, _)| *line)
        .collect();
    let by_rules = Sheet::read(&rules.concat()).err();
    let wrong = lines.len() - rules.len();
    let is_wrong = |at: Option<usize>| at.is_some_and(|at| alone[at] == Some(2));
    let once = first_of_each(&rules);
    let few = lines.len() > 1 && lines.len() < SHEET_PLACES;
    SORTS_MET.count([
        refused.is_none() && lines.len() == 1,
        refused.is_none() && lines.len() == SHEET_PLACES,
        refused.is_none() && few,
        refused == Some(2) && wrong == 1 && by_rules == Some(15),
        refused == Some(2) && by_rules == Some(14),
        refused == Some(2) && by_rules.is_none(),
        refused == Some(2) && lines.len() > 1 && wrong == 1 && is_wrong(lines.len().checked_sub(1)),
        refused == Some(2) && lines.len() > 1 && wrong == 1 && is_wrong(Some(0)),
        refused == Some(14) && !alone.contains(&Some(14)),
        refused == Some(14) && alone.contains(&Some(14)),
        refused == Some(14) && Sheet::read(&once.concat()).err() == Some(15),
        refused == Some(15) && !lines.is_empty(),
    ]);
}

/// The lines, those that stand there again left out.
fn first_of_each<'a>(lines: &[&'a [u8]]) -> Vec<&'a [u8]> {
    let mut firsts: Vec<&[u8]> = Vec::new();
    for line in lines {
        if !firsts.contains(line) {
            firsts.push(line);
        }
    }
    firsts
}

const HOLDERS: [&str; 3] = ["reference", "raw", "cell"];
const ACCESSES: [&str; 2] = ["read", "write"];
const FROMS: [&str; 3] = ["cell", "kin", "stranger"];
const RESULTS: [&str; 3] = ["keep", "lower", "end"];

/// A rule by its words.
#[derive(Clone)]
struct Rule {
    holders: Vec<&'static str>,
    accesses: Vec<&'static str>,
    froms: Vec<&'static str>,
    result: &'static str,
}

impl Rule {
    /// The bits of the combinations that it gives.
    fn bits(&self) -> u32 {
        let mut bits = 0;
        for (holder, access, from) in all_words() {
            let gives = self.holders.contains(&holder)
                && self.accesses.contains(&access)
                && self.froms.contains(&from);
            bits = bits << 1 | u32::from(gives);
        }
        bits
    }

    fn line(&self) -> String {
        let [holders, accesses, froms] =
            [&self.holders, &self.accesses, &self.froms].map(|words| words.join(" "));
        let result = self.result;
        format!("(rule (holder {holders}) (access {accesses}) (from {froms}) {result})\n")
    }
}

type ThreeWords = (&'static str, &'static str, &'static str);

fn all_words() -> Vec<ThreeWords> {
    let mut all = Vec::new();
    for holder in HOLDERS {
        for access in ACCESSES {
            for from in FROMS {
                all.push((holder, access, from));
            }
        }
    }
    all
}

fn shuffle<T>(random: &mut Random, items: &mut [T]) {
    for at in (1..items.len()).rev() {
        items.swap(at, random.index(at + 1));
    }
}

/// The word and some of the others, in any order.
fn some(random: &mut Random, words: &[&'static str], word: &'static str) -> Vec<&'static str> {
    let share = random.between(1, 4) as u64;
    let mut some: Vec<&str> = words
        .iter()
        .copied()
        .filter(|one| *one == word || random.one_in(share))
        .collect();
    shuffle(random, &mut some);
    some
}

/// Rules that give each combination once, in any order. At times each rule is as small as can be.
fn rules(random: &mut Random) -> Vec<Rule> {
    let singly = random.one_in(8);
    let mut left = all_words();
    let mut given = 0;
    let mut rules = Vec::new();
    shuffle(random, &mut left);
    while let Some((holder, access, from)) = left.pop() {
        let result = random.pick(&RESULTS);
        let mut rule = Rule {
            holders: vec![holder],
            accesses: vec![access],
            froms: vec![from],
            result,
        };
        if rule.bits() & given != 0 {
            continue;
        }
        for _ in 0..8 {
            let larger = Rule {
                holders: some(random, &HOLDERS, holder),
                accesses: some(random, &ACCESSES, access),
                froms: some(random, &FROMS, from),
                result,
            };
            if !singly && larger.bits() & given == 0 {
                rule = larger;
                break;
            }
        }
        given |= rule.bits();
        rules.push(rule);
    }
    shuffle(random, &mut rules);
    rules
}

fn text_of(rules: &[Rule]) -> Vec<u8> {
    rules
        .iter()
        .map(Rule::line)
        .collect::<String>()
        .into_bytes()
}

/// Sheets by rules of any sort, each of which is allowed.
fn whole(random: &mut Random, subject: Subject) -> Checked {
    let sheets = 20_000;
    for _ in 0..sheets {
        let rules = rules(random);
        let text = text_of(&rules);
        let mut found = [0; SHEET_PLACES];
        same_answer(0, subject.read_sheet(&text, &mut found))?;
        for (place, words) in all_words().into_iter().enumerate() {
            let (holder, access, from) = words;
            let gives = |rule: &&Rule| {
                rule.holders.contains(&holder)
                    && rule.accesses.contains(&access)
                    && rule.froms.contains(&from)
            };
            let result = rules.iter().find(gives).map_or("", |rule| rule.result);
            same("result", result, RESULTS[usize::from(found[place])])?;
        }
        check_text(&text, |text| check(subject, text))?;
    }
    Ok(sheets)
}

/// Sheets whose texts are changed.
fn changed(
    random: &mut Random,
    subject: Subject,
    change: impl Fn(&mut Random, &[Rule]) -> Vec<u8>,
) -> Checked {
    let sheets = 30_000;
    for _ in 0..sheets {
        let rules = rules(random);
        let text = change(random, &rules);
        check_text(&text, |text| check(subject, text))?;
    }
    Ok(sheets)
}

/// Rules left out, given again, or with words more or less: every line is still a rule, or its bracket is
/// empty.
fn change_rules(random: &mut Random, rules: &[Rule]) -> Vec<u8> {
    let mut rules = rules.to_vec();
    for _ in 0..random.between(1, 2) {
        let at = random.index(rules.len());
        let again = random.index(rules.len() + 1);
        match random.below(8) {
            0 | 1 if rules.len() > 1 => drop(rules.remove(at)),
            2 => rules.insert(again, rules[at].clone()),
            3 => {
                let other = Rule {
                    result: random.pick(&RESULTS),
                    ..rules[at].clone()
                };
                rules.insert(again, other);
            }
            _ => change_words(random, &mut rules[at]),
        }
    }
    text_of(&rules)
}

fn change_words(random: &mut Random, rule: &mut Rule) {
    let (words, all): (_, &[&str]) = match random.below(3) {
        0 => (&mut rule.holders, &HOLDERS),
        1 => (&mut rule.accesses, &ACCESSES),
        _ => (&mut rule.froms, &FROMS),
    };
    if words.is_empty() {
        return;
    }
    let at = random.index(words.len() + 1);
    match random.below(8) {
        0..=2 => words.insert(at, random.pick(all)),
        3 | 4 => words.insert(at, words[random.index(words.len())]),
        5 if words.len() > 1 => drop(words.remove(at.min(words.len() - 1))),
        6 => {
            let last = words.len() - 1;
            words[at.min(last)] = random.pick(all);
        }
        // A bracket without words.
        7 if random.one_in(3) => words.clear(),
        _ => shuffle(random, words),
    }
}

/// Pieces of rules, and what may be put in their place.
const PIECES: [(&str, &str); 34] = [
    ("(rule ", "(rule"),
    ("(rule ", "(Rule "),
    ("(rule ", "(rules "),
    ("(rule ", "( rule "),
    ("(rule ", ""),
    ("(holder ", "(holder"),
    ("(holder ", "(holders "),
    ("(holder ", "holder "),
    ("(holder ", "(access "),
    ("(access ", "(holder "),
    ("(access ", "(from "),
    ("(from ", "(access "),
    ("(from ", "(From "),
    (") (", ")("),
    (") (", ")  ("),
    (") (", " ("),
    (") (", ") ("),
    (")\n", ") \n"),
    (")\n", ")\r\n"),
    (")\n", ")"),
    (")\n", ")\n\n"),
    (")\n", "\n"),
    (")\n", "))\n"),
    ("raw", "Raw"),
    ("raw", "ra"),
    ("raw", "raw raw"),
    ("reference", "ref"),
    ("reference", "REFERENCE"),
    ("cell", "cells"),
    ("read", "reading"),
    ("write", "create"),
    ("kin", "kind"),
    ("stranger", "strangers"),
    ("keep", "kept"),
];

/// Every word, and others, to be put in place of one.
const WORDS: [&str; 20] = [
    "reference",
    "raw",
    "cell",
    "read",
    "write",
    "cell",
    "kin",
    "stranger",
    "keep",
    "lower",
    "end",
    "rule",
    "holder",
    "access",
    "from",
    "",
    " ",
    "rw",
    "(raw)",
    "0",
];

/// Changes a piece somewhere, puts a word in place of another, or turns, repeats or leaves out brackets
/// or lines.
fn change_text(random: &mut Random, text: &mut Vec<u8>) {
    let Ok(old) = String::from_utf8(text.clone()) else {
        return;
    };
    let new = match random.below(5) {
        0 | 1 => {
            let (piece, other) = random.pick(&PIECES);
            put_in_place(random, &old, piece, other)
        }
        2 => {
            let all = [&HOLDERS[..], &ACCESSES, &FROMS, &RESULTS].concat();
            let (word, other) = (random.pick(&all), random.pick(&WORDS));
            put_in_place(random, &old, word, other)
        }
        3 => {
            let mut pieces: Vec<&str> = old.split_inclusive(' ').collect();
            shift(random, &mut pieces);
            pieces.concat()
        }
        _ => {
            let mut lines: Vec<&str> = old.split_inclusive('\n').collect();
            if random.one_in(3) {
                lines.insert(
                    random.index(lines.len() + 1),
                    random.pick(&["\n", "(rule)\n", "()\n"]),
                );
            }
            shift(random, &mut lines);
            lines.concat()
        }
    };
    *text = new.into_bytes();
}

/// One of the places at which the piece stands gets the other.
fn put_in_place(random: &mut Random, text: &str, piece: &str, other: &str) -> String {
    let places: Vec<usize> = text.match_indices(piece).map(|(at, _)| at).collect();
    match places.is_empty() {
        true => text.to_string(),
        false => {
            let at = random.pick(&places);
            [&text[..at], other, &text[at + piece.len()..]].concat()
        }
    }
}

/// Leaves out one of the pieces, has it again, or swaps two.
fn shift(random: &mut Random, pieces: &mut Vec<&str>) {
    if pieces.is_empty() {
        return;
    }
    let (one, other) = (random.index(pieces.len()), random.index(pieces.len()));
    match random.below(3) {
        0 => drop(pieces.remove(one)),
        1 => pieces.insert(other, pieces[one]),
        _ => pieces.swap(one, other),
    }
}

/// Sheets of few rules.
const SHORT: [&str; 2] = [
    "(rule (holder reference raw cell) (access read write) (from cell kin stranger) keep)\n",
    "\
(rule (holder cell reference raw) (access write) (from stranger kin cell) end)
(rule (holder raw cell reference) (access read) (from kin cell stranger) lower)
",
];

/// Texts with places for what is nearly right, each beside a text that is complete, one that leaves out
/// all but one combination, and nothing.
fn nearly(subject: Subject) -> Checked {
    const LINES: [&str; 12] = [
        "(rule (holder raw{}) (access write) (from kin) keep)\n",
        "(rule (holder{} raw) (access write) (from kin) keep)\n",
        "(rule (holder{}) (access write) (from kin) keep)\n",
        "(rule (holder raw) (access write{}) (from kin) keep)\n",
        "(rule (holder raw) (access{}) (from kin) keep)\n",
        "(rule (holder raw) (access write) (from kin{}) keep)\n",
        "(rule (holder raw) (access write) (from{}) keep)\n",
        "(rule (holder raw) (access write) (from kin) keep{})\n",
        "(rule (holder raw) (access write) (from kin){})\n",
        "(rule (holder raw){} (access write) (from kin) keep)\n",
        "(rule{} (holder raw) (access write) (from kin) keep)\n",
        "(rule (holder raw) (access write) (from kin) keep){}\n",
    ];
    const FILLINGS: [&str; 36] = [
        "",
        " ",
        " raw",
        " cell",
        " reference",
        " read",
        " write",
        " kin",
        " stranger",
        " keep",
        " lower",
        " end",
        "raw",
        "  raw",
        " raw ",
        "\traw",
        " Raw",
        " KIN",
        " kin kin",
        " raw raw",
        " write write",
        " keep keep",
        ")",
        " )",
        "(",
        " (",
        " ()",
        " (raw)",
        " (from kin)",
        "\n",
        "\r",
        "\0",
        " 0",
        " stranger cell kin",
        " read write read",
        " rule",
    ];
    let mut cases = 0;
    for line in LINES {
        for filling in FILLINGS {
            let line = line.replace("{}", filling);
            for text in [
                line.clone(),
                SHORT[0].to_string() + &line,
                line.clone() + SHORT[1],
            ] {
                check_text(text.as_bytes(), |text| check(subject, text))?;
                cases += 1;
            }
        }
    }
    Ok(cases)
}

/// Words, brackets and rules so often that a count of 8, 16 or 32 bits is again at 0 or at 1.
fn repeated(subject: Subject) -> Checked {
    let mut texts = Vec::new();
    for count in [2, 3, 255, 256, 257, 258, 65_535, 65_536, 65_537] {
        let words = |word: &str| vec![word; count].join(" ");
        for (word, bracket) in [("reference", 0), ("write", 1), ("kin", 2)] {
            let text = SHORT[0].replace(word, &words(word));
            assert!(
                text.len() > SHORT[0].len(),
                "bracket {bracket} has the word"
            );
            texts.push(text);
        }
        if count <= 258 {
            texts.push(SHORT[0].repeat(count));
        }
        // Two brackets, or all three, whose words are multiplied.
        let two = SHORT[0].replace("raw", &words("raw"));
        let two = two.replace("read", &words("read"));
        texts.push(two.replace("stranger", &words("stranger")));
        texts.push(two);
        let single = "(rule (holder raw) (access write) (from kin) keep)\n";
        if count <= 65_536 {
            texts.push(single.repeat(count));
        }
        texts.push(single.replace("raw", &words("raw")));
    }
    for text in &texts {
        // Not made shorter on failure: there are too many bytes.
        let read = agree::read_sheet(subject, text.as_bytes())
            .map_err(|why| format!("{why}\n  {} bytes", text.len()))?;
        same("refusal", Some(14), read.err())?;
    }
    Ok(texts.len() as u64)
}

/// Sheets of any bytes.
fn bytes(random: &mut Random) -> Vec<u8> {
    let count = match random.one_in(2) {
        true => SHEET_PLACES,
        false => random.between(0, 25),
    };
    let any = random.one_in(3);
    let byte = |_| match any {
        true => random.bits() as u8,
        false => random.below(4) as u8,
    };
    (0..count).map(byte).collect()
}

/// The text of a sheet, which reads back to it, and no shorter or longer text.
fn written(random: &mut Random, subject: Subject) -> Checked {
    let sheets = 10_000;
    for _ in 0..sheets {
        let bytes = bytes(random);
        read_back(subject, &bytes).map_err(|why| format!("{why}\n  sheet {bytes:?}"))?;
    }
    Ok(sheets)
}

/// The most bytes that the C header gives for a sheet's text.
const LONGEST: usize = 1_005;

fn read_back(subject: Subject, sheet: &[u8]) -> Agreed {
    agree::write_sheet(subject, sheet)?;
    let mut text = [0; LONGEST];
    let length = subject.write_sheet(sheet, &mut text) as usize;
    let text = &text[..length];
    let read = agree::read_sheet(subject, text)?;
    same("sheet", Ok(Sheet::lent(sheet)), read)?;
    check(subject, &text[..length - 1])?;
    check(subject, &[text, &text[..text.len() / 18]].concat())
}

fn into_each_size(random: &mut Random, subject: Subject) -> Checked {
    let mut cases = 0;
    let mut sheets = vec![Vec::new(), vec![0; 18], vec![1; 18], vec![2; 18]];
    sheets.extend((0..4).map(|_| bytes(random)));
    let longest = oracle::write_sheet(&[1; 18], usize::MAX);
    same("length", Ok(LONGEST), longest.map(|text| text.len()))?;
    for sheet in sheets {
        for size in 0..LONGEST + 40 {
            agree::write_sheet_into(subject, &sheet, size)
                .map_err(|why| format!("buffer {size}: {why}\n  sheet {sheet:?}"))?;
            cases += 1;
        }
    }
    Ok(cases)
}
