//! Card 7: conflict sheets, as texts, as lent bytes, and as what they say of each combination.

use std::collections::BTreeMap;

use crate::values::{CELL, RAW, REFERENCE, Refused};

#[derive(Clone, Copy, Debug, PartialEq, Eq, PartialOrd, Ord)]
pub enum Access {
    Read,
    Write,
}

/// Where an access comes from, for a holder whose subtree its user is outside of.
#[derive(Clone, Copy, Debug, PartialEq, Eq, PartialOrd, Ord)]
pub enum Source {
    Cell,
    Kin,
    Stranger,
}

#[derive(Clone, Copy, Debug, PartialEq, Eq)]
pub enum Outcome {
    Keep,
    Lower,
    End,
}

/// The holder's kind, the access, and where that comes from.
pub type Combination = (u32, Access, Source);

/// Each word of a list, and what it means.
type Words<T, const COUNT: usize> = [(&'static str, T); COUNT];

const HOLDERS: Words<u32, 3> = [("reference", REFERENCE), ("raw", RAW), ("cell", CELL)];
const ACCESSES: Words<Access, 2> = [("read", Access::Read), ("write", Access::Write)];
const SOURCES: Words<Source, 3> = [
    ("cell", Source::Cell),
    ("kin", Source::Kin),
    ("stranger", Source::Stranger),
];
const OUTCOMES: Words<Outcome, 3> = [
    ("keep", Outcome::Keep),
    ("lower", Outcome::Lower),
    ("end", Outcome::End),
];

/// The sentences of card 6 as rules: 'no read strikes' a raw one; a write from a cell 'strikes nothing
/// outside that cell's subtree'; one from below the parent of a raw one, or that parent, 'doesn't strike
/// the raw one'; 'all other strikes remain'.
pub const CARD_6: &str = "\
(rule (holder raw) (access read) (from cell kin stranger) keep)
(rule (holder reference raw cell) (access write) (from cell) keep)
(rule (holder raw) (access write) (from kin) keep)
(rule (holder reference cell) (access read) (from cell kin stranger) lower)
(rule (holder reference cell) (access write) (from kin stranger) end)
(rule (holder raw) (access write) (from stranger) end)
";

/// 'All 18 combinations', in the order of the places that the C interface gives them.
pub fn combinations() -> Vec<Combination> {
    let holders = HOLDERS.iter().map(|(_, kind)| *kind);
    let with_access = holders.flat_map(|kind| ACCESSES.map(|(_, access)| (kind, access)));
    let all =
        with_access.flat_map(|(kind, access)| SOURCES.map(|(_, source)| (kind, access, source)));
    all.collect()
}

/// A complete sheet.
#[derive(Clone, Debug, PartialEq)]
pub struct Sheet(BTreeMap<Combination, Outcome>);

impl Sheet {
    pub fn outcome(&self, combination: Combination) -> Outcome {
        self.0[&combination]
    }

    /// The sheet of lent bytes: none of them are card 6's sheet, and where some are missing, or are
    /// neither 0 nor 1, that is the end.
    pub fn lent(bytes: &[u8]) -> Sheet {
        if bytes.is_empty() {
            return Sheet::read(CARD_6.as_bytes()).expect("card 6's sheet is complete");
        }
        let mut outcomes = BTreeMap::new();
        for (place, combination) in combinations().into_iter().enumerate() {
            let outcome = match bytes.get(place) {
                Some(0) => Outcome::Keep,
                Some(1) => Outcome::Lower,
                _ => Outcome::End,
            };
            outcomes.insert(combination, outcome);
        }
        Sheet(outcomes)
    }

    /// The bytes that reading the sheet's text gives.
    pub fn bytes(&self) -> Vec<u8> {
        let byte = |combination| match self.outcome(combination) {
            Outcome::Keep => 0,
            Outcome::Lower => 1,
            Outcome::End => 2,
        };
        combinations().into_iter().map(byte).collect()
    }

    /// The sheet of a text. 2 is judged over the whole text, then 14, then 15.
    pub fn read(text: &[u8]) -> Result<Sheet, Refused> {
        let rules = rules(text).ok_or(2)?;
        let mut outcomes = BTreeMap::new();
        let mut is_given_twice = false;
        for (combination, outcome) in rules.iter().flat_map(Rule::given) {
            is_given_twice |= outcomes.insert(combination, outcome).is_some();
        }
        if is_given_twice {
            return Err(14);
        }
        match combinations().iter().all(|one| outcomes.contains_key(one)) {
            true => Ok(Sheet(outcomes)),
            false => Err(15),
        }
    }

    /// The text that the library writes: a line for each combination.
    pub fn text(&self) -> String {
        let lines = combinations().into_iter().map(|combination| {
            let (kind, access, source) = combination;
            let (holder, access) = (word_of(&HOLDERS, kind), word_of(&ACCESSES, access));
            let source = word_of(&SOURCES, source);
            let outcome = word_of(&OUTCOMES, self.outcome(combination));
            format!("(rule (holder {holder}) (access {access}) (from {source}) {outcome})\n")
        });
        lines.collect()
    }
}

/// The text of a lent sheet, if it is no longer than the output buffer.
pub fn write_sheet(sheet: &[u8], buffer: usize) -> Result<String, Refused> {
    let text = Sheet::lent(sheet).text();
    match text.len() <= buffer {
        true => Ok(text),
        false => Err(11),
    }
}

/// The words of a line, as they stand.
struct Rule {
    holders: Vec<u32>,
    accesses: Vec<Access>,
    sources: Vec<Source>,
    outcome: Outcome,
}

impl Rule {
    /// Every combination of a word of each bracket, as often as they give it. Of 19 some are the same,
    /// so that more are never needed.
    fn given(&self) -> Vec<(Combination, Outcome)> {
        let mut given = Vec::new();
        for holder in &self.holders {
            for access in &self.accesses {
                for source in &self.sources {
                    given.push(((*holder, *access, *source), self.outcome));
                    if given.len() == 19 {
                        return given;
                    }
                }
            }
        }
        given
    }
}

/// The rules of a text, if every line is one.
fn rules(text: &[u8]) -> Option<Vec<Rule>> {
    let text = str::from_utf8(text).ok()?;
    if text.is_empty() {
        return Some(Vec::new());
    }
    text.strip_suffix('\n')?.split('\n').map(rule).collect()
}

/// A line without its newline, cut where brackets open.
fn rule(line: &str) -> Option<Rule> {
    let pieces: Vec<&str> = line.split('(').collect();
    let ["", "rule ", holders, accesses, last] = pieces[..] else {
        return None;
    };
    let (sources, outcome) = last.strip_suffix(')')?.split_once(") ")?;
    let holders = holders.strip_prefix("holder ")?.strip_suffix(") ")?;
    let accesses = accesses.strip_prefix("access ")?.strip_suffix(") ")?;
    Some(Rule {
        holders: meanings(&HOLDERS, holders)?,
        accesses: meanings(&ACCESSES, accesses)?,
        sources: meanings(&SOURCES, sources.strip_prefix("from ")?)?,
        outcome: meaning(&OUTCOMES, outcome)?,
    })
}

/// What the words of a bracket mean, if each is one of the list. A bracket without words has the empty
/// word, which is none.
fn meanings<T: Copy, const COUNT: usize>(list: &Words<T, COUNT>, bracket: &str) -> Option<Vec<T>> {
    bracket.split(' ').map(|word| meaning(list, word)).collect()
}

fn meaning<T: Copy, const COUNT: usize>(list: &Words<T, COUNT>, word: &str) -> Option<T> {
    let found = list.iter().find(|(known, _)| *known == word);
    found.map(|(_, meaning)| *meaning)
}

fn word_of<T: Copy + PartialEq, const COUNT: usize>(
    list: &Words<T, COUNT>,
    meaning: T,
) -> &'static str {
    let found = list.iter().find(|(_, known)| *known == meaning);
    found.map_or("", |(word, _)| word)
}
