//! Conflict sheets, lent and as texts.

use crate::event::Refusal;
use crate::text::{Reader, Writer};

/// How many combinations of a holder, an access and where it comes from a sheet has a result for.
pub const SHEET_PLACES: usize = 18;

/// The sheet by which events are carried out where none is lent.
const DEFAULT: [u8; SHEET_PLACES] = [1, 1, 1, 0, 2, 2, 0, 0, 0, 0, 0, 2, 1, 1, 1, 0, 2, 2];

const HOLDERS: [&[u8]; 3] = [b"reference", b"raw", b"cell"];
const ACCESSES: [&[u8]; 2] = [b"read", b"write"];
const FROMS: [&[u8]; 3] = [b"cell", b"kin", b"stranger"];
const RESULTS: [&[u8]; 3] = [b"keep", b"lower", b"end"];

const KEEP: u8 = 0;
const LOWER: u8 = 1;
const END: u8 = 2;

/// The results of a lent sheet. Behind its last byte all are the end, and so is any other number.
fn results(sheet: &[u8]) -> [u8; SHEET_PLACES] {
    let mut results = DEFAULT;
    if !sheet.is_empty() {
        for (place, result) in results.iter_mut().enumerate() {
            *result = sheet.get(place).copied().unwrap_or(END).min(END);
        }
    }
    results
}

/// The results of a sheet for one access: the holder's kind times 3, plus where the access comes from.
pub(crate) type Takes = [Take; 9];

/// What a result takes from a row.
#[derive(Clone, Copy, PartialEq, Eq)]
pub(crate) enum Take {
    Nothing,
    ReadWrite,
    Life,
}

/// A sheet other than the default one.
#[derive(Clone, Copy)]
pub(crate) struct Sheet {
    pub(crate) reads: Takes,
    pub(crate) writes: Takes,
}

impl Sheet {
    /// The lent sheet, unless that is the default one.
    #[inline]
    pub(crate) fn lent(sheet: &[u8]) -> Option<Sheet> {
        match sheet.is_empty() {
            true => None,
            false => Sheet::other(results(sheet)),
        }
    }

    fn other(results: [u8; SHEET_PLACES]) -> Option<Sheet> {
        if results == DEFAULT {
            return None;
        }
        let mut sheet = Sheet {
            reads: [Take::Nothing; 9],
            writes: [Take::Nothing; 9],
        };
        for (place, result) in results.into_iter().enumerate() {
            let takes = match place / 3 % 2 {
                0 => &mut sheet.reads,
                _ => &mut sheet.writes,
            };
            takes[place / 6 * 3 + place % 3] = match result {
                KEEP => Take::Nothing,
                LOWER => Take::ReadWrite,
                _ => Take::Life,
            };
        }
        Some(sheet)
    }
}

/// How often the rules of a text give each combination, which is not counted above twice, and its result.
struct Given {
    times: [u8; SHEET_PLACES],
    results: [u8; SHEET_PLACES],
}

impl Given {
    fn add(&mut self, place: usize, times: u8, result: u8) {
        if times > 0 {
            self.times[place] = (self.times[place] + times).min(2);
            self.results[place] = result;
        }
    }
}

/// Reads the text of a sheet.
pub fn read_sheet(text: &[u8], sheet: &mut [u8; SHEET_PLACES]) -> Result<(), Refusal> {
    let mut given = Given {
        times: [0; SHEET_PLACES],
        results: [0; SHEET_PLACES],
    };
    let mut reader = Reader::new(text);
    while !reader.is_at_end() {
        read_rule(&mut reader, &mut given).ok_or(Refusal::Misspelt)?;
    }
    if given.times.contains(&2) {
        return Err(Refusal::GivenTwice);
    }
    if given.times.contains(&0) {
        return Err(Refusal::NotGiven);
    }
    *sheet = given.results;
    Ok(())
}

fn read_rule(reader: &mut Reader, given: &mut Given) -> Option<()> {
    reader.skip(b"(rule (holder")?;
    let holders = read_words(reader, HOLDERS)?;
    reader.skip(b" (access")?;
    let accesses = read_words(reader, ACCESSES)?;
    reader.skip(b" (from")?;
    let froms = read_words(reader, FROMS)?;
    let result = next_word(reader, RESULTS)? as u8;
    reader.skip(b")\n")?;
    for place in 0..SHEET_PLACES {
        let times = holders[place / 6] * accesses[place / 3 % 2] * froms[place % 3];
        given.add(place, times.min(2), result);
    }
    Some(())
}

/// The words of a bracket, one or more: how often each stands there, not counted above twice.
fn read_words<const WORDS: usize>(
    reader: &mut Reader,
    words: [&[u8]; WORDS],
) -> Option<[u8; WORDS]> {
    let mut times = [0; WORDS];
    loop {
        let word = next_word(reader, words)?;
        times[word] = (times[word] + 1).min(2);
        if reader.skip_byte(b')').is_some() {
            return Some(times);
        }
    }
}

/// A space and one of the words. None of them is the beginning of another, and what may follow a word
/// begins with no letter.
fn next_word<const WORDS: usize>(reader: &mut Reader, words: [&[u8]; WORDS]) -> Option<usize> {
    reader.skip_byte(b' ')?;
    words
        .into_iter()
        .position(|word| reader.skip(word).is_some())
}

/// The longest text that is written.
const TEXT_CAPACITY: usize = 1_005;

/// Writes the text of a lent sheet, a line for each combination: its length, or the refusal.
pub fn write_sheet(sheet: &[u8], out: &mut [u8]) -> Result<u32, Refusal> {
    let mut text = [0; TEXT_CAPACITY];
    let mut writer = Writer::new(&mut text);
    for (place, result) in results(sheet).into_iter().enumerate() {
        let pieces = [
            b"(rule (holder ",
            HOLDERS[place / 6],
            b") (access ",
            ACCESSES[place / 3 % 2],
            b") (from ",
            FROMS[place % 3],
            b") ",
            RESULTS[usize::from(result)],
            b")\n",
        ];
        for piece in pieces {
            writer.put(piece);
        }
    }
    let length = writer.length();
    let target = out.get_mut(..length).ok_or(Refusal::BufferTooShort)?;
    target.copy_from_slice(&text[..length]);
    Ok(length as u32)
}
