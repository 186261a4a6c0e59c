//! The baseline behind the C interface.

use baseline::{Cap, Event, Lent, MAX_GROUP, Refusal, SHEET_PLACES, Spelling, Tally};

use crate::{
    AnswerWords, Columns, ColumnsMut, CountWords, DROP_ALL, Interface, Memory, ShareWords,
    SizingWords, Words,
};

pub struct Baseline;

fn packed(answer: Result<u32, Refusal>) -> u64 {
    match answer {
        Ok(value) => u64::from(value),
        Err(refusal) => (refusal as u64) << 32,
    }
}

/// The number of events, where entries were used.
fn counted(answer: Result<CountWords, Refusal>, used: &mut CountWords) -> u64 {
    packed(answer.map(|counts| {
        *used = counts;
        counts[0]
    }))
}

/// The names that the words mean, where they mean names; those past the end of the list are none.
fn group<'a>(words: &Words, names: &'a [u32]) -> Option<&'a [u32]> {
    let start = words.start as usize;
    let end = start.saturating_add(words.length as usize);
    (words.kind == DROP_ALL).then(|| names.get(start..end).unwrap_or(&[]))
}

/// What is lent, with a sheet.
fn lend<'a>(memory: Memory<'a>, sheet: &'a [u8]) -> Lent<'a> {
    Lent {
        table: memory.table,
        written: memory.written,
        stored: memory.stored,
        stored_bits: memory.stored_bits,
        tally: memory.tally,
        sheet,
        limits: memory.limits,
    }
}

impl Interface for Baseline {
    fn name(&self) -> &'static str {
        "baseline"
    }

    fn apply_words_by(&self, sheet: &[u8], memory: Memory, words: &Words, names: &[u32]) -> u64 {
        let lent = lend(memory, sheet);
        // Words are turned into an event where it is carried out.
        packed(match group(words, names) {
            Some(names) => baseline::drop_all(lent, words.actor, names).map(|()| 0),
            None => baseline::apply(lent, *words),
        })
    }

    fn apply_all_by(
        &self,
        sheet: &[u8],
        memory: Memory,
        events: &[Words],
        names: &[u32],
        answers: &mut [AnswerWords],
    ) -> usize {
        baseline::apply_all(lend(memory, sheet), events, names, answers)
    }

    fn charge(&self, table: &[Cap], issued: u32, name: u32) -> ShareWords {
        match baseline::charge(table, issued, name) {
            Ok((share, rest)) => [0, share, rest],
            Err(refusal) => [refusal as u32, 0, 0],
        }
    }

    fn run_by(&self, sheet: &[u8], memory: Memory, text: &[u8]) -> u64 {
        match baseline::run(lend(memory, sheet), text) {
            Ok(lines) => u64::from(lines),
            Err((refusal, line)) => packed(Err(refusal)) + u64::from(line),
        }
    }

    fn write_words(&self, words: &Words, names: &[u32], out: &mut [u8]) -> u64 {
        match group(words, names) {
            Some(names) => packed(baseline::write_drop(words.actor, names, out)),
            None => self.write_event((*words).into(), out),
        }
    }

    fn read_line(
        &self,
        named: u32,
        line: &[u8],
        words: &mut Words,
        names: &mut [u32; MAX_GROUP],
    ) -> u64 {
        let spelling = match named {
            0 => Spelling::Plain,
            _ => Spelling::Named,
        };
        if let Ok(event) = baseline::read_event(line, spelling) {
            *words = event.into();
            return 0;
        }
        packed(baseline::read_drop(line, names).map(|(actor, count)| {
            *words = Words::drop_all(0, count).by(actor, 0);
            0
        }))
    }

    fn write_listing(&self, table: &[Cap], issued: u32, out: &mut [u8]) -> u64 {
        packed(baseline::write_listing(table, issued, out))
    }

    fn read_listing(&self, text: &[u8], table: &mut [Cap], tally: &mut Tally) -> u64 {
        packed(baseline::read_listing(text, table, tally).map(|()| 0))
    }

    fn read_sheet(&self, text: &[u8], sheet: &mut [u8; SHEET_PLACES]) -> u64 {
        packed(baseline::read_sheet(text, sheet).map(|()| 0))
    }

    fn write_sheet(&self, sheet: &[u8], out: &mut [u8]) -> u64 {
        packed(baseline::write_sheet(sheet, out))
    }

    fn to_columns(&self, events: &[Words], columns: ColumnsMut, used: &mut CountWords) -> u64 {
        counted(baseline::to_columns(events, columns), used)
    }

    fn from_columns(&self, columns: Columns, events: &mut [Words], used: &mut CountWords) -> u64 {
        counted(baseline::from_columns(columns, events), used)
    }

    fn sizes(&self, text: &[u8], lengths: &[u32], report: &mut SizingWords) -> u64 {
        let answer = baseline::sizes(text, lengths);
        *report = match answer {
            Ok(rows) => [0, rows, 0, 0],
            Err((refusal, client, line)) => [refusal as u32, 0, client, line],
        };
        packed(answer.map_err(|(refusal, ..)| refusal))
    }

    fn check(
        &self,
        input: &[u8],
        stored: &mut [Cap],
        stored_bits: &mut [u8],
        out: &mut [u8],
    ) -> u64 {
        packed(baseline::check(input, stored, stored_bits, out))
    }

    fn apply_by(&self, sheet: &[u8], memory: Memory, event: Event) -> u64 {
        packed(baseline::apply(lend(memory, sheet), event))
    }

    fn write_event(&self, event: Event, out: &mut [u8]) -> u64 {
        let spelling = match event.written {
            Some(_) => Spelling::Named,
            None => Spelling::Plain,
        };
        packed(baseline::write_event(event, spelling, out))
    }
}
