//! Lines of events and texts of sheets: written and read, and refused.

use interface::{Cap, MAX_GROUP, SHEET_PLACES, Tally, Words};

use crate::batch::{BATCH_BYTES, repeated_refused};
use crate::growth::single_row;
use crate::print;
use crate::rounds::{SHARED_BY, SHARING};
use crate::shape::READ_WRITE;
use crate::timing::{Batch, Bench};
use crate::workload::{
    BACK, BORROW, CREATE, DROP, GIVEN_TWICE, MARK, MISGROUPED, MISSPELT, NOT_GIVEN, READ,
    TOO_SHORT, WRITE, line, line_of, slot_event,
};

pub const NOTES: &str = "\
Lines of events and texts of sheets. 'plain' are a create, a borrow, a read, a write and a drop in turn,
their numbers from one digit to ten; 'named' the same with the new names written out, 'shared' by domain
63 and what they make for others too, 'words' with fresh, raw and cell, 'longest' is a borrow with all
of these, 'turns' are a mark and a back, and '2 names' and '64 names' dropped together. Those 'refused'
are the plain read with one byte changed, with a number above all, or with another line behind it,
65,536 bytes of lines and 65,536 of one number, names dropped together of which there is one too many,
or the last is not above the one before it; an event of no kind, and no room for its line. A sheet has a
rule for each of its combinations, or one for all; it is 'refused' where a byte is changed, where its
first rule stands again behind the last, where the last is left out, where there is none, and where it
is 65,536 bytes of one word. A listing is refused whose issued number has 65,536 digits.";

/// How many bytes are far too many.
const LONG: usize = 65_536;

/// A text that goes on with one number.
fn long_number(first: &[u8]) -> Vec<u8> {
    [first, &[b'1'; LONG]].concat()
}

/// A sort of lines, and their events.
type Sort = (&'static str, fn() -> Vec<Words>);

const SORTS: [Sort; 8] = [
    ("plain", plain),
    ("named", named),
    ("shared", shared),
    ("words", words),
    ("longest", longest),
    ("turns", turns),
    ("2 names", || vec![Words::drop_all(0, 2)]),
    ("64 names", || vec![Words::drop_all(0, MAX_GROUP as u32)]),
];

/// What is wrong, and with which line.
type Refused = (&'static str, fn() -> Vec<u8>);

const REFUSED_LINES: [Refused; 9] = [
    ("first byte", || b"[read 40 4294901760 8)\n".to_vec()),
    ("word", || b"(reap 40 4294901760 8)\n".to_vec()),
    ("number", || b"(read 40 4294967296 8)\n".to_vec()),
    ("last byte", || b"(read 40 4294901760 8) ".to_vec()),
    ("two lines", || b"(read 40 4294901760 8)\n".repeat(2)),
    ("64 KiB of lines", || {
        b"(read 40 4294901760 8)\n".repeat(LONG / 23)
    }),
    ("64 KiB of digits", || long_number(b"(drop ")),
    ("65 names", || {
        drop_line(&[names(), vec![2_000_000]].concat())
    }),
    ("falling name", || drop_line(&falling_names())),
];

/// An event of a kind, its numbers from one digit to ten.
fn event(kind: u32) -> Words {
    Words {
        kind,
        name: 40,
        start: 4_294_901_760,
        length: 8,
        right: READ_WRITE,
        ..Words::default()
    }
    .by(0, 1)
}

fn plain() -> Vec<Words> {
    [CREATE, BORROW, READ, WRITE, DROP].map(event).to_vec()
}

fn named() -> Vec<Words> {
    let name = |event| Words {
        named: 1,
        written: 41,
        ..event
    };
    plain().into_iter().map(name).collect()
}

fn shared() -> Vec<Words> {
    let share = |event: Words| event.by(SHARING, SHARED_BY);
    plain().into_iter().map(share).collect()
}

fn words() -> Vec<Words> {
    let (fresh, raw, cell) = (1, 1, 2);
    let borrow = |cap_kind| Words {
        cap_kind,
        ..event(BORROW)
    };
    let create = Words {
        fresh,
        ..event(CREATE)
    };
    vec![create, borrow(raw), borrow(cell)]
}

fn longest() -> Vec<Words> {
    let borrow = Words {
        name: u32::MAX,
        start: u32::MAX,
        length: u32::MAX,
        named: 1,
        written: u32::MAX,
        cap_kind: 2,
        ..event(BORROW)
    };
    vec![borrow.by(SHARING, SHARED_BY)]
}

fn turns() -> Vec<Words> {
    [MARK, BACK].map(slot_event).to_vec()
}

/// As many names as may be dropped together, over a million.
fn names() -> Vec<u32> {
    (1..=MAX_GROUP as u32).map(|name| name * 15_625).collect()
}

/// The same but for the last, which is that before it.
fn falling_names() -> Vec<u32> {
    let mut names = names();
    names[MAX_GROUP - 1] = names[MAX_GROUP - 2];
    names
}

/// A line of any names.
fn drop_line(names: &[u32]) -> Vec<u8> {
    let names: Vec<String> = names.iter().map(u32::to_string).collect();
    format!("(drop {})\n", names.join(" ")).into_bytes()
}

/// How many lines stand in a batch, where they are not long.
const BATCH_LINES: usize = 1_024;

/// How many texts of such a length stand in a batch.
fn times(length: usize) -> usize {
    (BATCH_BYTES / length).clamp(64, BATCH_LINES)
}

fn write_events(refusal: u64, events: Vec<Words>, names: Vec<u32>, room: usize) -> Box<dyn Batch> {
    let mut out = vec![0; room];
    repeated_refused(refusal, BATCH_LINES, move |implementation, at| {
        implementation.write_words(&events[at % events.len()], &names, &mut out)
    })
}

fn read_lines(refusal: u64, named: u32, lines: Vec<Vec<u8>>) -> Box<dyn Batch> {
    let mut event = Words::default();
    let mut names = [0; MAX_GROUP];
    repeated_refused(refusal, times(lines[0].len()), move |implementation, at| {
        implementation.read_line(named, &lines[at % lines.len()], &mut event, &mut names)
    })
}

fn read_events(events: Vec<Words>) -> Box<dyn Batch> {
    let named = events.iter().any(|event| event.named != 0);
    let lines = events.iter().map(|event| line_of(*event, &names()));
    read_lines(0, named.into(), lines.collect())
}

/// A sheet of every result.
fn sheet() -> Vec<u8> {
    (0..SHEET_PLACES).map(|place| (place % 3) as u8).collect()
}

/// A text that has a line for each combination.
fn sheet_text() -> Vec<u8> {
    let mut text = vec![0; 1_024];
    let length = interface::baseline().write_sheet(&sheet(), &mut text) as usize;
    text.truncate(length);
    text
}

const ONE_RULE: &[u8] =
    b"(rule (holder reference raw cell) (access read write) (from cell kin stranger) keep)\n";

/// A text of a sheet and its refusal, 0 where it is read.
type SheetText = (&'static str, u64, fn() -> Vec<u8>);

const SHEET_TEXTS: [SheetText; 8] = [
    ("18 rules", 0, sheet_text),
    ("one rule", 0, || ONE_RULE.to_vec()),
    ("first byte", MISSPELT, || changed(sheet_text(), 0)),
    ("last byte", MISSPELT, || {
        let text = sheet_text();
        let last = text.len() - 1;
        changed(text, last)
    }),
    ("given twice", GIVEN_TWICE, || {
        let text = sheet_text();
        let first = text.split_inclusive(|byte| *byte == b'\n').next();
        [&text, first.unwrap_or(&[])].concat()
    }),
    ("not given", NOT_GIVEN, || {
        let text = sheet_text();
        let rules: Vec<&[u8]> = text.split_inclusive(|byte| *byte == b'\n').collect();
        rules[..SHEET_PLACES - 1].concat()
    }),
    ("no rule", NOT_GIVEN, Vec::new),
    ("64 KiB of letters", MISSPELT, || vec![b'a'; LONG]),
];

fn changed(mut text: Vec<u8>, at: usize) -> Vec<u8> {
    text[at] = b'?';
    text
}

fn read_sheet(refusal: u64, text: Vec<u8>) -> Box<dyn Batch> {
    let mut found = [0; SHEET_PLACES];
    let times = times(text.len().max(1_000));
    repeated_refused(refusal, times, move |implementation, _| {
        implementation.read_sheet(&text, &mut found)
    })
}

fn write_sheet(refusal: u64, sheet: Vec<u8>, room: usize) -> Box<dyn Batch> {
    let mut out = vec![0; room];
    repeated_refused(refusal, times(1_000), move |implementation, _| {
        implementation.write_sheet(&sheet, &mut out)
    })
}

pub fn times_of_lines(bench: &mut Bench) {
    print::times_heading(bench, "of", "size", "");
    for (sort, events) in SORTS {
        let batch = write_events(0, events(), names(), 1_024);
        single_row(bench, "write_event", sort, batch);
    }
    for (sort, events) in SORTS {
        single_row(bench, "read_event", sort, read_events(events()));
    }
    refused_events(bench);
    for (sort, line) in REFUSED_LINES {
        let batch = read_lines(MISSPELT, 0, vec![line()]);
        single_row(bench, "read_event refused", sort, batch);
    }
    times_of_sheets(bench);
    let batch = read_long_listing();
    single_row(bench, "read_listing long", "64 KiB of digits", batch);
}

fn read_long_listing() -> Box<dyn Batch> {
    let text = long_number(b"(issued ");
    let (mut table, mut tally) = ([Cap::default(); 16], Tally::default());
    repeated_refused(MISSPELT, times(LONG), move |implementation, _| {
        implementation.read_listing(&text, &mut table, &mut tally)
    })
}

fn refused_events(bench: &mut Bench) {
    let call = "write_event refused";
    let read = event(READ);
    let room = line(read).len() - 1;
    let falling = vec![Words::drop_all(0, MAX_GROUP as u32)];
    let batches = [
        (
            "no kind",
            write_events(MISSPELT, vec![event(9)], vec![], 96),
        ),
        ("no room", write_events(TOO_SHORT, vec![read], vec![], room)),
        (
            "falling name",
            write_events(MISGROUPED, falling, falling_names(), 1_024),
        ),
    ];
    for (sort, batch) in batches {
        single_row(bench, call, sort, batch);
    }
}

fn times_of_sheets(bench: &mut Bench) {
    let short = sheet_text().len() - 1;
    single_row(
        bench,
        "write_sheet",
        "18 results",
        write_sheet(0, sheet(), 1_024),
    );
    single_row(
        bench,
        "write_sheet",
        "default",
        write_sheet(0, vec![], 1_024),
    );
    let batch = write_sheet(TOO_SHORT, sheet(), short);
    single_row(bench, "write_sheet refused", "no room", batch);
    for (sort, refusal, text) in SHEET_TEXTS {
        let call = match refusal {
            0 => "read_sheet",
            _ => "read_sheet refused",
        };
        single_row(bench, call, sort, read_sheet(refusal, text()));
    }
}
