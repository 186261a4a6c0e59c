//! One call of the implementation beside the oracle: the answer and everything lent must be equal.

use std::fmt::Debug;

use interface::{
    AnswerWords, Cap, DROP_ALL, Event, Interface, MAX_GROUP, Memory, SHEET_PLACES, ShareWords,
    Words,
};
use oracle::{Act, Charge, Fields, Refused, Row, Sheet, Span, Spelling, Tally, Written};

use crate::domains;
use crate::report::{Checked, Met, MetAnswers, check_few};
use crate::sheets;
use crate::slots::{self, Room, Slots};
use crate::states;
use crate::strikes;
use crate::written;

/// The implementation under test.
pub type Subject = &'static dyn Interface;

/// Nothing, or what differs.
pub type Agreed = Result<(), String>;

/// What a caller lends.
#[derive(Clone, Debug, PartialEq)]
pub struct Lent {
    pub rows: Vec<Row>,
    pub bits: Bits,
    pub slots: Slots,
    pub tally: Tally,
    /// Numbers of limits, none where no limits are lent.
    pub limits: Vec<u32>,
}

impl Lent {
    /// These rows and this tally, with nothing written, nothing stored and without limits.
    pub fn of(rows: Vec<Row>, tally: Tally) -> Lent {
        Lent {
            rows,
            bits: Bits::Of(Written::default()),
            slots: Slots::nothing(),
            tally,
            limits: Vec::new(),
        }
    }

    /// So many empty rows, nothing written, nothing stored, and a tally of zeros.
    pub fn empty(rows: usize) -> Lent {
        Lent::of(vec![Row::default(); rows], Tally::default())
    }

    /// The same for the oracle, and what is lent besides.
    fn oracle_by<'a>(&'a mut self, by: By<'a>) -> (oracle::By<'a>, oracle::Lent<'a>) {
        let Lent {
            rows,
            bits,
            slots,
            tally,
            limits,
        } = self;
        let lent = oracle::Lent {
            rows,
            written: bits.written_mut(),
            states: slots.states_mut(),
            tally,
        };
        let by = oracle::By {
            sheet: sheet_of(by),
            limits,
        };
        (by, lent)
    }
}

/// The lent bytes of written bits: those of a set of addresses, or some of another length, which are none.
#[derive(Clone, Debug, PartialEq)]
pub enum Bits {
    Of(Written),
    Other(Vec<u8>),
}

impl Bits {
    pub fn lent(bytes: &[u8]) -> Bits {
        match Written::lent(bytes) {
            Some(written) => Bits::Of(written),
            None => Bits::Other(bytes.to_vec()),
        }
    }

    pub fn bytes(&self) -> Vec<u8> {
        match self {
            Bits::Of(written) => written.bytes(),
            Bits::Other(bytes) => bytes.clone(),
        }
    }

    /// The written addresses, if the bytes are as many as there have to be.
    pub fn written(&self) -> Option<&Written> {
        match self {
            Bits::Of(written) => Some(written),
            Bits::Other(_) => None,
        }
    }

    fn written_mut(&mut self) -> Option<&mut Written> {
        match self {
            Bits::Of(written) => Some(written),
            Bits::Other(_) => None,
        }
    }
}

/// A sheet as it is lent, and as the oracle reads it.
#[derive(Clone, Debug)]
pub struct LentSheet {
    pub bytes: Vec<u8>,
    pub sheet: Sheet,
}

impl LentSheet {
    pub fn of(bytes: &[u8]) -> LentSheet {
        LentSheet {
            bytes: bytes.to_vec(),
            sheet: Sheet::lent(bytes),
        }
    }
}

/// A lent sheet, or none. Without one the oracle goes by the sentences of card 6.
pub type By<'a> = Option<&'a LentSheet>;

pub fn bytes_of<'a>(by: By<'a>) -> &'a [u8] {
    by.map_or(&[], |lent| &lent.bytes)
}

pub fn sheet_of<'a>(by: By<'a>) -> Option<&'a Sheet> {
    by.map(|lent| &lent.sheet)
}

pub fn packed(answer: Result<u32, Refused>) -> u64 {
    match answer {
        Ok(value) => u64::from(value),
        Err(number) => u64::from(number) << 32,
    }
}

pub fn packed_run(answer: oracle::Run) -> u64 {
    match answer {
        Ok(lines) => u64::from(lines),
        Err((number, line)) => (u64::from(number) << 32) + u64::from(line),
    }
}

pub fn span_of(event: Event) -> Span {
    Span {
        start: event.start,
        length: event.length,
    }
}

/// What happens, and who acts.
pub fn oracle_act(event: Event) -> Act {
    let Event {
        kind,
        written,
        name,
        right,
        actor,
        holders,
        ..
    } = event;
    let event = oracle::Event::of(Fields {
        event: kind,
        written,
        name,
        span: span_of(event),
        right,
        kind: event.cap_kind.into(),
        fresh: event.fresh.into(),
        holders,
    });
    Act { actor, event }
}

/// What words ask for: an event, or names that a domain drops together.
pub enum Asked<'a> {
    Act(Act),
    Names(u32, &'a [u32]),
}

/// Names that reach past the end of their list are none; kinds and rights above a byte are as unknown
/// as 0 is; any number but 0 says that a name is written.
pub fn asked<'a>(words: &Words, names: &'a [u32]) -> Asked<'a> {
    let actor = words.actor;
    if words.kind == DROP_ALL {
        let start = u64::from(words.start);
        let end = start + u64::from(words.length);
        let names = match end <= names.len() as u64 {
            true => &names[start as usize..end as usize],
            false => &[],
        };
        return Asked::Names(actor, names);
    }
    let byte = |number: u32| u8::try_from(number).unwrap_or(0);
    let event = oracle::Event::of(Fields {
        event: byte(words.kind),
        written: (words.named != 0).then_some(words.written),
        name: words.name,
        span: Span {
            start: words.start,
            length: words.length,
        },
        right: byte(words.right),
        kind: words.cap_kind,
        fresh: words.fresh,
        holders: mask(words.holders_low, words.holders_high),
    });
    Asked::Act(Act { actor, event })
}

/// A mask of its lower half and its higher.
pub fn mask(low: u32, high: u32) -> u64 {
    u64::from(low) + (1 << 32) * u64::from(high)
}

/// The lower half of a mask, and the higher.
pub fn halves(mask: u64) -> (u32, u32) {
    ((mask % (1 << 32)) as u32, (mask / (1 << 32)) as u32)
}

/// The spelling in which the interface writes the event.
pub fn spelling_of(event: Event) -> Spelling {
    match event.written {
        Some(_) => Spelling::Named,
        None => Spelling::Plain,
    }
}

pub fn same<T: PartialEq + Debug>(what: &str, expected: T, found: T) -> Agreed {
    if expected == found {
        return Ok(());
    }
    Err(format!("{what}: expected {expected:?}, found {found:?}"))
}

pub fn same_answer(expected: u64, found: u64) -> Agreed {
    let parts = |answer: u64| (answer >> 32, answer as u32);
    same("answer (number, value)", parts(expected), parts(found))
}

/// The table, written bits, states and tally that a call left, and the limits, which no call can change.
pub struct Found {
    table: Vec<Cap>,
    written: Vec<u8>,
    slots: Slots,
    tally: interface::Tally,
    limits: Vec<u32>,
}

impl Found {
    /// The same as the oracle has it.
    pub fn lent(self) -> Lent {
        Lent {
            rows: self.table.iter().map(row_of).collect(),
            bits: Bits::lent(&self.written),
            slots: self.slots,
            tally: oracle_tally(self.tally),
            limits: self.limits,
        }
    }
}

/// Whether a call left what it should. Words that are kept are then as the call left them.
fn same_lent(expected: &mut Lent, found: Found) -> Agreed {
    for (at, (row, cap)) in expected.rows.iter().zip(&found.table).enumerate() {
        same(&format!("row {at}"), cap_of(row), *cap)?;
    }
    same_bits(&expected.bits.bytes(), &found.written)?;
    same("states", expected.slots.states(), found.slots.states())?;
    same("tally", interface_tally(expected.tally), found.tally)?;
    expected.slots.keep(found.slots);
    Ok(())
}

fn same_bits(expected: &[u8], found: &[u8]) -> Agreed {
    if expected == found {
        return Ok(());
    }
    let differs = |at: &usize| expected[*at] != found[*at];
    let at = (0..expected.len()).find(differs).unwrap_or(expected.len());
    let [expected, found] = [expected[at], found[at]];
    same(&format!("written bits, byte {at}"), expected, found)
}

/// A row that stands after the lent ones and is not the call's to write.
pub const GUARD_ROW: Cap = Cap {
    name: 0xA5A5_A5A5,
    parent: 1,
    start: 2,
    length: 3,
    right: 4,
    depth: 5,
    kind: 6,
    fresh: 7,
    maker: 8,
    holders_low: 9,
    holders_high: 10,
};

pub fn cap_of(row: &Row) -> Cap {
    let (holders_low, holders_high) = halves(row.holders);
    Cap {
        name: row.name,
        parent: row.parent,
        start: row.start,
        length: row.length,
        right: row.right,
        depth: row.depth,
        kind: row.kind,
        fresh: row.fresh,
        maker: row.maker,
        holders_low,
        holders_high,
    }
}

pub fn row_of(cap: &Cap) -> Row {
    Row {
        name: cap.name,
        parent: cap.parent,
        start: cap.start,
        length: cap.length,
        right: cap.right,
        depth: cap.depth,
        kind: cap.kind,
        fresh: cap.fresh,
        maker: cap.maker,
        holders: mask(cap.holders_low, cap.holders_high),
    }
}

fn interface_tally(tally: Tally) -> interface::Tally {
    interface::Tally {
        issued: tally.issued,
        creates: tally.creates,
        borrows: tally.borrows,
        reads: tally.reads,
        writes: tally.writes,
        drops: tally.drops,
        refused: tally.refused,
    }
}

fn oracle_tally(tally: interface::Tally) -> Tally {
    Tally {
        issued: tally.issued,
        creates: tally.creates,
        borrows: tally.borrows,
        reads: tally.reads,
        writes: tally.writes,
        drops: tally.drops,
        refused: tally.refused,
    }
}

/// Calls with a copy of what is lent; gives the answer and the copy as the call left it.
pub fn lend(lent: &Lent, call: impl FnOnce(Memory) -> u64) -> Result<(u64, Found), String> {
    let mut table: Vec<Cap> = lent.rows.iter().map(cap_of).collect();
    table.push(GUARD_ROW);
    let mut written = lent.bits.bytes();
    let bytes = written.len();
    written.extend([GUARD_BYTE; GUARD_BYTES]);
    let mut room = Room::of(&lent.slots);
    let (stored, stored_bits) = room.lent();
    let mut tally = interface_tally(lent.tally);
    let answer = call(Memory {
        table: &mut table[..lent.rows.len()],
        written: &mut written[..bytes],
        stored,
        stored_bits,
        tally: &mut tally,
        limits: &lent.limits,
    });
    same("the row after the table", Some(GUARD_ROW), table.pop())?;
    let behind = written.split_off(bytes);
    same(
        "the bytes after the bits",
        vec![GUARD_BYTE; GUARD_BYTES],
        behind,
    )?;
    let found = Found {
        table,
        written,
        slots: room.found(&lent.slots)?,
        tally,
        limits: lent.limits.clone(),
    };
    Ok((answer, found))
}

/// The answers to events, names dropped together among them.
static MET: MetAnswers = Met::none();

/// The refusals that no event gets: that of a writer, and those of the text of a sheet.
pub const OF_TEXTS: [usize; 3] = [11, 14, 15];

/// Whether events have met every answer that an event can meet, and how often.
pub fn every_answer_met() -> Checked {
    MET.every_answer_but(&OF_TEXTS)
}

/// Sorts of creates, for what they meet.
const CREATES: [&str; 6] = [
    "ends nothing that lives",
    "ends some, and leaves some",
    "ends all",
    "ends one that it does not touch, below one that it touches",
    "has length 0, within a live span",
    "is refused 10, over what it would end",
];

/// How often events were creates of each sort.
static CREATES_MET: Met<6> = Met::none();

/// Counts a create for the rows before it and after.
fn count_create(before: &[Row], lent: &Lent, event: Event, verdict: Result<u32, Refused>) {
    let allowed = verdict.is_ok();
    let Span { start, length } = span_of(event);
    let touched = |row: &Row| row.span().touches(span_of(event));
    let is_left = |row: &Row| lent.rows.iter().any(|left| left.name == row.name);
    let live = oracle::live_rows(before);
    let left = live.iter().filter(|row| is_left(row)).count();
    let around = |row: &Row| row.start < start && u64::from(start) < row.span().end();
    CREATES_MET.count([
        allowed && left == live.len() && left > 0,
        allowed && left < live.len() && left > 0,
        allowed && left == 0 && live.len() > 1,
        allowed && live.iter().any(|row| !touched(row) && !is_left(row)),
        allowed && length == 0 && live.iter().any(around),
        verdict == Err(10) && live.iter().any(touched),
    ]);
}

pub fn every_create_met() -> Checked {
    CREATES_MET.every_sort(&CREATES, 200)
}

/// One event by the oracle alone.
pub fn oracle_apply(lent: &mut Lent, event: Event) -> Result<u32, Refused> {
    oracle_apply_by(None, lent, event)
}

/// The same by a sheet.
pub fn oracle_apply_by(by: By, lent: &mut Lent, event: Event) -> Result<u32, Refused> {
    oracle_take(by, lent, oracle_act(event))
}

pub fn oracle_take(by: By, lent: &mut Lent, act: Act) -> Result<u32, Refused> {
    let (by, lent) = lent.oracle_by(by);
    oracle::apply(by, lent, act)
}

/// One event on what is lent, which is then as the event leaves it.
pub fn apply(subject: Subject, lent: &mut Lent, event: Event) -> Result<u64, String> {
    apply_by(subject, None, lent, event)
}

/// The same by a sheet.
pub fn apply_by(subject: Subject, by: By, lent: &mut Lent, event: Event) -> Result<u64, String> {
    let (answer, found) = lend(lent, |memory| match by {
        None => subject.apply(memory, event),
        Some(sheet) => subject.apply_by(&sheet.bytes, memory, event),
    })?;
    let before = lent.clone();
    let verdict = oracle_apply_by(by, lent, event);
    match by {
        None => {
            if event.kind == 1 {
                count_create(&before.rows, lent, event, verdict);
            }
            strikes::count(&before, lent, event, verdict);
        }
        Some(sheet) => sheets::count(sheet, &before, lent, event, verdict),
    }
    written::count(&before, event, verdict);
    domains::count(&before, event, verdict);
    states::count(&before, lent, event, verdict);
    MET.count_answer(verdict);
    same_answer(packed(verdict), answer)?;
    same_lent(lent, found)?;
    Ok(answer)
}

/// Events on what is lent, one call for each.
pub fn apply_each(subject: Subject, mut lent: Lent, events: &[Event]) -> Agreed {
    for event in events {
        apply(subject, &mut lent, *event)?;
    }
    Ok(())
}

/// What words ask for, by the oracle alone.
fn oracle_ask(by: By, lent: &mut Lent, words: &Words, names: &[u32]) -> Result<u32, Refused> {
    match asked(words, names) {
        Asked::Act(act) => oracle_take(by, lent, act),
        Asked::Names(actor, names) => oracle_drop_all(lent, actor, names),
    }
}

/// What words ask for, on what is lent, which is then as the call leaves it.
pub fn apply_words(
    subject: Subject,
    lent: &mut Lent,
    words: &Words,
    names: &[u32],
) -> Result<u64, String> {
    apply_words_by(subject, None, lent, words, names)
}

/// The same by a sheet.
pub fn apply_words_by(
    subject: Subject,
    by: By,
    lent: &mut Lent,
    words: &Words,
    names: &[u32],
) -> Result<u64, String> {
    let (answer, found) = lend(lent, |memory| {
        subject.apply_words_by(bytes_of(by), memory, words, names)
    })?;
    let verdict = oracle_ask(by, lent, words, names);
    MET.count_answer(verdict);
    same_answer(packed(verdict), answer)?;
    same_lent(lent, found)?;
    Ok(answer)
}

/// Answers that stand after those lent and are not the call's to write.
const GUARD_ANSWERS: usize = 3;

/// Many events in one call with so many answers lent, on what is lent, which is then as the call leaves
/// it: beside the oracle, and beside one call for each. Gives the answers.
pub fn apply_all(
    subject: Subject,
    lent: &mut Lent,
    events: &[Words],
    names: &[u32],
    room: usize,
) -> Result<Vec<AnswerWords>, String> {
    apply_all_by(subject, None, lent, events, names, room)
}

/// The same by a sheet.
pub fn apply_all_by(
    subject: Subject,
    by: By,
    lent: &mut Lent,
    events: &[Words],
    names: &[u32],
    room: usize,
) -> Result<Vec<AnswerWords>, String> {
    let untouched = |at: usize| [UNTOUCHED ^ at as u32, !(at as u32)];
    let mut answers: Vec<AnswerWords> = (0..room + GUARD_ANSWERS).map(untouched).collect();
    let mut expected = answers.clone();
    let (taken, found) = lend(lent, |memory| {
        let answers = &mut answers[..room];
        subject.apply_all_by(bytes_of(by), memory, events, names, answers) as u64
    })?;
    let count = events.len().min(room);
    for (words, answer) in events.iter().zip(&mut expected[..room]) {
        let singly = apply_words_by(subject, by, lent, words, names)?;
        *answer = [(singly >> 32) as u32, singly as u32];
    }
    same("events taken", count as u64, taken)?;
    for (at, (expected, found)) in expected.iter().zip(&answers).enumerate() {
        same(
            &format!("answer {at} (number, value), in one call"),
            expected,
            found,
        )?;
    }
    same_lent(lent, found).map_err(|why| format!("in one call: {why}"))?;
    answers.truncate(count);
    Ok(answers)
}

/// Checks what is lent; on failure gives few rows that still fail.
pub fn check_rows(lent: &Lent, check: impl Fn(Lent) -> Agreed) -> Agreed {
    let with_rows = |rows: &[Row]| {
        check(Lent {
            rows: rows.to_vec(),
            ..lent.clone()
        })
    };
    check_few(&lent.rows, with_rows).map_err(|(why, rows)| {
        let Lent {
            bits,
            slots,
            tally,
            limits,
            ..
        } = lent;
        format!(
            "{why}\n  rows {rows:?}\n  bits {bits:?}\n  {slots:?}\n  tally {tally:?}\n  limits {limits:?}"
        )
    })
}

/// Names that a domain drops together, by the oracle alone.
pub fn oracle_drop_all(lent: &mut Lent, actor: u32, names: &[u32]) -> Result<u32, Refused> {
    let (by, lent) = lent.oracle_by(None);
    oracle::drop_all(by, lent, actor, names)
}

/// Names that a domain drops together on what is lent, which is then as the call leaves it.
pub fn drop_all(
    subject: Subject,
    lent: &mut Lent,
    actor: u32,
    names: &[u32],
) -> Result<u64, String> {
    drop_all_by(subject, None, lent, actor, names)
}

/// The same with a sheet lent.
pub fn drop_all_by(
    subject: Subject,
    by: By,
    lent: &mut Lent,
    actor: u32,
    names: &[u32],
) -> Result<u64, String> {
    let words = dropped(actor, names);
    let (answer, found) = lend(lent, |memory| match (by, actor) {
        (None, 0) => subject.drop_all(memory, names),
        _ => subject.apply_words_by(bytes_of(by), memory, &words, names),
    })?;
    let before = lent.clone();
    let verdict = oracle_drop_all(lent, actor, names);
    domains::count_drop(&before, actor, names, verdict);
    MET.count_answer(verdict);
    same_answer(packed(verdict), answer)?;
    same_lent(lent, found)?;
    Ok(answer)
}

/// The words by which a domain drops all names of a list.
pub fn dropped(actor: u32, names: &[u32]) -> Words {
    Words {
        actor,
        ..Words::drop_all(0, names.len() as u32)
    }
}

/// A run on what is lent, which is then as the run leaves it.
pub fn run(subject: Subject, lent: &mut Lent, text: &[u8]) -> Result<u64, String> {
    run_by(subject, None, lent, text)
}

/// The same by a sheet.
pub fn run_by(subject: Subject, by: By, lent: &mut Lent, text: &[u8]) -> Result<u64, String> {
    let (answer, found) = lend(lent, |memory| subject.run_by(bytes_of(by), memory, text))?;
    let (by, oracle_lent) = lent.oracle_by(by);
    let verdict = oracle::run(by, oracle_lent, text);
    same_answer(packed_run(verdict), answer)?;
    same_lent(lent, found)?;
    Ok(answer)
}

/// What words and names hold before a line is read into them, and after a refusal.
const UNTOUCHED: u32 = 0xA5A5_A5A5;

const UNTOUCHED_WORDS: Words = Words::of([UNTOUCHED; 12]);

/// A line in the given spelling.
pub fn read_line(subject: Subject, line: &[u8], spelling: Spelling) -> Agreed {
    read_line_as(subject, line, u32::from(spelling == Spelling::Named))
}

/// A line of an event or of names dropped together, in both spellings.
pub fn read_both(subject: Subject, line: &[u8]) -> Agreed {
    read_line(subject, line, Spelling::Plain)?;
    read_line(subject, line, Spelling::Named)
}

/// A line in the spelling that a number says. Names after those that are read stay, and on refusal
/// everything does.
pub fn read_line_as(subject: Subject, line: &[u8], named: u32) -> Agreed {
    let mut words = [UNTOUCHED_WORDS; 2];
    let mut names = [UNTOUCHED; MAX_GROUP + 1];
    let lent_names = names.first_chunk_mut().expect("there is a name more");
    let answer = subject.read_line(named, line, &mut words[0], lent_names);
    let read = expected_line(line, named);
    same_answer(packed(read.as_ref().map(|_| 0).ok_or(2)), answer)?;
    let (expected, mut expected_names) = read.unwrap_or((UNTOUCHED_WORDS, Vec::new()));
    expected_names.resize(MAX_GROUP + 1, UNTOUCHED);
    same("words", [expected, UNTOUCHED_WORDS], words)?;
    same("names", &expected_names[..], &names[..])
}

/// The words and the names of a line, if it is one. Of one name it is an event's.
fn expected_line(line: &[u8], named: u32) -> Option<(Words, Vec<u32>)> {
    let spelling = match named {
        0 => Spelling::Plain,
        _ => Spelling::Named,
    };
    if let Some(act) = oracle::read_event_line(line, spelling) {
        return Some((Words::of(act.words()), Vec::new()));
    }
    let (actor, names) = oracle::read_drop_line(line)?;
    Some((dropped(actor, &names), names))
}

/// The line of what words ask for.
pub fn write_words(subject: Subject, words: &Words, names: &[u32]) -> Agreed {
    let expected = |size: usize| match asked(words, names) {
        Asked::Act(act) => {
            let spelling = match words.named {
                0 => Spelling::Plain,
                _ => Spelling::Named,
            };
            oracle::write_event(act, spelling, size)
        }
        Asked::Names(actor, names) => oracle::write_drop(actor, names, size),
    };
    into_buffers(expected, |out| subject.write_words(words, names, out))
}

pub fn write_drop(subject: Subject, actor: u32, names: &[u32]) -> Agreed {
    let words = dropped(actor, names);
    into_buffers(
        |size| oracle::write_drop(actor, names, size),
        |out| match actor {
            0 => subject.write_drop(names, out),
            _ => subject.write_words(&words, names, out),
        },
    )
}

pub fn write_event(subject: Subject, event: Event) -> Agreed {
    let spelling = spelling_of(event);
    into_buffers(
        |size| oracle::write_event(oracle_act(event), spelling, size),
        |out| subject.write_event(event, out),
    )
}

pub fn write_listing(subject: Subject, lent: &Lent) -> Agreed {
    let issued = lent.tally.issued;
    let table: Vec<Cap> = lent.rows.iter().map(cap_of).collect();
    into_buffers(
        |size| oracle::write_listing(&lent.rows, issued, size),
        |out| subject.write_listing(&table, issued, out),
    )
}

/// What capcheck prints, in memory as the last such call left it.
pub fn check(subject: Subject, input: &[u8]) -> Agreed {
    into_buffers(
        |size| oracle::check(input, size),
        |out| print(subject, input, out),
    )
}

/// The same in other memory, of the right size or another.
pub fn check_in(subject: Subject, slots: &Slots, input: &[u8]) -> Agreed {
    let expected = |size| match slots.states() {
        Some(_) => oracle::check(input, size),
        None => oracle::check_without_states(input, size),
    };
    into_buffers(expected, |out| {
        slots::working_in(slots, |stored, bits| {
            subject.check(input, stored, bits, out)
        })
    })
}

/// What capcheck prints, by a call alone.
pub fn print(subject: Subject, input: &[u8], out: &mut [u8]) -> u64 {
    slots::working(|stored, bits| subject.check(input, stored, bits, out))
}

/// A listing that is read leaves the bits, which the call is not lent.
pub fn read_listing(subject: Subject, text: &[u8], lent: &Lent) -> Agreed {
    let (answer, found) = lend(lent, |memory| {
        subject.read_listing(text, memory.table, memory.tally)
    })?;
    match oracle::read_listing(text, lent.rows.len()) {
        Ok((issued, rows)) => {
            let tally = Tally {
                issued,
                ..lent.tally
            };
            same_answer(packed(Ok(0)), answer)?;
            let mut read = Lent {
                rows,
                tally,
                ..lent.clone()
            };
            same_lent(&mut read, found)
        }
        Err(number) => {
            same_answer(packed(Err(number)), answer)?;
            same_lent(&mut lent.clone(), found)
        }
    }
}

/// What a name is charged, on what is lent, which stays.
pub fn charge(subject: Subject, lent: &Lent, name: u32) -> Result<ShareWords, String> {
    let table: Vec<Cap> = lent.rows.iter().map(cap_of).collect();
    let issued = lent.tally.issued;
    let found = subject.charge(&table, issued, name);
    let expected = match oracle::charge(&lent.rows, issued, name) {
        Ok(Charge { share, left }) => [0, share, left],
        Err(number) => [number.into(), 0, 0],
    };
    same("charge (number, share, left over)", expected, found)?;
    Ok(found)
}

/// What a sheet holds before a text is read into it, and after a refusal.
const UNTOUCHED_RESULT: u8 = 0xA5;

/// The text of a sheet: gives what the oracle makes of it.
pub fn read_sheet(subject: Subject, text: &[u8]) -> Result<Result<Sheet, Refused>, String> {
    let mut found = [UNTOUCHED_RESULT; SHEET_PLACES + 2];
    let lent = found.first_chunk_mut().expect("there are two bytes more");
    let answer = subject.read_sheet(text, lent);
    let read = Sheet::read(text);
    same_answer(
        packed(read.as_ref().map(|_| 0).map_err(|number| *number)),
        answer,
    )?;
    let mut expected = read.as_ref().map_or(Vec::new(), Sheet::bytes);
    expected.resize(found.len(), UNTOUCHED_RESULT);
    same("results", &expected[..], &found[..])?;
    Ok(read)
}

/// The text of a lent sheet.
pub fn write_sheet(subject: Subject, sheet: &[u8]) -> Agreed {
    into_buffers(
        |size| oracle::write_sheet(sheet, size),
        |out| subject.write_sheet(sheet, out),
    )
}

/// The same into a buffer of one size.
pub fn write_sheet_into(subject: Subject, sheet: &[u8], size: usize) -> Agreed {
    let expected = oracle::write_sheet(sheet, size);
    into_buffer(size, expected, |out| subject.write_sheet(sheet, out))
}

/// Bytes that stand after an output buffer, or after lent bits, and are not the call's to write.
pub const GUARD_BYTES: usize = 32;

/// What those after lent bits are.
pub const GUARD_BYTE: u8 = 0x5A;

/// Writes into output buffers that are too short, just long enough and longer.
fn into_buffers(
    expected: impl Fn(usize) -> Result<String, Refused>,
    call: impl Fn(&mut [u8]) -> u64,
) -> Agreed {
    let needed = expected(usize::MAX).map_or(24, |text| text.len());
    for size in [0, needed / 2, needed - 1, needed, needed + 1, needed + 50] {
        into_buffer(size, expected(size), &call).map_err(|why| format!("buffer {size}: {why}"))?;
    }
    Ok(())
}

fn into_buffer(
    size: usize,
    expected: Result<String, Refused>,
    call: impl Fn(&mut [u8]) -> u64,
) -> Agreed {
    let noise = |at: usize| (at * 37 + 11) as u8 ^ 0xA5;
    let mut wanted: Vec<u8> = (0..size + GUARD_BYTES).map(noise).collect();
    let mut found = wanted.clone();
    let answer = call(&mut found[..size]);
    if let Ok(text) = &expected {
        wanted[..text.len()].copy_from_slice(text.as_bytes());
    }
    same_answer(packed(expected.map(|text| text.len() as u32)), answer)?;
    let differing = wanted.iter().zip(&found).position(|(a, b)| a != b);
    match differing {
        None => Ok(()),
        Some(at) => Err(format!(
            "byte {at}: expected {}, found {}",
            wanted[at], found[at]
        )),
    }
}
