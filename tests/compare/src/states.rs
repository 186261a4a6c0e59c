//! Card 11: states to come back to. Its traces, every number as a slot, the places of refusals 1 and 19, memory of
//! every size and of any words, what is stored and does not fit, and what marks and backs have met of all this.

use interface::{BACK, Event, MARK, Words};
use oracle::domain_traces::limits;
use oracle::random::Random;
use oracle::state_traces::{OF_DOMAINS, STATES};
use oracle::traces::whole;
use oracle::{
    DOMAINS, Limits, MAX_ROWS, Refused, Row, SLOT_ROWS, SLOTS, Slot, Spelling, State, Written,
};

use crate::acting::NO_DOMAINS;
use crate::agree::{self, Agreed, Lent, Subject, cap_of, packed, same, same_answer};
use crate::events::chain;
use crate::examples::{self, ROOM_FOR_ALL, Step, Trace};
use crate::generate::{self, Shape};
use crate::lines::{NUMBERS, check_text, each_byte};
use crate::many::{self, check_words};
use crate::report::{Checked, Met, Report};
use crate::slots::{Kept, Slots, bytes_of, rows_of};
use crate::turning::{self, NO_SLOTS, OTHER_SIZES};

/// What capcheck is given, and prints.
const INPUT: &str = "\
(create 0 64 rw fresh)
(write 1 0 8)
(mark 0)
(borrow 1 0 8 rw)
(as 3 (mark 7))
(write 1 0 64)
(back 0)
(read 2 0 8)
";

const OUTPUT: &str = "\
(refused 5 8)
(issued 2)
(1 0 64 rw fresh 0 0000000000000001)
";

/// The same in a trace with names, in which nothing is stored in the last slot.
const NAMED_INPUT: &str = "\
(trace 2)
(create 1 0 64 rw)
(mark 6)
(create 2 0 8 rw)
(back 6)
(borrow 3 1 0 8 ro)
(back 7)
";

const NAMED_OUTPUT: &str = "\
(refused 19 7)
(issued 3)
(1 0 64 rw 0 0000000000000001 (3 0 8 ro 0 0000000000000001))
";

pub fn groups(report: &mut Report, subject: Subject) {
    for (name, steps, listing) in STATES {
        report.group(name, |_| in_both_spellings(subject, steps, &whole(listing)));
    }
    for (name, steps, listing) in OF_DOMAINS {
        report.group(name, |_| in_both_spellings(subject, steps, listing));
    }
    report.group("capcheck on marks and backs", |_| {
        let plain = examples::capcheck(subject, INPUT, OUTPUT)?;
        let named = examples::capcheck(subject, NAMED_INPUT, NAMED_OUTPUT)?;
        Ok(plain + named)
    });
    report.group("every number as a slot", |_| in_words(subject));
    report.group("the places of refusals 1 and 19 of a back", |_| {
        in_their_places(subject)
    });
    report.group("lines of marks and backs", |_| in_lines(subject));
    report.group("memory for states of every other size", |random| {
        of_other_sizes(random, subject)
    });
    report.group("what is stored, row by row and word by word", |_| {
        word_by_word(subject)
    });
    report.group("full tables and all written bits stored", |random| {
        stored_whole(random, subject)
    });
    report.group("capcheck in memory of any words", |random| {
        capcheck_in_any_words(random, subject)
    });
}

/// Behind all groups, for what they have met.
pub fn met(report: &mut Report) {
    report.met("every sort of mark and back was met", || {
        SORTS_MET.every_sort(&SORTS, LEAST)
    });
    report.met("every refusal of a mark or a back was met", || {
        REFUSED_MET.every_sort(&REFUSED, LEAST)
    });
}

fn in_both_spellings(subject: Subject, steps: &[Step], listing: &str) -> Checked {
    let mut cases = 0;
    for rows in ROOM_FOR_ALL {
        let trace = Trace {
            rows: *rows,
            issued: 0,
            limits: &[],
            steps,
            listing,
        };
        cases += examples::check_trace(subject, &trace)?;
        cases += examples::check_named(subject, &trace)?;
    }
    Ok(cases)
}

// ---- what is met

/// Sorts of marks and backs that are allowed.
const SORTS: [&str; 14] = [
    "a mark, where nothing is stored",
    "a mark over what is stored",
    "a mark over what does not fit",
    "a mark of an empty table",
    "a mark by another domain than 0",
    "a back to fewer live rows",
    "a back to more live rows",
    "a back that ends some and lets others live again",
    "a back that makes `rw` again",
    "a back that lowers",
    "a back to other written addresses",
    "a back to an empty table, from one that is not",
    "a back by a domain that holds nothing of what lives",
    "a back with limits",
];

static SORTS_MET: Met<14> = Met::none();

/// What is refused of marks and backs.
const REFUSED: [&str; 13] = [
    "1, what is stored is out of order, whatever is issued",
    "1, a name is stored that is not issued",
    "1, a limit is exceeded by what is stored",
    "1, what is stored has fewer rows",
    "1, what is stored has more rows",
    "1, what is stored is no table",
    "1, and no domain acts",
    "1, memory of another size, in a mark or a back",
    "2, no slot",
    "2, no domain, and nothing is stored",
    "2, no domain, and something is stored",
    "19, without limits",
    "19, with limits",
];

static REFUSED_MET: Met<13> = Met::none();

/// How often each sort must be met.
const LEAST: u64 = 100;

/// Counts a mark or a back for what it meets.
pub fn count(before: &Lent, after: &Lent, event: Event, verdict: Result<u32, Refused>) {
    if !matches!(event.kind, MARK | BACK) {
        return;
    }
    match verdict {
        Ok(_) => count_allowed(before, after, event),
        Err(_) => count_refused(before, event, verdict),
    }
}

fn slot_of(lent: &Lent, event: Event) -> Option<&Slot> {
    lent.slots.states()?.slot(event.name)
}

fn names(lent: &Lent) -> Vec<u32> {
    let live = oracle::live_rows(&lent.rows);
    live.iter().map(|row| row.name).collect()
}

fn count_allowed(before: &Lent, after: &Lent, event: Event) {
    let slot = slot_of(before, event);
    let (marks, goes_back) = (event.kind == MARK, event.kind == BACK);
    let [then, now] = [names(before), names(after)];
    let rights = |from: u32, to: u32| {
        before.rows.iter().any(|row| {
            let again = after.rows.iter().find(|other| other.name == row.name);
            row.name != 0 && row.right == from && again.is_some_and(|again| again.right == to)
        })
    };
    let holds = |row: &Row| oracle::holds(row, event.actor);
    SORTS_MET.count([
        marks && slot == Some(&Slot::Nothing),
        marks && matches!(slot, Some(Slot::Stored(_))),
        marks && slot == Some(&Slot::Misfit),
        marks && then.is_empty(),
        marks && event.actor != 0,
        goes_back && now.len() < then.len(),
        goes_back && now.len() > then.len(),
        goes_back
            && now.iter().any(|name| !then.contains(name))
            && then.iter().any(|name| !now.contains(name)),
        goes_back && rights(1, 2),
        goes_back && rights(2, 1),
        goes_back && before.bits != after.bits,
        goes_back && now.is_empty() && !then.is_empty(),
        goes_back && !then.is_empty() && !before.rows.iter().any(holds),
        goes_back && !before.limits.is_empty(),
    ]);
}

fn count_refused(before: &Lent, event: Event, verdict: Result<u32, Refused>) {
    let Some(slot) = before.slots.states().map(|states| states.slot(event.name)) else {
        return count_refusal(7, verdict == Err(1));
    };
    let is_domain = event.actor < DOMAINS;
    match (verdict, slot) {
        (Err(1), Some(stored)) if is_fit(before) => {
            count_misfit(before, stored);
            count_refusal(6, !is_domain);
        }
        (Err(2), None) => count_refusal(8, true),
        (Err(2), Some(Slot::Nothing)) => count_refusal(9, event.kind == BACK && !is_domain),
        (Err(2), Some(_)) => count_refusal(10, event.kind == BACK && !is_domain),
        (Err(19), _) => count_refusal(if before.limits.is_empty() { 11 } else { 12 }, true),
        _ => {}
    }
}

fn count_refusal(sort: usize, is_of_sort: bool) {
    let mut sorts = [false; 13];
    sorts[sort] = is_of_sort;
    REFUSED_MET.count(sorts);
}

/// Whether what is lent is not refused itself.
fn is_fit(lent: &Lent) -> bool {
    lent.bits.written().is_some()
        && oracle::in_order(&lent.rows, lent.tally.issued)
        && !Limits::lent(&lent.limits).is_refused(&lent.rows)
}

/// Counts what is stored for what alone is wrong with it.
fn count_misfit(lent: &Lent, stored: &Slot) {
    let Slot::Stored(State { rows, .. }) = stored else {
        return count_refusal(5, *stored == Slot::Misfit);
    };
    let (issued, most) = (lent.tally.issued, oracle::MAX_NAME);
    let is_size = rows.len() == lent.rows.len();
    let is_ordered = oracle::in_order(rows, issued);
    let is_within = !Limits::lent(&lent.limits).is_refused(rows);
    count_refusal(0, is_size && !oracle::in_order(rows, most));
    count_refusal(1, is_size && !is_ordered && oracle::in_order(rows, most));
    count_refusal(2, is_size && is_ordered && !is_within);
    let is_right = is_ordered && lent.limits.is_empty();
    count_refusal(3, is_right && rows.len() < lent.rows.len());
    count_refusal(4, is_right && rows.len() > lent.rows.len());
}

// ---- every number

/// A root of domain 0, of which a borrow has ended that slot 2 still has, and room.
fn stored_in_2() -> Lent {
    let mut lent = Lent::empty(4);
    lent.rows[..1].copy_from_slice(&chain(1, 1));
    lent.tally.issued = 2;
    set(&mut lent, 2, state(&chain(1, 2), 4));
    lent
}

/// A state of these rows, and empty ones behind them up to so many; the first byte is written.
fn state(live: &[Row], rows: usize) -> Slot {
    let mut table = live.to_vec();
    table.resize(rows, Row::default());
    let mut written = Written::default();
    written.add(oracle::Span {
        start: 0,
        length: 8,
    });
    Slot::Stored(State {
        rows: table,
        written,
    })
}

fn set(lent: &mut Lent, slot: u32, stored: Slot) {
    if let Some(states) = lent.slots.states_mut() {
        states.set(slot, stored);
    }
}

fn turn(kind: u8, slot: u32, actor: u32) -> Event {
    Event {
        kind,
        name: slot,
        actor,
        ..Event::default()
    }
}

/// Every number as the slot of a mark and of a back, and in every other kind of event, by domains and by numbers
/// that are none.
fn in_words(subject: Subject) -> Checked {
    let lent = stored_in_2();
    let mut full = lent.clone();
    full.limits = limits(&[(0, 1)]);
    let mut cases = 0;
    for lent in [lent, full] {
        for name in (0..=18).chain(NO_SLOTS) {
            for actor in [0, 1, 63].into_iter().chain(NO_DOMAINS) {
                for kind in many::KINDS {
                    let words = Words {
                        kind,
                        name,
                        length: 2,
                        right: 2,
                        actor,
                        holders_low: 1,
                        ..Words::default()
                    };
                    check_words(subject, &lent, &words, &[1, 2])?;
                    cases += 1;
                }
            }
        }
    }
    Ok(cases)
}

// ---- the places of 1 and 19

/// What slot 2 has, and whether it can be gone back to without limits and with a limit of one row.
fn all_stored() -> Vec<(Slot, bool, bool)> {
    let swapped = [chain(1, 2)[1], chain(1, 2)[0]];
    vec![
        (Slot::Nothing, true, true),
        (state(&[], 4), true, true),
        (state(&chain(1, 1), 4), true, true),
        (state(&chain(1, 2), 4), true, false),
        (state(&chain(1, 3), 4), false, false),
        (state(&swapped, 4), false, false),
        (state(&chain(1, 1), 3), false, false),
        (state(&chain(1, 1), 5), false, false),
        (state(&[], 0), false, false),
        (state(&[], MAX_ROWS), false, false),
        (Slot::Misfit, false, false),
    ]
}

/// Every mark and back, where one thing or several are wrong with it, with the slot, with what is lent and with
/// what is stored.
fn in_their_places(subject: Subject) -> Checked {
    let mut cases = 0;
    for (stored, fits, fits_within) in all_stored() {
        for (limits, is_refused) in [
            (Vec::new(), false),
            (limits(&[(0, 1)]), false),
            (limits(&[(0, 5)]), true),
        ] {
            let mut lent = stored_in_2();
            set(&mut lent, 2, stored.clone());
            let fits = if limits.is_empty() { fits } else { fits_within };
            lent.limits = limits;
            let is_stored = stored != Slot::Nothing;
            for is_disordered in [false, true] {
                lent.rows[3].name = u32::from(is_disordered);
                for event in turns() {
                    let meets = event.kind == BACK && event.name == 2;
                    let conditions = [
                        (1, is_disordered || is_refused),
                        (1, meets && is_stored && !fits),
                        (2, event.actor > 63 || event.name > 7),
                        (19, event.kind == BACK && !(meets && is_stored)),
                    ];
                    let first = conditions.into_iter().find(|(_, applies)| *applies);
                    let expected = first.map_or(Ok(0), |(number, _)| Err(number));
                    let is_lent = is_disordered || is_refused;
                    one_turn(subject, &lent, event, expected, is_lent)
                        .map_err(|why| format!("{why}\n  {event:?}\n  {lent:?}"))?;
                    cases += 1;
                }
            }
        }
    }
    Ok(cases)
}

fn turns() -> Vec<Event> {
    let mut all = Vec::new();
    for kind in [MARK, BACK] {
        for slot in [0, 2, 7, 8, u32::MAX] {
            for actor in [0, 1, 63, 64, u32::MAX] {
                all.push(turn(kind, slot, actor));
            }
        }
    }
    all
}

/// A mark or a back by itself, and as a run of its own, in which 1 of what is lent has no line.
fn one_turn(
    subject: Subject,
    lent: &Lent,
    event: Event,
    expected: Result<u32, Refused>,
    is_lent: bool,
) -> Agreed {
    let answer = agree::apply(subject, &mut lent.clone(), event)?;
    same_answer(packed(expected), answer)?;
    let Some(line) = generate::line(event, Spelling::Plain) else {
        return Ok(());
    };
    let number = if is_lent { 0 } else { 1 };
    let as_run = expected.map(|_| 1).map_err(|refusal| (refusal, number));
    let answer = agree::run(subject, &mut lent.clone(), line.as_bytes())?;
    same_answer(agree::packed_run(as_run), answer).map_err(|why| format!("run: {why}"))
}

// ---- lines

/// Words in the place of a slot.
const SLOT_WORDS: [&str; 14] = [
    "2",
    "3",
    "4",
    "5",
    "6",
    "7",
    "8",
    "07",
    "70",
    "7 ",
    " 7",
    "a",
    "0000000000000007",
    "rw",
];

/// Lines in which a slot may be, or is not.
const FORMS: [&str; 12] = [
    "(mark SLOT)\n",
    "(back SLOT)\n",
    "(as 2 (mark SLOT))\n",
    "(as 63 (back SLOT))\n",
    "(as 0 (mark SLOT))\n",
    "(as 64 (back SLOT))\n",
    "(mark SLOT SLOT)\n",
    "(mark SLOT",
    "(Back SLOT)\n",
    "(marks SLOT)\n",
    "(bac SLOT)\n",
    "(as SLOT (back SLOT))\n",
];

/// A line by itself in both spellings, and as a run of its own in both.
fn check_line(subject: Subject, line: &[u8]) -> Agreed {
    let lent = stored_in_2();
    check_text(line, |line| {
        agree::read_both(subject, line)?;
        for first in [&b""[..], b"(trace 2)\n"] {
            agree::run(subject, &mut lent.clone(), &[first, line].concat())?;
        }
        Ok(())
    })
}

fn in_lines(subject: Subject) -> Checked {
    let mut cases = 0;
    for form in FORMS {
        for word in SLOT_WORDS.into_iter().chain(NUMBERS) {
            check_line(subject, form.replace("SLOT", word).as_bytes())?;
            cases += 1;
        }
    }
    for (kind, actor) in [(MARK, 0), (BACK, 0), (MARK, 3), (BACK, 63), (BACK, 64)] {
        for slot in (0..=9).chain(NO_SLOTS) {
            for written in [None, Some(4)] {
                let event = Event {
                    written,
                    ..turn(kind, slot, actor)
                };
                agree::write_event(subject, event).map_err(|why| format!("{why}\n  {event:?}"))?;
                cases += 1;
            }
        }
    }
    let samples = ["(mark 2)\n", "(as 9 (back 2))\n"];
    Ok(cases + each_byte(&samples, |line| check_line(subject, line))?)
}

// ---- other sizes

/// Texts that are run, some of which are allowed where the memory is right.
const TEXTS: [&str; 6] = [
    "",
    "(mark 0)\n(back 0)\n",
    "(trace 2)\n(mark 0)\n",
    "(write 1 0 8)\n",
    "(back 9)\n",
    "?",
];

/// Memory of every other size, and of the right one, for every call that is lent it.
fn of_other_sizes(random: &mut Random, subject: Subject) -> Checked {
    let mut cases = 0;
    let others = OTHER_SIZES.map(|(rows, bytes)| (Slots::Other(rows, bytes), false));
    for (slots, is_right) in others.into_iter().chain([(Slots::nothing(), true)]) {
        let mut lent = stored_in_2();
        lent.slots = slots.clone();
        lent.tally = oracle::Tally {
            issued: 2,
            ..generate::tally(random)
        };
        cases +=
            every_call(subject, &lent, is_right).map_err(|why| format!("{why}\n  {slots:?}"))?;
        for text in TEXTS {
            agree::check_in(subject, &slots, text.as_bytes())?;
        }
        agree::check_in(subject, &slots, &vec![b'\n'; oracle::MAX_INPUT + 1])?;
    }
    Ok(cases)
}

fn every_call(subject: Subject, lent: &Lent, is_right: bool) -> Checked {
    let is_as_due = |answer: u64| same("refusal 1", !is_right, answer == 1 << 32);
    let mut cases = 0;
    for kind in many::KINDS {
        let words = Words {
            kind,
            name: 1,
            length: 2,
            right: 2,
            holders_low: 1,
            ..Words::default()
        };
        is_as_due(agree::apply_words(
            subject,
            &mut lent.clone(),
            &words,
            &[1, 2],
        )?)?;
        check_words(subject, lent, &words, &[1, 2])?;
        cases += 2;
    }
    for names in [&[][..], &[2, 1], &[1], &[9]] {
        is_as_due(agree::drop_all(subject, &mut lent.clone(), 0, names)?)?;
        cases += 1;
    }
    for text in TEXTS {
        is_as_due(agree::run(subject, &mut lent.clone(), text.as_bytes())?)?;
        cases += 1;
    }
    agree::write_listing(subject, lent)?;
    let listing = whole("(issued 1)\n(1 0 8 rw)\n");
    agree::read_listing(subject, listing.as_bytes(), lent)?;
    agree::charge(subject, lent, 1)?;
    Ok(cases + 3)
}

// ---- any words

/// A request by a call, of which only marks may change the lent memory, and these their own slots alone.
pub fn only_marks_change(before: &Kept, after: &Kept, marked: impl Fn(usize) -> bool) -> Agreed {
    for slot in (0..SLOTS as usize).filter(|slot| !marked(*slot)) {
        let is_same = before.slot(slot) == after.slot(slot);
        same(&format!("slot {slot} stays, word for word"), true, is_same)?;
    }
    Ok(())
}

/// Numbers of kept rows plus one, and of empty rows. In 32 bits some of their sums are those of a table.
const HEADS: [u32; 18] = [
    0,
    1,
    2,
    3,
    4,
    5,
    6,
    1_023,
    1_024,
    1_025,
    1_026,
    65_536,
    (1 << 31) - 1,
    1 << 31,
    (1 << 31) + 5,
    u32::MAX - 3,
    u32::MAX - 1,
    u32::MAX,
];

/// Every word of a stored state changed by itself: of its head, of its rows and of those behind them. Only what is
/// kept is looked at. And every pair of words in its head.
fn word_by_word(subject: Subject) -> Checked {
    let mut lent = stored_in_2();
    lent.slots = Slots::kept();
    let answer = agree::apply(subject, &mut lent, turn(MARK, 5, 0))?;
    same_answer(0, answer)?;
    let Slots::Kept(kept) = lent.slots.clone() else {
        return Err("the memory is kept".to_string());
    };
    let mut cases = 0;
    for (row, word) in (0..4).flat_map(|row| (0..11).map(move |word| (row, word))) {
        for number in [0, 1, 2, 3, 4, 5, 6, 8, 1_024, 1_025, 1_026, u32::MAX] {
            let mut kept = kept.clone();
            let at = rows_of(5).start + row;
            kept.rows[at] = with_word(kept.rows[at], word, number);
            kept.read();
            lent.slots = Slots::Kept(kept);
            for slot in [5, 4] {
                cases += 1;
                agree::apply(subject, &mut lent.clone(), turn(BACK, slot, 0))
                    .map_err(|why| format!("{why}\n  row {row}, word {word}, {number}"))?;
            }
            agree::run(subject, &mut lent.clone(), b"(write 1 0 8)\n(back 5)\n")?;
        }
    }
    for (name, parent) in HEADS
        .into_iter()
        .flat_map(|name| HEADS.map(|parent| (name, parent)))
    {
        let mut kept = kept.clone();
        let head = &mut kept.rows[rows_of(5).start];
        (head.name, head.parent) = (name, parent);
        kept.read();
        lent.slots = Slots::Kept(kept);
        agree::apply(subject, &mut lent.clone(), turn(BACK, 5, 0))
            .map_err(|why| format!("{why}\n  head {name}, {parent}"))?;
        agree::run(subject, &mut lent.clone(), b"(mark 0)\n(back 5)\n")?;
        cases += 2;
    }
    Ok(cases)
}

fn with_word(row: interface::Cap, word: usize, number: u32) -> interface::Cap {
    let mut row = row;
    let field = match word {
        0 => &mut row.name,
        1 => &mut row.parent,
        2 => &mut row.start,
        3 => &mut row.length,
        4 => &mut row.right,
        5 => &mut row.depth,
        6 => &mut row.kind,
        7 => &mut row.fresh,
        8 => &mut row.maker,
        9 => &mut row.holders_low,
        _ => &mut row.holders_high,
    };
    *field = number;
    row
}

/// Memory in which marks left something, and something else has written since, or in which any words stand.
pub fn any_words(random: &mut Random, lent: &Lent) -> Kept {
    let mut kept = Kept::zeros();
    for slot in [0, 1, 7] {
        if let Slot::Stored(state) = turning::stored(random, lent) {
            let (rows, bytes) = state.memory();
            for (place, row) in kept.rows[rows_of(slot)].iter_mut().zip(&rows) {
                *place = cap_of(row);
            }
            kept.bytes[bytes_of(slot)].copy_from_slice(&bytes);
        }
        for _ in 0..random.pick(&[0, 0, 1, 2]) {
            overwrite(random, &mut kept, slot, lent.rows.len());
        }
    }
    kept.read();
    kept
}

fn overwrite(random: &mut Random, kept: &mut Kept, slot: usize, rows: usize) {
    let noise = cap_of(&generate::noise_row(random));
    let head = rows_of(slot).start;
    let live = kept.rows[head].name.saturating_sub(1) as usize;
    let near = (head + random.index(live.min(MAX_ROWS) + 3)).min(rows_of(slot).end - 1);
    match random.below(8) {
        0 => kept.rows[head].name = random.number(),
        1 => kept.rows[head].parent = random.number(),
        2 => kept.rows[head].name = (live.min(MAX_ROWS) + random.index(4)) as u32,
        3 => kept.rows[head].parent = (rows + random.index(3)).saturating_sub(live + 1) as u32,
        4 => kept.rows[near] = noise,
        5 => kept.rows[near] = with_word(kept.rows[near], random.index(11), random.number()),
        6 => kept.rows[rows_of(slot)].fill(noise),
        _ => {
            let at = bytes_of(slot).start + random.index(64);
            kept.bytes[at] = random.bits() as u8;
        }
    }
}

fn capcheck_in_any_words(random: &mut Random, subject: Subject) -> Checked {
    let mut cases = 0;
    for _ in 0..200 {
        let shape = Shape::partly_full(random, 12);
        let lent = generate::ordered(random, &shape);
        let slots = Slots::Kept(any_words(random, &lent));
        for text in [INPUT, NAMED_INPUT, "(back 0)\n", "(mark 1)\n(back 7)\n", ""] {
            agree::check_in(subject, &slots, text.as_bytes())?;
            cases += 6;
        }
    }
    Ok(cases)
}

// ---- whole tables

/// Full tables of each size in each slot, with all bits, and back to them from others.
fn stored_whole(random: &mut Random, subject: Subject) -> Checked {
    let mut cases = 0;
    for rows in [
        0,
        1,
        2,
        15,
        16,
        17,
        64,
        65,
        255,
        256,
        257,
        1_000,
        MAX_ROWS - 1,
        MAX_ROWS,
    ] {
        for slot in 0..SLOTS {
            let shape = Shape::full(random, rows);
            let mut lent = generate::ordered(random, &shape);
            let bytes: Vec<u8> = (0..8_192).map(|_| random.bits() as u8).collect();
            lent.bits = agree::Bits::lent(&bytes);
            lent.limits = Vec::new();
            lent.slots = Slots::kept();
            let full = lent.clone();
            same_answer(0, agree::apply(subject, &mut lent, turn(MARK, slot, 0))?)?;
            let stored = lent.slots.clone();
            lent = Lent {
                slots: stored,
                tally: full.tally,
                ..Lent::empty(rows)
            };
            same_answer(0, agree::apply(subject, &mut lent, turn(BACK, slot, 63))?)?;
            same("rows", &full.rows, &lent.rows)?;
            same("bits", &full.bits, &lent.bits)?;
            lent.rows.push(Row::default());
            let is_in_order = rows < MAX_ROWS;
            let answer = agree::apply(subject, &mut lent, turn(BACK, slot, 63))?;
            same_answer(packed(Err(1)), answer)?;
            let answer = agree::apply(subject, &mut lent, turn(MARK, slot, 0))?;
            same("marked", is_in_order, answer == 0)?;
            cases += 4;
        }
    }
    // A slot has room for no more.
    same("rows of a slot", MAX_ROWS + 1, SLOT_ROWS)?;
    Ok(cases)
}
