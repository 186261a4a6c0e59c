//! Card 12: traces by column, both ways: events of document 01's form and others, columns whole and damaged, and
//! lists of every length about what is needed.

use interface::{ColumnsMut, CountWords, Words};
use oracle::random::Random;
use oracle::{Columns, MAX_COLUMN_EVENTS};

use crate::agree::{Subject, packed, same, same_answer};
use crate::report::{Checked, Counts, MetAnswers, Report};

pub fn groups(report: &mut Report, subject: Subject) {
    let mut group = |name: &str, check: fn(&mut Random, Subject) -> Counted| {
        report.group_saying(name, |random| Ok(check(random, subject)?.to_string()));
    };
    group("events put into columns", whole_events);
    group("one other event put into columns", one_other_event);
    group("events of later cards put into columns", later_events);
    group("any words put into columns", any_words);
    group("columns taken to events", whole_columns);
    group("damaged columns taken to events", damaged_columns);
    group("any columns taken to events", any_columns);
    group("events there and back by columns", there_and_back);
    group("columns of every list of kinds", every_list_of_kinds);
    group("columns of every length there", every_length_there);
    group("columns of every length back", every_length_back);
    group("the most events put into columns", most_there);
    group("columns of the most events taken to events", most_back);
    report.met("every answer of columns was met", every_answer_met);
}

/// Calls that agreed, or what differs.
type Counted = Result<Counts<2>, String>;

static THERE: MetAnswers = MetAnswers::none();
static BACK: MetAnswers = MetAnswers::none();

fn counts(met: &'static MetAnswers) -> Counts<2> {
    Counts::of([2, 11], met)
}

/// Both ways allow, or refuse 2 or 11.
fn every_answer_met() -> Checked {
    let never: Vec<usize> = (0..20)
        .filter(|number| ![0, 2, 11].contains(number))
        .collect();
    Ok(THERE.every_answer_but(&never)? + BACK.every_answer_but(&never)?)
}

type EventWords = [u32; 12];

/// What a list holds where nothing was put into it.
const UNTOUCHED: u32 = 0xA5A5_A5A5;
const UNTOUCHED_BYTE: u8 = 0xA5;
/// So many entries stand behind what is lent of each list.
const BEHIND: usize = 2;

/// Columns with so much room, and what stands behind it, in which nothing was put yet.
fn blank(room: [usize; 5]) -> Columns {
    let [kinds, names, starts, lengths, rights] = room.map(|entries| entries + BEHIND);
    Columns {
        kinds: vec![UNTOUCHED_BYTE; kinds],
        names: vec![UNTOUCHED; names],
        starts: vec![UNTOUCHED; starts],
        lengths: vec![UNTOUCHED; lengths],
        rights: vec![UNTOUCHED_BYTE; rights],
    }
}

/// Puts entries at the start of a list.
fn put<T: Copy>(list: &mut [T], entries: &[T]) {
    list[..entries.len()].copy_from_slice(entries);
}

fn put_columns(list: &mut Columns, entries: &Columns) {
    put(&mut list.kinds, &entries.kinds);
    put(&mut list.names, &entries.names);
    put(&mut list.starts, &entries.starts);
    put(&mut list.lengths, &entries.lengths);
    put(&mut list.rights, &entries.rights);
}

/// The number of events, and of the entries of each column.
fn counts_of(columns: &Columns) -> CountWords {
    let [kinds, names, starts, lengths, rights] = columns.counts().map(|count| count as u32);
    [kinds, kinds, names, starts, lengths, rights]
}

fn words_of(events: &[EventWords]) -> Vec<Words> {
    events.iter().copied().map(Words::of).collect()
}

/// Events into columns with so much room: the refusal, and what the columns hold then.
fn fill(
    subject: Subject,
    events: &[EventWords],
    room: [usize; 5],
) -> Result<(u64, Columns), String> {
    let answer = oracle::to_columns(events, room);
    let mut expected = blank(room);
    let mut expected_counts = [UNTOUCHED; 6];
    if let Ok(columns) = &answer {
        put_columns(&mut expected, columns);
        expected_counts = counts_of(columns);
    }
    let mut found = blank(room);
    let mut used = [UNTOUCHED; 6];
    let lent = ColumnsMut {
        kinds: &mut found.kinds[..room[0]],
        names: &mut found.names[..room[1]],
        starts: &mut found.starts[..room[2]],
        lengths: &mut found.lengths[..room[3]],
        rights: &mut found.rights[..room[4]],
    };
    let packed_answer = subject.to_columns(&words_of(events), lent, &mut used);
    same_answer(packed(answer.map(|_| events.len() as u32)), packed_answer)?;
    same("columns", &expected, &found)?;
    same("entries used", expected_counts, used)?;
    Ok((packed_answer >> 32, found))
}

fn there(subject: Subject, events: &[EventWords], room: [usize; 5]) -> Result<u64, String> {
    let filled = fill(subject, events, room).map(|(refusal, _)| refusal);
    filled.map_err(|why| match events.len() {
        ..50 => format!("{why}\n  {events:?} into {room:?}"),
        count => format!("{why}\n  {count} events into {room:?}"),
    })
}

/// The columns as they are lent.
fn lend(columns: &Columns, lengths: [usize; 5]) -> interface::Columns<'_> {
    interface::Columns {
        kinds: &columns.kinds[..lengths[0]],
        names: &columns.names[..lengths[1]],
        starts: &columns.starts[..lengths[2]],
        lengths: &columns.lengths[..lengths[3]],
        rights: &columns.rights[..lengths[4]],
    }
}

/// Columns into a list of events with so much room: the refusal. Behind the columns stands what would be the
/// entries of more events.
fn back(subject: Subject, columns: &Columns, room: usize) -> Result<u64, String> {
    let agreed = || {
        let answer = oracle::from_columns(columns, room);
        let mut expected = vec![[UNTOUCHED; 12]; room + BEHIND];
        let mut expected_counts = [UNTOUCHED; 6];
        if let Ok(events) = &answer {
            put(&mut expected, events);
            expected_counts = counts_of(columns);
        }
        let mut lent = columns.clone();
        lent.kinds.extend([2; BEHIND]);
        lent.names.extend([1; BEHIND]);
        lent.starts.extend([1; BEHIND]);
        lent.lengths.extend([1; BEHIND]);
        lent.rights.extend([1; BEHIND]);
        let mut found = words_of(&vec![[UNTOUCHED; 12]; room + BEHIND]);
        let mut used = [UNTOUCHED; 6];
        let lent = lend(&lent, columns.counts());
        let packed_answer = subject.from_columns(lent, &mut found[..room], &mut used);
        let events = answer.map(|events| events.len() as u32);
        same_answer(packed(events), packed_answer)?;
        same("events", words_of(&expected), found)?;
        same("entries used", expected_counts, used)?;
        Ok(packed_answer >> 32)
    };
    agreed().map_err(|why: String| match columns.kinds.len() {
        ..50 => format!("{why}\n  {columns:?} into {room}"),
        count => format!("{why}\n  {count} kinds into {room}"),
    })
}

/// An event of a kind, 1 to 5, in document 01's form.
fn event_of_kind(random: &mut Random, kind: u32) -> EventWords {
    let mut number = |has: bool| u32::from(has) * random.number();
    let (name, start, length) = (number(kind != 1), number(kind != 5), number(kind != 5));
    let makes = u32::from(kind < 3);
    let right = makes * random.pick(&[1, 2]);
    [kind, name, start, length, right, 0, 0, 0, 0, 0, makes, 0]
}

fn event(random: &mut Random) -> EventWords {
    let kind = random.pick(&[1, 2, 3, 4, 5]);
    event_of_kind(random, kind)
}

fn events(random: &mut Random, count: usize) -> Vec<EventWords> {
    (0..count).map(|_| event(random)).collect()
}

/// Mostly few, and at times many.
fn some_events(random: &mut Random) -> Vec<EventWords> {
    let most = random.pick(&[3, 8, 8, 40]);
    let count = random.between(0, most);
    events(random, count)
}

/// The columns of events in document 01's form.
fn columns_of(events: &[EventWords]) -> Columns {
    oracle::to_columns(events, [usize::MAX; 5]).expect("these events have columns")
}

/// How many entries each column needs, or as many as there are events where they have none.
fn needed(events: &[EventWords]) -> [usize; 5] {
    let columns = oracle::to_columns(events, [usize::MAX; 5]);
    columns.map_or([events.len(); 5], |columns| columns.counts())
}

/// A length that is enough in most cases.
fn about(random: &mut Random, needed: usize) -> usize {
    match random.below(16) {
        0 => needed.saturating_sub(1),
        1 => random.between(0, needed),
        2..8 => needed,
        8..12 => needed + 1,
        _ => needed + random.between(0, 20),
    }
}

fn some_room(random: &mut Random, events: &[EventWords]) -> [usize; 5] {
    needed(events).map(|entries| about(random, entries))
}

// ---- there

fn whole_events(random: &mut Random, subject: Subject) -> Counted {
    let mut counts = counts(&THERE);
    for _ in 0..6_000 {
        let events = some_events(random);
        let room = some_room(random, &events);
        counts.count(there(subject, &events, room)?);
    }
    Ok(counts)
}

/// Another number: near, with one bit changed, or any.
fn other(random: &mut Random, number: u32) -> u32 {
    match random.below(5) {
        0 => number.wrapping_add(1),
        1 => number.wrapping_sub(1),
        2 => number ^ 1 << random.below(32),
        3 => random.pick(&[0, 1, 2, 3]),
        _ => random.number(),
    }
}

/// Events of which one has another number in one of its words, which may be as good.
fn one_other_event(random: &mut Random, subject: Subject) -> Counted {
    let mut counts = counts(&THERE);
    for _ in 0..12_000 {
        let mut events = some_events(random);
        events.push(event(random));
        let (at, word) = (random.index(events.len()), random.index(12));
        let room = some_room(random, &events);
        events[at][word] = other(random, events[at][word]);
        counts.count(there(subject, &events, room)?);
    }
    Ok(counts)
}

/// What cards 1, 5, 6, 9, 10 and 11 added to events: a written name, a group, a kind, a mark, holders, who acts, a
/// mark and a back. Each by itself, and a group also of one name.
fn later_event(random: &mut Random) -> EventWords {
    let kind = random.pick(&[1, 2]);
    let mut event = event_of_kind(random, kind);
    match random.below(8) {
        0 => (event[5], event[6]) = (1, random.number()),
        1 => event = [6, 0, 0, random.below(3) as u32, 0, 0, 0, 0, 0, 0, 0, 0],
        2 => event[7] = random.pick(&[1, 2]),
        3 => event[8] = 1,
        4 => event[10] |= random.number(),
        5 => event[11] = random.number(),
        6 => {
            let actor = random.below(64) as u32;
            let holders = 1_u64 << actor;
            (event[9], event[10]) = (actor, holders as u32);
            event[11] = (holders >> 32) as u32;
        }
        _ => {
            let (kind, slot) = (random.pick(&[7, 8]), random.below(8) as u32);
            event = [kind, slot, 0, 0, 0, 0, 0, 0, 0, 0, 0, 0];
        }
    }
    event
}

fn later_events(random: &mut Random, subject: Subject) -> Counted {
    let mut counts = counts(&THERE);
    for _ in 0..4_000 {
        let mut events = some_events(random);
        let at = random.between(0, events.len());
        events.insert(at, later_event(random));
        let room = some_room(random, &events);
        counts.count(there(subject, &events, room)?);
    }
    Ok(counts)
}

fn any_words(random: &mut Random, subject: Subject) -> Counted {
    let mut counts = counts(&THERE);
    for _ in 0..4_000 {
        let mut words = [0; 12];
        match random.one_in(4) {
            true => words.fill_with(|| random.number()),
            false => words.fill_with(|| random.pick(&[0, 0, 0, 0, 0, 0, 1, 1, 2, 5])),
        }
        let room = [(); 5].map(|()| random.between(0, 2));
        counts.count(there(subject, &[words], room)?);
    }
    Ok(counts)
}

// ---- back

fn whole_columns(random: &mut Random, subject: Subject) -> Counted {
    let mut counts = counts(&BACK);
    for _ in 0..6_000 {
        let events = some_events(random);
        let room = about(random, events.len());
        counts.count(back(subject, &columns_of(&events), room)?);
    }
    Ok(counts)
}

/// Any byte, those of kinds and rights and next to them more often.
fn byte(random: &mut Random) -> u8 {
    match random.one_in(8) {
        true => random.bits() as u8,
        false => random.pick(&[0, 1, 2, 3, 4, 5, 6]),
    }
}

/// Changes an entry, takes one out, or puts one in.
fn damage_list<T>(random: &mut Random, list: &mut Vec<T>, entry: T) {
    let at = random.between(0, list.len());
    match random.below(4) {
        0 => list.insert(at, entry),
        1 if at < list.len() => drop(list.remove(at)),
        _ if at < list.len() => list[at] = entry,
        _ => list.push(entry),
    }
}

/// Damages one of the columns, and rarely two.
fn damage(random: &mut Random, columns: &mut Columns) {
    let (byte, number) = (byte(random), random.number());
    match random.below(6) {
        0 | 1 => damage_list(random, &mut columns.kinds, byte),
        2 => damage_list(random, &mut columns.names, number),
        3 => damage_list(random, &mut columns.starts, number),
        4 => damage_list(random, &mut columns.lengths, number),
        _ => damage_list(random, &mut columns.rights, byte),
    }
    if random.one_in(5) {
        damage(random, columns);
    }
}

fn damaged_columns(random: &mut Random, subject: Subject) -> Counted {
    let mut counts = counts(&BACK);
    for _ in 0..12_000 {
        let events = some_events(random);
        let mut columns = columns_of(&events);
        damage(random, &mut columns);
        let room = about(random, columns.kinds.len());
        counts.count(back(subject, &columns, room)?);
    }
    Ok(counts)
}

fn some<T>(random: &mut Random, mut entry: impl FnMut(&mut Random) -> T) -> Vec<T> {
    (0..random.between(0, 2)).map(|_| entry(random)).collect()
}

/// Few entries of any value in each, so that they fit now and then.
fn any_columns(random: &mut Random, subject: Subject) -> Counted {
    let mut counts = counts(&BACK);
    for _ in 0..8_000 {
        let columns = Columns {
            kinds: some(random, byte),
            names: some(random, Random::number),
            starts: some(random, Random::number),
            lengths: some(random, Random::number),
            rights: some(random, byte),
        };
        let room = random.between(0, 3);
        counts.count(back(subject, &columns, room)?);
    }
    Ok(counts)
}

// ---- both

/// What the subject itself puts into columns it takes back to the same events.
fn there_and_back(random: &mut Random, subject: Subject) -> Counted {
    let mut counts = counts(&BACK);
    for _ in 0..3_000 {
        let events = some_events(random);
        let needed = needed(&events);
        let room = needed.map(|entries| entries + random.between(0, 2));
        let (_, filled) = fill(subject, &events, room)?;
        let mut found = words_of(&vec![[UNTOUCHED; 12]; events.len()]);
        let mut used = [UNTOUCHED; 6];
        let answer = subject.from_columns(lend(&filled, needed), &mut found, &mut used);
        same_answer(events.len() as u64, answer)?;
        same("events", words_of(&events), found)?;
        counts.count(answer >> 32);
    }
    Ok(counts)
}

/// The lists of so many kinds, with the numbers next to those of kinds.
fn lists_of_kinds(length: u32) -> impl Iterator<Item = Vec<u8>> {
    (0..7_u32.pow(length)).map(move |number| {
        let digit = |place| (number / 7_u32.pow(place) % 7) as u8;
        (0..length).map(digit).collect()
    })
}

/// Just the entries that the kinds ask for, of which those that are none ask for nothing.
fn asked_for(kinds: Vec<u8>) -> Columns {
    let entries = |first: u8, last: u8| {
        let asking = kinds
            .iter()
            .filter(move |kind| (first..=last).contains(*kind));
        asking.enumerate().map(|(at, _)| at as u32)
    };
    Columns {
        names: entries(2, 5).collect(),
        starts: entries(1, 4).collect(),
        lengths: entries(1, 4).map(|at| 9 - at).collect(),
        rights: entries(1, 2).map(|at| 1 + at as u8 % 2).collect(),
        kinds,
    }
}

/// With this many entries less or more of one column, 1 to 4 for the names to the rights.
fn resized(columns: &Columns, column: usize, more: isize) -> Columns {
    let mut other = columns.clone();
    let resize = |list: &mut Vec<u32>| list.resize(list.len().saturating_add_signed(more), 1);
    match column {
        1 => resize(&mut other.names),
        2 => resize(&mut other.starts),
        3 => resize(&mut other.lengths),
        _ => other
            .rights
            .resize(other.rights.len().saturating_add_signed(more), 1),
    }
    other
}

/// Up to four kinds, known and next to known, with just the entries that they ask for, and with one more or less.
fn every_list_of_kinds(_: &mut Random, subject: Subject) -> Counted {
    let mut counts = counts(&BACK);
    for length in 0..=4 {
        for kinds in lists_of_kinds(length) {
            let columns = asked_for(kinds);
            let room = columns.kinds.len();
            counts.count(back(subject, &columns, room)?);
            for column in 1..5 {
                for more in [-1, 1] {
                    counts.count(back(subject, &resized(&columns, column, more), room)?);
                }
            }
        }
    }
    Ok(counts)
}

/// Every choice of one less, none, or one more for each of five lengths.
fn choices() -> impl Iterator<Item = [isize; 5]> {
    (0..3_usize.pow(5)).map(|number| {
        let mut rest = number;
        [(); 5].map(|()| {
            let digit = rest % 3;
            rest /= 3;
            digit as isize - 1
        })
    })
}

/// Room about what is needed in all columns at once, and from none on in each by itself.
fn every_length_there(random: &mut Random, subject: Subject) -> Counted {
    let mut counts = counts(&THERE);
    for _ in 0..40 {
        let count = random.between(1, 9);
        let events = events(random, count);
        let needed = needed(&events);
        for choice in choices() {
            let mut room = needed;
            for (room, more) in room.iter_mut().zip(choice) {
                *room = room.saturating_add_signed(more);
            }
            counts.count(there(subject, &events, room)?);
        }
        for column in 0..5 {
            for entries in 0..=needed[column] + 2 {
                let mut room = needed;
                room[column] = entries;
                counts.count(there(subject, &events, room)?);
            }
        }
    }
    Ok(counts)
}

/// Lengths about what the kinds ask for in all columns at once, and about the room for events.
fn every_length_back(random: &mut Random, subject: Subject) -> Counted {
    let mut counts = counts(&BACK);
    for _ in 0..40 {
        let count = random.between(1, 9);
        let whole = columns_of(&events(random, count));
        for [names, starts, lengths, rights, room] in choices() {
            let mut columns = whole.clone();
            for (column, more) in (1..).zip([names, starts, lengths, rights]) {
                columns = resized(&columns, column, more);
            }
            let room = count.saturating_add_signed(room);
            counts.count(back(subject, &columns, room)?);
        }
        for room in 0..=count + 2 {
            counts.count(back(subject, &whole, room)?);
        }
    }
    Ok(counts)
}

/// Events of about as many as there may be, and their columns, which above 4,096 no call gives.
fn most(random: &mut Random) -> [(Vec<EventWords>, Columns); 4] {
    [-1, 0, 1, 2].map(|more| {
        let events = events(random, MAX_COLUMN_EVENTS.saturating_add_signed(more));
        let (first, second) = events.split_at(events.len() / 2);
        let mut columns = columns_of(first);
        let behind = columns_of(second);
        columns.kinds.extend(behind.kinds);
        columns.names.extend(behind.names);
        columns.starts.extend(behind.starts);
        columns.lengths.extend(behind.lengths);
        columns.rights.extend(behind.rights);
        (events, columns)
    })
}

/// With just the room, with none, with one entry less in each column, and with another event at either end.
fn most_there(random: &mut Random, subject: Subject) -> Counted {
    let mut counts = counts(&THERE);
    for (mut events, columns) in most(random) {
        let needed = columns.counts();
        counts.count(there(subject, &events, needed)?);
        counts.count(there(subject, &events, [0; 5])?);
        for column in 0..5 {
            let mut room = needed;
            room[column] -= 1;
            counts.count(there(subject, &events, room)?);
        }
        for at in [0, events.len() - 1] {
            events[at][9] = 1;
            counts.count(there(subject, &events, needed)?);
            events[at][9] = 0;
        }
    }
    Ok(counts)
}

/// With room about what is needed, with one entry more or less in each column, and with a kind that is none at
/// either end.
fn most_back(random: &mut Random, subject: Subject) -> Counted {
    let mut counts = counts(&BACK);
    for (events, mut columns) in most(random) {
        let count = events.len();
        for room in [0, count - 1, count, count + 1] {
            counts.count(back(subject, &columns, room)?);
        }
        for column in 1..5 {
            for more in [-1, 1] {
                counts.count(back(subject, &resized(&columns, column, more), count)?);
            }
        }
        for at in [0, count - 1] {
            let kind = columns.kinds[at];
            columns.kinds[at] = 6;
            counts.count(back(subject, &columns, count)?);
            columns.kinds[at] = kind;
        }
    }
    Ok(counts)
}
