//! Random marks, backs and stored states.

use interface::{BACK, Event, MARK};
use oracle::random::Random;
use oracle::{MAX_ROWS, Row, SLOTS, Slot, State, States};

use crate::acting::{self, NO_DOMAINS};
use crate::agree::{Bits, Lent};
use crate::events::chain;
use crate::generate::{self, Request};
use crate::slots::Slots;

/// Numbers that are no slot, of which some end in the bits of one.
pub const NO_SLOTS: [u32; 10] = [8, 9, 15, 16, 255, 256, 1_025, 65_536, 1 << 31, u32::MAX];

/// Whether a request marks or goes back.
pub fn turns(request: &Request) -> bool {
    matches!(request, Request::Single(event) if matches!(event.kind, MARK | BACK))
}

/// A mark or a back: in most cases of one of few slots, and a back of one in which something is stored.
pub fn turn(random: &mut Random, lent: &Lent) -> Event {
    let kind = random.pick(&[MARK, BACK, BACK]);
    let slot = match random.below(24) {
        0 => random.pick(&NO_SLOTS),
        1 => random.number(),
        2 | 3 => random.below(SLOTS.into()) as u32,
        _ if kind == BACK => stored_slot(random, lent),
        _ => random.pick(&[0, 0, 1, 7]),
    };
    let live = oracle::live_rows(&lent.rows);
    let actor = match random.one_in(8) {
        true => random.pick(&NO_DOMAINS),
        false => acting::actor(random, live, None),
    };
    // What it lacks may be anything, because nobody may look at it.
    Event {
        kind,
        written: random.one_in(4).then(|| random.number()),
        name: slot,
        start: random.number(),
        length: random.number(),
        right: random.bits() as u8,
        cap_kind: random.bits() as u8,
        fresh: random.bits() as u8,
        actor,
        holders: random.bits(),
    }
}

/// A slot in which something is stored, if there is one.
fn stored_slot(random: &mut Random, lent: &Lent) -> u32 {
    let is_stored = |slot: &u32| {
        let states = lent.slots.states();
        let stored = states.and_then(|states| states.slot(*slot));
        stored.is_some_and(|stored| *stored != Slot::Nothing)
    };
    let stored: Vec<u32> = (0..SLOTS).filter(is_stored).collect();
    match stored.is_empty() {
        true => 0,
        false => random.pick(&stored),
    }
}

/// Memory with nothing stored in most cases, else with something in some slots, most of which fits what is lent.
pub fn some_slots(random: &mut Random, lent: &Lent) -> Slots {
    match random.one_in(12) {
        true => filled_slots(random, lent),
        false => Slots::nothing(),
    }
}

/// The same with something stored in every case.
pub fn filled_slots(random: &mut Random, lent: &Lent) -> Slots {
    let mut states = States::default();
    for _ in 0..random.between(1, 3) {
        let slot = random.pick(&[0, 0, 1, 7]);
        states.set(slot, stored(random, lent));
    }
    Slots::Of(states)
}

/// Something stored: a former state of what is lent in most cases.
pub fn stored(random: &mut Random, lent: &Lent) -> Slot {
    let mut rows = lent.rows.clone();
    rows.truncate(MAX_ROWS);
    let area = generate::area(random);
    let written = match &lent.bits {
        Bits::Of(written) if random.one_in(2) => written.clone(),
        _ => match generate::bits(random, area) {
            Bits::Of(written) => written,
            Bits::Other(_) => return Slot::Misfit,
        },
    };
    match random.below(16) {
        0 => return Slot::Misfit,
        1 => {
            let count = (rows.len() + 1).min(MAX_ROWS);
            rows.resize(count, Row::default());
        }
        2 | 3 => drop(rows.pop()),
        4 => disturb_rows(random, &mut rows),
        5 => rows.fill(Row::default()),
        6..=8 => drop_some(random, &mut rows),
        9..=11 => add_one(random, lent, &mut rows),
        12 => lower(&mut rows),
        _ => {}
    }
    Slot::Stored(State { rows, written })
}

/// Changes something of a stored table. It may still be in order then.
fn disturb_rows(random: &mut Random, rows: &mut Vec<Row>) {
    let mut lent = Lent::of(rows.clone(), oracle::Tally::default());
    generate::disturb(random, &mut lent);
    lent.rows.truncate(MAX_ROWS);
    *rows = lent.rows;
}

/// Adds a root whose name was not given, where there is room.
fn add_one(random: &mut Random, lent: &Lent, rows: &mut [Row]) {
    let live = oracle::live_rows(rows).len();
    if let Some(row) = rows.get_mut(live) {
        *row = Row {
            name: lent
                .tally
                .issued
                .saturating_add(random.between(1, 3) as u32),
            ..chain(1, 1)[0]
        };
    }
}

/// Makes all rows read-only.
fn lower(rows: &mut [Row]) {
    for row in rows.iter_mut().filter(|row| row.name != 0) {
        row.right = 1;
    }
}

/// Takes out one of the live rows and all below it.
fn drop_some(random: &mut Random, rows: &mut [Row]) {
    let live = oracle::live_rows(rows).to_vec();
    if live.is_empty() {
        return;
    }
    let mut gone = vec![random.pick(&live).name];
    let mut left = Vec::new();
    for row in live {
        match gone.contains(&row.name) || gone.contains(&row.parent) {
            true => gone.push(row.name),
            false => left.push(row),
        }
    }
    rows.fill(Row::default());
    rows[..left.len()].copy_from_slice(&left);
}

/// Numbers of rows and of bytes for states that are not lent rightly.
pub const OTHER_SIZES: [(usize, usize); 12] = [
    (0, 0),
    (0, 65_536),
    (8_200, 0),
    (8_199, 65_536),
    (8_201, 65_536),
    (8_200, 65_535),
    (8_200, 65_537),
    (1_025, 8_192),
    (8_192, 65_536),
    (1, 1),
    (16_400, 131_072),
    (7_175, 57_344),
];

/// Memory of another size.
pub fn other_slots(random: &mut Random) -> Slots {
    let (rows, bytes) = random.pick(&OTHER_SIZES);
    Slots::Other(rows, bytes)
}

/// Memory of another size, or with something else stored.
pub fn disturb_slots(random: &mut Random, lent: &mut Lent) {
    lent.slots = match random.one_in(2) {
        true => other_slots(random),
        false => filled_slots(random, lent),
    };
}
