//! Rounds of events that are all allowed and leave a table as they found it, as events and as lines.

use interface::{CELL, Cap, REFERENCE, Words};

use crate::batch::Events;
use crate::random::Random;
use crate::shape::{BESIDE, Lent, READ_WRITE};
use crate::workload::{BACK, BORROW, CREATE, DROP, MARK, READ, WRITE, line_of, slot_event};

/// How many rows a round uses besides those that live already.
pub const ROUND_ROWS: usize = 3;

/// The domain that acts where limits are lent. It is given the empty rows.
pub const ACTOR: u32 = 3;

/// Another domain that acts, and for whom it makes what it makes.
pub const SHARING: u32 = 63;
pub const SHARED_BY: u64 = 1 << SHARING | 0xabc;

/// What a round is about: an object and what is borrowed from it, by their names, where its memory starts, and some
/// live row besides.
pub struct Object {
    names: [u32; ROUND_ROWS],
    start: u32,
    reader: Cap,
}

/// The events of a round. Where one drops several names they are the object's.
pub type Using = fn(&Object) -> Vec<Words>;

/// A round's events, and the object's names.
pub struct Round {
    events: Vec<Words>,
    names: [u32; ROUND_ROWS],
}

impl Object {
    fn event(&self, kind: u32, name: u32, length: u32) -> Words {
        Words {
            kind,
            name,
            start: self.start,
            length,
            right: READ_WRITE,
            ..Words::default()
        }
        .by(0, 1)
    }

    /// It is made, borrowed as the given kind, and used, and the live row is read through. It has the memory of the
    /// last round's object, which is gone, and so its create ends nothing.
    fn used_as(&self, cap_kind: u32) -> Vec<Words> {
        let [object, first, second] = self.names;
        vec![
            self.event(CREATE, 0, 64),
            Words {
                cap_kind,
                ..self.event(BORROW, object, 32)
            },
            self.event(BORROW, first, 16),
            self.event(WRITE, second, 8),
            self.event(READ, first, 8),
            Words {
                start: self.reader.start,
                ..self.event(READ, self.reader.name, 1)
            },
        ]
    }

    /// The same, and it is written through and dropped.
    fn dropped_as(&self, cap_kind: u32) -> Vec<Words> {
        let [object, ..] = self.names;
        let mut events = self.used_as(cap_kind);
        events.extend([self.event(WRITE, object, 64), self.event(DROP, object, 0)]);
        events
    }
}

pub fn references(object: &Object) -> Vec<Words> {
    object.dropped_as(REFERENCE)
}

pub fn of_cells(object: &Object) -> Vec<Words> {
    object.dropped_as(CELL)
}

/// All that was made is dropped together.
pub fn grouped(object: &Object) -> Vec<Words> {
    let mut events = object.used_as(REFERENCE);
    events.push(Words::drop_all(0, ROUND_ROWS as u32));
    events
}

/// In place of a drop the table goes back to what it was.
pub fn turned(object: &Object) -> Vec<Words> {
    let mut events = vec![slot_event(MARK)];
    events.extend(object.used_as(REFERENCE));
    events.push(slot_event(BACK));
    events
}

/// New names are written out.
pub fn named(object: &Object) -> Vec<Words> {
    let mut names = object.names.iter();
    let mut events = references(object);
    for event in &mut events {
        if matches!(event.kind, CREATE | BORROW) {
            event.named = 1;
            event.written = names.next().copied().unwrap_or(0);
        }
    }
    events
}

/// By another domain, for others too.
pub fn shared(object: &Object) -> Vec<Words> {
    acting(object, SHARING, SHARED_BY)
}

/// By the domain that has the empty rows, for itself.
pub fn limited(object: &Object) -> Vec<Words> {
    acting(object, ACTOR, 1 << ACTOR)
}

fn acting(object: &Object, actor: u32, holders: u64) -> Vec<Words> {
    let events = references(object).into_iter();
    events.map(|event| event.by(actor, holders)).collect()
}

/// All refused: the live row is read through outside of its span.
pub fn outside(object: &Object) -> Vec<Words> {
    vec![object.event(READ, object.reader.name, 1); 8]
}

/// Rounds one after the other, on a table with room for one.
pub fn rounds(lent: &Lent, using: Using) -> impl Iterator<Item = Round> {
    let live = lent.table[..lent.live()].to_vec();
    rounds_at(BESIDE, live, lent.tally.issued, using)
}

/// The same beside these rows, with objects at this address and named behind so many names.
pub fn rounds_at(
    start: u32,
    live: Vec<Cap>,
    issued: u32,
    using: Using,
) -> impl Iterator<Item = Round> {
    let mut random = Random::new();
    let objects = (issued + 1..).step_by(ROUND_ROWS);
    objects.map(move |first| {
        let names = [first, first + 1, first + 2];
        let reader = random.pick(&live);
        let events = using(&Object {
            names,
            start,
            reader,
        });
        Round { events, names }
    })
}

/// The lines of whole rounds, up to so many bytes.
pub fn text_up_to(size: usize, rounds: impl Iterator<Item = Round>) -> Vec<u8> {
    let mut text = Vec::with_capacity(size);
    for Round { events, names } in rounds {
        let lines: Vec<Vec<u8>> = events.iter().map(|event| line_of(*event, &names)).collect();
        let lines = lines.concat();
        if text.len() + lines.len() > size {
            break;
        }
        text.extend(lines);
    }
    text
}

/// The events of whole rounds, up to so many.
pub fn events_up_to(count: usize, rounds: impl Iterator<Item = Round>) -> Events {
    let (mut events, mut all_names) = (Vec::new(), Vec::new());
    for round in rounds {
        if events.len() + round.events.len() > count {
            break;
        }
        for mut event in round.events {
            if event.kind == interface::DROP_ALL {
                event.start = all_names.len() as u32;
                all_names.extend(round.names);
            }
            events.push(event);
        }
    }
    Events {
        events,
        names: all_names,
    }
}
