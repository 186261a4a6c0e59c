//! Traces by column: what events have of one sort stands together.

use crate::event::{Kind, Refusal};

/// How many events columns have at most.
pub const MAX_COLUMN_EVENTS: usize = 4_096;

/// An event as the C interface passes it, word for word.
pub type EventWords = [u32; 12];

const KIND: usize = 0;
const NAME: usize = 1;
const START: usize = 2;
const LENGTH: usize = 3;
const RIGHT: usize = 4;
const HOLDERS_LOW: usize = 10;

const CREATE: u32 = Kind::Create as u32;
const BORROW: u32 = Kind::Borrow as u32;
const DROP: u32 = Kind::Drop as u32;

/// How many events there are, and how many entries of each column in the order of `Columns`.
pub type Used = [u32; 6];

/// The columns of some events, in their order. A create has no name, a read or write no right, and a
/// drop a name alone.
#[derive(Clone, Copy, Debug)]
pub struct Columns<'a> {
    pub kinds: &'a [u8],
    pub names: &'a [u32],
    pub starts: &'a [u32],
    pub lengths: &'a [u32],
    pub rights: &'a [u8],
}

/// Room for columns.
#[derive(Debug)]
pub struct ColumnsMut<'a> {
    pub kinds: &'a mut [u8],
    pub names: &'a mut [u32],
    pub starts: &'a mut [u32],
    pub lengths: &'a mut [u32],
    pub rights: &'a mut [u8],
}

/// How many names, spans and rights events have. Nothing here branches on a kind: in a trace no
/// processor can guess the next one.
#[derive(Clone, Copy, Default)]
struct Counts {
    names: usize,
    spans: usize,
    rights: usize,
}

impl Counts {
    /// With one more event of a known kind.
    #[inline]
    fn add(&mut self, kind: u32) {
        self.names += usize::from(kind != CREATE);
        self.spans += usize::from(kind != DROP);
        self.rights += usize::from(kind <= BORROW);
    }

    /// What events of these kinds have, if all are known.
    fn of(kinds: &[u8]) -> Option<Counts> {
        // Numbers of 16 bits can count that far, and many of them are added at a time.
        let [mut creates, mut drops, mut rights, mut unknown] = [0_u16; 4];
        for kind in kinds.iter().map(|kind| u32::from(*kind)) {
            creates += u16::from(kind == CREATE);
            drops += u16::from(kind == DROP);
            rights += u16::from(kind <= BORROW);
            unknown += u16::from(kind.wrapping_sub(CREATE) > DROP - CREATE);
        }
        (unknown == 0).then(|| Counts {
            names: kinds.len() - usize::from(creates),
            spans: kinds.len() - usize::from(drops),
            rights: rights.into(),
        })
    }

    fn used(self, events: usize) -> Used {
        let Counts {
            names,
            spans,
            rights,
        } = self;
        [events, events, names, spans, spans, rights].map(|count| count as u32)
    }
}

/// The words of the events of a kind: the bits that are an event's own, and which of the others are set.
struct Form {
    own: EventWords,
    set: EventWords,
}

/// The forms by the lowest bits of a kind.
const FORMS: [Form; 8] = [
    NO_FORM,
    form(Kind::Create),
    form(Kind::Borrow),
    form(Kind::Read),
    form(Kind::Write),
    form(Kind::Drop),
    NO_FORM,
    NO_FORM,
];

/// No event is of this form: whatever its words are, `faults` has some bit set.
const NO_FORM: Form = Form {
    own: [u32::MAX; 12],
    set: [1; 12],
};

const fn form(kind: Kind) -> Form {
    let mut form = Form {
        own: [0; 12],
        set: [0; 12],
    };
    form.set[KIND] = kind as u32;
    if kind.has_name() {
        form.own[NAME] = u32::MAX;
    }
    if kind.has_span() {
        form.own[START] = u32::MAX;
        form.own[LENGTH] = u32::MAX;
    }
    if kind.makes() {
        form.own[RIGHT] = u32::MAX;
        form.set[HOLDERS_LOW] = 1;
    }
    form
}

/// Some bit is set where an event is not of the form of its kind; its right is not looked at where it
/// has one.
#[inline]
fn faults(words: &EventWords) -> EventWords {
    let Form { own, set } = &FORMS[words[KIND] as usize % FORMS.len()];
    // Of the words in the middle none is set in any form, and of the last none is an event's own.
    std::array::from_fn(|at| match at {
        KIND..=LENGTH => words[at] & !own[at] ^ set[at],
        RIGHT..8 => words[at] & !own[at],
        _ => words[at] ^ set[at],
    })
}

/// Puts events into columns: how many entries were used.
pub fn to_columns(
    events: &[impl Into<EventWords> + Copy],
    columns: ColumnsMut,
) -> Result<Used, Refusal> {
    let counts = spelt(events).ok_or(Refusal::Misspelt)?;
    fill(events, counts, columns).ok_or(Refusal::BufferTooShort)?;
    Ok(counts.used(events.len()))
}

/// What the events have, if there are not too many and all are of their form. Neither loop is inlined: each
/// needs all registers.
#[inline(never)]
fn spelt(events: &[impl Into<EventWords> + Copy]) -> Option<Counts> {
    if events.len() > MAX_COLUMN_EVENTS {
        return None;
    }
    let mut counts = Counts::default();
    // What is wrong is gathered, and asked for behind the last event.
    let mut wrong = [0; 12];
    let mut wrong_right = false;
    for event in events {
        let words: EventWords = (*event).into();
        for (wrong, fault) in wrong.iter_mut().zip(faults(&words)) {
            *wrong |= fault;
        }
        let makes = u32::from(words[KIND] <= BORROW);
        wrong_right |= words[RIGHT].wrapping_sub(makes) > makes;
        counts.add(words[KIND]);
    }
    (wrong == [0; 12] && !wrong_right).then_some(counts)
}

/// Puts what the events have into the columns, if there is room.
#[inline(never)]
fn fill(
    events: &[impl Into<EventWords> + Copy],
    counts: Counts,
    columns: ColumnsMut,
) -> Option<()> {
    let kinds = columns.kinds.get_mut(..events.len())?;
    let names = columns.names.get_mut(..counts.names)?;
    let starts = columns.starts.get_mut(..counts.spans)?;
    let lengths = columns.lengths.get_mut(..counts.spans)?;
    let rights = columns.rights.get_mut(..counts.rights)?;
    let mut at = Counts::default();
    for (event, kind) in events.iter().zip(kinds) {
        let words: EventWords = (*event).into();
        *kind = words[KIND] as u8;
        // What is no entry is put as well: the next entry is put over it, and behind the last one there
        // is no place.
        if at.names < names.len() {
            names[at.names] = words[NAME];
        }
        if at.spans < starts.len() {
            starts[at.spans] = words[START];
            lengths[at.spans] = words[LENGTH];
        }
        if at.rights < rights.len() {
            rights[at.rights] = words[RIGHT] as u8;
        }
        at.add(words[KIND]);
    }
    Some(())
}

/// Makes events of columns: how many entries were used.
pub fn from_columns<E: From<EventWords>>(
    columns: Columns,
    events: &mut [E],
) -> Result<Used, Refusal> {
    let counts = columns.counts().ok_or(Refusal::Misspelt)?;
    let count = columns.kinds.len();
    let events = events.get_mut(..count).ok_or(Refusal::BufferTooShort)?;
    columns.spread(events);
    Ok(counts.used(count))
}

impl Columns<'_> {
    /// What the events have, if there are not too many and the columns are as their kinds ask for.
    fn counts(&self) -> Option<Counts> {
        if self.kinds.len() > MAX_COLUMN_EVENTS {
            return None;
        }
        let counts = Counts::of(self.kinds)?;
        let fit = self.names.len() == counts.names
            && self.starts.len() == counts.spans
            && self.lengths.len() == counts.spans
            && self.rights.len() == counts.rights;
        (fit && are_known(self.rights)).then_some(counts)
    }

    /// The events, one for each kind.
    fn spread<E: From<EventWords>>(&self, events: &mut [E]) {
        let lengths = &self.lengths[..self.starts.len()];
        let mut at = Counts::default();
        for (event, kind) in events.iter_mut().zip(self.kinds) {
            let mut words = [0; 12];
            words[KIND] = u32::from(*kind);
            // An entry is taken in any case, and put aside where it is not this event's.
            if at.names < self.names.len() {
                words[NAME] = self.names[at.names];
            }
            if at.spans < self.starts.len() {
                words[START] = self.starts[at.spans];
                words[LENGTH] = lengths[at.spans];
            }
            if at.rights < self.rights.len() {
                words[RIGHT] = u32::from(self.rights[at.rights]);
            }
            at.add(words[KIND]);
            *event = only_its_own(words).into();
        }
    }
}

/// The event without what its kind lacks, and with the holders of what it makes.
#[inline]
fn only_its_own(mut words: EventWords) -> EventWords {
    let kind = words[KIND];
    let made = kind <= BORROW;
    words[NAME] = if kind == CREATE { 0 } else { words[NAME] };
    words[START] = if kind == DROP { 0 } else { words[START] };
    words[LENGTH] = if kind == DROP { 0 } else { words[LENGTH] };
    words[RIGHT] = if made { words[RIGHT] } else { 0 };
    words[HOLDERS_LOW] = u32::from(made);
    words
}

/// Whether all rights are known. All are looked at, many at a time.
fn are_known(rights: &[u8]) -> bool {
    let unknown = rights.iter().map(|right| !matches!(right, 1 | 2));
    !unknown.fold(false, |some, this| some | this)
}

#[cfg(test)]
mod tests {
    use super::*;

    /// An event of each kind, and each right.
    const EVENTS: [EventWords; 7] = [
        [1, 0, 4_096, 64, 2, 0, 0, 0, 0, 0, 1, 0],
        [2, 1, 4_096, 8, 1, 0, 0, 0, 0, 0, 1, 0],
        [4, 2, 4_100, 4, 0, 0, 0, 0, 0, 0, 0, 0],
        [5, u32::MAX, 0, 0, 0, 0, 0, 0, 0, 0, 0, 0],
        [3, 0, u32::MAX, 0, 0, 0, 0, 0, 0, 0, 0, 0],
        [1, 0, 0, u32::MAX, 1, 0, 0, 0, 0, 0, 1, 0],
        [5, 3, 0, 0, 0, 0, 0, 0, 0, 0, 0, 0],
    ];

    const USED: Used = [7, 7, 5, 5, 5, 3];

    /// Columns of the test's own.
    #[derive(Clone, Debug, Default, PartialEq)]
    struct Lent {
        kinds: Vec<u8>,
        names: Vec<u32>,
        starts: Vec<u32>,
        lengths: Vec<u32>,
        rights: Vec<u8>,
    }

    impl Lent {
        /// The columns of some events, one event after the other.
        fn of(events: &[EventWords]) -> Lent {
            let mut lent = Lent::default();
            for event in events {
                lent.kinds.push(event[KIND] as u8);
                if event[KIND] != CREATE {
                    lent.names.push(event[NAME]);
                }
                if event[KIND] != DROP {
                    lent.starts.push(event[START]);
                    lent.lengths.push(event[LENGTH]);
                }
                if event[KIND] <= BORROW {
                    lent.rights.push(event[RIGHT] as u8);
                }
            }
            lent
        }

        /// Room for so many entries, with something in it.
        fn room([_, kinds, names, starts, lengths, rights]: Used) -> Lent {
            Lent {
                kinds: vec![77; kinds as usize],
                names: vec![77; names as usize],
                starts: vec![77; starts as usize],
                lengths: vec![77; lengths as usize],
                rights: vec![77; rights as usize],
            }
        }

        /// The same with some more behind each column.
        fn and_more(mut self) -> Lent {
            self.kinds.extend([77; 3]);
            self.names.extend([77; 3]);
            self.starts.extend([77; 3]);
            self.lengths.extend([77; 3]);
            self.rights.extend([77; 3]);
            self
        }

        fn lend(&self) -> Columns<'_> {
            Columns {
                kinds: &self.kinds,
                names: &self.names,
                starts: &self.starts,
                lengths: &self.lengths,
                rights: &self.rights,
            }
        }

        fn fill(&mut self, events: &[EventWords]) -> Result<Used, Refusal> {
            let columns = ColumnsMut {
                kinds: &mut self.kinds,
                names: &mut self.names,
                starts: &mut self.starts,
                lengths: &mut self.lengths,
                rights: &mut self.rights,
            };
            to_columns(events, columns)
        }
    }

    /// Events of any kinds, as if by chance.
    fn some_events(count: usize) -> Vec<EventWords> {
        let mut state = 7_u32;
        let mut next = || {
            state = state.wrapping_mul(1_664_525).wrapping_add(1_013_904_223);
            state >> 8
        };
        (0..count)
            .map(|_| {
                let mut event = EVENTS[next() as usize % EVENTS.len()];
                for (at, word) in event[NAME..=LENGTH].iter_mut().enumerate() {
                    *word = if *word == 0 { 0 } else { next() + at as u32 };
                }
                event
            })
            .collect()
    }

    fn refused_unchanged(events: &[EventWords], mut lent: Lent, refusal: Refusal) {
        let before = lent.clone();
        assert_eq!(lent.fill(events), Err(refusal));
        assert_eq!(lent, before);
    }

    fn not_made(columns: Columns, room: usize, refusal: Refusal) {
        let mut events = vec![[77; 12]; room];
        assert_eq!(from_columns(columns, &mut events), Err(refusal));
        assert!(events.iter().all(|event| *event == [77; 12]));
    }

    #[test]
    fn there_and_back() {
        for count in [0, 1, 2, 3, 16, 100, MAX_COLUMN_EVENTS] {
            let events = some_events(count);
            let columns = Lent::of(&events);
            let used = Counts::of(&columns.kinds).unwrap().used(count);

            let mut filled = Lent::room(used).and_more();
            assert_eq!(filled.fill(&events), Ok(used));
            assert_eq!(filled, columns.clone().and_more());

            let mut made = vec![[77; 12]; count + 1];
            assert_eq!(from_columns(columns.lend(), &mut made), Ok(used));
            assert_eq!(made[..count], events);
            assert_eq!(made[count], [77; 12]);
        }
    }

    #[test]
    fn entries_are_counted() {
        let mut lent = Lent::room(USED);
        assert_eq!(lent.fill(&EVENTS), Ok(USED));
        assert_eq!(lent.names, [1, 2, u32::MAX, 0, 3]);
        assert_eq!(lent.rights, [2, 1, 1]);
    }

    /// The form, kind by kind.
    fn is_spelt(event: &EventWords) -> bool {
        matches!(
            event,
            [1, 0, _, _, 1 | 2, 0, 0, 0, 0, 0, 1, 0]
                | [2, _, _, _, 1 | 2, 0, 0, 0, 0, 0, 1, 0]
                | [3 | 4, _, _, _, 0, 0, 0, 0, 0, 0, 0, 0]
                | [5, _, 0, 0, 0, 0, 0, 0, 0, 0, 0, 0]
        )
    }

    #[test]
    fn other_words_are_misspelt() {
        for (at, word) in (0..EVENTS.len() * 12).map(|place| (place / 12, place % 12)) {
            for changed in [0, 1, 2, 3, 4, 5, 8, 9, 257, 1 << 31, u32::MAX] {
                let mut events = EVENTS;
                events[at][word] = changed;
                let room = Lent::room([7; 6]);
                match is_spelt(&events[at]) {
                    true => assert!(room.clone().fill(&events).is_ok()),
                    false => refused_unchanged(&events, room, Refusal::Misspelt),
                }
            }
        }
    }

    #[test]
    fn too_many_are_misspelt_also_without_room() {
        let mut events = some_events(MAX_COLUMN_EVENTS + 1);
        refused_unchanged(&events, Lent::default(), Refusal::Misspelt);
        not_made(Lent::of(&events).lend(), 0, Refusal::Misspelt);
        events.truncate(1);
        events[0][KIND] = 6;
        refused_unchanged(&events, Lent::default(), Refusal::Misspelt);
    }

    #[test]
    fn each_column_needs_its_room() {
        for column in 1..USED.len() {
            let mut room = USED;
            room[column] -= 1;
            refused_unchanged(&EVENTS, Lent::room(room), Refusal::BufferTooShort);
        }
        let columns = Lent::of(&EVENTS);
        not_made(columns.lend(), EVENTS.len() - 1, Refusal::BufferTooShort);
    }

    #[test]
    fn columns_have_their_lengths() {
        let changes: [fn(&mut Lent); 10] = [
            // The last is a drop, so that a name is left over, or missing.
            |columns| columns.kinds.truncate(EVENTS.len() - 1),
            |columns| columns.kinds.push(5),
            |columns| columns.names.truncate(4),
            |columns| columns.names.push(1),
            |columns| columns.starts.truncate(4),
            |columns| columns.starts.push(1),
            |columns| columns.lengths.truncate(4),
            |columns| columns.lengths.push(1),
            |columns| columns.rights.truncate(2),
            |columns| columns.rights.push(1),
        ];
        for change in changes {
            let mut columns = Lent::of(&EVENTS);
            change(&mut columns);
            not_made(columns.lend(), EVENTS.len() + 1, Refusal::Misspelt);
            not_made(columns.lend(), 0, Refusal::Misspelt);
        }
    }

    #[test]
    fn unknown_kinds_and_rights_are_misspelt() {
        for at in 0..EVENTS.len() {
            for kind in [0, 6, 7, 8, 9, 255] {
                let mut columns = Lent::of(&EVENTS);
                columns.kinds[at] = kind;
                not_made(columns.lend(), EVENTS.len(), Refusal::Misspelt);
            }
        }
        for at in 0..3 {
            for right in [0, 3, 255] {
                let mut columns = Lent::of(&EVENTS);
                columns.rights[at] = right;
                not_made(columns.lend(), EVENTS.len(), Refusal::Misspelt);
            }
        }
    }
}
