//! Many events on a lent table, written bits, states and tally.

use crate::event::{DROP_ALL, Event, Refusal};
use crate::group::drop_names;
use crate::step::{Lent, Ordered, Work, in_order};

/// Takes as many events as there are answers for, in turn, by one sheet and within the same limits, and goes on
/// after refusals: how many it took. An answer is the refusal's number, 0 where there is none, and the new name, 0
/// where none is made. An event of the kind `DROP_ALL` drops the names `names[start..start + length]` together.
pub fn apply_all(
    lent: Lent,
    events: &[impl Into<Event> + Copy],
    names: &[u32],
    answers: &mut [[u32; 2]],
) -> usize {
    let taken = events.len().min(answers.len());
    let answers = &mut answers[..taken];
    let events = &events[..taken];
    let many = Many {
        events,
        names,
        answers,
    };
    if in_order(lent, many).is_none() {
        answers.fill([Refusal::Disordered as u32, 0]);
    }
    taken
}

struct Many<'a, E> {
    events: &'a [E],
    names: &'a [u32],
    answers: &'a mut [[u32; 2]],
}

impl<E: Into<Event> + Copy> Work for Many<'_, E> {
    type Answer = ();

    fn on<const ROWS: usize>(self, mut ordered: Ordered<ROWS>) {
        for (event, answer) in self.events.iter().zip(self.answers) {
            let event: Event = (*event).into();
            let outcome = match event.kind {
                DROP_ALL => {
                    let names = names_of(&event, self.names);
                    drop_names(&mut ordered, event.actor, names).map(|()| 0)
                }
                _ => ordered.step(event),
            };
            *answer = match outcome {
                Ok(value) => [0, value],
                Err(refusal) => [refusal as u32, 0],
            };
        }
    }
}

/// The names that an event drops together. Where they would stand past the end of the list there are
/// none, which is no group.
fn names_of<'a>(event: &Event, names: &'a [u32]) -> &'a [u32] {
    names
        .get(event.start as usize..)
        .and_then(|names| names.get(..event.length as usize))
        .unwrap_or(&[])
}

#[cfg(test)]
mod tests {
    use super::*;
    use crate::{
        BACK, Cap, DOMAINS, MARK, MAX_ROWS, SHEET_PLACES, STORED_BYTES, STORED_ROWS, Tally,
        WRITTEN_BYTES, apply, drop_all,
    };

    /// Numbers that look random and are the same each time (xorshift).
    struct Random(u64);

    impl Random {
        fn below(&mut self, bound: u32) -> u32 {
            self.0 ^= self.0 << 13;
            self.0 ^= self.0 >> 7;
            self.0 ^= self.0 << 17;
            ((self.0 >> 32) % u64::from(bound)) as u32
        }

        fn pick<T: Copy>(&mut self, items: &[T]) -> T {
            items[self.below(items.len() as u32) as usize]
        }

        /// No sheet, or one of any results.
        fn sheet(&mut self) -> Vec<u8> {
            let places = self.pick(&[0, SHEET_PLACES, SHEET_PLACES]);
            (0..places).map(|_| self.pick(&[0, 0, 0, 1, 2])).collect()
        }

        /// No limits, or some on so many rows, mostly for the domains that act here.
        fn limits(&mut self, rows: usize) -> Vec<u32> {
            let mut limits = vec![0; DOMAINS];
            for domain in DOMAINS_HERE {
                limits[domain as usize] = self.below(1 + rows as u32 / 4);
            }
            match self.below(12) {
                0..8 => Vec::new(),
                8 => vec![0; self.pick(&[1, 63, 65])],
                9 => vec![u32::MAX; DOMAINS],
                _ => limits,
            }
        }

        /// Who acts, and the holders of what is made.
        fn actor(&mut self) -> (u32, u64) {
            let actor = match self.below(40) {
                0 => self.pick(&[64, 256, u32::MAX]),
                _ => self.pick(&DOMAINS_HERE),
            };
            let others = self.pick(&[0, 0, 1 << 3 | 1 << 63, u64::MAX]);
            let itself = if self.below(20) == 0 {
                0
            } else {
                1 << (actor % 64)
            };
            (actor, itself | others)
        }

        /// An event through one of the last names, mostly within the row of that name.
        fn event(&mut self, table: &[Cap], issued: u32) -> Event {
            let kind = self.pick(&[0, 1, 1, 2, 2, 2, 2, 2, 3, 4, 5, DROP_ALL, MARK, BACK]);
            let name = match kind {
                MARK | BACK => self.pick(&[0, 0, 3, 7, 8]),
                _ => (issued + 1).saturating_sub(self.below(12)),
            };
            let row = table.iter().find(|row| row.name == name);
            let fresh = self.pick(&[0, 0, 0, 1, 1, 1, 2, 255]);
            let (start, length) = match (kind, row) {
                (DROP_ALL, _) => (self.below(NAMES as u32 + 2), self.below(4)),
                // What is marked needs addresses that have a bit.
                (1, _) if fresh == 1 => (self.below(15) << 12, self.pick(&[4_096, 8_192])),
                (1, _) | (_, None) => (self.below(1 << 20) << 12, self.pick(&[4_096, 8_192])),
                (_, Some(row)) => {
                    let start = row.start + self.pick(&[0, 0, 1]);
                    (start, self.pick(&[0, 1, row.length, u32::MAX]))
                }
            };
            let (actor, holders) = self.actor();
            Event {
                kind,
                written: self.pick(&[None, None, None, Some(issued + 1), Some(issued + 2)]),
                name,
                start,
                length,
                right: self.pick(&[2, 2, 2, 1, 0]),
                cap_kind: self.pick(&[0, 0, 0, 0, 0, 0, 1, 1, 2, 2, 3, 255]),
                fresh,
                actor,
                holders,
            }
        }
    }

    /// The domains that act, where they are domains.
    const DOMAINS_HERE: [u32; 3] = [0, 3, 63];

    /// What is lent for events.
    #[derive(Clone, Debug, PartialEq)]
    struct Part {
        table: Vec<Cap>,
        written: Vec<u8>,
        stored: Vec<Cap>,
        stored_bits: Vec<u8>,
        tally: Tally,
        sheet: Vec<u8>,
        limits: Vec<u32>,
    }

    impl Part {
        fn empty(rows: usize) -> Part {
            Part {
                table: vec![Cap::default(); rows],
                written: vec![0; WRITTEN_BYTES],
                stored: vec![Cap::default(); STORED_ROWS],
                stored_bits: vec![0; STORED_BYTES],
                tally: Tally::default(),
                sheet: Vec::new(),
                limits: Vec::new(),
            }
        }

        fn lend(&mut self) -> Lent<'_> {
            Lent {
                table: &mut self.table,
                written: &mut self.written,
                stored: &mut self.stored,
                stored_bits: &mut self.stored_bits,
                tally: &mut self.tally,
                sheet: &self.sheet,
                limits: &self.limits,
            }
        }

        fn all(&mut self, events: &[Event], names: &[u32], answers: &mut [[u32; 2]]) -> usize {
            apply_all(self.lend(), events, names, answers)
        }

        fn one(&mut self, event: &Event, names: &[u32]) -> [u32; 2] {
            let answer = match event.kind {
                DROP_ALL => drop_all(self.lend(), event.actor, names_of(event, names)).map(|()| 0),
                _ => apply(self.lend(), *event),
            };
            match answer {
                Ok(value) => [0, value],
                Err(refusal) => [refusal as u32, 0],
            }
        }
    }

    /// How many names are lent beside the events.
    const NAMES: usize = 6;

    #[test]
    fn many_events_are_as_one_after_the_other() {
        let mut random = Random(1);
        let mut met = [0; 20];
        for rows in [0, 1, 5, 16, 17, 64, 65, 256, 257, MAX_ROWS, MAX_ROWS + 1] {
            for _ in 0..40 {
                let mut part = Part::empty(rows);
                part.sheet = random.sheet();
                part.limits = random.limits(rows);
                for _ in 0..8 {
                    for answer in some_events(&mut random, &mut part) {
                        met[answer[0] as usize] += 1;
                    }
                }
            }
        }
        // A depth of 64 and a million names are not reached here, and no buffer is written.
        for refusal in [0, 1, 2, 3, 4, 5, 6, 7, 10, 12, 13, 16, 17, 18, 19] {
            assert!(met[refusal] > 0, "refusal {refusal} was not met: {met:?}");
        }
    }

    /// Some events one by one, and then in one call on what is lent: their answers.
    fn some_events(random: &mut Random, part: &mut Part) -> Vec<[u32; 2]> {
        let mut one_by_one = part.clone();
        // Near the names that are made, so that groups of live names are met.
        let names = [(); NAMES].map(|()| part.tally.issued + random.below(6));
        let mut events = Vec::new();
        let mut expected = Vec::new();
        for _ in 0..random.below(60) {
            let event = random.event(&one_by_one.table, one_by_one.tally.issued);
            expected.push(one_by_one.one(&event, &names));
            events.push(event);
        }
        let mut answers = vec![[7, 7]; events.len()];
        let taken = part.all(&events, &names, &mut answers);
        assert_eq!(taken, events.len());
        assert_eq!(answers, expected);
        assert_eq!(*part, one_by_one);
        answers
    }

    /// A create of so many addresses by a domain, for itself alone.
    fn create(actor: u32, length: u32) -> Event {
        Event {
            kind: 1,
            length,
            right: 2,
            actor,
            holders: 1 << actor,
            ..Event::default()
        }
    }

    #[test]
    fn no_more_is_taken_than_there_are_answers_for() {
        let mut part = Part::empty(4);
        let mut answers = [[7, 7]; 2];
        let taken = part.all(&[create(0, 1); 3], &[], &mut answers);
        assert_eq!((taken, answers), (2, [[0, 1], [0, 2]]));
        let taken = part.all(&[create(0, 1); 1], &[], &mut answers);
        assert_eq!((taken, answers), (1, [[0, 3], [0, 2]]));
    }

    #[test]
    fn names_past_the_end_of_the_list_are_no_group() {
        let drop_all = |(start, length)| Event {
            kind: DROP_ALL,
            start,
            length,
            ..Event::default()
        };
        let most = u32::MAX;
        let places = [(1, 2), (2, 1), (3, 0), (most, most), (most, 2), (0, 2)];
        let mut part = Part::empty(2);
        for length in 1..=2 {
            assert_eq!(part.one(&create(0, length - 1), &[]), [0, length]);
        }
        let mut answers = [[7, 7]; 6];
        part.all(&places.map(drop_all), &[1, 2], &mut answers);
        assert_eq!(answers[..5], [[13, 0]; 5]);
        assert_eq!((answers[5], part.table), ([0, 0], vec![Cap::default(); 2]));
        assert_eq!((part.tally.refused, part.tally.drops), (5, 1));
    }

    /// Who drops names is judged behind what they are, and each name for it behind its life.
    #[test]
    fn names_are_dropped_by_a_holder() {
        let drop_by = |actor, start, length| Event {
            kind: DROP_ALL,
            start,
            length,
            actor,
            ..Event::default()
        };
        let mut part = Part::empty(2);
        assert_eq!(part.one(&create(3, 0), &[]), [0, 1]);
        assert_eq!(part.one(&create(0, 0), &[]), [0, 2]);
        let names = [1, 2, 3];
        for (event, refusal) in [
            (drop_by(64, 0, 0), 13),
            (drop_by(64, 0, 3), 2),
            (drop_by(3, 0, 3), 17),
            (drop_by(3, 1, 2), 17),
            (drop_by(3, 2, 1), 4),
            (drop_by(0, 0, 1), 17),
        ] {
            assert_eq!(part.one(&event, &names), [refusal, 0]);
        }
        assert_eq!(part.one(&drop_by(3, 0, 1), &names), [0, 0]);
        assert_eq!(part.one(&drop_by(0, 0, 2), &names), [5, 0]);
        assert_eq!((part.table[0].name, part.tally.refused), (2, 7));
    }

    /// What ends makes room for its maker again, and the rows are no limit.
    #[test]
    fn limits_are_reached() {
        let mut part = Part::empty(3);
        part.limits = vec![0; DOMAINS];
        part.limits[0] = 1;
        part.limits[3] = 2;
        for (actor, length, answer) in [
            (3, 0, [0, 1]),
            (3, 8, [0, 2]),
            (3, 8, [18, 0]),
            (5, 0, [18, 0]),
            (0, 8, [0, 3]),
            (3, 0, [0, 4]),
            (3, 0, [18, 0]),
            (0, 0, [18, 0]),
        ] {
            assert_eq!(part.one(&create(actor, length), &[]), answer);
        }
        let names: Vec<u32> = part.table.iter().map(|row| row.name).collect();
        assert_eq!(names, [1, 3, 4]);
    }

    /// What is stored comes back with its bits, its parents and the room of its makers, and the names stay.
    #[test]
    fn states_come_back() {
        let turn = |kind, name| Event {
            kind,
            name,
            ..Event::default()
        };
        let mut part = Part::empty(3);
        part.limits = vec![0; DOMAINS];
        part.limits[0] = 3;
        assert_eq!(part.one(&turn(BACK, 7), &[]), [19, 0]);
        assert_eq!(part.one(&create(0, 8), &[]), [0, 1]);
        let borrow = Event {
            kind: 2,
            name: 1,
            ..create(0, 8)
        };
        assert_eq!(part.one(&borrow, &[]), [0, 2]);
        let write = Event {
            kind: 4,
            name: 2,
            ..create(0, 8)
        };
        assert_eq!(part.one(&write, &[]), [0, 0]);
        let before = part.clone();
        assert_eq!(part.one(&turn(MARK, 7), &[]), [0, 0]);
        assert_eq!(part.one(&create(0, 8), &[]), [0, 3]);
        assert_eq!(part.table[1], Cap::default());
        assert_eq!(part.written[0], 0);
        let mut answers = [[7, 7]; 4];
        let events = [turn(BACK, 7), borrow, borrow, turn(BACK, 8)];
        part.all(&events, &[], &mut answers);
        assert_eq!(answers, [[0, 0], [0, 4], [18, 0], [2, 0]]);
        assert_eq!(part.table[..2], before.table[..2]);
        assert_eq!((part.written, part.tally.issued), (before.written, 4));
    }

    /// What is stored and does not fit is 1 by itself, and those behind it are taken.
    #[test]
    fn states_are_judged_on_going_back() {
        let turn = |kind| Event {
            kind,
            ..Event::default()
        };
        let mut whole = Part::empty(3);
        whole.one(&create(0, 8), &[]);
        whole.one(&turn(MARK), &[]);
        let changes: [fn(&mut Part); 6] = [
            |part| part.stored[0].name = 5,
            |part| part.stored[0].parent = 4,
            |part| part.stored[1].right = 3,
            |part| part.stored[0].name = u32::MAX,
            |part| part.table.truncate(2),
            |part| {
                part.one(
                    &Event {
                        kind: 5,
                        name: 1,
                        ..Event::default()
                    },
                    &[],
                );
                part.limits = vec![0; DOMAINS];
            },
        ];
        for change in changes {
            let mut part = whole.clone();
            change(&mut part);
            let before = part.clone();
            let mut answers = [[7, 7]; 2];
            let other = Event {
                actor: 64,
                ..turn(BACK)
            };
            part.all(&[turn(BACK), other], &[], &mut answers);
            assert_eq!(answers, [[1, 0]; 2]);
            assert_eq!(part, before);
        }
        assert_eq!(whole.one(&turn(BACK), &[]), [0, 0]);
    }

    /// A table that is not in order, bits and memory of another length, and limits that need more rows.
    #[test]
    fn disordered_memory_refuses_all() {
        let mut disordered = Part::empty(4);
        disordered.table[1].name = 1;
        let mut short = Part::empty(4);
        short.written.pop();
        let mut few_stored = Part::empty(4);
        few_stored.stored.pop();
        let mut more_bits = Part::empty(4);
        more_bits.stored_bits.push(0);
        let mut limited = Part::empty(63);
        limited.limits = vec![1; DOMAINS];
        for mut part in [disordered, short, few_stored, more_bits, limited] {
            let before = part.clone();
            let mut answers = [[7, 7]; 3];
            let taken = part.all(&[Event::default(); 2], &[], &mut answers);
            assert_eq!((taken, answers), (2, [[1, 0], [1, 0], [7, 7]]));
            assert_eq!(part, before);
        }
    }
}
