//! Card 12: traces by column. An event goes into columns by its line, piece by piece, and comes out of them by
//! writing that line again and reading it.

use crate::lines::{Spelling, event_line, number, read_event_line, right, right_word};
use crate::span::Span;
use crate::values::{Act, Event, Fields, READ_ONLY, READ_WRITE, Refused};

/// 'Up to 4,096 events'.
pub const MAX_COLUMN_EVENTS: usize = 4_096;

/// An event's values as the C interface has them, as `Act::words` gives them.
pub type Words = [u32; 12];

/// What stands behind the word of a line.
enum Piece {
    Name,
    Start,
    Length,
    Right,
}

/// Document 01's five lines in its order: `(create START LENGTH RIGHT)`, `(borrow NAME START LENGTH RIGHT)`,
/// `(read NAME START LENGTH)`, `(write NAME START LENGTH)`, `(drop NAME)`.
const FORMS: [(&str, &[Piece]); 5] = [
    ("create", &[Piece::Start, Piece::Length, Piece::Right]),
    (
        "borrow",
        &[Piece::Name, Piece::Start, Piece::Length, Piece::Right],
    ),
    ("read", &[Piece::Name, Piece::Start, Piece::Length]),
    ("write", &[Piece::Name, Piece::Start, Piece::Length]),
    ("drop", &[Piece::Name]),
];

#[derive(Clone, Debug, Default, PartialEq, Eq)]
pub struct Columns {
    pub kinds: Vec<u8>,
    pub names: Vec<u32>,
    pub starts: Vec<u32>,
    pub lengths: Vec<u32>,
    pub rights: Vec<u8>,
}

impl Columns {
    /// How many entries each has.
    pub fn counts(&self) -> [usize; 5] {
        [
            self.kinds.len(),
            self.names.len(),
            self.starts.len(),
            self.lengths.len(),
            self.rights.len(),
        ]
    }

    /// Puts each piece of a line behind its like, if the line is of document 01's form.
    fn add(&mut self, line: &str) -> Option<()> {
        let body = line.strip_prefix('(')?.strip_suffix(")\n")?;
        let mut words = body.split(' ');
        let first = words.next()?;
        let at = FORMS.iter().position(|(word, _)| *word == first)?;
        // '1 to 5 in that document's order'.
        self.kinds.push(at as u8 + 1);
        for piece in FORMS[at].1 {
            let word = words.next()?.as_bytes();
            match piece {
                Piece::Name => self.names.push(number(word)?),
                Piece::Start => self.starts.push(number(word)?),
                Piece::Length => self.lengths.push(number(word)?),
                Piece::Right => self.rights.push(right(word)?),
            }
        }
        words.next().is_none().then_some(())
    }

    /// The lines that these are the columns of, if there are such lines.
    fn lines(&self) -> Option<Vec<String>> {
        let (mut names, mut starts) = (self.names.iter(), self.starts.iter());
        let (mut lengths, mut rights) = (self.lengths.iter(), self.rights.iter());
        let mut lines = Vec::new();
        for kind in &self.kinds {
            let (word, pieces) = FORMS.get(usize::from(*kind).checked_sub(1)?)?;
            let mut words = vec![word.to_string()];
            for piece in *pieces {
                words.push(match piece {
                    Piece::Name => names.next()?.to_string(),
                    Piece::Start => starts.next()?.to_string(),
                    Piece::Length => lengths.next()?.to_string(),
                    Piece::Right => known_right(*rights.next()?)?,
                });
            }
            lines.push(format!("({})\n", words.join(" ")));
        }
        let left = [names.len(), starts.len(), lengths.len(), rights.len()];
        (left == [0; 4]).then_some(lines)
    }
}

fn known_right(right: u8) -> Option<String> {
    let is_known = right == READ_ONLY || right == READ_WRITE;
    is_known.then(|| right_word(right.into()).to_string())
}

/// The event's line without names, where it has no value that this does not say.
fn line_of(words: &Words) -> Option<String> {
    let act = act_of(words)?;
    let line = event_line(act, Spelling::Plain)?;
    (act.words() == *words).then_some(line)
}

/// What happens by these values, and who acts, where kind and right are bytes.
fn act_of(words: &Words) -> Option<Act> {
    let [
        event,
        name,
        start,
        length,
        right,
        named,
        written,
        kind,
        fresh,
        actor,
        low,
        high,
    ] = *words;
    let event = Event::of(Fields {
        event: event.try_into().ok()?,
        written: (named != 0).then_some(written),
        name,
        span: Span { start, length },
        right: right.try_into().ok()?,
        kind,
        fresh,
        holders: u64::from(high) * (1 << 32) + u64::from(low),
    });
    Some(Act { actor, event })
}

fn columns_of(events: &[Words]) -> Option<Columns> {
    if events.len() > MAX_COLUMN_EVENTS {
        return None;
    }
    let mut columns = Columns::default();
    for words in events {
        columns.add(&line_of(words)?)?;
    }
    Some(columns)
}

fn events_of(columns: &Columns) -> Option<Vec<Words>> {
    if columns.kinds.len() > MAX_COLUMN_EVENTS {
        return None;
    }
    let lines = columns.lines()?;
    let acts = lines
        .iter()
        .map(|line| read_event_line(line.as_bytes(), Spelling::Plain));
    acts.map(|act| Some(act?.words())).collect()
}

/// The columns of events, if each has no more entries than there is room for.
pub fn to_columns(events: &[Words], room: [usize; 5]) -> Result<Columns, Refused> {
    let columns = columns_of(events).ok_or(2)?;
    let has_room = columns
        .counts()
        .iter()
        .zip(room)
        .all(|(count, room)| *count <= room);
    has_room.then_some(columns).ok_or(11)
}

/// The events of columns, if they are no more than there is room for.
pub fn from_columns(columns: &Columns, room: usize) -> Result<Vec<Words>, Refused> {
    let events = events_of(columns).ok_or(2)?;
    (events.len() <= room).then_some(events).ok_or(11)
}

#[cfg(test)]
mod tests {
    use super::*;

    const AMPLE: [usize; 5] = [5_000; 5];

    /// The trace that document 01 prints.
    const PRINTED: [Words; 6] = [
        [1, 0, 0, 64, 2, 0, 0, 0, 0, 0, 1, 0],
        [2, 1, 0, 16, 2, 0, 0, 0, 0, 0, 1, 0],
        [2, 1, 16, 16, 2, 0, 0, 0, 0, 0, 1, 0],
        [4, 2, 0, 8, 0, 0, 0, 0, 0, 0, 0, 0],
        [3, 1, 0, 4, 0, 0, 0, 0, 0, 0, 0, 0],
        [4, 2, 0, 8, 0, 0, 0, 0, 0, 0, 0, 0],
    ];

    fn printed() -> Columns {
        Columns {
            kinds: vec![1, 2, 2, 4, 3, 4],
            names: vec![1, 1, 2, 1, 2],
            starts: vec![0, 0, 16, 0, 0, 0],
            lengths: vec![64, 16, 16, 8, 4, 8],
            rights: vec![2, 2, 2],
        }
    }

    /// One event of each kind, with numbers at both ends.
    const EACH: [Words; 5] = [
        [1, 0, u32::MAX, 0, 1, 0, 0, 0, 0, 0, 1, 0],
        [2, 0, 5, u32::MAX, 2, 0, 0, 0, 0, 0, 1, 0],
        [3, u32::MAX, 0, 0, 0, 0, 0, 0, 0, 0, 0, 0],
        [4, 7, 8, 9, 0, 0, 0, 0, 0, 0, 0, 0],
        [5, 7, 0, 0, 0, 0, 0, 0, 0, 0, 0, 0],
    ];

    #[test]
    fn the_printed_trace_both_ways() {
        assert_eq!(to_columns(&PRINTED, AMPLE), Ok(printed()));
        assert_eq!(from_columns(&printed(), 6), Ok(PRINTED.to_vec()));
    }

    #[test]
    fn no_entry_where_a_kind_lacks_the_value() {
        for (event, counts) in EACH.iter().zip([
            [1, 0, 1, 1, 1],
            [1, 1, 1, 1, 1],
            [1, 1, 1, 1, 0],
            [1, 1, 1, 1, 0],
            [1, 1, 0, 0, 0],
        ]) {
            let columns = to_columns(&[*event], counts).unwrap();
            assert_eq!(columns.counts(), counts);
            assert_eq!(from_columns(&columns, 1), Ok(vec![*event]));
        }
        let columns = to_columns(&EACH, AMPLE).unwrap();
        assert_eq!(columns.kinds, [1, 2, 3, 4, 5]);
        assert_eq!(columns.names, [0, u32::MAX, 7, 7]);
        assert_eq!(columns.starts, [u32::MAX, 5, 0, 8]);
        assert_eq!(columns.lengths, [0, u32::MAX, 0, 9]);
        assert_eq!(columns.rights, [1, 2]);
        assert_eq!(from_columns(&columns, 5), Ok(EACH.to_vec()));
    }

    /// The values that an event of a kind, 1 to 5, may have anything in.
    fn is_free(kind: u32, at: usize) -> bool {
        match at {
            1 => kind != 1,
            2 | 3 => kind != 5,
            _ => false,
        }
    }

    #[test]
    fn no_other_event() {
        for event in EACH {
            for at in 1..12 {
                for value in [0, 1, 2, 3, 255, 256, 257, 258, 1 << 31, u32::MAX] {
                    let mut other = event;
                    other[at] = value;
                    let is_right = at == 4 && event[0] < 3 && (value == 1 || value == 2);
                    let has_columns = other == event || is_right || is_free(event[0], at);
                    let answer = to_columns(&[PRINTED[0], other], AMPLE);
                    assert_eq!(
                        answer.as_ref().err(),
                        (!has_columns).then_some(&2),
                        "{other:?}"
                    );
                }
            }
            for kind in [0, 6, 7, 8, 9, 255, 256, 257, 261, u32::MAX] {
                let mut other = event;
                other[0] = kind;
                assert_eq!(to_columns(&[other, PRINTED[0]], AMPLE), Err(2), "{other:?}");
            }
        }
    }

    #[test]
    fn lines_that_later_cards_added() {
        for (line, spelling) in [
            ("(create 1 0 8 rw)\n", Spelling::Named),
            ("(borrow 2 1 0 8 rw)\n", Spelling::Named),
            ("(borrow 1 0 8 rw raw)\n", Spelling::Plain),
            ("(borrow 1 0 8 rw cell)\n", Spelling::Plain),
            ("(create 0 8 rw fresh)\n", Spelling::Plain),
            ("(create 0 8 rw 0000000000000003)\n", Spelling::Plain),
            ("(as 3 (read 1 0 8))\n", Spelling::Plain),
            ("(as 3 (create 0 8 rw))\n", Spelling::Plain),
            ("(mark 3)\n", Spelling::Plain),
            ("(back 3)\n", Spelling::Plain),
        ] {
            let act = read_event_line(line.as_bytes(), spelling).unwrap();
            assert_eq!(to_columns(&[act.words()], AMPLE), Err(2), "{line}");
        }
    }

    #[test]
    fn no_more_than_4096() {
        let mut events = vec![EACH[1]; 4_096];
        let mut columns = to_columns(&events, [4_096; 5]).unwrap();
        assert_eq!(columns.counts(), [4_096; 5]);
        assert_eq!(from_columns(&columns, 4_096), Ok(events.clone()));
        assert_eq!(from_columns(&columns, 4_095), Err(11));
        events.push(EACH[4]);
        columns.kinds.push(5);
        columns.names.push(7);
        for room in [0, 4_096, 5_000] {
            assert_eq!(to_columns(&events, [room; 5]), Err(2));
            assert_eq!(from_columns(&columns, room), Err(2));
        }
    }

    #[test]
    fn too_little_room() {
        let needed = printed().counts();
        assert_eq!(to_columns(&PRINTED, needed), Ok(printed()));
        for at in 0..5 {
            for room in 0..needed[at] {
                let mut lent = needed;
                lent[at] = room;
                assert_eq!(to_columns(&PRINTED, lent), Err(11));
                assert_eq!(to_columns(&[PRINTED[0], [0; 12]], lent), Err(2));
            }
        }
        for room in 0..6 {
            assert_eq!(from_columns(&printed(), room), Err(11));
        }
    }

    /// A change to columns.
    type Change = fn(&mut Columns);

    #[test]
    fn no_other_columns() {
        let changes: [Change; 16] = [
            |columns| columns.kinds.push(5),
            |columns| columns.names.push(5),
            |columns| columns.starts.push(5),
            |columns| columns.lengths.push(5),
            |columns| columns.rights.push(1),
            |columns| columns.kinds.truncate(5),
            |columns| columns.names.truncate(4),
            |columns| columns.starts.truncate(5),
            |columns| columns.lengths.truncate(5),
            |columns| columns.rights.truncate(2),
            |columns| columns.kinds[0] = 0,
            |columns| columns.kinds[5] = 6,
            |columns| columns.kinds[3] = 255,
            |columns| columns.kinds[3] = 5,
            |columns| columns.rights[0] = 0,
            |columns| columns.rights[2] = 3,
        ];
        for (at, change) in changes.iter().enumerate() {
            let mut columns = printed();
            change(&mut columns);
            for room in [0, 5, 6, 7] {
                assert_eq!(from_columns(&columns, room), Err(2), "change {at}");
            }
        }
    }

    #[test]
    fn nothing_both_ways() {
        assert_eq!(to_columns(&[], [0; 5]), Ok(Columns::default()));
        assert_eq!(from_columns(&Columns::default(), 0), Ok(Vec::new()));
    }
}
