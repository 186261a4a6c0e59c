//! Traces by column: events put into columns and taken from them, what has no columns, and lists that are
//! too short.

mod answers;

use answers::{drop, made, refused, DONE};
use kelzoud::{
    apply_all, from_columns, read_event, to_columns, write_event, Addr, Cap, Columns, ColumnsMut,
    Counts, Domain, Event, Holders, Kind, Line, Name, Outcome, Refusal, Request, Right, Slot, Span,
    Spelling, States, Tally, Written, MAX_COLUMN_EVENTS,
};

fn span(start: u32, length: u32) -> Span {
    let start = Addr(start);
    Span { start, length }
}

fn create(span: Span, right: Right) -> Event {
    Event::Create {
        written: None,
        span,
        right,
        fresh: false,
        holders: None,
    }
}

fn borrow(parent: u32, span: Span, right: Right) -> Event {
    Event::Borrow {
        written: None,
        parent: Name(parent),
        span,
        right,
        kind: Kind::Reference,
        holders: None,
    }
}

fn read(name: u32, span: Span) -> Event {
    let name = Name(name);
    Event::Read { name, span }
}

fn write(name: u32, span: Span) -> Event {
    let name = Name(name);
    Event::Write { name, span }
}

/// Each kind, and how many entries they have together.
fn each() -> [Request; 6] {
    [
        create(span(0, 64), Right::ReadWrite),
        borrow(1, span(8, 16), Right::ReadOnly),
        read(2, span(8, 0)),
        write(1, span(32, u32::MAX)),
        drop(u32::MAX),
        create(span(u32::MAX, 1), Right::ReadOnly),
    ]
    .map(Request::from)
}

const COUNTS: Counts = Counts {
    events: 6,
    kinds: 6,
    names: 4,
    starts: 5,
    lengths: 5,
    rights: 3,
};

/// Columns of the test's own. Where nothing was put they have entries that none of its events has.
#[derive(Clone, Debug, PartialEq)]
struct Lists {
    kinds: Vec<u8>,
    names: Vec<Name>,
    starts: Vec<Addr>,
    lengths: Vec<u32>,
    rights: Vec<u8>,
}

impl Lists {
    fn blank(room: Counts) -> Lists {
        Lists {
            kinds: vec![77; room.kinds],
            names: vec![Name(77); room.names],
            starts: vec![Addr(77); room.starts],
            lengths: vec![77; room.lengths],
            rights: vec![77; room.rights],
        }
    }

    fn of_each() -> Lists {
        Lists {
            kinds: vec![1, 2, 3, 4, 5, 1],
            names: [1, 2, 1, u32::MAX].map(Name).to_vec(),
            starts: [0, 8, 8, 32, u32::MAX].map(Addr).to_vec(),
            lengths: vec![64, 16, 0, u32::MAX, 1],
            rights: vec![2, 1, 1],
        }
    }

    fn room(&mut self) -> ColumnsMut<'_> {
        ColumnsMut {
            kinds: &mut self.kinds,
            names: &mut self.names,
            starts: &mut self.starts,
            lengths: &mut self.lengths,
            rights: &mut self.rights,
        }
    }

    fn columns(&self) -> Columns<'_> {
        Columns {
            kinds: &self.kinds,
            names: &self.names,
            starts: &self.starts,
            lengths: &self.lengths,
            rights: &self.rights,
        }
    }
}

/// So many entries in every list.
fn all(count: usize) -> Counts {
    Counts {
        events: count,
        kinds: count,
        names: count,
        starts: count,
        lengths: count,
        rights: count,
    }
}

/// Events that are refused, and nothing is touched.
fn not_put(events: &[Request], room: Counts, refusal: Refusal) {
    let mut lists = Lists::blank(room);
    let answer = to_columns(events, &mut lists.room());
    assert_eq!(answer, Err(refusal), "{events:?}");
    assert_eq!(lists, Lists::blank(room), "{events:?}");
}

/// The same of columns.
fn not_taken(lists: &Lists, room: usize, refusal: Refusal) {
    let mut events = vec![Request::from(drop(77)); room];
    let answer = from_columns(lists.columns(), &mut events);
    assert_eq!(answer, Err(refusal), "{lists:?}");
    assert_eq!(events, vec![Request::from(drop(77)); room], "{lists:?}");
}

#[test]
fn each_kind_has_its_entries() {
    let mut lists = Lists::blank(COUNTS);
    assert_eq!(to_columns(&each(), &mut lists.room()), Ok(COUNTS));
    assert_eq!(lists, Lists::of_each());
    let mut events = [Request::EMPTY; 6];
    assert_eq!(from_columns(lists.columns(), &mut events), Ok(COUNTS));
    assert_eq!(events, each());
}

#[test]
fn entries_behind_those_that_are_used_stay() {
    let mut lists = Lists::blank(all(9));
    assert_eq!(to_columns(&each(), &mut lists.room()), Ok(COUNTS));
    assert_eq!(lists.room().used(COUNTS), Lists::of_each().columns());
    assert_eq!(lists.kinds[6..], [77; 3]);
    assert_eq!(lists.names[4..], [Name(77); 5]);
    assert_eq!(lists.starts[5..], [Addr(77); 4]);
    assert_eq!(lists.lengths[5..], [77; 4]);
    assert_eq!(lists.rights[3..], [77; 6]);
    let mut events = [Request::from(drop(77)); 8];
    let columns = lists.room();
    assert_eq!(from_columns(columns.used(COUNTS), &mut events), Ok(COUNTS));
    assert_eq!(events[..6], each());
    assert_eq!(events[6..], [Request::from(drop(77)); 2]);
}

#[test]
fn what_comes_back_is_looked_at_and_carried_out() {
    let lists = Lists {
        kinds: vec![1, 2, 4, 3],
        names: vec![Name(1), Name(1), Name(2)],
        starts: vec![Addr(0); 4],
        lengths: vec![8; 4],
        rights: vec![2, 2],
    };
    let mut events = [Request::EMPTY; 4];
    from_columns(lists.columns(), &mut events).unwrap();
    let expected = [
        create(span(0, 8), Right::ReadWrite),
        borrow(1, span(0, 8), Right::ReadWrite),
        write(1, span(0, 8)),
        read(2, span(0, 8)),
    ];
    let found = events.map(|event| event.event().unwrap());
    assert_eq!(found, expected.map(|event| (event, Domain::ZERO)));
    let (mut table, mut written, mut tally) = ([Cap::EMPTY; 4], Written::NONE, Tally::default());
    let mut states = Box::new(States::NOTHING);
    let mut answers = [Outcome::EMPTY; 4];
    let answers = apply_all(
        &mut table,
        &mut written,
        &mut states,
        &mut tally,
        &events,
        &[],
        &mut answers,
    );
    let answers: Vec<_> = answers.iter().map(|outcome| outcome.answer()).collect();
    let ended = refused(Refusal::Ended);
    assert_eq!(answers, [made(1), made(2), DONE, ended]);
}

#[test]
fn lines_are_the_same_behind_columns() {
    let text = "(create 0 64 rw)\n(borrow 1 0 16 ro)\n(write 1 16 8)\n(read 2 0 4)\n(drop 1)\n";
    let requests: Vec<Request> = text
        .split_inclusive('\n')
        .map(|line| match read_event(Spelling::Plain, line.as_bytes()) {
            Ok(Line::Event { actor, event }) => event.by(actor),
            other => panic!("{other:?}"),
        })
        .collect();
    let mut lists = Lists::blank(all(5));
    let mut columns = lists.room();
    let counts = to_columns(&requests, &mut columns).unwrap();
    let mut events = [Request::EMPTY; 5];
    assert_eq!(from_columns(columns.used(counts), &mut events), Ok(counts));
    let mut again = Vec::new();
    for event in events {
        let mut line = [0; 64];
        let length = write_event(event, &mut line).unwrap();
        again.extend_from_slice(&line[..length]);
    }
    assert_eq!(again, text.as_bytes());
}

#[test]
fn events_without_columns() {
    let three = Domain::new(3).unwrap();
    let whole = span(0, 8);
    let slot = Slot::ZERO;
    let (written, right) = (Some(Name(1)), Right::ReadWrite);
    let made = |written, fresh, holders| Event::Create {
        written,
        span: whole,
        right,
        fresh,
        holders,
    };
    let borrowed = |written, kind, holders| Event::Borrow {
        written,
        parent: Name(1),
        span: whole,
        right,
        kind,
        holders,
    };
    let both = Some(Holders::of(Domain::ZERO).with(three));
    let last = Some(Holders::of(Domain::ZERO).with(Domain::new(63).unwrap()));
    let reference = Kind::Reference;
    for other in [
        Request::from(made(written, false, None)),
        made(None, true, None).into(),
        made(None, false, both).into(),
        made(None, false, last).into(),
        made(None, false, Some(Holders::of(three))).into(),
        made(None, false, None).by(three),
        borrowed(written, reference, None).into(),
        borrowed(None, Kind::Raw, None).into(),
        borrowed(None, Kind::Cell, None).into(),
        borrowed(None, reference, both).into(),
        borrowed(None, reference, last).into(),
        borrowed(None, reference, both).by(three),
        read(1, whole).by(three),
        write(1, whole).by(three),
        drop(1).by(three),
        Event::Mark { slot }.into(),
        Event::Back { slot }.into(),
        Request::drop_all(0..1),
        Request::drop_all(0..2),
        Request::EMPTY,
    ] {
        not_put(&[other], all(3), Refusal::Misspelt);
        not_put(&[drop(1).into(), other], all(3), Refusal::Misspelt);
        not_put(&[other, drop(1).into()], all(0), Refusal::Misspelt);
    }
    // The holders that an event need not give are those that it has without them.
    let alone = made(None, false, Some(Holders::of(Domain::ZERO)));
    let mut lists = Lists::blank(all(1));
    assert!(to_columns(&[alone.into()], &mut lists.room()).is_ok());
}

#[test]
fn lists_that_are_too_short() {
    let short = Refusal::BufferTooShort;
    not_put(&each(), Counts { kinds: 5, ..COUNTS }, short);
    not_put(&each(), Counts { names: 3, ..COUNTS }, short);
    not_put(
        &each(),
        Counts {
            starts: 4,
            ..COUNTS
        },
        short,
    );
    not_put(
        &each(),
        Counts {
            lengths: 4,
            ..COUNTS
        },
        short,
    );
    not_put(
        &each(),
        Counts {
            rights: 2,
            ..COUNTS
        },
        short,
    );
    not_put(&each(), all(0), short);
    for room in 0..6 {
        not_taken(&Lists::of_each(), room, short);
    }
    let said = short.to_string();
    assert_eq!(said, "refusal 11, what is lent for the result is too short");
}

/// A change to columns.
type Change = fn(&mut Lists);

#[test]
fn columns_without_events() {
    let changes: [Change; 17] = [
        |lists| lists.kinds.push(5),
        |lists| lists.names.push(Name(1)),
        |lists| lists.starts.push(Addr(1)),
        |lists| lists.lengths.push(1),
        |lists| lists.rights.push(1),
        |lists| lists.kinds.truncate(5),
        |lists| lists.names.truncate(3),
        |lists| lists.starts.truncate(4),
        |lists| lists.lengths.truncate(4),
        |lists| lists.rights.truncate(2),
        |lists| lists.kinds[0] = 0,
        |lists| lists.kinds[1] = 0,
        |lists| lists.kinds[2] = 6,
        |lists| lists.kinds[4] = 6,
        |lists| lists.kinds[4] = 1,
        |lists| lists.rights[0] = 0,
        |lists| lists.rights[2] = 3,
    ];
    for change in changes {
        let mut lists = Lists::of_each();
        change(&mut lists);
        for room in [0, 5, 6, 9] {
            not_taken(&lists, room, Refusal::Misspelt);
        }
    }
    // A read may be a write.
    let mut lists = Lists::of_each();
    lists.kinds[2] = 4;
    let mut events = [Request::EMPTY; 6];
    assert_eq!(from_columns(lists.columns(), &mut events), Ok(COUNTS));
    assert_eq!(events[2], write(2, span(8, 0)).into());
}

#[test]
fn no_more_than_4096() {
    let borrow = borrow(1, span(2, 3), Right::ReadOnly);
    let mut events = vec![Request::from(borrow); MAX_COLUMN_EVENTS];
    let mut lists = Lists::blank(all(MAX_COLUMN_EVENTS));
    let answer = to_columns(&events, &mut lists.room());
    assert_eq!(answer, Ok(all(MAX_COLUMN_EVENTS)));
    let mut again = vec![Request::EMPTY; MAX_COLUMN_EVENTS];
    let answer = from_columns(lists.columns(), &mut again);
    assert_eq!(answer, Ok(all(MAX_COLUMN_EVENTS)));
    assert_eq!(again, events);
    events.push(drop(1).into());
    lists.kinds.push(5);
    lists.names.push(Name(1));
    for room in [0, MAX_COLUMN_EVENTS, MAX_COLUMN_EVENTS + 1] {
        not_put(&events, all(room), Refusal::Misspelt);
        not_taken(&lists, room, Refusal::Misspelt);
    }
}

#[test]
fn nothing_both_ways() {
    let mut lists = Lists::blank(all(0));
    assert_eq!(to_columns(&[], &mut lists.room()), Ok(Counts::default()));
    assert_eq!(from_columns(lists.columns(), &mut []), Ok(all(0)));
}

#[test]
#[should_panic(expected = "range end index 2")]
fn no_more_is_used_than_there_is() {
    Lists::blank(all(1)).room().used(all(2));
}
