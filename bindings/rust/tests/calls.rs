//! Each call of the safe interface, with its answers turned into enums.

use kelzoud::{
    apply, apply_all, check, drop_all, read_event, read_listing, run, write_drop, write_drop_by,
    write_event, write_listing, Addr, Answer, Cap, Domain, Event, Holders, Kind, Line, Name,
    Outcome, Refusal, Request, Right, RunAnswer, Slot, Span, Spelling, States, Tally, Written,
    MAX_CHECK, MAX_DROP_LINE, MAX_GROUP, MAX_LINE, MAX_LISTING, MAX_NAMED_LINE, MAX_ROWS,
    NAMED_HEADER, WRITTEN_ADDRESSES, WRITTEN_BYTES,
};

fn span(start: u32, length: u32) -> Span {
    Span {
        start: Addr(start),
        length,
    }
}

/// Events of each kind, each with its line, and its line with the name 40 written out.
fn spellings() -> [(Event, &'static str, &'static str); 10] {
    let name = Name(7);
    let wide = span(0, 64);
    let created = |right, fresh| Event::Create {
        written: None,
        span: wide,
        right,
        fresh,
        holders: None,
    };
    let create = created(Right::ReadWrite, false);
    let fresh = created(Right::ReadOnly, true);
    let borrow = |right, kind| Event::Borrow {
        written: None,
        parent: name,
        span: span(8, 4),
        right,
        kind,
        holders: None,
    };
    let shared = borrow(Right::ReadOnly, Kind::Reference);
    let raw = borrow(Right::ReadWrite, Kind::Raw);
    let cell = borrow(Right::ReadOnly, Kind::Cell);
    let read = Event::Read { name, span: wide };
    let write = Event::Write { name, span: wide };
    let drop = Event::Drop { name };
    let mark = Event::Mark {
        slot: Slot::new(7).unwrap(),
    };
    let back = Event::Back { slot: Slot::ZERO };
    [
        (create, "(create 0 64 rw)\n", "(create 40 0 64 rw)\n"),
        (
            fresh,
            "(create 0 64 ro fresh)\n",
            "(create 40 0 64 ro fresh)\n",
        ),
        (shared, "(borrow 7 8 4 ro)\n", "(borrow 40 7 8 4 ro)\n"),
        (raw, "(borrow 7 8 4 rw raw)\n", "(borrow 40 7 8 4 rw raw)\n"),
        (
            cell,
            "(borrow 7 8 4 ro cell)\n",
            "(borrow 40 7 8 4 ro cell)\n",
        ),
        (read, "(read 7 0 64)\n", "(read 7 0 64)\n"),
        (write, "(write 7 0 64)\n", "(write 7 0 64)\n"),
        (drop, "(drop 7)\n", "(drop 7)\n"),
        (mark, "(mark 7)\n", "(mark 7)\n"),
        (back, "(back 0)\n", "(back 0)\n"),
    ]
}

/// The same event with a name written out, where it makes one.
fn with_name(event: Event, name: u32) -> Event {
    let written = Some(Name(name));
    match event {
        Event::Create {
            span,
            right,
            fresh,
            holders,
            ..
        } => Event::Create {
            written,
            span,
            right,
            fresh,
            holders,
        },
        Event::Borrow {
            parent,
            span,
            right,
            kind,
            holders,
            ..
        } => Event::Borrow {
            written,
            parent,
            span,
            right,
            kind,
            holders,
        },
        other => other,
    }
}

/// What the line of an event of domain 0 asks for.
fn by_zero(event: Event) -> Line {
    let actor = Domain::ZERO;
    Line::Event { actor, event }
}

fn check_line(event: Event, line: &str, spelling: Spelling) {
    let mut out = [b'?'; 64];
    assert_eq!(write_event(event, &mut out), Ok(line.len()));
    assert_eq!(&out[..line.len()], line.as_bytes());
    assert_eq!(out[line.len()], b'?');
    let read = read_event(spelling, line.as_bytes());
    assert_eq!(read, Ok(by_zero(event)));
    let short = &mut out[..line.len() - 1];
    assert_eq!(write_event(event, short), Err(Refusal::BufferTooShort));
}

const BOTH: [Spelling; 2] = [Spelling::Plain, Spelling::Named];

#[test]
fn events_are_written_and_read() {
    for (event, line, _) in spellings() {
        check_line(event, line, Spelling::Plain);
    }
    for spelling in BOTH {
        for line in [&b"(read 01 0 8)\n"[..], b"", b"(drop 1)", NAMED_HEADER] {
            assert_eq!(read_event(spelling, line), Err(Refusal::Misspelt));
        }
    }
    // A reference is not written as such, a create has no kind, and a borrow no mark of its own.
    for line in [
        "(borrow 7 8 4 rw fresh)\n",
        "(borrow 7 8 4 rw raw fresh)\n",
        "(create 0 64 fresh rw)\n",
        "(create 0 64 rw fresh fresh)\n",
        "(borrow 7 8 4 rw reference)\n",
        "(borrow 7 8 4 raw rw)\n",
        "(borrow 7 8 4 rw raw cell)\n",
        "(create 0 64 rw raw)\n",
    ] {
        let read = read_event(Spelling::Plain, line.as_bytes());
        assert_eq!(read, Err(Refusal::Misspelt));
    }
}

#[test]
fn names_are_written_and_read() {
    for (event, line, named_line) in spellings() {
        check_line(with_name(event, 40), named_line, Spelling::Named);
        let as_plain = read_event(Spelling::Plain, named_line.as_bytes());
        let as_named = read_event(Spelling::Named, line.as_bytes());
        // A create or borrow of one spelling is no line of the other; the rest is in both.
        let expected = match event.makes() {
            true => Err(Refusal::Misspelt),
            false => Ok(by_zero(event)),
        };
        assert_eq!((as_plain, as_named), (expected, expected));
    }
}

#[test]
fn lines_have_their_longest_lengths() {
    let borrow = Event::Borrow {
        written: None,
        parent: Name(u32::MAX),
        span: span(u32::MAX, u32::MAX),
        right: Right::ReadWrite,
        kind: Kind::Cell,
        holders: Some(Holders::ALL),
    };
    let last = Domain::new(63).unwrap();
    let mut out = [0; 128];
    assert_eq!(write_event(borrow.by(last), &mut out), Ok(MAX_LINE));
    let named = with_name(borrow, u32::MAX).by(last);
    assert_eq!(write_event(named, &mut out), Ok(MAX_NAMED_LINE));
}

#[test]
fn events_change_the_table() {
    let mut table = [Cap::EMPTY; 2];
    let mut written = Written::NONE;
    let mut states = Box::new(States::NOTHING);
    let mut tally = Tally::default();
    let mut take = |event| apply(&mut table, &mut written, &mut states, &mut tally, event);
    let right = Right::ReadWrite;
    let whole = span(0, 8);
    let root = Event::Create {
        written: None,
        span: whole,
        right,
        fresh: false,
        holders: None,
    };
    let borrow = Event::Borrow {
        written: None,
        parent: Name(1),
        span: whole,
        right,
        kind: Kind::Reference,
        holders: None,
    };
    let drop = Event::Drop { name: Name(1) };
    assert_eq!(take(root), Answer::Allowed(Some(Name(1))));
    assert_eq!(take(borrow), Answer::Allowed(Some(Name(2))));
    assert_eq!(take(root), Answer::Refused(Refusal::TableFull));
    assert_eq!(take(drop), Answer::Allowed(None));
    assert_eq!(take(drop), Answer::Refused(Refusal::Ended));
    assert_eq!(table, [Cap::EMPTY; 2]);
    assert_eq!((tally.issued, tally.drops, tally.refused), (2, 1, 2));
}

#[test]
fn written_names_are_judged() {
    let mut table = [Cap::EMPTY; 2];
    let mut written = Written::NONE;
    let mut states = Box::new(States::NOTHING);
    let mut tally = Tally::default();
    let mut take = |event| apply(&mut table, &mut written, &mut states, &mut tally, event);
    let root = Event::Create {
        written: None,
        span: span(0, 8),
        right: Right::ReadWrite,
        fresh: false,
        holders: None,
    };
    let misnamed = Answer::Refused(Refusal::Misnamed);
    assert_eq!(take(with_name(root, 0)), misnamed);
    assert_eq!(take(with_name(root, 2)), misnamed);
    assert_eq!(take(with_name(root, 1)), Answer::Allowed(Some(Name(1))));
    let beside = Event::Create {
        written: None,
        span: span(8, 8),
        right: Right::ReadWrite,
        fresh: false,
        holders: None,
    };
    assert_eq!(take(beside), Answer::Allowed(Some(Name(2))));
    assert_eq!(take(with_name(root, 2)), misnamed);
    let full = Answer::Refused(Refusal::TableFull);
    assert_eq!(take(with_name(root, 3)), full);
    assert_eq!((tally.issued, tally.creates, tally.refused), (2, 2, 4));
}

#[test]
fn a_create_ends_what_it_touches() {
    let mut table = [Cap::EMPTY; 3];
    let mut written = Written::NONE;
    let mut states = Box::new(States::NOTHING);
    let mut tally = Tally::default();
    let mut take = |event| apply(&mut table, &mut written, &mut states, &mut tally, event);
    let create = |start, length| Event::Create {
        written: None,
        span: span(start, length),
        right: Right::ReadWrite,
        fresh: false,
        holders: None,
    };
    let borrow = Event::Borrow {
        written: None,
        parent: Name(1),
        span: span(0, 8),
        right: Right::ReadWrite,
        kind: Kind::Reference,
        holders: None,
    };
    let read = Event::Read {
        name: Name(2),
        span: span(0, 8),
    };
    assert_eq!(take(create(0, 64)), Answer::Allowed(Some(Name(1))));
    assert_eq!(take(borrow), Answer::Allowed(Some(Name(2))));
    assert_eq!(take(create(64, 8)), Answer::Allowed(Some(Name(3))));
    assert_eq!(take(read), Answer::Allowed(None));
    let full = Answer::Refused(Refusal::TableFull);
    assert_eq!(take(create(32, 16)), full);
    assert_eq!(take(Event::Drop { name: Name(3) }), Answer::Allowed(None));
    assert_eq!(take(create(32, 16)), Answer::Allowed(Some(Name(4))));
    assert_eq!(take(read), Answer::Refused(Refusal::Ended));
    assert_eq!((table[0].name, table[1]), (4, Cap::EMPTY));
    assert_eq!((tally.creates, tally.writes, tally.drops), (3, 0, 1));
}

/// A table of which the first root is made, over 16 addresses, and what is done to it.
struct Part {
    table: [Cap; 8],
    written: Written,
    states: Box<States>,
    tally: Tally,
}

impl Part {
    fn new() -> Part {
        Part::with_root(false)
    }

    fn with_root(fresh: bool) -> Part {
        let mut part = Part {
            table: [Cap::EMPTY; 8],
            written: Written::NONE,
            states: Box::new(States::NOTHING),
            tally: Tally::default(),
        };
        assert_eq!(part.create(0, 16, fresh), Answer::Allowed(Some(Name(1))));
        part
    }

    fn take(&mut self, event: Event) -> Answer {
        apply(
            &mut self.table,
            &mut self.written,
            &mut self.states,
            &mut self.tally,
            event,
        )
    }

    fn create(&mut self, start: u32, length: u32, fresh: bool) -> Answer {
        self.take(Event::Create {
            written: None,
            span: span(start, length),
            right: Right::ReadWrite,
            fresh,
            holders: None,
        })
    }

    /// A borrow of the first 8 addresses.
    fn borrow(&mut self, parent: u32, kind: Kind) -> Answer {
        self.take(Event::Borrow {
            written: None,
            parent: Name(parent),
            span: span(0, 8),
            right: Right::ReadWrite,
            kind,
            holders: None,
        })
    }

    /// A read of the first 8 addresses, and a write to them.
    fn read(&mut self, name: u32) -> Answer {
        self.take(Event::Read {
            name: Name(name),
            span: span(0, 8),
        })
    }

    fn write(&mut self, name: u32) -> Answer {
        self.take(Event::Write {
            name: Name(name),
            span: span(0, 8),
        })
    }
}

#[test]
fn a_raw_one_and_its_parent_are_used_in_turn() {
    let mut part = Part::new();
    assert_eq!(
        part.borrow(1, Kind::Reference),
        Answer::Allowed(Some(Name(2)))
    );
    assert_eq!(part.borrow(2, Kind::Raw), Answer::Allowed(Some(Name(3))));
    assert_eq!(part.borrow(2, Kind::Raw), Answer::Allowed(Some(Name(4))));
    let kinds = part.table.map(|row| Kind::from_number(row.kind).unwrap());
    assert_eq!(kinds[1..4], [Kind::Reference, Kind::Raw, Kind::Raw]);
    for name in [3, 2, 4, 3] {
        assert_eq!(part.read(name), Answer::Allowed(None));
        assert_eq!(part.write(name), Answer::Allowed(None));
    }
    // Raw below raw: 2 is a stranger to 5, whose parent is 3. No read strikes it, and the write does.
    assert_eq!(part.borrow(3, Kind::Raw), Answer::Allowed(Some(Name(5))));
    assert_eq!(part.read(2), Answer::Allowed(None));
    assert_eq!(part.write(5), Answer::Allowed(None));
    assert_eq!(part.write(2), Answer::Allowed(None));
    assert_eq!(part.write(5), Answer::Refused(Refusal::Ended));
    // A stranger's read lowers their parent, and they go along; its write ends them.
    assert_eq!(part.read(1), Answer::Allowed(None));
    assert_eq!(part.write(3), Answer::Refused(Refusal::ReadOnly));
    assert_eq!(part.read(3), Answer::Allowed(None));
    assert_eq!(part.write(1), Answer::Allowed(None));
    assert_eq!(part.read(3), Answer::Refused(Refusal::Ended));
    assert_eq!(part.table[1], Cap::EMPTY);
}

#[test]
fn cells_are_written_through_in_turn() {
    let mut part = Part::new();
    assert_eq!(part.borrow(1, Kind::Cell), Answer::Allowed(Some(Name(2))));
    assert_eq!(part.borrow(1, Kind::Cell), Answer::Allowed(Some(Name(3))));
    assert_eq!(
        part.borrow(1, Kind::Reference),
        Answer::Allowed(Some(Name(4)))
    );
    for name in [2, 3, 2] {
        assert_eq!(part.write(name), Answer::Allowed(None));
    }
    assert_eq!(part.table[3].right, Right::ReadWrite as u32);
    // A read from inside one lowers the other, and the reference beside them.
    assert_eq!(part.read(2), Answer::Allowed(None));
    assert_eq!(part.write(3), Answer::Refused(Refusal::ReadOnly));
    assert_eq!(part.write(4), Answer::Refused(Refusal::ReadOnly));
    assert_eq!(part.write(2), Answer::Allowed(None));
    assert_eq!(part.read(3), Answer::Allowed(None));
}

#[test]
fn rows_of_unknown_kind_are_disordered() {
    let mut part = Part::new();
    assert_eq!(part.borrow(1, Kind::Cell), Answer::Allowed(Some(Name(2))));
    let disordered = Answer::Refused(Refusal::Disordered);
    for number in [3, 256, u32::MAX] {
        part.table[1].kind = number;
        assert_eq!(Kind::from_number(number), None);
        assert_eq!(part.read(1), disordered);
    }
    part.table[1].kind = Kind::Raw as u32;
    assert_eq!(part.read(1), Answer::Allowed(None));
    // All that is created is a reference.
    part.table[0].kind = Kind::Raw as u32;
    assert_eq!(part.read(1), disordered);
}

#[test]
fn fresh_memory_is_written_before_it_is_read() {
    let mut part = Part::with_root(true);
    let unwritten = Answer::Refused(Refusal::NotWritten);
    assert_eq!(part.borrow(1, Kind::Cell), Answer::Allowed(Some(Name(2))));
    assert_eq!((part.table[0].fresh, part.table[1].fresh), (1, 1));
    assert_eq!((part.read(1), part.read(2)), (unwritten, unwritten));
    let nothing = Event::Read {
        name: Name(1),
        span: span(0, 0),
    };
    assert_eq!(part.take(nothing), Answer::Allowed(None));
    // What is written through one is written for both, and no more than that.
    let half = Event::Write {
        name: Name(2),
        span: span(0, 4),
    };
    assert_eq!(part.take(half), Answer::Allowed(None));
    assert_eq!(part.written.0[..2], [0x0f, 0]);
    assert!(part.written.contains(Addr(3)) && !part.written.contains(Addr(4)));
    assert_eq!(part.read(1), unwritten);
    assert_eq!(part.write(1), Answer::Allowed(None));
    assert_eq!(part.read(1), Answer::Allowed(None));
    assert_eq!(part.written.0[..2], [0xff, 0]);
    // Handed out again, it has to be written again; what is not fresh may be read as it is.
    assert_eq!(part.create(6, 4, true), Answer::Allowed(Some(Name(3))));
    assert_eq!(part.written.0[..2], [0x3f, 0]);
    let again = Event::Read {
        name: Name(3),
        span: span(6, 1),
    };
    assert_eq!(part.take(again), unwritten);
    assert_eq!(part.create(0, 8, false), Answer::Allowed(Some(Name(4))));
    assert_eq!(part.table[0].fresh, 0);
    assert_eq!(part.read(4), Answer::Allowed(None));
    assert_eq!(part.written, Written::NONE);
    assert_eq!(Written::default(), Written::NONE);
}

#[test]
fn fresh_memory_ends_where_the_bits_do() {
    let mut part = Part::new();
    let illegal = Answer::Refused(Refusal::IllegalSpan);
    let end = WRITTEN_ADDRESSES;
    for (start, length) in [(end - 1, 2), (end, 1), (end + 1, 0), (0, end + 1)] {
        assert_eq!(part.create(start, length, true), illegal);
    }
    assert_eq!(part.create(end, 0, true), Answer::Allowed(Some(Name(2))));
    assert_eq!(
        part.create(end - 1, 1, true),
        Answer::Allowed(Some(Name(3)))
    );
    assert_eq!(part.create(end, 8, false), Answer::Allowed(Some(Name(4))));
    for (name, start) in [(3, end - 1), (4, end)] {
        let (name, span) = (Name(name), span(start, 1));
        let write = part.take(Event::Write { name, span });
        assert_eq!(write, Answer::Allowed(None));
    }
    let mut bytes = [0; WRITTEN_BYTES];
    bytes[WRITTEN_BYTES - 1] = 0x80;
    assert_eq!(part.written, Written(bytes));
    assert!(part.written.contains(Addr(end - 1)));
    assert!(!part.written.contains(Addr(end)) && !part.written.contains(Addr(u32::MAX)));
}

#[test]
fn rows_of_wrong_marks_are_disordered() {
    let disordered = Answer::Refused(Refusal::Disordered);
    for fresh in [false, true] {
        let mut part = Part::with_root(fresh);
        assert_eq!(part.borrow(1, Kind::Raw), Answer::Allowed(Some(Name(2))));
        assert_eq!(part.write(1), Answer::Allowed(None));
        let right = part.table;
        for marks in [[0, 1], [1, 0], [2, 2], [256, 256], [u32::MAX, u32::MAX]] {
            part.table[0].fresh = marks[0];
            part.table[1].fresh = marks[1];
            assert_eq!(part.read(1), disordered);
        }
        part.table = right;
        part.table[0].length = WRITTEN_ADDRESSES + 1;
        let wide = part.read(1);
        assert_eq!(wide == disordered, fresh);
        part.table = right;
        assert_eq!(part.read(1), Answer::Allowed(None));
    }
}

#[test]
fn names_are_dropped_together() {
    let mut table = [Cap::EMPTY; 4];
    let mut written = Written::NONE;
    let mut states = Box::new(States::NOTHING);
    let mut tally = Tally::default();
    let text = b"(create 0 8 rw)\n(borrow 1 0 4 rw)\n(create 8 8 rw)\n(create 16 8 rw)\n";
    let lines = 4;
    assert_eq!(
        run(&mut table, &mut written, &mut states, &mut tally, text),
        RunAnswer::Allowed { lines }
    );
    let mut take = |names: &[u32]| {
        let names: Vec<Name> = names.iter().copied().map(Name).collect();
        drop_all(&mut table, &mut written, &mut states, &mut tally, &names)
    };
    assert_eq!(take(&[1, 3, 5]), Answer::Refused(Refusal::Unissued));
    assert_eq!(take(&[1, 2, 3]), Answer::Allowed(None));
    assert_eq!(take(&[3, 4, 5]), Answer::Refused(Refusal::Ended));
    for list in [&[][..], &[4, 4], &[5, 4], &[7; 65]] {
        assert_eq!(take(list), Answer::Refused(Refusal::Misgrouped));
    }
    assert_eq!((table[0].name, table[1]), (4, Cap::EMPTY));
    assert_eq!((tally.drops, tally.refused), (1, 6));
    let answer = run(
        &mut table,
        &mut written,
        &mut states,
        &mut tally,
        b"(drop 4 5)\n",
    );
    let refusal = Refusal::Unissued;
    assert_eq!(answer, RunAnswer::Refused { refusal, line: 1 });
    table[3].name = 1;
    let answer = drop_all(&mut table, &mut written, &mut states, &mut tally, &[]);
    assert_eq!(answer, Answer::Refused(Refusal::Disordered));
    assert_eq!(tally.refused, 7);
}

#[test]
fn names_dropped_together_are_written_and_read() {
    let line = b"(drop 2 5 9)\n";
    let mut out = [b'?'; MAX_DROP_LINE];
    let group = [Name(2), Name(5), Name(9)];
    assert_eq!(write_drop(&group, &mut out), Ok(line.len()));
    assert!(out.starts_with(b"(drop 2 5 9)\n?"));
    let short = &mut out[..line.len() - 1];
    assert_eq!(write_drop(&group, short), Err(Refusal::BufferTooShort));
    assert_eq!(write_drop(&[], &mut []), Err(Refusal::Misgrouped));
    for spelling in BOTH {
        let read = read_event(spelling, line);
        assert!(matches!(read, Ok(Line::DropAll { names, .. }) if *names == group));
        let one = Event::Drop { name: Name(8) };
        assert_eq!(read_event(spelling, b"(drop 8)\n"), Ok(by_zero(one)));
        let falling = read_event(spelling, b"(drop 5 2)\n");
        assert_eq!(falling, Err(Refusal::Misspelt));
    }
    let longest: Vec<Name> = (u32::MAX - 63..=u32::MAX).map(Name).collect();
    assert_eq!(write_drop(&longest, &mut out), Ok(MAX_DROP_LINE - 8));
    let last = Domain::new(63).unwrap();
    assert_eq!(write_drop_by(last, &longest, &mut out), Ok(MAX_DROP_LINE));
    let read = read_event(Spelling::Plain, &out);
    assert!(matches!(read, Ok(Line::DropAll { names, .. }) if *names == *longest));
    assert_eq!(longest.len(), MAX_GROUP);
}

#[test]
fn many_requests_are_taken_in_turn() {
    let mut table = [Cap::EMPTY; 3];
    let mut written = Written::NONE;
    let mut states = Box::new(States::NOTHING);
    let mut tally = Tally::default();
    let create = |start| Event::Create {
        written: None,
        span: span(start, 8),
        right: Right::ReadWrite,
        fresh: false,
        holders: None,
    };
    let names = [Name(1), Name(3), Name(2)];
    let requests = [
        create(0).into(),
        create(8).into(),
        with_name(create(16), 2).into(),
        with_name(create(16), 3).into(),
        create(24).into(),
        Request::drop_all(1..3),
        Request::drop_all(0..2),
        Request::drop_all(0..2),
        Request::drop_all(2..4),
        Request::drop_all(usize::MAX - 1..usize::MAX),
        Event::Drop { name: Name(2) }.into(),
    ];
    let expected = [
        Answer::Allowed(Some(Name(1))),
        Answer::Allowed(Some(Name(2))),
        Answer::Refused(Refusal::Misnamed),
        Answer::Allowed(Some(Name(3))),
        Answer::Refused(Refusal::TableFull),
        Answer::Refused(Refusal::Misgrouped),
        Answer::Allowed(None),
        Answer::Refused(Refusal::Ended),
        Answer::Refused(Refusal::Misgrouped),
        Answer::Refused(Refusal::Misgrouped),
        Answer::Allowed(None),
    ];
    let mut room = [Outcome::EMPTY; 20];
    let answers = apply_all(
        &mut table,
        &mut written,
        &mut states,
        &mut tally,
        &requests,
        &names,
        &mut room,
    );
    assert!(answers.iter().map(|outcome| outcome.answer()).eq(expected));
    assert_eq!(table, [Cap::EMPTY; 3]);
    assert_eq!((tally.issued, tally.drops, tally.refused), (3, 2, 6));
    // As many as there is room for, and none.
    let answers = apply_all(
        &mut table,
        &mut written,
        &mut states,
        &mut tally,
        &requests,
        &names,
        &mut room[..1],
    );
    assert_eq!(answers.len(), 1);
    assert_eq!(answers[0].answer(), Answer::Allowed(Some(Name(4))));
    let answers = apply_all(
        &mut table,
        &mut written,
        &mut states,
        &mut tally,
        &[],
        &[],
        &mut room,
    );
    assert_eq!((answers.len(), tally.issued), (0, 4));
    table[2].name = 1;
    let answers = apply_all(
        &mut table,
        &mut written,
        &mut states,
        &mut tally,
        &requests,
        &names,
        &mut room,
    );
    let disordered = Answer::Refused(Refusal::Disordered);
    assert_eq!(answers.len(), requests.len());
    assert!(answers.iter().all(|outcome| outcome.answer() == disordered));
    assert_eq!(tally.refused, 6);
}

#[test]
fn runs_stop_at_a_refusal() {
    let mut table = vec![Cap::EMPTY; 4];
    let mut written = Written::NONE;
    let mut states = Box::new(States::NOTHING);
    let mut tally = Tally::default();
    let answer = run(
        &mut table,
        &mut written,
        &mut states,
        &mut tally,
        b"(create 0 8 rw)\n(drop 1)\n",
    );
    assert_eq!(answer, RunAnswer::Allowed { lines: 2 });
    let answer = run(
        &mut table,
        &mut written,
        &mut states,
        &mut tally,
        b"(create 0 8 ro)\n(write 2 0 8)\n",
    );
    let refusal = Refusal::ReadOnly;
    assert_eq!(answer, RunAnswer::Refused { refusal, line: 2 });
    let named = b"(trace 2)\n(create 3 0 8 rw)\n(create 5 0 8 rw)\n";
    let answer = run(&mut table, &mut written, &mut states, &mut tally, named);
    let refusal = Refusal::Misnamed;
    assert_eq!(answer, RunAnswer::Refused { refusal, line: 3 });
    let answer = run(
        &mut table,
        &mut written,
        &mut states,
        &mut tally,
        NAMED_HEADER,
    );
    assert_eq!(answer, RunAnswer::Allowed { lines: 1 });
    table[3].name = 1;
    let refusal = Refusal::Disordered;
    let answer = run(&mut table, &mut written, &mut states, &mut tally, b"");
    assert_eq!(answer, RunAnswer::Refused { refusal, line: 0 });
}

#[test]
fn listings_are_written_and_read() {
    let listing = b"(issued 3)\n(1 0 64 rw 0 0000000000000001 (2 0 16 ro 0 0000000000000001) \
        (3 16 16 rw 0 0000000000000001))\n";
    let mut table = [Cap::EMPTY; 4];
    let mut tally = Tally::default();
    assert_eq!(read_listing(listing, &mut table, &mut tally), Ok(()));
    assert_eq!(tally.issued, 3);
    assert_eq!(
        (table[2].parent, table[2].depth, table[3]),
        (1, 2, Cap::EMPTY)
    );
    let mut out = [0; 128];
    assert_eq!(write_listing(&table, 3, &mut out), Ok(listing.len()));
    assert!(out.starts_with(listing));
    assert_eq!(write_listing(&table, 2, &mut out), Err(Refusal::Disordered));
    let few = &mut table[..2];
    assert_eq!(
        read_listing(listing, few, &mut tally),
        Err(Refusal::TableFull)
    );
    for wrong in [
        &b"?"[..],
        b"(issued 3)\n(1 0 64 rw (2 0 16 ro) (3 16 16 rw))\n",
    ] {
        assert_eq!(read_listing(wrong, few, &mut tally), Err(Refusal::Misspelt));
    }
    let many = &mut vec![Cap::EMPTY; MAX_ROWS + 1];
    assert_eq!(
        read_listing(listing, many, &mut tally),
        Err(Refusal::Disordered)
    );
}

/// A listing in which each form has domain 0 as its maker and its one holder.
fn of_zero(listing: &str) -> Vec<u8> {
    let (issued, forms) = listing.split_once('\n').unwrap();
    let mut text = issued.to_string() + "\n";
    let mut is_in_head = false;
    for (at, letter) in forms.char_indices() {
        let ends = letter == ')' || forms[at..].starts_with(" (");
        if is_in_head && ends {
            text += " 0 0000000000000001";
        }
        is_in_head = letter == '(' || (is_in_head && !ends);
        text.push(letter);
    }
    text.into_bytes()
}

#[test]
fn listings_have_kinds() {
    let listing = of_zero("(issued 4)\n(1 0 64 rw (2 0 8 rw raw (3 0 4 ro)) (4 8 8 ro cell))\n");
    let mut table = [Cap::EMPTY; 5];
    let mut tally = Tally::default();
    assert_eq!(read_listing(&listing, &mut table, &mut tally), Ok(()));
    let kinds = table.map(|row| Kind::from_number(row.kind).unwrap());
    assert_eq!(kinds[..3], [Kind::Reference, Kind::Raw, Kind::Reference]);
    assert_eq!((kinds[3], table[4]), (Kind::Cell, Cap::EMPTY));
    let mut out = [0; MAX_LISTING];
    assert_eq!(write_listing(&table, 4, &mut out), Ok(listing.len()));
    assert!(out.starts_with(&listing));
    for wrong in [
        "(issued 1)\n(1 0 64 rw cell)\n",
        "(issued 2)\n(1 0 64 rw (2 0 8 rw reference))\n",
        "(issued 2)\n(1 0 64 rw (2 0 8 raw rw))\n",
    ] {
        let read = read_listing(&of_zero(wrong), &mut table, &mut tally);
        assert_eq!(read, Err(Refusal::Misspelt));
    }
    assert_eq!(tally.issued, 4);
}

#[test]
fn listings_have_marks() {
    let listing = of_zero("(issued 2)\n(1 0 8 rw fresh (2 0 4 ro cell fresh))\n");
    let mut table = [Cap::EMPTY; 3];
    let mut tally = Tally::default();
    assert_eq!(read_listing(&listing, &mut table, &mut tally), Ok(()));
    assert_eq!(table.map(|row| row.fresh), [1, 1, 0]);
    let mut out = [0; MAX_LISTING];
    assert_eq!(write_listing(&table, 2, &mut out), Ok(listing.len()));
    assert!(out.starts_with(&listing));
    for wrong in [
        "(issued 1)\n(1 0 8 fresh rw)\n",
        "(issued 1)\n(1 65536 1 rw fresh)\n",
        "(issued 2)\n(1 0 8 rw fresh (2 0 4 ro cell))\n",
        "(issued 2)\n(1 0 8 rw (2 0 4 ro fresh))\n",
        "(issued 2)\n(1 0 8 rw fresh (2 0 4 ro fresh cell))\n",
    ] {
        let read = read_listing(&of_zero(wrong), &mut table, &mut tally);
        assert_eq!(read, Err(Refusal::Misspelt));
    }
    // The bits are not in a listing: here they are those of a table that wrote the first four.
    let mut written = Written::NONE;
    let mut states = Box::new(States::NOTHING);
    written.0[0] = 0x0f;
    let text = b"(read 2 0 4)\n(read 1 0 8)\n";
    let answer = run(&mut table, &mut written, &mut states, &mut tally, text);
    let refusal = Refusal::NotWritten;
    assert_eq!(answer, RunAnswer::Refused { refusal, line: 2 });
    assert_eq!(written.0[0], 0x0f);
}

#[test]
fn capcheck_prints_the_verdict_and_the_listing() {
    let mut out = vec![0; MAX_CHECK];
    let mut states = Box::new(States::NOTHING);
    let length = check(&mut states, b"(create 0 8 rw)\n", &mut out).unwrap();
    let expected = b"(allowed 1)\n(issued 1)\n(1 0 8 rw 0 0000000000000001)\n";
    assert_eq!(&out[..length], expected);
    let input = b"(create 0 8 rw fresh)\n(read 1 0 8)\n";
    let length = check(&mut states, input, &mut out).unwrap();
    let expected = b"(refused 16 2)\n(issued 1)\n(1 0 8 rw fresh 0 0000000000000001)\n";
    assert_eq!(&out[..length], expected);
    let short = check(&mut states, b"", &mut []);
    assert_eq!(short, Err(Refusal::BufferTooShort));
}

#[test]
fn refusals_have_their_numbers() {
    for number in 1..=19 {
        let refusal = Refusal::from_number(number).unwrap();
        assert_eq!(u32::from(refusal.number()), number);
    }
    assert_eq!(Refusal::from_number(0), None);
    assert_eq!(Refusal::from_number(20), None);
    assert_eq!(
        Refusal::Ended.to_string(),
        "refusal 5, the capability has ended"
    );
    assert_eq!(
        Refusal::NotWritten.to_string(),
        "refusal 16, read before it was written"
    );
    assert_eq!(
        Refusal::NotHolder.to_string(),
        "refusal 17, the domain is no holder"
    );
    assert_eq!(
        Refusal::LimitReached.to_string(),
        "refusal 18, the domain has reached its limit"
    );
    assert_eq!(
        Refusal::NothingStored.to_string(),
        "refusal 19, nothing is stored in the slot"
    );
}
