//! Card 11: marks and backs, sentence by sentence, what is stored and judged on going back, and its traces, each
//! taken on a table and beside its history.

mod both;

use both::{Both, ROWS, act, after};
use oracle::domain_traces::limits;
use oracle::state_traces::{OF_DOMAINS, STATES};
use oracle::traces::whole;
use oracle::{
    Act, By, Event, HEADER, History, Lent, MAX_ROWS, Row, SLOTS, Slot, Spelling, States, Tally,
    WRITTEN_BYTES, Written, apply, check, drop_all, event_line, listing, read_drop_line,
    read_event_line, read_listing, run, write_event,
};

fn mark(actor: u32, slot: u32) -> Act {
    Act {
        actor,
        event: Event::Mark { slot },
    }
}

fn back(actor: u32, slot: u32) -> Act {
    Act {
        actor,
        event: Event::Back { slot },
    }
}

fn by(limits: &[u32]) -> By<'_> {
    By {
        sheet: None,
        limits,
    }
}

/// A root and a borrow of it, both by domain 0, stored in slot 0; then the borrow is dropped.
fn stored() -> Both {
    after(&[
        ("(create 0 8 rw)", Ok(1)),
        ("(borrow 1 0 8 rw)", Ok(2)),
        ("(mark 0)", Ok(0)),
        ("(drop 2)", Ok(0)),
    ])
}

/// An event on what is lent, alone and as the one line of a run.
fn answers(both: &mut Both, limits: &[u32], act: Act) -> Result<u32, u8> {
    let line = event_line(act, Spelling::Plain);
    let mut other = Both {
        rows: both.rows.clone(),
        written: both.written.clone(),
        states: both.states.clone(),
        tally: both.tally,
        history: both.history.clone(),
    };
    let answer = apply(by(limits), both.lent(), act);
    if let Some(line) = line {
        let ran = run(by(limits), other.lent(), line.as_bytes());
        assert_eq!(ran, answer.map(|_| 1).map_err(|number| (number, 1)));
        assert_eq!(other.rows, both.rows);
        assert_eq!(other.written, both.written);
        assert_eq!(other.states, both.states);
        assert_eq!(other.tally, both.tally);
    }
    answer
}

// ---- traces

#[test]
fn every_trace_goes_as_it_says() {
    for (name, steps, expected) in STATES {
        let Both { rows, tally, .. } = after(steps);
        assert_eq!(listing(&rows, tally.issued), whole(expected), "{name}");
    }
    for (name, steps, expected) in OF_DOMAINS {
        let Both { rows, tally, .. } = after(steps);
        assert_eq!(listing(&rows, tally.issued), expected, "{name}");
    }
}

// ---- how they are written

#[test]
fn every_slot_has_its_lines() {
    for slot in 0..SLOTS {
        for (act, line) in [
            (mark(0, slot), format!("(mark {slot})\n")),
            (back(0, slot), format!("(back {slot})\n")),
            (mark(2, slot), format!("(as 2 (mark {slot}))\n")),
            (back(63, slot), format!("(as 63 (back {slot}))\n")),
        ] {
            for spelling in [Spelling::Plain, Spelling::Named] {
                assert_eq!(event_line(act, spelling).as_deref(), Some(&line[..]));
                assert_eq!(read_event_line(line.as_bytes(), spelling), Some(act));
            }
            assert_eq!(read_drop_line(line.as_bytes()), None);
        }
    }
    assert_eq!(
        mark(3, 5).words(),
        [7, 5, 0, 0, 0, 0, 0, 0, 0, 3, 0, 0],
        "the slot stands in the place of the name"
    );
    assert_eq!(back(0, 7).words()[..2], [8, 7]);
}

#[test]
fn no_other_line_marks_or_goes_back() {
    let lines = [
        "(mark 8)",
        "(back 8)",
        "(mark 10)",
        "(mark 03)",
        "(mark 00)",
        "(mark -1)",
        "(mark 4294967296)",
        "(mark 4294967299)",
        "(mark)",
        "(mark )",
        "(mark 3 )",
        "(mark 3 4)",
        "(mark  3)",
        "( mark 3)",
        "(Mark 3)",
        "(marks 3)",
        "(mar 3)",
        "(back)",
        "(back 3 rw)",
        "(mark three)",
        "(mark 3",
        "mark 3",
        "(mark 3))",
        "(as 0 (mark 1))",
        "(as 64 (mark 1))",
        "(as 2 (mark 8))",
        "(as 2 (as 2 (mark 1)))",
        "(mark (as 2 1))",
        "(as 2 mark 1)",
        "(mark 1 0 8)",
        "(mark 1 0000000000000003)",
    ];
    for line in lines {
        let line = format!("{line}\n");
        for spelling in [Spelling::Plain, Spelling::Named] {
            assert_eq!(read_event_line(line.as_bytes(), spelling), None, "{line}");
        }
    }
}

#[test]
fn what_is_no_slot_is_2_and_has_no_spelling() {
    for slot in [8, 9, 255, 256, 1_025, 1 << 31, u32::MAX] {
        let mut both = stored();
        for act in [mark(0, slot), back(0, slot), back(64, slot)] {
            assert_eq!(both.answer(&[], act), Err(2));
            assert_eq!(event_line(act, Spelling::Plain), None);
            // 2 stands before 11.
            assert_eq!(write_event(act, Spelling::Plain, 0), Err(2));
        }
        assert_eq!(both.tally.refused, 3);
    }
    for actor in [64, 65, u32::MAX] {
        let mut both = stored();
        for act in [mark(actor, 0), back(actor, 0), back(actor, 7)] {
            assert_eq!(both.answer(&[], act), Err(2));
        }
        assert_eq!(both.tally.refused, 3);
    }
    assert_eq!(write_event(mark(0, 0), Spelling::Plain, 8), Err(11));
    assert!(write_event(mark(0, 0), Spelling::Plain, 9).is_ok());
}

// ---- what they count

/// 'Issued names and the tally are never turned back'; 'allowed, they .. count only as a line'.
#[test]
fn the_tally_is_not_turned_back() {
    let mut both = after(&[
        ("(create 0 8 rw)", Ok(1)),
        ("(mark 0)", Ok(0)),
        ("(borrow 1 0 8 rw)", Ok(2)),
        ("(read 2 0 8)", Ok(0)),
        ("(write 2 0 8)", Ok(0)),
        ("(drop 2)", Ok(0)),
        ("(drop 2)", Err(5)),
    ]);
    let tally = both.tally;
    assert_eq!(both.answer(&[], back(0, 0)), Ok(0));
    assert_eq!(both.answer(&[], mark(0, 1)), Ok(0));
    assert_eq!(both.tally, tally);
    assert_eq!(both.answer(&[], back(0, 5)), Err(19));
    let refused = tally.refused + 1;
    assert_eq!(both.tally, Tally { refused, ..tally });
    // A count at its ceiling stays there.
    both.tally.refused = u32::MAX;
    assert_eq!(apply(by(&[]), both.lent(), back(0, 5)), Err(19));
    assert_eq!(both.tally.refused, u32::MAX);
}

#[test]
fn a_mark_changes_its_slot_alone() {
    let mut both = stored();
    let before = (both.rows.clone(), both.written.clone(), both.tally);
    let mut states = both.states.clone();
    assert_eq!(both.answer(&[], mark(0, 6)), Ok(0));
    states.mark(6, &both.rows, &both.written);
    assert_eq!(both.states, states);
    assert_eq!((both.rows, both.written, both.tally), before);
}

#[test]
fn only_marks_change_the_memory() {
    let mut both = stored();
    let states = both.states.clone();
    for line in [
        "(create 8 8 rw)",
        "(borrow 1 0 8 rw)",
        "(read 1 0 8)",
        "(write 1 0 8)",
        "(back 0)",
        "(back 1)",
        "(drop 1)",
        "(drop 9)",
    ] {
        let _ = both.answer(&[], act(line));
        assert_eq!(both.states, states, "{line}");
    }
    assert_eq!(both.answer(&[], back(0, 0)), Ok(0));
    assert_eq!(drop_all(by(&[]), both.lent(), 0, &[1, 2]), Ok(0));
    assert_eq!(both.states, states);
}

// ---- the memory

#[test]
fn memory_of_another_size_is_1() {
    let mut both = stored();
    let before = (both.rows.clone(), both.written.clone(), both.tally);
    let mut lent = Lent {
        states: None,
        ..both.lent()
    };
    let unknown = Act {
        actor: 64,
        event: Event::Unknown,
    };
    for act in [
        act("(read 1 0 8)"),
        mark(0, 0),
        back(0, 0),
        back(64, 9),
        unknown,
    ] {
        assert_eq!(apply(by(&[]), lent.again(), act), Err(1));
    }
    assert_eq!(drop_all(by(&[]), lent.again(), 64, &[]), Err(1));
    for text in ["", "?", "(mark 0)\n", "(trace 2)\n(back 1)\n"] {
        assert_eq!(run(by(&[]), lent.again(), text.as_bytes()), Err((1, 0)));
    }
    assert_eq!((both.rows, both.written, both.tally), before);
}

/// What a back gives where slot 0 has this table.
fn back_to(both: &mut Both, limits: &[u32], rows: &[Row]) -> Result<u32, u8> {
    both.states.mark(0, rows, &Written::default());
    answers(both, limits, back(0, 0))
}

/// 'A stored table that is out of order .. or has another number of rows, is 1 on going back to it.'
#[test]
fn a_stored_table_is_judged_on_going_back() {
    let whole = {
        let both = stored();
        match both.states.slot(0) {
            Some(Slot::Stored(state)) => state.rows.clone(),
            other => panic!("{other:?}"),
        }
    };
    assert_eq!(back_to(&mut stored(), &[], &whole), Ok(0));
    let changed = |change: fn(&mut Vec<Row>)| {
        let mut rows = whole.clone();
        change(&mut rows);
        rows
    };
    let others = [
        changed(|rows| rows.swap(0, 1)),
        changed(|rows| rows[1].name = 3),
        changed(|rows| rows[1].right = 3),
        changed(|rows| rows[1].length = 9),
        changed(|rows| rows[1].holders = 2),
        changed(|rows| rows[1].fresh = 1),
        changed(|rows| rows[7].maker = 1),
        changed(|rows| rows.truncate(ROWS - 1)),
        changed(|rows| rows.push(Row::default())),
        changed(Vec::clear),
        changed(|rows| rows.resize(MAX_ROWS, Row::default())),
    ];
    for rows in &others {
        let mut both = stored();
        let before = (both.rows.clone(), both.written.clone(), both.tally);
        assert_eq!(back_to(&mut both, &[], rows), Err(1), "{rows:?}");
        // 1 stands before 2.
        assert_eq!(answers(&mut both, &[], back(64, 0)), Err(1));
        // Other slots and other events are not concerned.
        assert_eq!(answers(&mut both, &[], back(0, 1)), Err(19));
        let refused = before.2.refused + 1;
        let tally = Tally {
            refused,
            ..before.2
        };
        assert_eq!(
            (&both.rows, &both.written, both.tally),
            (&before.0, &before.1, tally)
        );
        assert_eq!(answers(&mut both, &[], act("(read 1 0 8)")), Ok(0));
        assert_eq!(answers(&mut both, &[], mark(0, 0)), Ok(0));
        assert_eq!(answers(&mut both, &[], back(0, 0)), Ok(0));
    }
}

/// Names are judged with the number that is issued now.
#[test]
fn a_stored_table_is_judged_with_the_present_names() {
    let mut both = stored();
    both.tally.issued = 1;
    assert_eq!(answers(&mut both, &[], back(0, 0)), Err(1));
    both.tally.issued = 9;
    assert_eq!(answers(&mut both, &[], back(0, 0)), Ok(0));
    assert_eq!(both.tally.issued, 9);
}

/// A head that no mark leaves, and a table lent with another number of rows than it was marked with.
#[test]
fn misfits_and_tables_of_other_sizes() {
    let (mut rows, bytes) = stored().states.memory();
    // Two rows are kept of eight. What is kept may be empty too, or be less.
    for (head, empty, expected) in [
        (3, 6, Ok(0)),
        (2, 7, Ok(0)),
        (1, 8, Ok(0)),
        (9, 0, Ok(0)),
        (3, 5, Err(1)),
        (3, 7, Err(1)),
        (9, 8, Err(1)),
        (1, 0, Err(1)),
        (1_026, 0, Err(1)),
        (u32::MAX, u32::MAX, Err(1)),
        // In 32 bits these are eight rows.
        (10, u32::MAX, Err(1)),
        (u32::MAX, 10, Err(1)),
    ] {
        let mut both = stored();
        rows[0].name = head;
        rows[0].parent = empty;
        both.states = States::lent(&rows, &bytes).unwrap();
        let answer = answers(&mut both, &[], back(0, 0));
        assert_eq!(answer, expected, "{head} {empty}");
    }
    for count in [0, 1, ROWS - 1, ROWS + 1, MAX_ROWS] {
        let mut both = stored();
        both.rows.resize(count, Row::default());
        assert_eq!(answers(&mut both, &[], back(0, 0)), Err(1));
    }
}

// ---- limits

/// 'Over a lent limit': judged with the limits that are lent now.
#[test]
fn a_stored_table_is_judged_with_the_present_limits() {
    for (some, expected) in [
        (&[(0, 1)][..], Err(1)),
        (&[(0, 2)], Ok(0)),
        (&[(0, 1), (1, 7)], Err(1)),
        (&[(0, 8)], Ok(0)),
        // The limits themselves are refused.
        (&[(0, 9)], Err(1)),
        (&[(1, 8)], Err(1)),
    ] {
        let mut both = stored();
        let before = (both.rows.clone(), both.tally);
        let limits = limits(some);
        let answer = both.answer(&limits, back(0, 0));
        assert_eq!(answer, expected, "{some:?}");
        if expected.is_err() {
            assert_eq!((&both.rows, both.tally), (&before.0, before.1));
            // 1 stands before 2 and 19 is of other slots.
            assert_eq!(both.answer(&limits, back(64, 0)), Err(1));
        }
    }
    let mut both = stored();
    assert_eq!(both.answer(&limits(&[(0, 1)]), back(0, 1)), Err(19));
    assert_eq!(both.answer(&limits(&[(0, 1)]), mark(0, 0)), Ok(0));
    assert_eq!(both.answer(&limits(&[(0, 1)]), back(0, 0)), Ok(0));
    assert_eq!(
        both.answer(&limits(&[(0, 1)]), act("(borrow 1 0 8 rw)")),
        Err(18)
    );
}

// ---- runs

/// 'In a run this 1 carries its own line number, and the lines before it stand.'
#[test]
fn one_of_a_back_in_a_run_has_its_line() {
    let one = limits(&[(0, 1)]);
    for (header, first) in [(&b""[..], 0), (HEADER, 1)] {
        let text = [header, b"(write 1 0 4)\n(mark 1)\n(back 0)\n(drop 1)\n"].concat();
        let mut both = stored();
        let refused = both.tally.refused;
        assert_eq!(run(by(&one), both.lent(), &text), Err((1, first + 3)));
        assert_eq!(both.tally.refused, refused);
        assert_eq!(both.tally.writes, 1);
        assert!(both.written.has_all(oracle::Span {
            start: 0,
            length: 4
        }));
        assert!(matches!(both.states.slot(1), Some(Slot::Stored(_))));
        // Without limits all lines are allowed, and the drop takes both rows.
        let mut both = stored();
        assert_eq!(run(by(&[]), both.lent(), &text), Ok(first + 4));
        assert_eq!(both.rows, [Row::default(); ROWS]);
        assert_eq!(both.written, Written::default());
    }
    let mut both = stored();
    assert_eq!(run(by(&one), both.lent(), b"(back 0)\n"), Err((1, 1)));
    assert_eq!(
        run(by(&one), both.lent(), b"(mark 3)\n(back 4)\n"),
        Err((19, 2))
    );
    assert_eq!(run(by(&one), both.lent(), b"(mark 8)\n"), Err((2, 1)));
    both.rows.swap(0, 1);
    assert_eq!(run(by(&one), both.lent(), b"(back 0)\n"), Err((1, 0)));
}

#[test]
fn capcheck_begins_with_nothing_stored() {
    let input = "(create 0 8 rw)\n(mark 7)\n(drop 1)\n(back 7)\n(read 1 0 8)\n(back 0)\n";
    let printed = "(refused 19 6)\n(issued 1)\n(1 0 8 rw 0 0000000000000001)\n";
    assert_eq!(check(input.as_bytes(), 100), Ok(printed.to_string()));
}

/// A listing has neither what is stored nor what is written, and reading one leaves both.
#[test]
fn listings_have_no_states() {
    let both = stored();
    let text = listing(&both.rows, both.tally.issued);
    assert_eq!(
        read_listing(text.as_bytes(), ROWS),
        Ok((2, both.rows.clone()))
    );
}

// ---- the history

/// 'The history .. is the one that stood at the mark, except that its count of names stays as it is now.'
#[test]
fn the_history_is_the_one_at_the_mark() {
    let mut history = History::new(ROWS);
    let mut take = |line: &str| history.answer(&[], act(line)).expect(line);
    take("(create 0 8 rw fresh)");
    take("(write 1 0 4)");
    take("(mark 2)");
    take("(write 1 4 4)");
    take("(borrow 1 0 8 ro)");
    take("(create 0 8 rw)");
    take("(back 2)");
    assert_eq!(history.count(), 3);
    assert_eq!(history.written().bytes()[..2], [15, 0]);
    assert!(history.lives(1) && !history.lives(2) && !history.lives(3));
    let span = |length| oracle::Span { start: 0, length };
    assert!(history.may_read(&[], 0, 1, span(4)) && !history.may_read(&[], 0, 1, span(5)));
    assert!(history.may_write(&[], 0, 1, span(8)));
    assert!(!history.may_read(&[], 0, 2, span(1)) && !history.may_write(&[], 0, 3, span(1)));
    assert_eq!(history.answer(&[], act("(read 3 0 1)")), Err(5));
    assert_eq!(history.answer(&[], act("(create 8 8 rw)")), Ok(4));
}

#[test]
fn the_history_of_too_many_rows_is_1() {
    let mut history = History::new(MAX_ROWS + 1);
    for act in [mark(0, 0), back(0, 0), mark(64, 9)] {
        assert_eq!(history.answer(&[], act), Err(1));
    }
}

/// Bits of another length are 1 for marks and backs too, and bits are stored whole.
#[test]
fn bits_are_stored_whole() {
    let mut both = Both::empty(ROWS);
    let mut bytes = vec![0; WRITTEN_BYTES];
    for (at, byte) in bytes.iter_mut().enumerate() {
        *byte = (at * 7) as u8;
    }
    both.written = Written::lent(&bytes).unwrap();
    assert_eq!(answers(&mut both, &[], mark(0, 3)), Ok(0));
    assert_eq!(answers(&mut both, &[], act("(create 0 65536 rw)")), Ok(1));
    assert_eq!(both.written, Written::default());
    assert_eq!(answers(&mut both, &[], back(0, 3)), Ok(0));
    assert_eq!(both.written.bytes(), bytes);
    let lent = Lent {
        written: None,
        ..both.lent()
    };
    assert_eq!(apply(by(&[]), lent, back(0, 3)), Err(1));
}
