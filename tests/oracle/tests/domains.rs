//! Card 10, sentence by sentence: who acts, holders and how they are written, names dropped together, and
//! charges; and its traces, each taken on a table and beside its history.

mod both;

use both::{Both, ROWS, act, after, answer_on};
use oracle::domain_traces::DOMAINS;
use oracle::{
    Act, By, Charge, Event, MAX_NAME, MAX_ROWS, READ_WRITE, Row, Span, Spelling, charge, check,
    drop_all, drop_line, event_line, in_order, listing, read_drop_line, read_event_line,
    read_listing, write_drop, write_event,
};

const WHOLE: Span = Span {
    start: 0,
    length: 8,
};

fn create(actor: u32, holders: u64) -> Act {
    let event = Event::Create {
        written: None,
        span: WHOLE,
        right: READ_WRITE,
        fresh: 0,
        holders,
    };
    Act { actor, event }
}

fn borrow(actor: u32, parent: u32, holders: u64) -> Act {
    let event = Event::Borrow {
        written: None,
        parent,
        span: WHOLE,
        right: READ_WRITE,
        kind: 0,
        holders,
    };
    Act { actor, event }
}

// ---- traces

#[test]
fn every_trace_goes_as_it_says() {
    for (name, steps, expected) in DOMAINS {
        let Both { rows, tally, .. } = after(steps);
        assert_eq!(listing(&rows, tally.issued), expected, "{name}");
        assert_eq!(
            read_listing(expected.as_bytes(), ROWS),
            Ok((tally.issued, rows)),
            "{name}"
        );
    }
}

// ---- who acts

#[test]
fn lines_say_who_acts() {
    for (actor, line) in [
        (0, "(read 2 0 8)\n"),
        (1, "(as 1 (read 2 0 8))\n"),
        (9, "(as 9 (read 2 0 8))\n"),
        (63, "(as 63 (read 2 0 8))\n"),
    ] {
        let event = Event::Read {
            name: 2,
            span: WHOLE,
        };
        let act = Act { actor, event };
        for spelling in [Spelling::Plain, Spelling::Named] {
            assert_eq!(event_line(act, spelling).as_deref(), Some(line));
            assert_eq!(read_event_line(line.as_bytes(), spelling), Some(act));
        }
    }
    for (actor, line) in [(0, "(drop 2 5 9)\n"), (63, "(as 63 (drop 2 5 9))\n")] {
        assert_eq!(drop_line(actor, &[2, 5, 9]).as_deref(), Some(line));
        assert_eq!(
            read_drop_line(line.as_bytes()),
            Some((actor, vec![2, 5, 9]))
        );
    }
    assert_eq!(
        drop_line(3, &[2]),
        event_line(
            Act {
                actor: 3,
                event: Event::Drop { name: 2 }
            },
            Spelling::Plain
        )
    );
}

#[test]
fn no_other_line_says_who_acts() {
    let lines = [
        "(as 0 (read 2 0 8))",
        "(as 64 (read 2 0 8))",
        "(as 65 (read 2 0 8))",
        "(as 03 (read 2 0 8))",
        "(as 4294967299 (read 2 0 8))",
        "(as -3 (read 2 0 8))",
        "(as (read 2 0 8))",
        "(as  3 (read 2 0 8))",
        "(as 3  (read 2 0 8))",
        "(as 3(read 2 0 8))",
        "(as 3 read 2 0 8)",
        "(as 3 (read 2 0 8)",
        "(as 3 (read 2 0 8)))",
        "(as 3 (read 2 0 8) )",
        "(as 3 (read 2 0 8)) ",
        " (as 3 (read 2 0 8))",
        "( as 3 (read 2 0 8))",
        "(As 3 (read 2 0 8))",
        "(as 3 (as 3 (read 2 0 8)))",
        "(as 3 ((read 2 0 8)))",
        "(as 3 )",
        "(as 3)",
        "(as 3 (read 2 0 8)\n)",
        "as 3 (read 2 0 8)",
        "(as 3 (drop 5 2))",
        "(as 3 (drop))",
        "(as 3 (trace 2))",
    ];
    for line in lines {
        let line = format!("{line}\n");
        for spelling in [Spelling::Plain, Spelling::Named] {
            assert_eq!(read_event_line(line.as_bytes(), spelling), None, "{line}");
        }
        assert_eq!(read_drop_line(line.as_bytes()), None, "{line}");
    }
}

#[test]
fn a_domain_above_63_is_2_in_every_event() {
    let events = [
        "(create 0 8 rw)",
        "(borrow 9 0 8 rw)",
        "(read 9 0 8)",
        "(write 9 0 8)",
        "(drop 9)",
    ];
    for actor in [64, 65, 128, 256, 1 << 31, u32::MAX] {
        let mut both = after(&[("(create 0 8 rw)", Ok(1))]);
        for line in events {
            let event = act(line).event;
            assert_eq!(both.answer(&[], Act { actor, event }), Err(2), "{line}");
            assert_eq!(event_line(Act { actor, event }, Spelling::Plain), None);
        }
        assert_eq!(both.tally.refused, events.len() as u32);
    }
}

// ---- holders

#[test]
fn holders_stand_last_unless_they_are_the_maker_alone() {
    let lines = [
        (0, 1, "(create 0 8 rw)\n"),
        (0, 3, "(create 0 8 rw 0000000000000003)\n"),
        (3, 8, "(as 3 (create 0 8 rw))\n"),
        (3, 9, "(as 3 (create 0 8 rw 0000000000000009))\n"),
        (63, 1 << 63, "(as 63 (create 0 8 rw))\n"),
        (63, u64::MAX, "(as 63 (create 0 8 rw ffffffffffffffff))\n"),
    ];
    for (actor, holders, line) in lines {
        let act = create(actor, holders);
        assert_eq!(event_line(act, Spelling::Plain).as_deref(), Some(line));
        assert_eq!(read_event_line(line.as_bytes(), Spelling::Plain), Some(act));
    }
    let named = "(as 3 (borrow 2 1 0 8 ro cell 0123456789abcdef))\n";
    let act = read_event_line(named.as_bytes(), Spelling::Named).expect("a line");
    assert_eq!(act.event.holders(), Some(0x0123_4567_89ab_cdef));
    assert_eq!(event_line(act, Spelling::Named).as_deref(), Some(named));
    assert_eq!(
        act.words(),
        [2, 1, 0, 8, 1, 1, 2, 2, 0, 3, 0x89ab_cdef, 0x0123_4567]
    );
}

#[test]
fn no_other_line_has_holders() {
    let lines = [
        // The maker alone, and masks without it.
        "(create 0 8 rw 0000000000000001)",
        "(as 3 (create 0 8 rw 0000000000000008))",
        "(create 0 8 rw 0000000000000002)",
        "(create 0 8 rw 0000000000000000)",
        "(as 3 (create 0 8 rw 0000000000000001))",
        "(as 3 (create 0 8 rw fffffffffffffff7))",
        "(create 0 8 rw 000000000000003)",
        "(create 0 8 rw 00000000000000003)",
        "(create 0 8 rw 000000000000000B)",
        "(create 0 8 rw 3)",
        "(create 0 8 rw 0000000000000003 0000000000000003)",
        "(create 0 8 rw 0000000000000003 fresh)",
        "(create 0 8 0000000000000003 rw)",
        "(create 0 8 0000000000000003)",
        "(create 0 8 rw  0000000000000003)",
        "(create 0 8 rw 0000000000000003 )",
        "(create 0 8 rw0000000000000003)",
        "(borrow 1 0 8 rw 0000000000000003 raw)",
        "(borrow 1 0 8 rw raw 0000000000000001)",
        "(borrow 1 0 8 rw fresh 0000000000000003)",
        "(read 1 0 8 0000000000000003)",
        "(write 1 0 8 0000000000000003)",
        "(drop 1 0000000000000003)",
    ];
    for line in lines {
        let line = format!("{line}\n");
        assert_eq!(
            read_event_line(line.as_bytes(), Spelling::Plain),
            None,
            "{line}"
        );
        assert_eq!(read_drop_line(line.as_bytes()), None, "{line}");
    }
}

#[test]
fn a_mask_without_its_maker_is_2_in_an_event() {
    let mut both = after(&[("(create 0 8 rw ffffffffffffffff)", Ok(1))]);
    for (actor, holders) in [(0, 0), (0, 2), (1, 1), (3, !8), (63, 1 << 62), (32, 1)] {
        for act in [
            create(actor, holders),
            borrow(actor, 1, holders),
            borrow(actor, 9, holders),
        ] {
            assert_eq!(both.answer(&[], act), Err(2), "{act:?}");
            assert_eq!(event_line(act, Spelling::Plain), None);
            assert_eq!(write_event(act, Spelling::Plain, 0), Err(2));
        }
    }
    assert_eq!(both.answer(&[], borrow(32, 1, 1 << 32)), Ok(2));
}

#[test]
fn the_record_gains_maker_and_holders() {
    let Both { rows, .. } = after(&[
        ("(as 3 (create 0 64 rw 000000000000000c))", Ok(1)),
        ("(as 2 (borrow 1 0 8 rw))", Ok(2)),
    ]);
    let of = |row: &Row| (row.maker, row.holders);
    assert_eq!(
        [of(&rows[0]), of(&rows[1]), of(&rows[2])],
        [(3, 12), (2, 4), (0, 0)]
    );
}

/// A root and a borrow of it, of these makers and holders.
fn of_domains(root: (u32, u64), borrowed: (u32, u64)) -> Vec<Row> {
    let mut both = after(&[("(create 0 64 rw)", Ok(1)), ("(borrow 1 0 8 rw)", Ok(2))]);
    for (row, (maker, holders)) in both.rows.iter_mut().zip([root, borrowed]) {
        row.maker = maker;
        row.holders = holders;
    }
    both.rows
}

#[test]
fn a_row_of_no_domain_or_without_its_maker_is_1() {
    let right = [
        (0, 1),
        (0, u64::MAX),
        (63, 1 << 63),
        (31, 1 << 31),
        (32, 3 << 32),
    ];
    let wrong = [
        (0, 0),
        (0, 2),
        (64, 1),
        (64, u64::MAX),
        (256, 1),
        (u32::MAX, u64::MAX),
        (63, !(1 << 63)),
        (32, 1),
        (0, 1 << 32),
    ];
    for one in right {
        for other in right {
            assert!(in_order(&of_domains(one, other), 2));
        }
        for other in wrong {
            for rows in [of_domains(one, other), of_domains(other, one)] {
                assert!(!in_order(&rows, 2), "{other:?}");
                assert_eq!(charge(&rows, 2, 1), Err(1));
                let answer = answer_on(By::default(), &rows, 2, act("(drop 1)"));
                assert_eq!(answer, Err(1));
            }
        }
    }
    for empty in [(1, 0), (0, 1), (0, 1 << 32)] {
        let mut rows = of_domains((0, 1), (0, 1));
        (rows[ROWS - 1].maker, rows[ROWS - 1].holders) = empty;
        assert!(!in_order(&rows, 2), "{empty:?}");
    }
}

#[test]
fn listings_without_maker_and_holders_are_2() {
    let text = "(issued 2)\n(1 0 64 rw 0 0000000000000001 (2 0 8 ro raw 3 0000000000000009))\n";
    assert!(read_listing(text.as_bytes(), 2).is_ok());
    let changes = [
        (" 0 0000000000000001", ""),
        (" 3 0000000000000009", ""),
        (" 0 0000000000000001", " 0"),
        (" 0 0000000000000001", " 0000000000000001"),
        (" 0 0000000000000001", " 0000000000000001 0"),
        (" 0 0000000000000001", " 00 0000000000000001"),
        (" 0 0000000000000001", " 0 000000000000001"),
        (" 0 0000000000000001", " 0 00000000000000001"),
        (" 0 0000000000000001", " 0 0000000000000000"),
        (" 0 0000000000000001", " 0 fffffffffffffffe"),
        (" 0 0000000000000001", " 64 ffffffffffffffff"),
        (" 0 0000000000000001", " 1 0000000000000001"),
        (" 0 0000000000000001", " 0  0000000000000001"),
        (" 0 0000000000000001", " 0 000000000000000F"),
        ("ro raw 3 0000000000000009", "ro 3 0000000000000009 raw"),
        ("ro raw 3 0000000000000009", "3 0000000000000009 ro raw"),
        (
            " 3 0000000000000009))",
            " 3 0000000000000009 0000000000000009))",
        ),
    ];
    for (piece, other) in changes {
        let text = text.replace(piece, other);
        assert_eq!(read_listing(text.as_bytes(), 2), Err(2), "{text}");
    }
    let behind = "(issued 2)\n(1 0 64 rw (2 0 8 ro 0 0000000000000001) 0 0000000000000001)\n";
    assert_eq!(read_listing(behind.as_bytes(), 2), Err(2));
}

#[test]
fn document_01s_example() {
    let input = "(create 0 64 rw)\n(borrow 1 0 16 rw)\n(borrow 1 16 16 rw)\n(write 2 0 8)\n(read 1 0 4)\n(write 2 0 8)\n";
    let printed = "(refused 7 6)\n(issued 3)\n(1 0 64 rw 0 0000000000000001 \
                   (2 0 16 ro 0 0000000000000001) (3 16 16 rw 0 0000000000000001))\n";
    assert_eq!(check(input.as_bytes(), 200), Ok(printed.to_string()));
}

// ---- names dropped together

/// 'A group names 17 in its turn, after 4 and 5, name by name.'
#[test]
fn names_dropped_together_by_holders() {
    let cases: [(u32, &[u32], Result<u32, u8>); 12] = [
        (0, &[1, 2], Ok(0)),
        (0, &[1, 3], Err(17)),
        (1, &[2, 3], Ok(0)),
        (1, &[1, 9], Err(17)),
        (1, &[4, 5], Err(5)),
        (1, &[2, 9], Err(4)),
        (1, &[1, 4], Err(17)),
        (0, &[4, 5], Err(5)),
        (0, &[3, 2], Err(13)),
        (64, &[3, 2], Err(13)),
        (64, &[2, 3], Err(2)),
        (u32::MAX, &[9], Err(2)),
    ];
    for (actor, names, expected) in cases {
        let mut both = after(&[
            ("(create 0 8 rw)", Ok(1)),
            ("(create 8 8 rw 0000000000000003)", Ok(2)),
            ("(as 1 (create 16 8 rw))", Ok(3)),
            ("(create 24 8 rw)", Ok(4)),
            ("(drop 4)", Ok(0)),
        ]);
        let answer = drop_all(By::default(), both.lent(), actor, names);
        assert_eq!(answer, expected, "{actor} {names:?}");
        assert_eq!(both.history.answer_all(&[], actor, names), expected);
        assert_eq!(both.history.table(), both.rows);
        assert_eq!(both.tally.drops, 1 + u32::from(expected.is_ok()));
        assert_eq!(both.tally.refused, u32::from(expected.is_err()));
        let written = write_drop(actor, names, 99);
        let as_written = expected.err().filter(|number| matches!(number, 2 | 13));
        assert_eq!(written.err(), as_written, "{actor} {names:?}");
    }
}

// ---- charges

#[test]
fn lengths_are_charged_to_holders() {
    let Both { rows, tally, .. } = after(&[
        ("(create 0 10 rw)", Ok(1)),
        ("(create 10 10 rw 0000000000000007)", Ok(2)),
        ("(borrow 2 10 2 rw ffffffffffffffff)", Ok(3)),
        ("(create 100 4294967195 ro 8000000000000001)", Ok(4)),
        ("(create 50 0 rw)", Ok(5)),
        ("(create 60 1 rw)", Ok(6)),
        ("(drop 6)", Ok(0)),
    ]);
    let charges = [
        (0, Err(4)),
        (1, Ok((10, 0))),
        (2, Ok((3, 1))),
        (3, Ok((0, 2))),
        (4, Ok((2_147_483_597, 1))),
        (5, Ok((0, 0))),
        (6, Err(5)),
        (7, Err(4)),
        (u32::MAX, Err(4)),
    ];
    for (name, expected) in charges {
        let expected = expected.map(|(share, left)| Charge { share, left });
        assert_eq!(charge(&rows, tally.issued, name), expected, "{name}");
    }
    assert_eq!(charge(&rows, 4, 6), Err(1));
    assert_eq!(charge(&[Row::default(); MAX_ROWS + 1], 0, 0), Err(1));
    assert_eq!(charge(&[], 0, 1), Err(4));
    assert_eq!(charge(&[], MAX_NAME, 1), Err(5));
}
