//! Card 9: marks and how they are written, sentence by sentence, the lent bytes, and traces of what is
//! written, each taken on a table and beside its history.

mod both;

use both::{Both, ROWS, act, after};
use oracle::traces::{MARKS, whole};
use oracle::{
    Act, By, Event, FRESH, Lent, READ_ONLY, READ_WRITE, Row, Span, Spelling, States, Tally,
    WRITTEN_BYTES, Written, apply, check, drop_all, event_line, in_order, listing, read_event_line,
    read_listing, run,
};

fn span(start: u32, length: u32) -> Span {
    Span { start, length }
}

fn create(written: Option<u32>, span: Span, right: u8, fresh: u32) -> Act {
    let event = Event::Create {
        written,
        span,
        right,
        fresh,
        holders: 1,
    };
    Act { actor: 0, event }
}

// ---- marks, and how they are written

#[test]
fn a_create_may_end_in_fresh() {
    for (fresh, word) in [(0, ""), (FRESH, " fresh")] {
        for (right, right_word) in [(READ_ONLY, "ro"), (READ_WRITE, "rw")] {
            for (written, spelling, name) in [
                (None, Spelling::Plain, ""),
                (Some(1), Spelling::Named, "1 "),
            ] {
                let line = format!("(create {name}0 8 {right_word}{word})\n");
                let act = create(written, span(0, 8), right, fresh);
                assert_eq!(event_line(act, spelling), Some(line.clone()));
                assert_eq!(read_event_line(line.as_bytes(), spelling), Some(act));
            }
        }
    }
}

#[test]
fn no_other_line_has_a_mark() {
    let lines = [
        "(create 0 8 rw fresh fresh)",
        "(create 0 8 fresh)",
        "(create 0 8 fresh rw)",
        "(create fresh 0 8 rw)",
        "(create 0 8 rwfresh)",
        "(create 0 8 rw  fresh)",
        "(create 0 8 rw fresh )",
        "(create 0 8 rw Fresh)",
        "(create 0 8 rw 1)",
        "(create 0 8 rw raw fresh)",
        "(create 0 8 rw fresh raw)",
        "(borrow 1 0 8 rw fresh)",
        "(borrow 1 0 8 rw raw fresh)",
        "(borrow 1 0 8 rw fresh cell)",
        "(read 1 0 8 fresh)",
        "(write 1 0 8 fresh)",
        "(drop 1 fresh)",
    ];
    for line in lines {
        let line = format!("{line}\n");
        assert_eq!(read_event_line(line.as_bytes(), Spelling::Plain), None);
    }
}

#[test]
fn listings_have_it_after_the_kind() {
    let text = whole(
        "(issued 5)\n(1 0 8 rw fresh (2 0 4 ro cell fresh) (3 4 4 rw fresh))\n(4 8 8 ro)\n(5 16 0 ro fresh)\n",
    );
    let Both { rows, tally, .. } = after(&[
        ("(create 0 8 rw fresh)", Ok(1)),
        ("(borrow 1 0 4 ro cell)", Ok(2)),
        ("(borrow 1 4 4 rw)", Ok(3)),
        ("(create 8 8 ro)", Ok(4)),
        ("(create 16 0 ro fresh)", Ok(5)),
    ]);
    assert_eq!(listing(&rows, tally.issued), text);
    assert_eq!(read_listing(text.as_bytes(), ROWS), Ok((5, rows)));
    let others = [
        "(issued 1)\n(1 0 8 fresh rw)\n",
        "(issued 1)\n(1 0 8 rw fresh fresh)\n",
        "(issued 1)\n(1 0 8 rw fresh )\n",
        "(issued 1)\n(1 0 65537 rw fresh)\n",
        "(issued 1)\n(1 65537 0 rw fresh)\n",
        "(issued 2)\n(1 0 8 rw fresh (2 0 8 rw))\n",
        "(issued 2)\n(1 0 8 rw (2 0 8 rw fresh))\n",
        "(issued 2)\n(1 0 8 rw fresh (2 0 8 rw fresh raw))\n",
        "(issued 2)\n(1 0 8 rw (2 0 8 rw) fresh)\n",
    ];
    for text in others.map(whole) {
        assert_eq!(read_listing(text.as_bytes(), 4), Err(2), "{text}");
    }
}

/// A root of these addresses and a borrow of all of it, with these marks.
fn of_marks(length: u32, root: u32, borrowed: u32) -> Vec<Row> {
    let mut both = after(&[("(create 0 8 rw)", Ok(1)), ("(borrow 1 0 8 rw)", Ok(2))]);
    for (row, fresh) in both.rows.iter_mut().zip([root, borrowed]) {
        row.length = length;
        row.fresh = fresh;
    }
    both.rows
}

#[test]
fn other_marks_in_rows_are_refused() {
    for (length, root, borrowed, expected) in [
        (8, 0, 0, true),
        (8, 1, 1, true),
        (8, 0, 1, false),
        (8, 1, 0, false),
        (8, 2, 2, false),
        (8, 257, 257, false),
        (8, u32::MAX, u32::MAX, false),
        (65_536, 1, 1, true),
        (65_537, 1, 1, false),
        (65_537, 0, 0, true),
    ] {
        assert_eq!(in_order(&of_marks(length, root, borrowed), 2), expected);
    }
    let mut rows = of_marks(8, 1, 1);
    rows[ROWS - 1].fresh = 1;
    assert!(!in_order(&rows, 2));
}

#[test]
fn other_marks_in_events_are_refused_and_have_no_spelling() {
    for fresh in [2, 255, 256, 257, 1 << 31, u32::MAX] {
        let mut both = Both::empty(ROWS);
        let unmarked = create(None, span(0, 8), READ_WRITE, fresh);
        assert_eq!(both.answer(&[], unmarked), Err(2));
        // 2 stands before 3.
        let above = create(None, span(u32::MAX, 2), READ_WRITE, fresh);
        assert_eq!(both.answer(&[], above), Err(2));
        assert_eq!(both.tally.refused, 2);
        assert_eq!(event_line(unmarked, Spelling::Plain), None);
    }
}

// ---- lent bytes

#[test]
fn any_other_number_of_bytes_is_1() {
    for length in [0, 1, WRITTEN_BYTES - 1, WRITTEN_BYTES + 1] {
        let (mut rows, mut tally) = (vec![Row::default(); ROWS], Tally::default());
        let before = (rows.clone(), tally);
        let (mut written, mut states) = (Written::lent(&vec![0; length]), States::default());
        let by = By::default();
        let mut lent = Lent {
            rows: &mut rows,
            written: written.as_mut(),
            states: Some(&mut states),
            tally: &mut tally,
        };
        let unknown = Act {
            actor: 0,
            event: Event::Unknown,
        };
        for act in [act("(create 0 8 rw)"), act("(mark 0)"), unknown] {
            assert_eq!(apply(by, lent.again(), act), Err(1));
        }
        assert_eq!(drop_all(by, lent.again(), 0, &[]), Err(1));
        for text in ["", "(create 0 8 rw)\n", "?"] {
            assert_eq!(run(by, lent.again(), text.as_bytes()), Err((1, 0)));
        }
        assert_eq!(before, (rows, tally));
    }
}

#[test]
fn bytes_that_are_lent_are_looked_at() {
    let mut written = Written::default();
    written.add(span(2, 4));
    let mut lent = Written::lent(&written.bytes()).expect("as many bytes as it takes");
    assert_eq!(lent.bytes()[..2], [4 + 8 + 16 + 32, 0]);
    let mut rows = of_marks(8, 1, 1);
    let mut tally = Tally {
        issued: 2,
        ..Tally::default()
    };
    for (line, expected) in [
        ("(read 2 2 4)", Ok(0)),
        ("(read 2 1 2)", Err(16)),
        ("(read 2 5 2)", Err(16)),
        ("(write 1 6 2)", Ok(0)),
        ("(read 1 2 6)", Ok(0)),
    ] {
        let lent = Lent {
            rows: &mut rows,
            written: Some(&mut lent),
            states: Some(&mut States::default()),
            tally: &mut tally,
        };
        assert_eq!(apply(By::default(), lent, act(line)), expected, "{line}");
    }
    assert_eq!(lent.bytes()[..2], [255 - 3, 0]);
    assert_eq!(tally.refused, 2);
}

// ---- what is written

#[test]
fn every_trace_goes_as_it_says() {
    for (name, steps, expected) in MARKS {
        let Both { rows, tally, .. } = after(steps);
        assert_eq!(listing(&rows, tally.issued), whole(expected), "{name}");
    }
}

/// Spans so long that the history does not go through their addresses one by one.
#[test]
fn long_spans() {
    let Both { written, .. } = after(&[
        ("(create 0 65536 rw fresh)", Ok(1)),
        ("(write 1 0 1000)", Ok(0)),
        ("(write 1 1001 1000)", Ok(0)),
        ("(read 1 0 1001)", Err(16)),
        ("(read 1 1001 1000)", Ok(0)),
        ("(read 1 900 200)", Err(16)),
        ("(write 1 1000 1)", Ok(0)),
        ("(read 1 0 2001)", Ok(0)),
        ("(read 1 0 2002)", Err(16)),
        ("(create 100 1000 rw)", Ok(2)),
        ("(write 2 100 999)", Ok(0)),
        ("(create 0 65536 ro fresh)", Ok(3)),
        ("(read 3 0 100)", Err(16)),
    ]);
    assert_eq!(written, Written::default());
}

#[test]
fn capcheck_begins_with_nothing_written() {
    let input = "(create 0 8 rw fresh)\n(write 1 0 4)\n(read 1 0 4)\n(read 1 0 5)\n";
    let printed = "(refused 16 4)\n(issued 1)\n(1 0 8 rw fresh 0 0000000000000001)\n";
    assert_eq!(check(input.as_bytes(), 100), Ok(printed.to_string()));
}
