//! Card 6: kinds and how they are written, sentence by sentence, and traces of what is struck, each taken
//! on a table and beside its history.

mod both;

use both::{Both, ROWS, act, after, answer_on};
use oracle::traces::{KINDS, Step, whole};
use oracle::{
    Act, By, CELL, Event, RAW, READ_WRITE, REFERENCE, Row, Span, Spelling, event_line, in_order,
    listing, read_event_line, read_listing,
};

fn listed(steps: &[Step]) -> String {
    let Both { rows, tally, .. } = after(steps);
    listing(&rows, tally.issued)
}

fn borrow(written: Option<u32>, parent: u32, kind: u32) -> Act {
    let event = Event::Borrow {
        written,
        parent,
        span: Span {
            start: 0,
            length: 8,
        },
        right: READ_WRITE,
        kind,
        holders: 1,
    };
    Act { actor: 0, event }
}

const ROOT: Step = ("(create 0 64 rw)", Ok(1));

// ---- kinds, and how they are written

#[test]
fn the_record_gains_a_kind() {
    let Both { rows, .. } = after(&[
        ROOT,
        ("(borrow 1 0 8 rw)", Ok(2)),
        ("(borrow 1 0 8 rw raw)", Ok(3)),
        ("(borrow 1 0 8 ro cell)", Ok(4)),
    ]);
    let kinds: Vec<u32> = rows[..4].iter().map(|row| row.kind).collect();
    assert_eq!(kinds, [REFERENCE, REFERENCE, RAW, CELL]);
    assert_eq!([REFERENCE, RAW, CELL], [0, 1, 2]);
}

#[test]
fn a_borrow_ends_in_its_kind() {
    for (kind, word) in [(REFERENCE, ""), (RAW, " raw"), (CELL, " cell")] {
        for (written, spelling, name) in [
            (None, Spelling::Plain, ""),
            (Some(2), Spelling::Named, "2 "),
        ] {
            let line = format!("(borrow {name}1 0 8 rw{word})\n");
            let act = borrow(written, 1, kind);
            assert_eq!(event_line(act, spelling), Some(line.clone()));
            assert_eq!(read_event_line(line.as_bytes(), spelling), Some(act));
        }
    }
}

#[test]
fn no_other_line_has_a_kind() {
    let lines = [
        "(borrow 1 0 8 rw reference)",
        "(borrow 1 0 8 raw rw)",
        "(borrow 1 0 8 rw raw raw)",
        "(borrow 1 0 8 rw raw cell)",
        "(borrow 1 0 8 rw Raw)",
        "(borrow 1 0 8 rw 1)",
        "(borrow 1 0 8 rw )",
        "(borrow 1 0 8 rwraw)",
        "(borrow 1 0 8 raw)",
        // 'Creates make references.'
        "(create 0 64 rw raw)",
        "(create 0 64 rw cell)",
        "(create 0 64 rw reference)",
        "(read 1 0 8 raw)",
        "(write 1 0 8 cell)",
        "(drop 1 raw)",
    ];
    for line in lines {
        let line = format!("{line}\n");
        assert_eq!(read_event_line(line.as_bytes(), Spelling::Plain), None);
    }
}

#[test]
fn listings_have_it_after_the_right() {
    let text = whole("(issued 4)\n(1 0 64 rw (2 0 8 rw raw (3 0 4 ro)) (4 8 8 ro cell))\n");
    let written = listed(&[
        ROOT,
        ("(borrow 1 0 8 rw raw)", Ok(2)),
        ("(borrow 2 0 4 ro)", Ok(3)),
        ("(borrow 1 8 8 ro cell)", Ok(4)),
    ]);
    assert_eq!(written, text);
    let (issued, rows) = read_listing(text.as_bytes(), 4).expect("a listing");
    assert_eq!(listing(&rows, issued), text);
    let others = [
        "(issued 1)\n(1 0 64 rw raw)\n",
        "(issued 1)\n(1 0 64 rw cell)\n",
        "(issued 1)\n(1 0 64 rw reference)\n",
        "(issued 2)\n(1 0 64 rw (2 0 8 rw reference))\n",
        "(issued 2)\n(1 0 64 rw (2 0 8 rw raw raw))\n",
        "(issued 2)\n(1 0 64 rw (2 0 8 raw rw))\n",
        "(issued 3)\n(1 0 64 rw (2 0 8 rw (3 0 4 ro) raw))\n",
        "(issued 2)\n(1 0 64 rw (2 0 8 rw raw ))\n",
        "(issued 2)\n(1 0 64 rw (2 0 8 rw rawcell))\n",
    ];
    for text in others.map(whole) {
        assert_eq!(read_listing(text.as_bytes(), 4), Err(2), "{text}");
    }
}

/// A root and a borrow of it, of these kinds.
fn of_kinds(root: u32, borrowed: u32) -> Vec<Row> {
    let mut both = after(&[ROOT, ("(borrow 1 0 8 rw)", Ok(2))]);
    both.rows[0].kind = root;
    both.rows[1].kind = borrowed;
    both.rows
}

#[test]
fn other_kinds_in_rows_are_refused() {
    for kind in [REFERENCE, RAW, CELL] {
        assert!(in_order(&of_kinds(REFERENCE, kind), 2));
        assert_eq!(in_order(&of_kinds(kind, kind), 2), kind == REFERENCE);
    }
    for kind in [3, 255, 256, 257, 1 << 31, u32::MAX] {
        for rows in [of_kinds(kind, REFERENCE), of_kinds(REFERENCE, kind)] {
            let answer = answer_on(By::default(), &rows, 2, act("(drop 1)"));
            assert_eq!(answer, Err(1));
        }
    }
    let mut rows = of_kinds(REFERENCE, REFERENCE);
    rows[ROWS - 1].kind = 1;
    assert!(!in_order(&rows, 2));
}

#[test]
fn other_kinds_in_events_are_refused_and_have_no_spelling() {
    for kind in [3, 255, 256, 258, 1 << 31, u32::MAX] {
        let mut both = after(&[ROOT]);
        assert_eq!(both.answer(&[], borrow(None, 1, kind)), Err(2));
        // 2 stands before 4.
        assert_eq!(both.answer(&[], borrow(None, 9, kind)), Err(2));
        assert_eq!(both.tally.refused, 2);
        assert_eq!(event_line(borrow(None, 1, kind), Spelling::Plain), None);
    }
}

// ---- what is struck

#[test]
fn every_trace_goes_as_it_says() {
    for (name, steps, expected) in KINDS {
        assert_eq!(listed(steps), whole(expected), "{name}");
    }
}
