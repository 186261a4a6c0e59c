//! Card 10: sheets of limits, sentence by sentence, and the places of refusals 17 and 18; each event is taken
//! on a table, and most beside its history.

mod both;

use both::{Both, act, answer_on};
use oracle::domain_traces::{LIMITS, limits};
use oracle::{
    Act, By, Event, HEADER, History, MAX_DEPTH, MAX_NAME, MAX_ROWS, READ_WRITE, Row, Run, Span,
    check, drop_all, listing, run,
};

const WHOLE: Span = Span {
    start: 0,
    length: 8,
};

/// A create of what its maker alone holds.
fn create(actor: u32, written: Option<u32>) -> Act {
    let event = Event::Create {
        written,
        span: WHOLE,
        right: READ_WRITE,
        fresh: 0,
        holders: 1 << actor,
    };
    Act { actor, event }
}

/// A borrow of the same sort.
fn borrow(actor: u32, written: Option<u32>, parent: u32) -> Act {
    let event = Event::Borrow {
        written,
        parent,
        span: WHOLE,
        right: READ_WRITE,
        kind: 0,
        holders: 1 << actor,
    };
    Act { actor, event }
}

fn by(limits: &[u32]) -> By<'_> {
    By {
        sheet: None,
        limits,
    }
}

/// One event on rows with so many names issued.
fn answer(limits: &[u32], rows: &[Row], issued: u32, act: Act) -> Result<u32, u8> {
    answer_on(by(limits), rows, issued, act)
}

/// A text run on a table.
fn take_text(both: &mut Both, limits: &[u32], text: &[u8]) -> Run {
    run(by(limits), both.lent(), text)
}

/// Without limits, and with such as leave room for domains 0 and 1.
fn few_limits() -> [Vec<u32>; 2] {
    [Vec::new(), limits(&[(0, 2), (1, 2)])]
}

#[test]
fn every_trace_with_limits_goes_as_it_says() {
    for (name, rows, some, steps, expected) in LIMITS {
        let mut both = Both::empty(rows);
        both.take(&limits(some), steps);
        assert_eq!(listing(&both.rows, both.tally.issued), expected, "{name}");
    }
}

// ---- the places of 17 and 18

#[test]
fn seventeen_stands_between_5_and_6() {
    for limits in few_limits() {
        let mut both = Both::empty(6);
        both.take(
            &limits,
            &[
                ("(create 0 8 ro)", Ok(1)),
                ("(create 8 8 rw)", Ok(2)),
                ("(drop 2)", Ok(0)),
                ("(as 1 (borrow 1 4294967295 2 rw))", Err(3)),
                ("(as 1 (borrow 0 0 8 rw))", Err(4)),
                ("(as 1 (borrow 3 0 8 rw))", Err(4)),
                ("(as 1 (borrow 2 8 8 rw))", Err(5)),
                ("(as 1 (borrow 1 8 8 rw))", Err(17)),
                ("(as 1 (borrow 1 0 8 rw))", Err(17)),
                ("(as 1 (drop 1))", Err(17)),
                ("(borrow 1 8 8 rw)", Err(6)),
                ("(borrow 1 0 8 rw)", Err(7)),
            ],
        );
        assert_eq!(both.tally.refused, 9);
    }
}

/// A row of a chain of domain 0, each borrowed from the one before it.
fn row_of_chain(depth: u32) -> Row {
    Row {
        name: depth,
        parent: depth - 1,
        start: 0,
        length: 8,
        right: 2,
        depth,
        kind: 0,
        fresh: 0,
        maker: 0,
        holders: 1,
    }
}

#[test]
fn seventeen_stands_before_8() {
    let deep: Vec<Row> = (1..=MAX_DEPTH).map(row_of_chain).collect();
    let most = limits(&[(0, MAX_DEPTH)]);
    for limits in [&[][..], &most] {
        let of = |actor| answer(limits, &deep, MAX_NAME, borrow(actor, Some(7), MAX_DEPTH));
        assert_eq!(of(1), Err(17));
        assert_eq!(of(0), Err(8));
    }
}

#[test]
fn eighteen_stands_in_the_place_of_10() {
    let rows: Vec<Row> = (1..=2).map(row_of_chain).collect();
    let full = limits(&[(0, 2)]);
    for (limits, refusal) in [(&[][..], 10), (&full, 18)] {
        let of = |issued, written| {
            let made = [create(0, written), borrow(0, written, 2)];
            let [one, other] = made.map(|act| answer(limits, &rows, issued, act));
            assert_eq!(one, other);
            one
        };
        assert_eq!(of(MAX_NAME, Some(7)), Err(9));
        assert_eq!(of(2, Some(4)), Err(12));
        assert_eq!(of(2, Some(3)), Err(refusal));
        assert_eq!(of(2, None), Err(refusal));
    }
}

// ---- limits

/// Limits that are lent with events on four rows, of which domain 0 made two.
fn refused_limits() -> Vec<Vec<u32>> {
    let long = [limits(&[(0, 2)]), vec![0]].concat();
    vec![
        vec![4],
        vec![2, 2],
        vec![0; 63],
        long,
        limits(&[(0, 5)]),
        limits(&[(0, 3), (63, 2)]),
        limits(&[(0, 1)]),
        limits(&[(1, 4)]),
        // In 32 bits these sums are within the rows.
        limits(&[(0, 2), (1, u32::MAX), (2, 1)]),
        limits(&[(0, 2), (1, 1 << 31), (2, 1 << 31)]),
    ]
}

/// A root and a borrow of it, on four rows.
fn two_of_four() -> Both {
    let mut both = Both::empty(4);
    both.take(
        &[],
        &[("(create 0 8 rw)", Ok(1)), ("(borrow 1 0 8 rw)", Ok(2))],
    );
    both
}

#[test]
fn refused_limits_are_1() {
    for limits in refused_limits() {
        let mut both = two_of_four();
        let before = (both.rows.clone(), both.tally);
        for line in ["(read 2 0 8)", "(as 9 (drop 9))", "(create 8 8 rw)"] {
            assert_eq!(both.answer(&limits, act(line)), Err(1), "{limits:?} {line}");
        }
        for text in ["", "?", "(read 2 0 8)\n"] {
            let answer = take_text(&mut both, &limits, text.as_bytes());
            assert_eq!(answer, Err((1, 0)), "{limits:?} {text}");
        }
        let answer = drop_all(by(&limits), both.lent(), 64, &[]);
        assert_eq!(answer, Err(1));
        assert_eq!(both.history.answer_all(&limits, 64, &[]), Err(1));
        assert_eq!((both.rows, both.tally), before);
    }
}

#[test]
fn other_limits_are_not() {
    for (some, expected) in [
        (&[(0, 2)][..], Err(18)),
        (&[(0, 4)], Ok(3)),
        (&[(0, 2), (63, 2)], Err(18)),
        (&[(0, 3), (63, 1)], Ok(3)),
    ] {
        let limits = limits(some);
        let mut both = two_of_four();
        assert_eq!(both.answer(&limits, act("(read 2 0 8)")), Ok(0));
        assert_eq!(both.answer(&limits, act("(as 9 (drop 9))")), Err(4));
        assert_eq!(both.answer(&limits, act("(create 8 8 rw)")), expected);
        let answer = drop_all(by(&limits), both.lent(), 64, &[]);
        assert_eq!(answer, Err(13));
    }
}

/// 'So with one 10 never occurs.'
#[test]
fn with_limits_10_never_occurs() {
    let texts = [
        "",
        "(create 0 1 rw)\n",
        "(create 0 1 rw)\n(as 1 (create 1 1 rw))\n",
    ];
    let mut reached = 0;
    for (text, at) in texts
        .into_iter()
        .flat_map(|text| (0..27).map(move |at| (text, at)))
    {
        let mut both = Both::empty(2);
        assert!(take_text(&mut both, &[], text.as_bytes()).is_ok());
        let limits = limits(&[(0, at % 3), (1, at / 3 % 3), (2, at / 9)]);
        for actor in 0..3 {
            let answer = answer(&limits, &both.rows, both.tally.issued, create(actor, None));
            assert_ne!(answer, Err(10));
            reached += u32::from(answer == Err(18));
        }
    }
    assert!(reached > 10);
}

/// 'The history is fed each event's sheet.'
#[test]
fn limits_may_change_from_event_to_event() {
    let mut both = Both::empty(4);
    let mut take = |some: &[(usize, u32)], line, expected| {
        let limits = match some {
            [] => Vec::new(),
            _ => limits(some),
        };
        both.take(&limits, &[(line, expected)]);
    };
    take(&[(0, 1)], "(create 0 8 rw)", Ok(1));
    take(&[(0, 1)], "(create 8 8 rw)", Err(18));
    take(&[(0, 2)], "(create 8 8 rw)", Ok(2));
    take(&[(0, 2)], "(create 16 8 rw)", Err(18));
    take(&[(0, 1)], "(read 1 0 8)", Err(1));
    take(&[(0, 1)], "(drop 1)", Err(1));
    take(&[], "(create 16 8 rw)", Ok(3));
    take(&[], "(create 24 8 rw)", Ok(4));
    take(&[], "(create 32 8 rw)", Err(10));
    take(&[(0, 4)], "(create 32 8 rw)", Err(18));
    take(&[(0, 4)], "(drop 1)", Ok(0));
    take(&[(0, 3), (1, 1)], "(create 32 8 rw)", Err(18));
    take(&[(0, 3), (1, 1)], "(as 1 (create 32 8 rw))", Ok(5));
    assert_eq!(both.tally.refused, 5);
}

#[test]
fn the_history_of_too_many_rows_is_1() {
    let mut history = History::new(MAX_ROWS + 1);
    for limits in few_limits() {
        assert_eq!(history.answer(&limits, create(0, None)), Err(1));
        assert_eq!(history.answer_all(&limits, 64, &[]), Err(1));
    }
}

// ---- runs

/// A line of domain 0 says nothing of who acts, and limits are judged by each line for what it makes.
#[test]
fn runs_of_domains() {
    let lines = "(as 1 (create 1 0 8 rw 0000000000000003))\n(borrow 2 1 0 4 ro)\n\
                 (as 1 (drop 1))\n(as 0 (drop 2))\n";
    let named = [HEADER, lines.as_bytes()].concat();
    let plain = b"(create 0 8 rw)\n(create 8 8 rw)\n(create 16 8 rw)\n";
    let full = limits(&[(0, 1), (1, 1)]);
    for (limits, refused) in [(&[][..], (10, 3)), (&full, (18, 2))] {
        let mut both = Both::empty(2);
        assert_eq!(take_text(&mut both, limits, &named), Err((2, 5)));
        assert_eq!(listing(&both.rows, both.tally.issued), "(issued 2)\n");
        assert_eq!(both.tally.refused, 1);
        assert_eq!(take_text(&mut both, limits, plain), Err(refused));
    }
    let printed = "(refused 2 1)\n(issued 0)\n".to_string();
    assert_eq!(check(b"(as 1 (trace 2))\n", 99), Ok(printed));
}
