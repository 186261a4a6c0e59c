//! Domains: who acts, who holds what is made, how much each may make, and what each is charged.

mod answers;

use answers::{drop, made, refused, DONE};
use kelzoud::{
    apply, charge, read_event, read_listing, run, write_drop_by, write_event, write_listing, Addr,
    Answer, Cap, Charge, Domain, Event, Holders, Kind, Lent, Limits, Line, Name, Outcome, Refusal,
    Request, Right, RunAnswer, Span, Spelling, States, Tally, Written, DOMAINS, MAX_LINE, MAX_ROWS,
};

fn domain(number: u32) -> Domain {
    Domain::new(number).unwrap()
}

fn holders<const COUNT: usize>(numbers: [u32; COUNT]) -> Holders {
    numbers.into_iter().map(domain).collect()
}

fn span(start: u32, length: u32) -> Span {
    Span {
        start: Addr(start),
        length,
    }
}

const WHOLE: Span = Span {
    start: Addr(0),
    length: 8,
};

fn create(span: Span, holders: Option<Holders>) -> Event {
    Event::Create {
        written: None,
        span,
        right: Right::ReadWrite,
        fresh: false,
        holders,
    }
}

fn borrow(parent: u32, holders: Option<Holders>) -> Event {
    Event::Borrow {
        written: None,
        parent: Name(parent),
        span: WHOLE,
        right: Right::ReadWrite,
        kind: Kind::Reference,
        holders,
    }
}

fn read(name: u32, span: Span) -> Event {
    Event::Read {
        name: Name(name),
        span,
    }
}

fn write(name: u32, span: Span) -> Event {
    Event::Write {
        name: Name(name),
        span,
    }
}

/// A table of eight rows with its written bits, its tally and its limits.
#[derive(Clone, Debug, PartialEq)]
struct Part {
    table: [Cap; 8],
    written: Written,
    states: Box<States>,
    tally: Tally,
    limits: Option<Limits>,
}

impl Part {
    fn new() -> Part {
        Part {
            table: [Cap::EMPTY; 8],
            written: Written::NONE,
            states: Box::new(States::NOTHING),
            tally: Tally::default(),
            limits: None,
        }
    }

    fn lend(&mut self) -> Lent<'_> {
        Lent {
            limits: self.limits.as_ref(),
            ..Lent::new(
                &mut self.table,
                &mut self.written,
                &mut self.states,
                &mut self.tally,
            )
        }
    }

    fn take(&mut self, actor: u32, event: Event) -> Answer {
        self.lend().apply(event.by(domain(actor)))
    }

    fn names(&self) -> Vec<u32> {
        let live = self.table.iter().take_while(|row| row.name != 0);
        live.map(|row| row.name).collect()
    }
}

#[test]
fn there_are_64_domains() {
    assert_eq!(Domain::all().count(), DOMAINS);
    for (number, each) in (0..).zip(Domain::all()) {
        assert_eq!(Domain::new(number), Some(each));
        assert_eq!(
            (each.number(), each.to_string()),
            (number, number.to_string())
        );
    }
    for number in [64, 256, u32::MAX] {
        assert_eq!(Domain::new(number), None);
    }
    assert_eq!(
        (Domain::default(), Domain::ZERO.number()),
        (Domain::ZERO, 0)
    );
}

#[test]
fn holders_are_sets() {
    assert!(Holders::NONE.is_empty() && Holders::NONE.iter().next().is_none());
    assert_eq!(
        (Holders::default(), Holders::ALL.len()),
        (Holders::NONE, DOMAINS)
    );
    assert!(Holders::ALL.iter().eq(Domain::all()));
    for each in Domain::all() {
        let alone = Holders::of(each);
        assert_eq!(alone.bits(), 1 << each.number());
        assert_eq!((alone, alone.len()), (Holders::from(each), 1));
        assert!(Domain::all().all(|other| alone.contains(other) == (other == each)));
        assert_eq!(Holders::ALL.without(each).len(), DOMAINS - 1);
        assert_eq!(Holders::ALL.without(each).with(each), Holders::ALL);
    }
    let some = holders([63, 0, 3, 3]);
    assert_eq!(some.bits(), 1 << 63 | 0b1001);
    assert_eq!(some, Holders::of(domain(0)) | holders([3, 63]));
    assert_eq!(
        some.into_iter().map(Domain::number).collect::<Vec<_>>(),
        [0, 3, 63]
    );
    assert_eq!(
        (some.iter().len(), some.to_string()),
        (3, "8000000000000009".to_string())
    );
    assert_eq!(Holders::from_bits(u64::from(some)), some);
    let mut more = some;
    more.extend([domain(5), domain(0)]);
    assert_eq!(more, Holders::from(some.bits() | 1 << 5));
}

#[test]
fn only_holders_use_what_was_made() {
    let mut part = Part::new();
    assert_eq!(part.take(3, create(WHOLE, Some(holders([3, 40])))), made(1));
    let row = part.table[0];
    assert_eq!(
        (row.maker, row.holders_low, row.holders_high),
        (3, 8, 1 << 8)
    );
    assert_eq!(row.holders(), holders([3, 40]));
    for event in [read(1, WHOLE), write(1, WHOLE), borrow(1, None), drop(1)] {
        for actor in [0, 2, 4, 35, 41, 63] {
            assert_eq!(part.take(actor, event), refused(Refusal::NotHolder));
        }
    }
    assert_eq!((part.names(), part.tally.refused), (vec![1], 24));
    // A holder may borrow for others, also for such as do not hold the parent.
    assert_eq!(part.take(40, borrow(1, Some(holders([40, 0])))), made(2));
    assert_eq!(
        (part.table[1].maker, part.table[1].holders()),
        (40, holders([0, 40]))
    );
    assert_eq!(part.take(0, read(2, WHOLE)), DONE);
    assert_eq!(part.take(3, read(2, WHOLE)), refused(Refusal::NotHolder));
    // What is below a name is dropped with it, whoever holds it.
    assert_eq!(part.take(3, drop(1)), DONE);
    assert_eq!(part.take(0, read(2, WHOLE)), refused(Refusal::Ended));
    // A create ends what it touches, whoever holds it.
    assert_eq!(part.take(5, create(WHOLE, None)), made(3));
    assert_eq!(part.take(6, create(WHOLE, None)), made(4));
    assert_eq!(part.names(), [4]);
}

#[test]
fn no_holder_comes_behind_5_and_before_6() {
    let mut part = Part::new();
    assert_eq!(part.take(3, create(WHOLE, None)), made(1));
    let outside = span(8, 1);
    assert_eq!(
        part.take(0, read(1, span(u32::MAX, 2))),
        refused(Refusal::IllegalSpan)
    );
    assert_eq!(part.take(0, read(2, outside)), refused(Refusal::Unissued));
    assert_eq!(part.take(0, read(1, outside)), refused(Refusal::NotHolder));
    assert_eq!(
        part.take(3, read(1, outside)),
        refused(Refusal::OutsideSpan)
    );
    assert_eq!(part.take(3, drop(1)), DONE);
    assert_eq!(part.take(0, read(1, outside)), refused(Refusal::Ended));
}

#[test]
fn a_maker_holds_what_it_makes() {
    let mut part = Part::new();
    assert_eq!(part.take(3, create(WHOLE, Some(holders([0, 3])))), made(1));
    let before = part.clone();
    let mut out = [b'?'; MAX_LINE];
    for (count, given) in (1..).zip([Holders::NONE, holders([0]), Holders::ALL.without(domain(3))])
    {
        for event in [create(span(8, 8), Some(given)), borrow(1, Some(given))] {
            assert_eq!(part.take(3, event), refused(Refusal::Misspelt));
            let request = event.by(domain(3));
            assert_eq!(write_event(request, &mut out), Err(Refusal::Misspelt));
        }
        assert_eq!(part.tally.refused, 2 * count);
    }
    assert_eq!((part.table, out), (before.table, [b'?'; MAX_LINE]));
    // An event by itself is domain 0's.
    assert_eq!(part.lend().apply(create(span(8, 8), None)), made(2));
    assert_eq!(
        (part.table[1].maker, part.table[1].holders()),
        (0, holders([0]))
    );
}

#[test]
fn names_are_dropped_together_by_a_holder() {
    let mut part = Part::new();
    assert_eq!(
        part.take(3, create(span(0, 8), Some(holders([0, 3])))),
        made(1)
    );
    assert_eq!(part.take(3, create(span(8, 8), None)), made(2));
    assert_eq!(part.take(0, create(span(16, 8), None)), made(3));
    let [one, two, three, four] = [1, 2, 3, 4].map(Name);
    let not_holder = refused(Refusal::NotHolder);
    assert_eq!(part.lend().drop_all(&[one, two, four]), not_holder);
    assert_eq!(
        part.lend().drop_all(&[one, three, four]),
        refused(Refusal::Unissued)
    );
    assert_eq!(
        part.lend().drop_all_by(domain(3), &[one, three]),
        not_holder
    );
    assert_eq!(
        part.lend().drop_all_by(domain(3), &[]),
        refused(Refusal::Misgrouped)
    );
    assert_eq!(part.lend().drop_all_by(domain(3), &[one, two]), DONE);
    assert_eq!(part.lend().drop_all(&[two, three]), refused(Refusal::Ended));
    assert_eq!(
        (part.names(), part.tally.drops, part.tally.refused),
        (vec![3], 1, 5)
    );
}

/// Limits of these domains, and none for the others.
fn limited<const COUNT: usize>(limits: [(u32, u32); COUNT]) -> Limits {
    let mut sheet = Limits::NOTHING;
    for (number, limit) in limits {
        sheet[domain(number)] = limit;
    }
    sheet
}

#[test]
fn limits_are_reached() {
    let mut part = Part::new();
    part.limits = Some(limited([(0, 1), (3, 2), (63, 5)]));
    let at_limit = refused(Refusal::LimitReached);
    assert_eq!(
        part.take(3, create(span(0, 8), Some(Holders::ALL))),
        made(1)
    );
    assert_eq!(part.take(3, create(span(8, 8), None)), made(2));
    assert_eq!(part.take(3, create(span(16, 8), None)), at_limit);
    assert_eq!(part.take(3, borrow(1, None)), at_limit);
    assert_eq!(part.take(4, borrow(1, None)), at_limit);
    // What counts is who made it.
    assert_eq!(part.take(0, borrow(1, Some(Holders::ALL))), made(3));
    assert_eq!(part.take(0, create(span(16, 8), None)), at_limit);
    // What ends makes room for who made it, and a create is judged before it ends anything.
    assert_eq!(part.take(3, create(span(8, 8), None)), at_limit);
    assert_eq!(part.take(3, drop(2)), DONE);
    assert_eq!(part.take(3, create(span(8, 8), None)), made(4));
    assert_eq!(part.take(0, write(1, span(0, 8))), DONE);
    assert_eq!(part.names(), [1, 4]);
    assert_eq!(part.take(0, borrow(1, None)), made(5));
    assert_eq!(part.tally.refused, 5);
}

#[test]
fn no_table_is_full_within_limits() {
    let mut part = Part::new();
    for at in 0..8 {
        assert_eq!(part.take(at, create(span(8 * at, 8), None)), made(at + 1));
    }
    let beside = create(span(64, 8), None);
    assert_eq!(part.take(8, beside), refused(Refusal::TableFull));
    part.limits = Some(Limits(core::array::from_fn(|at| u32::from(at < 8))));
    for at in 0..64 {
        assert_eq!(part.take(at, beside), refused(Refusal::LimitReached));
    }
    part.limits = None;
    assert_eq!(part.take(0, beside), refused(Refusal::TableFull));
}

/// Every call is refused, and changes nothing.
fn is_refused(mut part: Part) {
    let before = part.clone();
    let disordered = refused(Refusal::Disordered);
    let request = create(span(16, 8), None);
    assert_eq!(part.lend().apply(request), disordered);
    assert_eq!(part.lend().drop_all(&[]), disordered);
    let mut answers = [Outcome::EMPTY; 2];
    let taken = part
        .lend()
        .apply_all(&[Request::from(request); 2], &[], &mut answers);
    assert_eq!([taken[0].answer(), taken[1].answer()], [disordered; 2]);
    let refusal = Refusal::Disordered;
    assert_eq!(
        part.lend().run(b"?"),
        RunAnswer::Refused { refusal, line: 0 }
    );
    assert_eq!(part, before);
}

#[test]
fn limits_that_do_not_fit_are_refused() {
    let mut part = Part::new();
    assert_eq!(part.take(0, create(span(0, 8), None)), made(1));
    assert_eq!(
        part.take(3, create(span(8, 8), Some(Holders::ALL))),
        made(2)
    );
    for limits in [
        limited([(0, 1), (3, 1), (63, 7)]),
        limited([(0, u32::MAX), (3, 2)]),
        Limits::each(1 << 26),
        limited([(0, 8)]),
        limited([(3, 8)]),
        Limits::NOTHING,
    ] {
        let limits = Some(limits);
        is_refused(Part {
            limits,
            ..part.clone()
        });
    }
    for limits in [
        limited([(0, 1), (3, 1), (63, 6)]),
        limited([(0, 1), (3, 1)]),
    ] {
        part.limits = Some(limits);
        assert_eq!(part.take(0, read(1, WHOLE)), DONE);
    }
    // Neither a charge nor a listing looks at them.
    part.limits = Some(Limits::NOTHING);
    assert_eq!(
        part.lend().charge(Name(2)),
        Ok(Charge { share: 0, rest: 8 })
    );
}

#[test]
fn many_requests_and_runs_have_limits() {
    let text = b"(as 3 (create 0 8 rw))\n(create 8 8 rw)\n(as 3 (create 16 8 rw))\n";
    let mut part = Part::new();
    part.limits = Some(limited([(0, 1), (3, 1)]));
    let mut other = part.clone();
    let refusal = Refusal::LimitReached;
    assert_eq!(
        part.lend().run(text),
        RunAnswer::Refused { refusal, line: 3 }
    );
    let requests = [
        create(span(0, 8), None).by(domain(3)),
        create(span(8, 8), None).into(),
        create(span(16, 8), None).by(domain(3)),
    ];
    let mut answers = [Outcome::EMPTY; 3];
    let answers = other.lend().apply_all(&requests, &[], &mut answers);
    let answers: Vec<Answer> = answers.iter().map(|outcome| outcome.answer()).collect();
    assert_eq!(answers, [made(1), made(2), refused(refusal)]);
    assert_eq!(part, other);
}

#[test]
fn lengths_are_charged_in_equal_shares() {
    let mut part = Part::new();
    for (at, count) in (0..).zip([1_u32, 2, 3, 64]) {
        let given: Holders = (0..count).map(domain).collect();
        let made_here = part.take(0, create(span(1_000 * at, 1_000), Some(given)));
        assert_eq!(made_here, made(at + 1));
        let charged = Charge {
            share: 1_000 / count,
            rest: 1_000 % count,
        };
        assert_eq!(part.lend().charge(Name(at + 1)), Ok(charged));
    }
    assert_eq!(part.take(0, create(span(0, 0), None)), made(5));
    assert_eq!(
        part.lend().charge(Name(5)),
        Ok(Charge { share: 0, rest: 0 })
    );
    assert_eq!(part.take(0, drop(2)), DONE);
    let before = part.clone();
    assert_eq!(part.lend().charge(Name(2)), Err(Refusal::Ended));
    assert_eq!(part.lend().charge(Name(0)), Err(Refusal::Unissued));
    assert_eq!(part.lend().charge(Name(6)), Err(Refusal::Unissued));
    assert_eq!(part, before);
    assert_eq!(charge(&part.table, 4, Name(1)), Err(Refusal::Disordered));
    let many = vec![Cap::EMPTY; MAX_ROWS + 1];
    assert_eq!(charge(&many, 0, Name(1)), Err(Refusal::Disordered));
    assert_eq!(charge(&[], 0, Name(1)), Err(Refusal::Unissued));
    part.table[7].holders_high = 1;
    assert_eq!(part.lend().charge(Name(1)), Err(Refusal::Disordered));
}

#[test]
fn rows_of_wrong_domains_are_disordered() {
    let mut part = Part::new();
    assert_eq!(part.take(3, create(WHOLE, Some(holders([3, 63])))), made(1));
    assert_eq!(part.take(3, borrow(1, Some(Holders::ALL))), made(2));
    let right = part.table;
    for (maker, given) in [
        (64, u64::MAX),
        (67, u64::MAX),
        (u32::MAX, u64::MAX),
        (4, 8),
        (3, 0),
        (35, 8),
        (63, u64::MAX >> 1),
    ] {
        let row = &mut part.table[1];
        (row.maker, row.holders_low, row.holders_high) =
            (maker, given as u32, (given >> 32) as u32);
        assert_eq!(part.take(3, read(1, WHOLE)), refused(Refusal::Disordered));
    }
    part.table = right;
    assert_eq!(part.take(3, read(1, WHOLE)), DONE);
    // Who made a row and who holds it has no bond to its parent's, and an empty row has neither.
    (part.table[1].maker, part.table[1].holders_low) = (0, 1);
    assert_eq!(part.take(63, read(1, WHOLE)), DONE);
    for set in [
        |row: &mut Cap| row.maker = 1,
        |row: &mut Cap| row.holders_low = 1,
    ] {
        let before = part.table;
        set(&mut part.table[2]);
        assert_eq!(part.take(3, read(1, WHOLE)), refused(Refusal::Disordered));
        part.table = before;
    }
}

/// Requests, each with its line.
fn spellings() -> Vec<(u32, Event, &'static str)> {
    let shared = Some(holders([0, 3, 63]));
    let cell = Event::Borrow {
        written: Some(Name(5)),
        parent: Name(1),
        span: WHOLE,
        right: Right::ReadOnly,
        kind: Kind::Cell,
        holders: shared,
    };
    let fresh = Event::Create {
        written: None,
        span: WHOLE,
        right: Right::ReadWrite,
        fresh: true,
        holders: Some(Holders::ALL),
    };
    vec![
        (
            0,
            create(WHOLE, shared),
            "(create 0 8 rw 8000000000000009)\n",
        ),
        (0, fresh, "(create 0 8 rw fresh ffffffffffffffff)\n"),
        (3, create(WHOLE, None), "(as 3 (create 0 8 rw))\n"),
        (3, fresh, "(as 3 (create 0 8 rw fresh ffffffffffffffff))\n"),
        (3, borrow(1, None), "(as 3 (borrow 1 0 8 rw))\n"),
        (
            3,
            borrow(1, shared),
            "(as 3 (borrow 1 0 8 rw 8000000000000009))\n",
        ),
        (
            63,
            cell,
            "(as 63 (borrow 5 1 0 8 ro cell 8000000000000009))\n",
        ),
        // Holders that begin as another word does.
        (
            0,
            create(WHOLE, Some(Holders::ALL)),
            "(create 0 8 rw ffffffffffffffff)\n",
        ),
        (
            0,
            borrow(1, Some(Holders::from_bits(0xce << 56 | 1))),
            "(borrow 1 0 8 rw ce00000000000001)\n",
        ),
        (3, read(2, WHOLE), "(as 3 (read 2 0 8))\n"),
        (10, write(2, WHOLE), "(as 10 (write 2 0 8))\n"),
        (1, drop(2), "(as 1 (drop 2))\n"),
    ]
}

#[test]
fn lines_say_who_acts_and_who_holds() {
    let mut out = [0; 96];
    for (actor, event, line) in spellings() {
        let actor = domain(actor);
        assert_eq!(write_event(event.by(actor), &mut out), Ok(line.len()));
        assert_eq!(&out[..line.len()], line.as_bytes());
        let spelling = match event.written() {
            Some(_) => Spelling::Named,
            None => Spelling::Plain,
        };
        let read = read_event(spelling, line.as_bytes());
        assert_eq!(read, Ok(Line::Event { actor, event }));
    }
    // Who alone holds what it makes need not say so, and the line does not.
    let alone = create(WHOLE, Some(holders([3]))).by(domain(3));
    let length = write_event(alone, &mut out).unwrap();
    assert_eq!(&out[..length], b"(as 3 (create 0 8 rw))\n");
    assert_eq!(alone, create(WHOLE, None).by(domain(3)));
    let line = b"(as 3 (drop 2 5))\n";
    let names = [Name(2), Name(5)];
    assert_eq!(write_drop_by(domain(3), &names, &mut out), Ok(line.len()));
    assert!(out.starts_with(line));
    let Ok(Line::DropAll { actor, names: read }) = read_event(Spelling::Plain, line) else {
        panic!("names that are dropped together");
    };
    assert_eq!((actor, &*read), (domain(3), &names[..]));
}

#[test]
fn no_other_line_is_read() {
    for line in [
        "(as 0 (read 2 0 8))\n",
        "(as 03 (read 2 0 8))\n",
        "(as 64 (read 2 0 8))\n",
        "(as 4294967299 (read 2 0 8))\n",
        "(as (read 2 0 8))\n",
        "(as 3 read 2 0 8)\n",
        "(as 3 (read 2 0 8)\n",
        "(as 3 (read 2 0 8)))\n",
        "(as 3  (read 2 0 8))\n",
        "(as 3 (as 4 (read 2 0 8)))\n",
        "(as 3 (read 2 0 8 0000000000000008))\n",
        "(as 3 (drop 2 0000000000000008))\n",
        "(create 0 8 rw 0000000000000001)\n",
        "(create 0 8 rw 0000000000000002)\n",
        "(create 0 8 rw 0000000000000000)\n",
        "(create 0 8 rw 8000000000000009 fresh)\n",
        "(create 0 8 rw 800000000000009)\n",
        "(create 0 8 rw 08000000000000009)\n",
        "(create 0 8 rw 800000000000000G)\n",
        "(create 0 8 rw 000000000000000B)\n",
        "(as 3 (create 0 8 rw 0000000000000008))\n",
        "(as 3 (create 0 8 rw 0000000000000001))\n",
        "(as 3 (trace 2))\n",
    ] {
        let read = read_event(Spelling::Plain, line.as_bytes());
        assert_eq!(read, Err(Refusal::Misspelt), "{line}");
        let mut part = Part::new();
        let answer = run(
            &mut part.table,
            &mut part.written,
            &mut part.states,
            &mut part.tally,
            line.as_bytes(),
        );
        let refusal = Refusal::Misspelt;
        assert_eq!(answer, RunAnswer::Refused { refusal, line: 1 });
    }
}

#[test]
fn listings_have_makers_and_holders() {
    let listing = "(issued 4)\n(1 0 64 rw 3 0000000000000009 (2 0 8 rw raw 63 8000000000000000))\n\
        (4 64 8 ro fresh 0 ffffffffffffffff)\n";
    let mut part = Part::new();
    let text = listing.as_bytes();
    assert_eq!(read_listing(text, &mut part.table, &mut part.tally), Ok(()));
    assert_eq!(part.table.map(|row| row.maker), [3, 63, 0, 0, 0, 0, 0, 0]);
    assert_eq!(part.table[1].holders(), holders([63]));
    assert_eq!(
        (part.table[2].holders(), part.table[3]),
        (Holders::ALL, Cap::EMPTY)
    );
    let mut out = [0; 192];
    assert_eq!(write_listing(&part.table, 4, &mut out), Ok(listing.len()));
    assert!(out.starts_with(text));
    for (from, to) in [
        (" 3 0000000000000009", ""),
        (" 3 0000000000000009", " 0000000000000009"),
        (" 3 0000000000000009", " 3"),
        (" 3 0000000000000009", " 0000000000000009 3"),
        (" 3 0000000000000009", " 03 0000000000000009"),
        (" 3 0000000000000009", " 1 0000000000000009"),
        (" 63 8000000000000000", " 64 8000000000000001"),
        (" 63 8000000000000000", " 63 7fffffffffffffff"),
        (" fresh 0 ffffffffffffffff", " 0 ffffffffffffffff fresh"),
        ("ffffffffffffffff", "fffffffffffffff"),
        ("ffffffffffffffff", "FFFFFFFFFFFFFFFF"),
        (" raw 63 8000000000000000", " 63 8000000000000000 raw"),
    ] {
        let wrong = listing.replace(from, to);
        assert_ne!(wrong, listing);
        let before = part.clone();
        let read = read_listing(wrong.as_bytes(), &mut part.table, &mut part.tally);
        assert_eq!((read, &part), (Err(Refusal::Misspelt), &before), "{wrong}");
    }
}

/// The event with each name as it was given, the domain's first at place 1.
fn renamed(event: Event, given: &[u32]) -> Event {
    let name = |own: Name| given[own.0 as usize];
    match event {
        Event::Borrow { parent, .. } => borrow(name(parent), None),
        Event::Read { name: own, span } => read(name(own), span),
        Event::Write { name: own, span } => write(name(own), span),
        other => other,
    }
}

/// What domain 3 gets is the same whatever others do, as long as they leave its spans alone. Its names are
/// 1, 5, .. where others make some too.
#[test]
fn a_domain_gets_what_it_gets_alone() {
    let own = [
        create(span(0, 64), None),
        borrow(1, None),
        write(1, WHOLE),
        read(2, WHOLE),
        borrow(1, None),
        create(span(64, 8), None),
        create(span(72, 8), None),
        write(3, WHOLE),
    ];
    let mut alone = Part::new();
    alone.limits = Some(limited([(0, 2), (3, 3)]));
    let mut among = alone.clone();
    let mut given = vec![0];
    for event in own {
        let expected = alone.take(3, event);
        match among.take(3, renamed(event, &given)) {
            Answer::Allowed(Some(name)) => {
                given.push(name.0);
                assert_eq!(expected, made(given.len() as u32 - 1));
            }
            answer => assert_eq!(answer, expected),
        }
        for start in [1_000, 1_000, 2_000] {
            among.take(0, create(span(start, 8), None));
        }
    }
    assert_eq!(
        (given.len(), alone.tally.issued, alone.tally.refused),
        (5, 4, 2)
    );
    assert!(given[4] > 4 && among.tally.refused > 2);
}

#[test]
fn domain_0_acts_where_nothing_is_said() {
    let mut one = Part::new();
    let mut other = Part::new();
    for event in [
        create(WHOLE, None),
        borrow(1, Some(Holders::ALL)),
        write(1, WHOLE),
        drop(1),
    ] {
        let answer = apply(
            &mut one.table,
            &mut one.written,
            &mut one.states,
            &mut one.tally,
            event,
        );
        assert_eq!(other.take(0, event), answer);
        assert_eq!(one, other);
    }
}
