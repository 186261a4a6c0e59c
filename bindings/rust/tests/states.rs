//! States to come back to: slots, marks and backs, what is stored, and what is judged on going back.

mod answers;

use answers::{drop, made, refused, DONE};
use kelzoud::{
    check, read_event, write_event, Addr, Answer, Cap, Domain, Event, Kind, Lent, Limits, Line,
    Name, Outcome, Refusal, Request, Right, RunAnswer, Slot, Span, Spelling, States, Tally,
    Written, MAX_ROWS, SLOTS, WRITTEN_BYTES,
};

const WHOLE: Span = Span {
    start: Addr(0),
    length: 8,
};

fn slot(number: u32) -> Slot {
    Slot::new(number).unwrap()
}

fn mark(number: u32) -> Event {
    Event::Mark { slot: slot(number) }
}

fn back(number: u32) -> Event {
    Event::Back { slot: slot(number) }
}

fn create(start: u32) -> Event {
    Event::Create {
        written: None,
        span: Span {
            start: Addr(start),
            length: 8,
        },
        right: Right::ReadWrite,
        fresh: false,
        holders: None,
    }
}

fn borrow(parent: u32) -> Event {
    Event::Borrow {
        written: None,
        parent: Name(parent),
        span: WHOLE,
        right: Right::ReadWrite,
        kind: Kind::Reference,
        holders: None,
    }
}

fn read(name: u32) -> Event {
    let name = Name(name);
    Event::Read { name, span: WHOLE }
}

fn write(name: u32) -> Event {
    let name = Name(name);
    Event::Write { name, span: WHOLE }
}

/// A table of eight rows with all that is lent with it.
#[derive(Clone, Debug, PartialEq)]
struct Part {
    table: Vec<Cap>,
    written: Written,
    states: Box<States>,
    tally: Tally,
    limits: Option<Limits>,
}

impl Part {
    fn new() -> Part {
        Part {
            table: vec![Cap::EMPTY; 8],
            written: Written::NONE,
            states: Box::new(States::NOTHING),
            tally: Tally::default(),
            limits: None,
        }
    }

    fn lend(&mut self) -> Lent<'_> {
        let Part {
            table,
            written,
            states,
            tally,
            limits,
        } = self;
        Lent {
            limits: limits.as_ref(),
            ..Lent::new(table, written, states, tally)
        }
    }

    fn take(&mut self, event: Event) -> Answer {
        self.lend().apply(event)
    }

    fn names(&self) -> Vec<u32> {
        let live = self.table.iter().take_while(|row| row.name != 0);
        live.map(|row| row.name).collect()
    }

    /// A root and a borrow of it, written through, and both stored in slot 3; then the borrow ends.
    fn marked() -> Part {
        let mut part = Part::new();
        for (event, answer) in [
            (create(0), made(1)),
            (borrow(1), made(2)),
            (write(2), DONE),
            (mark(3), DONE),
            (create(8), made(3)),
            (drop(2), DONE),
        ] {
            assert_eq!(part.take(event), answer);
        }
        part
    }
}

#[test]
fn slots_are_0_to_7() {
    let numbers: Vec<u32> = Slot::all().map(Slot::number).collect();
    assert_eq!(numbers, [0, 1, 2, 3, 4, 5, 6, 7]);
    for number in [8, 9, 256, u32::MAX] {
        assert_eq!(Slot::new(number), None);
    }
    assert_eq!(
        (Slot::default(), slot(5).to_string()),
        (Slot::ZERO, "5".to_string())
    );
    assert_eq!((SLOTS, States::ROWS, States::BYTES), (8, 8_200, 65_536));
    assert_eq!(size_of::<States>(), 426_336);
    assert_eq!(States::BYTES, SLOTS * WRITTEN_BYTES);
    assert_eq!(format!("{:?}", States::NOTHING), "States { .. }");
}

#[test]
fn what_is_stored_comes_back() {
    let mut part = Part::marked();
    assert_eq!(part.names(), [1, 3]);
    let tally = part.tally;
    assert_eq!(part.take(read(2)), refused(Refusal::Ended));
    assert_eq!(part.take(back(3)), DONE);
    assert_eq!(part.names(), [1, 2]);
    assert_eq!(part.written.0[..2], [0xff, 0]);
    // Neither is counted, and no name is given twice.
    let refused_count = tally.refused + 1;
    assert_eq!(
        part.tally,
        Tally {
            refused: refused_count,
            ..tally
        }
    );
    assert_eq!(part.take(read(3)), refused(Refusal::Ended));
    assert_eq!(part.take(create(8)), made(4));
    assert_eq!(part.take(write(2)), DONE);
    // It is kept.
    assert_eq!(part.take(back(3)), DONE);
    assert_eq!(part.names(), [1, 2]);
}

#[test]
fn each_slot_is_by_itself() {
    let mut part = Part::new();
    for slot in Slot::all() {
        assert_eq!(
            part.take(Event::Back { slot }),
            refused(Refusal::NothingStored)
        );
        assert_eq!(
            part.take(create(8 * slot.number())),
            made(slot.number() + 1)
        );
        assert_eq!(part.take(Event::Mark { slot }), DONE);
    }
    assert_eq!(part.tally.refused, 8);
    for slot in Slot::all() {
        assert_eq!(part.take(Event::Back { slot }), DONE);
        assert_eq!(part.names().len(), slot.number() as usize + 1);
    }
}

#[test]
fn a_right_returns_with_a_back_alone() {
    let mut part = Part::marked();
    assert_eq!(part.take(back(3)), DONE);
    assert_eq!(part.take(read(1)), DONE);
    assert_eq!(part.take(write(2)), refused(Refusal::ReadOnly));
    assert_eq!(part.take(back(3)), DONE);
    assert_eq!(part.take(write(2)), DONE);
}

#[test]
fn any_domain_marks_and_goes_back() {
    let mut part = Part::new();
    let [five, last] = [5, 63].map(|number| Domain::new(number).unwrap());
    assert_eq!(part.take(create(0)), made(1));
    assert_eq!(part.lend().apply(mark(0).by(five)), DONE);
    assert_eq!(part.take(drop(1)), DONE);
    assert_eq!(part.lend().apply(back(0).by(last)), DONE);
    assert_eq!(part.names(), [1]);
}

#[test]
fn lines_of_marks_and_backs() {
    let three = Domain::new(3).unwrap();
    for slot in Slot::all() {
        for (word, event) in [
            ("mark", Event::Mark { slot }),
            ("back", Event::Back { slot }),
        ] {
            for spelling in [Spelling::Plain, Spelling::Named] {
                for (actor, line) in [
                    (Domain::ZERO, format!("({word} {slot})\n")),
                    (three, format!("(as 3 ({word} {slot}))\n")),
                ] {
                    let mut out = [b'?'; 32];
                    let length = write_event(event.by(actor), &mut out).unwrap();
                    assert_eq!(&out[..length], line.as_bytes());
                    let read = read_event(spelling, line.as_bytes());
                    assert_eq!(read, Ok(Line::Event { actor, event }));
                }
            }
        }
    }
    for line in [
        "(mark 8)\n",
        "(mark 03)\n",
        "(back)\n",
        "(as 0 (mark 1))\n",
        "(back 1 2)\n",
    ] {
        let read = read_event(Spelling::Plain, line.as_bytes());
        assert_eq!(read, Err(Refusal::Misspelt), "{line}");
    }
}

#[test]
fn many_requests_and_runs() {
    let mut part = Part::marked();
    let requests = [
        back(3),
        write(2),
        back(4),
        mark(4),
        create(8),
        back(4),
        read(4),
    ];
    let requests = requests.map(Request::from);
    let mut answers = [Outcome::EMPTY; 7];
    let answers = part.lend().apply_all(&requests, &[], &mut answers);
    let answers: Vec<Answer> = answers.iter().map(|answer| answer.answer()).collect();
    assert_eq!(
        answers,
        [
            DONE,
            DONE,
            refused(Refusal::NothingStored),
            DONE,
            made(4),
            DONE,
            refused(Refusal::Ended)
        ]
    );
    let text = b"(back 3)\n(mark 7)\n(drop 1)\n(as 9 (back 7))\n(write 2 0 8)\n(back 5)\n";
    let refusal = Refusal::NothingStored;
    let answer = part.lend().run(text);
    assert_eq!(answer, RunAnswer::Refused { refusal, line: 6 });
    assert_eq!(part.names(), [1, 2]);
}

/// What a part's back to slot 3 gives, and what it leaves. The lines before it in a run stand.
fn does_not_fit(mut part: Part) {
    let before = part.clone();
    let disordered = refused(Refusal::Disordered);
    assert_eq!(part.take(back(3)), disordered);
    assert_eq!(part, before);
    let requests = [back(3), read(1)].map(Request::from);
    let mut answers = [Outcome::EMPTY; 2];
    let answers = part.lend().apply_all(&requests, &[], &mut answers);
    assert_eq!(answers[0].answer(), disordered);
    assert_eq!(answers[1].answer(), DONE);
    let answer = part.lend().run(b"(write 1 0 8)\n(back 3)\n");
    let refusal = Refusal::Disordered;
    assert_eq!(answer, RunAnswer::Refused { refusal, line: 2 });
    assert_eq!(part.tally.writes, before.tally.writes + 1);
    assert_eq!(part.tally.refused, before.tally.refused);
    // A mark makes it good.
    assert_eq!(part.take(mark(3)), DONE);
    assert_eq!(part.take(back(3)), DONE);
}

#[test]
fn what_does_not_fit_is_1_on_going_back() {
    let head = 3 * (MAX_ROWS + 1);
    let changed = |change: fn(&mut Part, usize)| {
        let mut part = Part::marked();
        change(&mut part, head);
        part
    };
    for part in [
        changed(|part, head| part.states.rows[head].name += 1),
        changed(|part, head| part.states.rows[head].name = u32::MAX),
        changed(|part, head| part.states.rows[head].parent = 9),
        changed(|part, head| part.states.rows[head + 1].right = 0),
        changed(|part, head| part.states.rows[head + 2].parent = 7),
        changed(|part, _| part.table.truncate(7)),
        changed(|part, _| part.table.push(Cap::EMPTY)),
        changed(|part, _| {
            assert_eq!(part.take(drop(3)), DONE);
            let mut limits = Limits::NOTHING;
            limits[Domain::ZERO] = 1;
            part.limits = Some(limits);
        }),
    ] {
        does_not_fit(part);
    }
    // Other rows and bits than those that are kept may be anything.
    let mut part = Part::marked();
    part.states.rows[head + 3].name = 1;
    assert_eq!(part.take(back(3)), DONE);
    assert_eq!(part.names(), [1, 2]);
}

#[test]
fn checks_begin_with_nothing_stored() {
    let mut states = Box::new(States::NOTHING);
    states.rows.fill(Cap {
        name: u32::MAX,
        ..Cap::EMPTY
    });
    states.written.fill(255);
    let mut out = [0; 128];
    for _ in 0..2 {
        let input = b"(create 0 8 rw)\n(mark 1)\n(drop 1)\n(back 1)\n(back 0)\n";
        let length = check(&mut states, input, &mut out).unwrap();
        let expected = b"(refused 19 5)\n(issued 1)\n(1 0 8 rw 0 0000000000000001)\n";
        assert_eq!(&out[..length], expected);
    }
}
