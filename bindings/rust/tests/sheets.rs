//! Conflict sheets: their places and bytes, their text, and what events do by them.

use kelzoud::{
    apply, apply_all, drop_all, run, Access, Addr, Answer, Cap, Effect, Event, Kind, Lent, Name,
    Origin, Outcome, Refusal, Request, Right, RunAnswer, Sheet, Span, States, Tally, Written,
    MAX_SHEET,
};

const KINDS: [Kind; 3] = [Kind::Reference, Kind::Raw, Kind::Cell];
const ACCESSES: [Access; 2] = [Access::Read, Access::Write];
const ORIGINS: [Origin; 3] = [Origin::Cell, Origin::Kin, Origin::Stranger];
const EFFECTS: [Effect; 3] = [Effect::Keep, Effect::Lower, Effect::End];

/// The sheet that the library's proofs speak of, as a maker writes it.
const DEFAULT_TEXT: &[u8] = include_bytes!("../../../examples/card6.sheet");

type Combination = (Kind, Access, Origin);

/// Every combination, by rising place.
fn combinations() -> impl Iterator<Item = Combination> {
    KINDS.into_iter().flat_map(|kind| {
        ACCESSES.into_iter().flat_map(move |access| {
            ORIGINS
                .into_iter()
                .map(move |origin| (kind, access, origin))
        })
    })
}

/// A sheet of one effect.
fn all_of(effect: Effect) -> Sheet {
    Sheet::from_bytes([effect as u8; Sheet::PLACES])
}

const WHOLE: Span = Span {
    start: Addr(0),
    length: 8,
};

const ROOT: Event = Event::Create {
    written: None,
    span: WHOLE,
    right: Right::ReadWrite,
    fresh: false,
    holders: None,
};

fn borrow(parent: u32, kind: Kind) -> Event {
    Event::Borrow {
        written: None,
        parent: Name(parent),
        span: WHOLE,
        right: Right::ReadWrite,
        kind,
        holders: None,
    }
}

fn used(access: Access, name: u32) -> Event {
    let (name, span) = (Name(name), WHOLE);
    match access {
        Access::Read => Event::Read { name, span },
        Access::Write => Event::Write { name, span },
    }
}

/// A table of four rows with its written bits and its tally.
#[derive(Clone, Default, Debug, PartialEq)]
struct Part {
    table: [Cap; 4],
    written: Written,
    states: Box<States>,
    tally: Tally,
}

impl Part {
    fn lend(&mut self, sheet: Sheet) -> Lent<'_> {
        Lent {
            sheet,
            ..Lent::new(
                &mut self.table,
                &mut self.written,
                &mut self.states,
                &mut self.tally,
            )
        }
    }

    /// The table as after these events by a sheet, which are all allowed.
    fn after(events: &[Event], sheet: Sheet) -> Part {
        let mut part = Part::default();
        for &event in events {
            let answer = part.lend(sheet).apply(event);
            assert!(matches!(answer, Answer::Allowed(_)), "{event:?}");
        }
        part
    }

    /// What became of a capability that was borrowed read-write.
    fn became(&self, name: u32) -> Effect {
        match self.table.iter().find(|row| row.name == name) {
            Some(row) if row.right == Right::ReadWrite as u32 => Effect::Keep,
            Some(_) => Effect::Lower,
            None => Effect::End,
        }
    }
}

/// Events of which the last strikes 3 in this combination. Where it comes from a stranger the parent of
/// 3 is 2, a reference; else it is 1, and the access comes from 1, or from the cell 2.
fn strikes((kind, access, origin): Combination) -> [Event; 4] {
    let (beside, parent, user) = match origin {
        Origin::Cell => (Kind::Cell, 1, 2),
        Origin::Kin => (Kind::Reference, 1, 1),
        Origin::Stranger => (Kind::Reference, 2, 1),
    };
    [
        ROOT,
        borrow(1, beside),
        borrow(parent, kind),
        used(access, user),
    ]
}

#[test]
fn each_combination_has_its_place() {
    for (place, (kind, access, origin)) in combinations().enumerate() {
        for effect in EFFECTS {
            let sheet = Sheet::DEFAULT.with(kind, access, origin, effect);
            let mut bytes = *Sheet::DEFAULT.as_bytes();
            bytes[place] = effect as u8;
            assert_eq!(sheet, Sheet::from_bytes(bytes));
            assert_eq!(sheet.as_bytes(), &bytes);
            assert_eq!(sheet.result(kind, access, origin), effect);
        }
    }
    assert_eq!(combinations().count(), Sheet::PLACES);
    assert_eq!(Sheet::default(), Sheet::DEFAULT);
}

#[test]
fn any_bytes_are_a_sheet() {
    for byte in 0..=u8::MAX {
        let sheet = Sheet::from_bytes([byte; Sheet::PLACES]);
        let effect = match byte {
            0 => Effect::Keep,
            1 => Effect::Lower,
            _ => Effect::End,
        };
        assert_eq!(sheet, all_of(effect));
        for (kind, access, origin) in combinations() {
            assert_eq!(sheet.result(kind, access, origin), effect);
        }
    }
}

#[test]
fn sheets_are_written_and_read() {
    assert_eq!(Sheet::read(DEFAULT_TEXT), Ok(Sheet::DEFAULT));
    let edited = Sheet::DEFAULT.with(Kind::Cell, Access::Write, Origin::Cell, Effect::Lower);
    for (sheet, length) in [
        (Sheet::DEFAULT, 988),
        (edited, 989),
        (all_of(Effect::Keep), 987),
        (all_of(Effect::Lower), MAX_SHEET),
        (all_of(Effect::End), 969),
    ] {
        let mut out = [b'?'; MAX_SHEET + 1];
        let short = &mut out[..length - 1];
        assert_eq!(sheet.write(short), Err(Refusal::BufferTooShort));
        assert_eq!(out, [b'?'; MAX_SHEET + 1]);
        assert_eq!(sheet.write(&mut out), Ok(length));
        assert_eq!((out[length - 1], out[length]), (b'\n', b'?'));
        assert_eq!(Sheet::read(&out[..length]), Ok(sheet));
    }
    let mut out = [0; MAX_SHEET];
    Sheet::DEFAULT.write(&mut out).unwrap();
    assert!(out.starts_with(b"(rule (holder reference) (access read) (from cell) lower)\n"));
    assert_eq!(Sheet::DEFAULT.write(&mut []), Err(Refusal::BufferTooShort));
}

#[test]
fn wrong_texts_are_refused() {
    let rule = "(rule (holder raw) (access write) (from kin) keep)\n";
    let repeated = "(rule (holder raw raw) (access write) (from kin) keep)\n";
    let whole = String::from_utf8(DEFAULT_TEXT.to_vec()).unwrap();
    let without_newline = whole.trim_end().to_string();
    let without_first = whole.split_once('\n').unwrap().1.to_string();
    for (text, refusal) in [
        ("\n".to_string(), Refusal::Misspelt),
        (without_newline, Refusal::Misspelt),
        (whole.clone() + "\n", Refusal::Misspelt),
        (whole.replace("kin", "Kin"), Refusal::Misspelt),
        (whole.replace("(holder raw) ", ""), Refusal::Misspelt),
        (repeated.to_string() + "?", Refusal::Misspelt),
        (whole.clone() + rule, Refusal::GivenTwice),
        (repeated.to_string(), Refusal::GivenTwice),
        (String::new(), Refusal::NotGiven),
        (rule.to_string(), Refusal::NotGiven),
        (without_first, Refusal::NotGiven),
    ] {
        assert_eq!(Sheet::read(text.as_bytes()), Err(refusal), "{text}");
    }
    assert_eq!(
        Refusal::GivenTwice.to_string(),
        "refusal 14, the sheet's text gives a combination twice"
    );
    assert_eq!(
        Refusal::NotGiven.to_string(),
        "refusal 15, the sheet's text leaves a combination out"
    );
}

#[test]
fn each_place_decides_on_its_combination() {
    for own in combinations() {
        // What a stranger strikes goes along with its parent, which is struck as kin of the same user.
        let parents = (Kind::Reference, own.1, Origin::Kin);
        for other in combinations() {
            let decides = other == own || (own.2 == Origin::Stranger && other == parents);
            for effect in EFFECTS {
                let sheet = all_of(Effect::Keep).with(other.0, other.1, other.2, effect);
                let expected = if decides { effect } else { Effect::Keep };
                let part = Part::after(&strikes(own), sheet);
                assert_eq!(part.became(3), expected, "{own:?} by {other:?}");
                assert_eq!(part.became(1), Effect::Keep);
            }
        }
    }
}

#[test]
fn a_sheet_keeps_lowers_and_ends() {
    for access in ACCESSES {
        let events = [
            ROOT,
            borrow(1, Kind::Raw),
            borrow(2, Kind::Cell),
            used(access, 1),
        ];
        for effect in EFFECTS {
            let mut part = Part::after(&events, all_of(effect));
            assert_eq!(
                [1, 2, 3].map(|name| part.became(name)),
                [Effect::Keep, effect, effect]
            );
            let answer = part.lend(all_of(effect)).apply(used(Access::Write, 3));
            assert_eq!(
                answer,
                match effect {
                    Effect::Keep => Answer::Allowed(None),
                    Effect::Lower => Answer::Refused(Refusal::ReadOnly),
                    Effect::End => Answer::Refused(Refusal::Ended),
                }
            );
        }
    }
}

#[test]
fn a_create_is_a_strangers_write() {
    let (access, origin) = (Access::Write, Origin::Stranger);
    let events = [ROOT, borrow(1, Kind::Raw), borrow(1, Kind::Cell), ROOT];
    for effect in EFFECTS {
        let sheet = all_of(Effect::End)
            .with(Kind::Reference, access, origin, Effect::Keep)
            .with(Kind::Raw, access, origin, effect)
            .with(Kind::Cell, access, origin, Effect::Lower);
        let part = Part::after(&events, sheet);
        let became = [1, 2, 3, 4].map(|name| part.became(name));
        assert_eq!(became, [Effect::Keep, effect, Effect::Lower, Effect::Keep]);
    }
    let part = Part::after(&events, Sheet::DEFAULT);
    assert_eq!((part.table[0].name, part.table[1]), (4, Cap::EMPTY));
}

#[test]
fn bits_are_followed_by_any_sheet() {
    let fresh = Event::Create {
        written: None,
        span: WHOLE,
        right: Right::ReadOnly,
        fresh: true,
        holders: None,
    };
    let half = Event::Create {
        written: None,
        span: Span {
            start: Addr(4),
            length: 4,
        },
        right: Right::ReadWrite,
        fresh: false,
        holders: None,
    };
    let unwritten = Answer::Refused(Refusal::NotWritten);
    // Where a create keeps what it strikes, others may write for what is fresh, and take it back.
    let sheet = all_of(Effect::Keep);
    let mut part = Part::after(&[fresh, ROOT], sheet);
    assert_eq!(part.lend(sheet).apply(used(Access::Read, 1)), unwritten);
    let events = [used(Access::Write, 2), used(Access::Read, 1), half];
    for event in events {
        assert!(matches!(part.lend(sheet).apply(event), Answer::Allowed(_)));
    }
    assert_eq!(part.written.0[0], 0x0f);
    assert_eq!(part.lend(sheet).apply(used(Access::Read, 1)), unwritten);
    let read = part.lend(sheet).apply(used(Access::Read, 2));
    assert_eq!(read, Answer::Allowed(None));
}

#[test]
fn many_requests_and_runs_go_by_the_sheet() {
    let text = b"(create 0 8 rw)\n(borrow 1 0 8 rw)\n(read 1 0 8)\n(write 2 0 8)\n";
    let names = [Name(1), Name(2)];
    let requests = [
        ROOT.into(),
        borrow(1, Kind::Reference).into(),
        used(Access::Read, 1).into(),
        used(Access::Write, 2).into(),
        Request::drop_all(0..2),
    ];
    let ended = Answer::Refused(Refusal::Ended);
    for (effect, refusal, dropped) in [
        (Effect::Keep, None, Answer::Allowed(None)),
        (
            Effect::Lower,
            Some(Refusal::ReadOnly),
            Answer::Allowed(None),
        ),
        (Effect::End, Some(Refusal::Ended), ended),
    ] {
        let sheet = all_of(effect);
        let mut ran = Part::default();
        let answer = ran.lend(sheet).run(text);
        assert_eq!(
            answer,
            match refusal {
                None => RunAnswer::Allowed { lines: 4 },
                Some(refusal) => RunAnswer::Refused { refusal, line: 4 },
            }
        );
        // What is dropped ends by any sheet.
        assert_eq!(ran.lend(sheet).drop_all(&names), dropped);

        let mut part = Part::default();
        let mut room = [Outcome::EMPTY; 8];
        let answers = part.lend(sheet).apply_all(&requests, &names, &mut room);
        assert_eq!(answers.len(), requests.len());
        assert_eq!(answers[2].answer(), Answer::Allowed(None));
        assert_eq!(
            answers[3].answer(),
            refusal.map_or(Answer::Allowed(None), Answer::Refused)
        );
        assert_eq!(answers[4].answer(), dropped);
        assert_eq!(part, ran);
    }
}

#[test]
fn without_a_sheet_it_is_the_default_one() {
    for combination in combinations() {
        let events = strikes(combination);
        let (kind, access, origin) = combination;
        let expected = Part::after(&events, Sheet::DEFAULT);
        // A stranger's strike on 3 strikes 2 as well, its parent.
        if origin != Origin::Stranger {
            let effect = Sheet::DEFAULT.result(kind, access, origin);
            assert_eq!(expected.became(3), effect);
        }
        let mut part = Part::default();
        for event in events {
            apply(
                &mut part.table,
                &mut part.written,
                &mut part.states,
                &mut part.tally,
                event,
            );
        }
        assert_eq!(part, expected);

        let mut part = Part::default();
        for event in events {
            Lent::new(
                &mut part.table,
                &mut part.written,
                &mut part.states,
                &mut part.tally,
            )
            .apply(event);
        }
        assert_eq!(part, expected);

        let mut part = Part::default();
        let mut answers = [Outcome::EMPTY; 4];
        let requests = events.map(Request::from);
        apply_all(
            &mut part.table,
            &mut part.written,
            &mut part.states,
            &mut part.tally,
            &requests,
            &[],
            &mut answers,
        );
        assert_eq!(part, expected);
        assert_eq!(
            drop_all(
                &mut part.table,
                &mut part.written,
                &mut part.states,
                &mut part.tally,
                &[Name(1)]
            ),
            Answer::Allowed(None)
        );
        assert_eq!(part.table, [Cap::EMPTY; 4]);
    }
    let mut part = Part::default();
    let text = b"(create 0 8 rw)\n(borrow 1 0 8 rw)\n(read 1 0 8)\n(write 2 0 8)\n";
    let refusal = Refusal::ReadOnly;
    assert_eq!(
        run(
            &mut part.table,
            &mut part.written,
            &mut part.states,
            &mut part.tally,
            text
        ),
        RunAnswer::Refused { refusal, line: 4 }
    );
}

#[test]
fn a_disordered_table_is_refused_by_any_sheet() {
    let mut part = Part::default();
    part.table[3].name = 1;
    let before = part.clone();
    for effect in EFFECTS {
        let mut lent = part.lend(all_of(effect));
        let disordered = Answer::Refused(Refusal::Disordered);
        assert_eq!(lent.apply(ROOT), disordered);
        assert_eq!(lent.drop_all(&[Name(1)]), disordered);
        let refusal = Refusal::Disordered;
        assert_eq!(lent.run(b""), RunAnswer::Refused { refusal, line: 0 });
    }
    assert_eq!(part, before);
}
