//! One table for all allocations, and one for each: both get the same answers, have the same rows and the
//! same written bits. It is what `docs/EMBEDDING.md`, 'One table for each allocation', tells a tool to do.

use kelzoud::{
    Access, Addr, Answer, Cap, Domain, Effect, Event, Holders, Kind, Lent, Name, Origin, Refusal,
    Request, Right, Sheet, Span, States, Tally, Written, MAX_ROWS,
};

/// Numbers that look random and are the same each time (xorshift).
struct Random(u64);

impl Random {
    fn below(&mut self, bound: u32) -> u32 {
        self.0 ^= self.0 << 13;
        self.0 ^= self.0 >> 7;
        self.0 ^= self.0 << 17;
        ((self.0 >> 32) % u64::from(bound)) as u32
    }

    fn pick<T: Copy>(&mut self, items: &[T]) -> T {
        items[self.below(items.len() as u32) as usize]
    }

    /// Any sheet by which a stranger's write ends a reference, so that a create ends the roots that it
    /// touches.
    fn sheet(&mut self) -> Sheet {
        let bytes = [(); Sheet::PLACES].map(|()| self.pick(&[0, 0, 1, 2]));
        let sheet = match self.below(3) {
            0 => Sheet::DEFAULT,
            _ => Sheet::from_bytes(bytes),
        };
        let (kind, access) = (Kind::Reference, Access::Write);
        sheet.with(kind, access, Origin::Stranger, Effect::End)
    }

    /// A span within another, or at times a little outside of it.
    fn span_in(&mut self, outer: Span) -> Span {
        let start = outer.start.0 + self.below(outer.length / 2 + 1);
        let length = match self.below(12) {
            0 => outer.length,
            _ => self.below(outer.start.0 + outer.length - start + 1),
        };
        let start = Addr(start);
        Span { start, length }
    }

    fn right(&mut self) -> Right {
        self.pick(&[Right::ReadWrite, Right::ReadWrite, Right::ReadOnly])
    }

    /// Who acts, and who holds what it makes: one of three domains, mostly the same, for all or itself.
    fn domain(&mut self) -> (Domain, Option<Holders>) {
        let number = self.pick(&[0, 0, 0, 0, 3, 63]);
        let holders = self.pick(&[Some(Holders::ALL), Some(Holders::ALL), None]);
        (Domain::new(number).unwrap(), holders)
    }
}

/// What all tables share: the written bits, and room for states, of which none is stored.
struct Shared {
    written: Written,
    states: Box<States>,
}

impl Shared {
    fn new() -> Shared {
        Shared {
            written: Written::NONE,
            states: Box::new(States::NOTHING),
        }
    }
}

/// A table with its tally.
struct Part {
    table: Vec<Cap>,
    tally: Tally,
}

impl Part {
    fn new(rows: usize) -> Part {
        Part {
            table: vec![Cap::EMPTY; rows],
            tally: Tally::default(),
        }
    }

    fn take(&mut self, shared: &mut Shared, sheet: Sheet, request: Request) -> Answer {
        let Shared { written, states } = shared;
        let lent = Lent::new(&mut self.table, written, states, &mut self.tally);
        Lent { sheet, ..lent }.apply(request)
    }

    fn live(&self) -> impl Iterator<Item = &Cap> {
        self.table.iter().take_while(|row| row.name != 0)
    }
}

/// So many rows are enough for one allocation here.
const ROWS: usize = 64;

/// A table for each allocation, and one array of written bits for all.
struct Apart {
    parts: Vec<Part>,
    shared: Shared,
    /// The allocation and the name in its table of each name in the one table, from 1 on.
    known: Vec<(usize, Name)>,
}

/// A new name, where one was made, or the refusal.
fn outcome(answer: Answer) -> Result<Option<Name>, Refusal> {
    answer.into()
}

impl Apart {
    fn new() -> Apart {
        Apart {
            parts: Vec::new(),
            shared: Shared::new(),
            known: vec![(0, Name(0))],
        }
    }

    /// A create on a table of its own; where it is allowed, the roots that it touches are dropped by who
    /// made them.
    fn create(&mut self, sheet: Sheet, create: Request, span: Span) -> Result<(), Refusal> {
        let mut part = Part::new(ROWS);
        let made = outcome(part.take(&mut self.shared, sheet, create))?;
        for old in &mut self.parts {
            let root = old.table[0];
            if root.name != 0 && touches(&root, span) {
                let drop = Event::Drop {
                    name: Name(root.name),
                };
                let maker = Domain::new(root.maker).unwrap();
                assert_eq!(
                    old.take(&mut self.shared, sheet, drop.by(maker)),
                    Answer::Allowed(None)
                );
            }
        }
        self.known.push((self.parts.len(), made.unwrap()));
        self.parts.push(part);
        Ok(())
    }

    /// An event through a name, on the table of that name.
    fn take(&mut self, sheet: Sheet, actor: Domain, event: Event) -> Result<(), Refusal> {
        if let Event::Create { span, .. } = event {
            return self.create(sheet, event.by(actor), span);
        }
        let (place, name) = self.known[name_of(event).0 as usize];
        let request = with_name(event, name).by(actor);
        let answer = self.parts[place].take(&mut self.shared, sheet, request);
        if let Some(made) = outcome(answer)? {
            self.known.push((place, made));
        }
        Ok(())
    }

    /// The live rows of all tables, with names as the one table has them.
    fn rows(&self) -> Vec<Cap> {
        let mut rows = Vec::new();
        for (name, (place, own)) in self.known.iter().enumerate().skip(1) {
            let mut live = self.parts[*place].live();
            if let Some(row) = live.find(|row| row.name == own.0) {
                let parent = (*place, Name(row.parent));
                let parent = self.known.iter().position(|known| *known == parent);
                rows.push(Cap {
                    name: name as u32,
                    parent: parent.unwrap_or(0) as u32,
                    ..*row
                });
            }
        }
        rows
    }
}

fn touches(row: &Cap, span: Span) -> bool {
    let start = row.start.max(span.start.0);
    start < (row.start + row.length).min(span.start.0 + span.length)
}

fn name_of(event: Event) -> Name {
    match event {
        Event::Create { .. } | Event::Mark { .. } | Event::Back { .. } => Name(0),
        Event::Borrow { parent: name, .. }
        | Event::Read { name, .. }
        | Event::Write { name, .. }
        | Event::Drop { name } => name,
    }
}

/// The same through another name.
fn with_name(event: Event, name: Name) -> Event {
    match event {
        Event::Borrow {
            written,
            span,
            right,
            kind,
            holders,
            ..
        } => Event::Borrow {
            written,
            parent: name,
            span,
            right,
            kind,
            holders,
        },
        Event::Read { span, .. } => Event::Read { name, span },
        Event::Write { span, .. } => Event::Write { name, span },
        Event::Drop { .. } => Event::Drop { name },
        other => other,
    }
}

/// An event, mostly through a name that lives.
fn event(random: &mut Random, whole: &Part, holders: Option<Holders>) -> Event {
    let live: Vec<&Cap> = whole.live().collect();
    if live.is_empty() || random.below(8) == 0 {
        return Event::Create {
            written: None,
            span: Span {
                start: Addr(8 * random.below(64)),
                length: random.pick(&[0, 8, 16, 16, 64]),
            },
            right: random.right(),
            fresh: random.below(2) == 0,
            holders,
        };
    }
    let row = random.pick(&live);
    let outer = Span {
        start: Addr(row.start),
        length: row.length,
    };
    let span = random.span_in(outer);
    let name = match random.below(10) {
        0 => Name(1 + random.below(whole.tally.issued)),
        _ => Name(row.name),
    };
    match random.below(10) {
        0..4 => Event::Borrow {
            written: None,
            parent: name,
            span,
            right: random.right(),
            kind: random.pick(&[Kind::Reference, Kind::Raw, Kind::Cell]),
            holders,
        },
        4..7 => Event::Write { name, span },
        7..9 => Event::Read { name, span },
        _ => Event::Drop { name },
    }
}

/// A list of events on one table and on many, and how often each refusal was met.
fn run(seed: u64, met: &mut [u32; 20]) {
    let mut random = Random(seed);
    let sheet = random.sheet();
    let mut whole = Part::new(MAX_ROWS);
    let mut shared = Shared::new();
    let mut apart = Apart::new();
    for _ in 0..200 {
        let (actor, holders) = random.domain();
        let event = event(&mut random, &whole, holders);
        let answer = whole.take(&mut shared, sheet, event.by(actor));
        let refusal = outcome(answer).map(|_| ());
        met[refusal.map_or_else(|refusal| refusal.number().into(), |()| 0)] += 1;
        assert_eq!(
            apart.take(sheet, actor, event),
            refusal,
            "{event:?} by {actor}"
        );
        assert!(apart
            .parts
            .iter()
            .all(|part| part.table[ROWS - 1].name == 0));
        assert!(
            whole.live().copied().eq(apart.rows()),
            "{event:?} by {actor}"
        );
        assert_eq!(shared.written, apart.shared.written);
    }
    assert!(*apart.shared.states == States::NOTHING);
}

#[test]
fn a_table_for_each_allocation_is_as_one_for_all() {
    let mut met = [0; 20];
    for seed in 1..=60_u64 {
        run(seed.wrapping_mul(0x9E37_79B9_7F4A_7C15), &mut met);
    }
    for refusal in [0, 5, 6, 7, 16, 17] {
        assert!(
            met[refusal] > 50,
            "refusal {refusal} is seldom met: {met:?}"
        );
    }
}
