//! Random tables, written bits, states, tallies, events and texts.

use interface::Event;
use oracle::random::Random;
use oracle::{
    FRESH, HEADER, MAX_DEPTH, MAX_GROUP, MAX_NAME, Row, Span, Spelling, Tally, WRITABLE,
    WRITTEN_BYTES, Written,
};

use crate::acting::{
    self, NO_DOMAINS, actor, cast, disturb_holders, disturb_limits, dropper, form_of, holders,
    holders_asked, some_limits,
};
use crate::agree::{self, Bits, Lent, oracle_act};
use crate::slots::Slots;
use crate::turning;

/// The shape of a table in order.
pub struct Shape {
    pub rows: usize,
    pub live: usize,
    /// Whether most capabilities are borrowed from the newest.
    pub deep: bool,
}

impl Shape {
    /// A table of any number of rows up to so many, some of them empty.
    pub fn partly_full(random: &mut Random, most_rows: usize) -> Shape {
        let rows = random.between(0, most_rows);
        Shape {
            rows,
            live: random.between(0, rows),
            deep: random.one_in(4),
        }
    }

    pub fn full(random: &mut Random, rows: usize) -> Shape {
        Shape {
            rows,
            live: rows,
            deep: random.one_in(4),
        }
    }
}

/// A part of the addresses, small in most cases so that spans touch.
pub fn area(random: &mut Random) -> Span {
    let span = |start, length| Span { start, length };
    random.pick(&[
        span(0, 12),
        span(0, 64),
        span(4_096, 40),
        span(WRITABLE - 16, 24),
        span(u32::MAX - 15, 16),
        span(1, u32::MAX),
    ])
}

/// A legal span inside another. It may have length 0, and then start at the other's end.
pub fn inside(random: &mut Random, outer: Span) -> Span {
    if random.one_in(3) {
        return outer;
    }
    let last = outer.length.min(u32::MAX - outer.start);
    let offset = random.below(u64::from(last) + 1) as u32;
    let most = match random.one_in(2) {
        true => outer.length - offset,
        false => (outer.length - offset).min(4),
    };
    Span {
        start: outer.start + offset,
        length: random.below(u64::from(most) + 1) as u32,
    }
}

/// A span that touches no live capability, where there is one at the first address or behind a root.
/// Tables are filled with roots by creates of such spans.
fn beside(random: &mut Random, live: &[Row]) -> Option<Span> {
    let roots: Vec<Span> = live
        .iter()
        .filter(|row| row.parent == 0)
        .map(Row::span)
        .collect();
    let is_free = |start: &u32| {
        let (start, length) = (*start, 1);
        !roots
            .iter()
            .any(|root| root.touches(Span { start, length }))
    };
    let ends = roots.iter().filter_map(|root| root.end().try_into().ok());
    let starts: Vec<u32> = ends.chain([0]).filter(is_free).collect();
    let start = *starts.get(random.index(starts.len().max(1)))?;
    let behind = roots.iter().map(|root| root.start).filter(|at| *at > start);
    let room = behind.min().unwrap_or(u32::MAX) - start;
    Some(Span {
        start,
        length: random.below(u64::from(room.min(12)) + 1) as u32,
    })
}

/// Counts at their ceiling, near it, and anywhere.
pub fn tally(random: &mut Random) -> Tally {
    let mut count = || match random.below(3) {
        0 => u32::MAX - random.below(3) as u32,
        1 => random.below(3) as u32,
        _ => random.number(),
    };
    Tally {
        issued: 0,
        creates: count(),
        borrows: count(),
        reads: count(),
        writes: count(),
        drops: count(),
        refused: count(),
    }
}

/// Written bits: none, all of an area's, or any pieces of it, and rarely any bits at all.
pub fn bits(random: &mut Random, area: Span) -> Bits {
    if random.one_in(200) {
        let bytes: Vec<u8> = (0..WRITTEN_BYTES).map(|_| random.bits() as u8).collect();
        return Bits::lent(&bytes);
    }
    let mut written = Written::default();
    match random.below(4) {
        0 => {}
        1 => written.add(area),
        _ => {
            for _ in 0..random.between(1, 5) {
                let span = inside(random, area);
                match random.one_in(3) {
                    true => written.remove(span),
                    false => written.add(span),
                }
            }
        }
    }
    Bits::Of(written)
}

/// Numbers of bytes that are not lent rightly.
pub const OTHER_LENGTHS: [usize; 6] = [
    0,
    1,
    WRITTEN_BYTES - 1,
    WRITTEN_BYTES + 1,
    2 * WRITTEN_BYTES,
    65_536,
];

/// Bytes of another length than that of written bits.
pub fn other_bits(random: &mut Random) -> Bits {
    let length = random.pick(&OTHER_LENGTHS);
    Bits::lent(&vec![random.pick(&[0, 1, 255]); length])
}

/// A table in order, with an issued number that fits it, bits of the same area, and at times limits and stored
/// states.
pub fn ordered(random: &mut Random, shape: &Shape) -> Lent {
    let area = area(random);
    let cast = cast(random);
    let widest_gap = random.between(1, 4) as u32;
    let spare = MAX_NAME - widest_gap * shape.live as u32;
    let mut last_name = match random.below(4) {
        0 => spare,
        1 => random.below(spare.into()) as u32,
        _ => 0,
    };
    let mut rows: Vec<Row> = Vec::with_capacity(shape.rows);
    for _ in 0..shape.live {
        last_name += 1 + random.below(widest_gap.into()) as u32;
        let parent = parent(random, &rows, shape.deep);
        rows.push(row(random, last_name, parent, area, &cast));
    }
    let last_name = rows.last().map_or(0, |row| row.name);
    rows.resize(shape.rows, Row::default());
    let tally = Tally {
        issued: issued(random, last_name),
        ..tally(random)
    };
    let bits = bits(random, area);
    let limits = some_limits(random, &rows, &cast);
    let mut lent = Lent {
        rows,
        bits,
        slots: Slots::nothing(),
        tally,
        limits,
    };
    lent.slots = turning::some_slots(random, &lent);
    lent
}

/// A table in order with one tree, whose capabilities have one span and most of them a kind: whatever
/// strikes one meets them all.
pub fn crowded(random: &mut Random, rows: usize, live: usize) -> Lent {
    let deep = false;
    let mut lent = ordered(random, &Shape { rows, live, deep });
    for at in 1..live {
        let parent = random.pick(&lent.rows[..at]);
        lent.rows[at] = Row {
            name: lent.rows[at].name,
            parent: parent.name,
            depth: parent.depth + 1,
            kind: random.pick(&[0, 1, 1, 2, 2]),
            maker: lent.rows[at].maker,
            holders: lent.rows[at].holders,
            ..parent
        };
    }
    lent
}

fn parent(random: &mut Random, rows: &[Row], deep: bool) -> Option<Row> {
    let rarely_a_root = if deep { 200 } else { 3 };
    if rows.is_empty() || random.one_in(rarely_a_root) {
        return None;
    }
    let candidate = match deep && !random.one_in(400) {
        true => rows[rows.len() - 1],
        false => random.pick(rows),
    };
    (candidate.depth < MAX_DEPTH).then_some(candidate)
}

fn row(random: &mut Random, name: u32, parent: Option<Row>, area: Span, cast: &[u32]) -> Row {
    let maker = random.pick(cast);
    let outer = parent.map_or(area, |parent| parent.span());
    let span = inside(random, outer);
    let highest = parent.map_or(2, |parent| parent.right);
    Row {
        name,
        parent: parent.map_or(0, |parent| parent.name),
        start: span.start,
        length: span.length,
        right: if random.one_in(10) { 1 } else { highest },
        depth: parent.map_or(0, |parent| parent.depth) + 1,
        kind: parent.map_or(0, |_| random.pick(&KINDS)),
        fresh: parent.map_or_else(|| root_mark(random, span), |parent| parent.fresh),
        maker,
        holders: holders(random, cast, maker),
    }
}

/// The mark of a root: a third of those that may have one.
fn root_mark(random: &mut Random, span: Span) -> u32 {
    let may_be_marked = span.end() <= u64::from(WRITABLE);
    u32::from(may_be_marked && random.one_in(3)) * FRESH
}

/// The kinds of what is borrowed: raw ones and cells are a third.
const KINDS: [u32; 6] = [0, 0, 0, 0, 1, 2];

/// Numbers that are no kind, of which some end in the byte of one.
pub const NO_KINDS: [u32; 10] = [3, 4, 128, 255, 256, 257, 258, 65_537, 1 << 31, u32::MAX];

/// Numbers that are no mark, of which some end in the byte of one.
pub const NO_MARKS: [u32; 10] = [2, 3, 128, 255, 256, 257, 65_536, 65_537, 1 << 31, u32::MAX];

fn issued(random: &mut Random, last_name: u32) -> u32 {
    let highest = match random.below(4) {
        0 => MAX_NAME - random.below(3) as u32,
        1 => last_name + random.below(3) as u32,
        _ => last_name,
    };
    highest.clamp(last_name, MAX_NAME)
}

/// A row of any numbers.
pub fn noise_row(random: &mut Random) -> Row {
    Row {
        name: random.number(),
        parent: random.number(),
        start: random.number(),
        length: random.number(),
        right: random.number(),
        depth: random.number(),
        kind: random.number(),
        fresh: random.number(),
        maker: random.number(),
        holders: random.bits(),
    }
}

/// Changes something of a lent table, of its issued number, of how many bits are lent, of the states or of the
/// limits. It may still be in order then.
pub fn disturb(random: &mut Random, lent: &mut Lent) {
    if lent.rows.is_empty() || random.one_in(8) {
        let last_name = oracle::live_rows(&lent.rows)
            .last()
            .map_or(0, |row| row.name);
        let edges = [
            0,
            last_name.wrapping_sub(1),
            MAX_NAME,
            MAX_NAME + 1,
            u32::MAX,
        ];
        lent.tally.issued = random.pick(&edges);
        return;
    }
    let (one, other) = (random.index(lent.rows.len()), random.index(lent.rows.len()));
    match random.below(26) {
        0 => lent.rows.swap(one, other),
        1 => lent.rows[one] = lent.rows[other],
        2 => lent.rows[one] = Row::default(),
        3 => lent.rows[one].parent = lent.rows[other].name,
        4 => lent
            .rows
            .resize(random.between(1_024, 1_026), Row::default()),
        5 => lent.rows[one].kind = random.pick(&NO_KINDS),
        6 => lent.rows[one].kind = random.pick(&[1, 2]),
        7 => lent.rows[one].fresh = random.pick(&NO_MARKS),
        8 => lent.rows[one].fresh ^= FRESH,
        9 | 10 => mark_tree(lent, one),
        11 => lent.bits = other_bits(random),
        12 => lent.rows[one].maker = random.pick(&NO_DOMAINS),
        13 => lent.rows[one].maker = random.below(64) as u32,
        14 => disturb_holders(random, &mut lent.rows[one]),
        15 | 16 => disturb_limits(random, lent),
        17 => turning::disturb_slots(random, lent),
        _ => disturb_field(random, &mut lent.rows[one]),
    }
}

/// Gives a row's tree the mark, or takes it: in order unless a span ends too high.
fn mark_tree(lent: &mut Lent, at: usize) {
    let rows = &mut lent.rows;
    let root_of = |rows: &[Row], at: usize| {
        let mut root = at;
        // Rows that are not in order might go round and round.
        for _ in 0..rows.len() {
            let parent = rows[root].parent;
            let above = rows
                .iter()
                .position(|row| row.name == parent && parent != 0);
            root = above.unwrap_or(root);
        }
        root
    };
    let root = root_of(rows, at);
    let tree: Vec<usize> = (0..rows.len())
        .filter(|at| root_of(rows, *at) == root)
        .collect();
    tree.into_iter().for_each(|at| rows[at].fresh ^= FRESH);
}

fn disturb_field(random: &mut Random, row: &mut Row) {
    let field = match random.below(10) {
        0 => &mut row.name,
        1 => &mut row.parent,
        2 => &mut row.start,
        3 => &mut row.length,
        4 => &mut row.right,
        5 => &mut row.kind,
        6 => &mut row.fresh,
        7 => &mut row.maker,
        8 => return disturb_holders(random, row),
        _ => &mut row.depth,
    };
    *field = near(random, *field);
}

/// One more, one less, or another number altogether.
fn near(random: &mut Random, number: u32) -> u32 {
    match random.below(3) {
        0 => number.wrapping_add(1),
        1 => number.wrapping_sub(1),
        _ => random.number(),
    }
}

/// An event that has something to do with the table, in the named spelling with a written name.
/// Values that its kind lacks are filled too, because nobody may look at them.
fn event(random: &mut Random, lent: &Lent, area: Span, spelling: Spelling) -> Event {
    if random.one_in(24) {
        return turning::turn(random, lent);
    }
    let live = oracle::live_rows(&lent.rows);
    let user = match random.below(6) {
        0 => None,
        1 => live.iter().max_by_key(|row| row.depth).copied(),
        _ => live.get(random.index(live.len().max(1))).copied(),
    };
    let kind = match random.one_in(50) {
        true => random.pick(&[0, 9, 10, 128, 255]),
        false => random.pick(&[1, 2, 2, 2, 3, 3, 4, 4, 5]),
    };
    let outer = user.map_or(area, |user| user.span());
    let span = match random.below(10) {
        0 => Span {
            start: near(random, outer.start),
            length: outer.length,
        },
        1 => Span {
            start: outer.start,
            length: near(random, outer.length),
        },
        2 if random.one_in(3) => Span {
            start: random.number(),
            length: random.number(),
        },
        _ if outer.is_legal() => inside(random, outer),
        _ => outer,
    };
    // A create over what lives ends it, so half of the creates are made beside.
    let free = match kind == 1 && random.one_in(2) {
        true => beside(random, live),
        false => None,
    };
    let span = free.unwrap_or(span);
    let actor = match kind {
        1 => actor(random, live, None),
        _ => actor(random, live, user.as_ref()),
    };
    Event {
        kind,
        written: match spelling {
            Spelling::Plain => None,
            Spelling::Named => Some(written_name(random, lent.tally.issued)),
        },
        name: user.map_or_else(|| stray_name(random, lent.tally.issued), |user| user.name),
        start: span.start,
        length: span.length,
        right: match random.one_in(25) {
            true => random.pick(&[0, 3, 4, 128, 254, 255]),
            false => random.pick(&[1, 2, 2, 2]),
        },
        cap_kind: cap_kind(random, kind),
        fresh: mark(random, kind),
        actor,
        holders: holders_asked(random, live, actor, kind),
    }
}

/// The kind that an event of this sort has for what it borrows, and anything where it borrows nothing.
pub fn cap_kind(random: &mut Random, kind: u8) -> u8 {
    match kind != 2 || random.one_in(25) {
        true => random.pick(&[0, 1, 2, 3, 4, 128, 254, 255]),
        false => random.pick(&KINDS) as u8,
    }
}

/// The mark that an event of this sort has for what it creates, and anything where it creates nothing.
pub fn mark(random: &mut Random, kind: u8) -> u8 {
    match kind != 1 || random.one_in(25) {
        true => random.pick(&[0, 1, 2, 3, 128, 254, 255]),
        false => random.pick(&[0, 0, 1]),
    }
}

/// A name that may have ended or not been issued.
pub fn stray_name(random: &mut Random, issued: u32) -> u32 {
    match random.below(4) {
        0 => random.pick(&[0, issued, issued.wrapping_add(1), u32::MAX]),
        1 => random.number(),
        _ => random.below(u64::from(issued) + 1) as u32,
    }
}

/// The new name that is right in most cases.
fn written_name(random: &mut Random, issued: u32) -> u32 {
    match random.below(8) {
        0 => wrong_name(random, issued),
        _ => issued.wrapping_add(1),
    }
}

/// A new name that is hardly ever right.
pub fn wrong_name(random: &mut Random, issued: u32) -> u32 {
    let edges = [
        0,
        1,
        issued,
        issued.wrapping_add(2),
        issued.wrapping_add(1) ^ 1 << 16,
        MAX_NAME,
        MAX_NAME + 1,
        u32::MAX,
    ];
    match random.one_in(3) {
        true => random.number(),
        false => random.pick(&edges),
    }
}

/// Events made one after the other on what the last left, most of them allowed.
pub fn events(random: &mut Random, mut lent: Lent, count: usize, spelling: Spelling) -> Vec<Event> {
    let area = area(random);
    let mut events = Vec::with_capacity(count);
    for _ in 0..count {
        let mut event = self::event(random, &lent, area, spelling);
        let mut tries = random.below(6);
        while tries > 0 && !is_wanted(random, &lent, event) {
            event = self::event(random, &lent, area, spelling);
            tries -= 1;
        }
        let _ = agree::oracle_apply(&mut lent, event);
        events.push(event);
    }
    events
}

/// Whether an event is allowed. Few reads find something that is not written, so half of these are wanted
/// too.
fn is_wanted(random: &mut Random, lent: &Lent, event: Event) -> bool {
    match agree::oracle_apply(&mut lent.clone(), event) {
        Ok(_) => true,
        Err(16) => random.one_in(2),
        Err(_) => false,
    }
}

/// So many of the items, in their order; all of them where they are fewer.
fn sample<T: Copy>(random: &mut Random, items: &[T], count: usize) -> Vec<T> {
    let mut wanted = count;
    let mut picked = Vec::with_capacity(count);
    for (at, item) in items.iter().enumerate() {
        if random.index(items.len() - at) < wanted {
            picked.push(*item);
            wanted -= 1;
        }
    }
    picked
}

/// Names to drop together: some of one subtree, some below one parent, or some anywhere, often such as one
/// domain holds, and at times names that have ended or were not issued. They rise strictly.
pub fn group(random: &mut Random, lent: &Lent) -> Vec<u32> {
    let live = oracle::live_rows(&lent.rows);
    let most = random.pick(&[2, 4, 4, 12, 12, MAX_GROUP]);
    let count = match random.one_in(3) {
        true => most,
        false => random.between(1, most),
    };
    let mut related = related(random, live);
    if random.one_in(2) {
        acting::keep_held(random, live, &mut related);
    }
    let mut names = sample(random, &related, count);
    if names.is_empty() || random.one_in(4) {
        let strays = random.between(1, 2);
        names.truncate(MAX_GROUP - strays);
        names.extend((0..strays).map(|_| stray_name(random, lent.tally.issued)));
    }
    names.sort_unstable();
    names.dedup();
    names
}

/// The live names, or those of one subtree, or those below one parent.
fn related(random: &mut Random, live: &[Row]) -> Vec<u32> {
    let Some(first) = live.get(random.index(live.len().max(1))) else {
        return Vec::new();
    };
    let sort = random.below(4);
    let mut names = Vec::new();
    for row in live {
        let below = row.name == first.name || names.contains(&row.parent);
        let beside = row.parent == first.parent;
        if (sort == 0 && below) || (sort == 1 && beside) || sort > 1 {
            names.push(row.name);
        }
    }
    names
}

/// Names that are hardly ever a group: none, too many, not strictly rising, or any numbers.
pub fn bad_group(random: &mut Random, lent: &Lent) -> Vec<u32> {
    let mut names = group(random, lent);
    let (one, other) = (random.index(names.len()), random.index(names.len()));
    match random.below(7) {
        0 => names.clear(),
        1 => {
            let count = random.pick(&[65, 66, 100, 128, 320, 1_025]);
            let first = names[0].min(u32::MAX - 2_000);
            names = (first..).take(count).collect();
        }
        2 => {
            let live = oracle::live_rows(&lent.rows).iter().take(MAX_GROUP + 1);
            names = live.map(|row| row.name).collect();
        }
        3 => names.insert(one, names[one]),
        4 => names.swap(one, other),
        5 => names.reverse(),
        _ => {
            names = (0..random.between(1, 70))
                .map(|_| random.number())
                .collect()
        }
    }
    names
}

/// An event, or names that a domain drops together.
#[derive(Clone, Debug)]
pub enum Request {
    Single(Event),
    Group(u32, Vec<u32>),
}

/// Requests made one after the other on what the last left, most of them allowed.
pub fn requests(
    random: &mut Random,
    mut lent: Lent,
    count: usize,
    spelling: Spelling,
) -> Vec<Request> {
    let mut requests = Vec::with_capacity(count);
    for _ in 0..count {
        let request = match random.one_in(3) {
            true => likely_group(random, &lent),
            false => Request::Single(events(random, lent.clone(), 1, spelling)[0]),
        };
        let _ = oracle_answer(&mut lent, &request);
        requests.push(request);
    }
    requests
}

/// The answer to a request by the oracle alone.
pub fn oracle_answer(lent: &mut Lent, request: &Request) -> Result<u32, oracle::Refused> {
    oracle_answer_by(None, lent, request)
}

/// The same by a sheet.
pub fn oracle_answer_by(
    by: agree::By,
    lent: &mut Lent,
    request: &Request,
) -> Result<u32, oracle::Refused> {
    match request {
        Request::Single(event) => agree::oracle_apply_by(by, lent, *event),
        Request::Group(actor, names) => agree::oracle_drop_all(lent, *actor, names),
    }
}

/// Names with a domain that drops them, all or most of which it holds in most cases.
pub fn with_dropper(random: &mut Random, lent: &Lent, names: Vec<u32>) -> Request {
    let live = oracle::live_rows(&lent.rows);
    Request::Group(dropper(random, live, &names), names)
}

fn likely_group(random: &mut Random, lent: &Lent) -> Request {
    if random.one_in(12) {
        let names = bad_group(random, lent);
        return with_dropper(random, lent, names);
    }
    let next = |random: &mut Random| {
        let names = group(random, lent);
        with_dropper(random, lent, names)
    };
    let mut request = next(random);
    let mut tries = random.below(4);
    while tries > 0 && oracle_answer(&mut lent.clone(), &request).is_err() {
        request = next(random);
        tries -= 1;
    }
    request
}

/// The text of the requests, with lines also for names that are no group.
pub fn requests_text(requests: &[Request], spelling: Spelling) -> Vec<u8> {
    let line = |request: &Request| match request {
        Request::Single(event) => line(*event, spelling).unwrap_or_default(),
        Request::Group(actor, names) => {
            let words: String = names.iter().map(|name| format!(" {name}")).collect();
            form_of(*actor, format!("(drop{words})"))
        }
    };
    let lines: String = requests.iter().map(line).collect();
    [header(spelling), lines.as_bytes()].concat()
}

/// What a trace in this spelling starts with.
fn header(spelling: Spelling) -> &'static [u8] {
    match spelling {
        Spelling::Plain => b"",
        Spelling::Named => HEADER,
    }
}

/// The event's line, if it has one.
pub fn line(event: Event, spelling: Spelling) -> Option<String> {
    oracle::event_line(oracle_act(event), spelling)
}

/// The lines of the events that have a spelling of this sort.
pub fn lines(events: &[Event], spelling: Spelling) -> Vec<u8> {
    let lines = events.iter().filter_map(|event| line(*event, spelling));
    lines.collect::<String>().into_bytes()
}

/// The trace of the events that have a spelling of this sort.
pub fn trace(events: &[Event], spelling: Spelling) -> Vec<u8> {
    [header(spelling), &lines(events, spelling)].concat()
}

/// Bytes that mean something somewhere in a text, and some that mean nothing.
const BYTES: &[u8] = b"0123456789abcdefhklmoprstuw ()\n\t\r-+.,\0\x7f\x80\xffRWAF";

/// Words that are lines, kinds, marks, masks or domains somewhere, and some that are none anywhere.
const WORDS: [&[u8]; 15] = [
    b"(mark 3)\n",
    b"(back 0)\n",
    b" 0000000000000001",
    b" 0000000000000003",
    b" ffffffffffffffff",
    b" 0",
    b"(as 3 ",
    b" raw",
    b" cell",
    b" raw",
    b" cell",
    b" fresh",
    b" fresh",
    b" reference",
    b" rw",
];

/// Cuts, inserts or changes bytes.
pub fn damage(random: &mut Random, text: &mut Vec<u8>) {
    let at = random.index(text.len() + 1);
    let rest = text.len() - at;
    match random.below(9) {
        0 => text.truncate(at),
        1 => drop(text.drain(..at)),
        2 => text.insert(at, random.pick(BYTES)),
        3 | 4 if rest > 0 => text[at] = random.pick(BYTES),
        5 if rest > 0 => drop(text.remove(at)),
        6 if rest > 1 => text.swap(at, at + 1),
        7 => drop(text.splice(at..at, random.pick(&WORDS).iter().copied())),
        _ => {
            let end = at + random.index(rest.min(24) + 1);
            let part = text[at..end].to_vec();
            let target = random.index(text.len() + 1);
            text.splice(target..target, part);
        }
    }
}

/// The text of a listing with some values changed, written row by row and not judged.
pub fn disturbed_listing(random: &mut Random, lent: &Lent) -> Vec<u8> {
    let mut rows = oracle::live_rows(&lent.rows).to_vec();
    let parents: Vec<u32> = rows.iter().map(|row| row.parent).collect();
    let names: Vec<u32> = rows.iter().map(|row| row.name).collect();
    for _ in 0..random.between(0, 2) {
        if !rows.is_empty() {
            let at = random.index(rows.len());
            disturb_field(random, &mut rows[at]);
        }
    }
    let issued = match random.one_in(3) {
        true => near(random, lent.tally.issued),
        false => lent.tally.issued,
    };
    let mut text = format!("(issued {issued})\n");
    put_forms(&mut text, &rows, &names, &parents, 0);
    text.into_bytes()
}

/// The forms below a parent, by the names and parents that the rows had at first.
fn put_forms(text: &mut String, rows: &[Row], names: &[u32], parents: &[u32], parent: u32) {
    for at in (0..rows.len()).filter(|at| parents[*at] == parent) {
        let row = &rows[at];
        let right = if row.right == 1 { "ro" } else { "rw" };
        let kind = match row.kind {
            0 => "",
            1 => " raw",
            2 => " cell",
            3 => " reference",
            _ => " raw cell",
        };
        let mark = match row.fresh {
            0 => "",
            1 => " fresh",
            _ => " fresh fresh",
        };
        let opening = if parent == 0 { "(" } else { " (" };
        let Row {
            name,
            start,
            length,
            ..
        } = row;
        let domains = acting::listed(row);
        *text += &format!("{opening}{name} {start} {length} {right}{kind}{mark}{domains}");
        put_forms(text, rows, names, parents, names[at]);
        *text += if parent == 0 { ")\n" } else { ")" };
    }
}
