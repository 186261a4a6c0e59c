//! Random clients of one table: traces in document 01's form, made a line at a time in the order in which lines are
//! taken, each on what those before it left. So all lines are allowed, but for faults that are planted.

use interface::Event;
use oracle::random::Random;
use oracle::{MAX_CLIENTS, MAX_DEPTH, MAX_ROWS, READ_ONLY, Row, Span, Spelling};

use crate::agree::{self, Lent};
use crate::edges::event;
use crate::generate;

/// The text of each client.
pub type Texts = Vec<Vec<u8>>;

/// Lines that later cards added, and some that no card has.
pub const OTHER_LINES: [&str; 20] = [
    "(trace 2)\n",
    "(create 1 0 8 rw)\n",
    "(borrow 2 1 0 8 rw)\n",
    "(drop 1 2)\n",
    "(borrow 1 0 8 rw raw)\n",
    "(borrow 1 0 8 ro cell)\n",
    "(borrow 1 0 8 rw reference)\n",
    "(create 0 8 rw fresh)\n",
    "(create 0 8 rw 0000000000000001)\n",
    "(create 0 8 rw 0000000000000003)\n",
    "(create 0 8 rw fresh 0000000000000003)\n",
    "(borrow 1 0 8 rw 0000000000000001)\n",
    "(borrow 1 0 8 ro 8000000000000001)\n",
    "(as 0 (read 1 0 8))\n",
    "(as 3 (read 1 0 8))\n",
    "(as 63 (create 0 8 rw))\n",
    "(mark 0)\n",
    "(back 0)\n",
    "(issued 1)\n",
    "\n",
];

/// How clients are made.
pub struct Plan {
    /// The most lines of a client.
    pub lines: usize,
    /// From so many rows on that live, a client makes nothing as long as it has something.
    pub live: usize,
    /// Whether one line is a fault.
    pub has_fault: bool,
}

/// One client to eight.
pub fn clients(random: &mut Random, plan: &Plan) -> Texts {
    let count = random.between(1, MAX_CLIENTS);
    let lines: Vec<usize> = (0..count).map(|_| random.between(0, plan.lines)).collect();
    let all = lines.iter().sum::<usize>().max(1);
    let mut left = plan.has_fault.then(|| random.index(all));
    let mut making = Making::new(some_areas(random, count), plan.live);
    for round in 0..plan.lines {
        for client in (0..count).filter(|client| round < lines[*client]) {
            match left {
                Some(0) => making.add_fault(random, client),
                _ => making.add(random, client),
            }
            left = left.and_then(|left| left.checked_sub(1));
        }
    }
    making.texts()
}

/// So many clients with so many bytes each, or a few less. Some of their names live to the end.
pub fn long_clients(random: &mut Random, count: usize, bytes: usize, live: usize) -> Texts {
    let mut making = Making {
        table: Lent::empty(MAX_ROWS),
        keeps_some: true,
        ..Making::new(some_areas(random, count), live)
    };
    let mut going_on: Vec<usize> = (0..count).collect();
    while !going_on.is_empty() {
        for client in &going_on {
            making.add(random, *client);
        }
        going_on.retain(|client| making.text(*client).len() + LONGEST_LINE <= bytes);
    }
    making.texts()
}

/// So many clients of which each has so many rows, a root and borrows of it, before it goes on for some lines.
pub fn crowded_clients(random: &mut Random, count: usize, rows: usize, lines: usize) -> Texts {
    let areas: Vec<Span> = (0..count).map(|client| own_area(client, 12)).collect();
    let mut making = Making::new(areas.clone(), count * rows);
    for round in 0..rows + lines {
        for (client, area) in areas.iter().enumerate() {
            match round {
                0 => making.take(client, event(1, 0, *area)),
                _ if round < rows => {
                    let root = making.clients[client].names[0];
                    making.take(client, event(2, root, generate::inside(random, *area)));
                }
                _ => making.add(random, client),
            }
        }
    }
    making.texts()
}

/// A borrow's, with three numbers of ten digits.
const LONGEST_LINE: usize = 45;

/// Memory that a client has for itself.
fn own_area(client: usize, length: usize) -> Span {
    Span {
        start: 1_000 * client as u32,
        length: length as u32,
    }
}

/// Where so many clients create: some have memory of their own, and some share it.
fn some_areas(random: &mut Random, count: usize) -> Vec<Span> {
    let shared = generate::area(random);
    let share_all = random.one_in(3);
    let area = |client: usize| match share_all || random.one_in(4) {
        true => shared,
        false => own_area(client, random.between(0, 14)),
    };
    (0..count).map(area).collect()
}

struct Client {
    text: Vec<u8>,
    /// The table's names for its own, which are counted from 1. Both rise.
    names: Vec<u32>,
    /// What it creates in.
    area: Span,
}

/// Where names are kept, one of so many is.
const KEPT_OF: usize = 250;

impl Client {
    /// Its own name for one of the table's.
    fn own(&self, name: u32) -> Option<u32> {
        let at = self.names.binary_search(&name).ok()?;
        Some(at as u32 + 1)
    }

    /// How many of its names are kept, where some are: the first, and so on.
    fn kept(&self) -> usize {
        self.names.len().div_ceil(KEPT_OF)
    }

    fn keeps(&self, name: u32) -> bool {
        self.own(name)
            .is_some_and(|own| own as usize % KEPT_OF == 1)
    }

    fn keeps_next(&self) -> bool {
        self.names.len().is_multiple_of(KEPT_OF)
    }
}

/// Clients, and the table that their lines leave.
struct Making {
    table: Lent,
    live: usize,
    clients: Vec<Client>,
    /// Whether some names are not dropped. They are roots without addresses, which nothing else ends.
    keeps_some: bool,
}

/// The oldest of some items, the newest, or any.
fn some_of<T: Copy>(random: &mut Random, items: &[T]) -> Option<T> {
    let at = match random.below(3) {
        0 => 0,
        1 => items.len().saturating_sub(1),
        _ => random.index(items.len().max(1)),
    };
    items.get(at).copied()
}

impl Making {
    /// Without lines yet: a client for each area.
    fn new(areas: Vec<Span>, live: usize) -> Making {
        let client = |area| Client {
            text: Vec::new(),
            names: Vec::new(),
            area,
        };
        Making {
            // A client that has nothing makes something all the same.
            table: Lent::empty(live + MAX_CLIENTS),
            live,
            clients: areas.into_iter().map(client).collect(),
            keeps_some: false,
        }
    }

    fn text(&self, client: usize) -> &[u8] {
        &self.clients[client].text
    }

    fn texts(self) -> Texts {
        let texts = self.clients.into_iter().map(|client| client.text);
        texts.collect()
    }

    /// What lives of a client's.
    fn live_of(&self, client: &Client) -> Vec<Row> {
        let live = oracle::live_rows(&self.table.rows).iter();
        let its = live.filter(|row| client.own(row.name).is_some());
        its.copied().collect()
    }

    /// Whether there is room for more that is not kept.
    fn has_room(&self) -> bool {
        let kept: usize = match self.keeps_some {
            true => self.clients.iter().map(Client::kept).sum(),
            false => 0,
        };
        oracle::live_rows(&self.table.rows).len() < self.live + kept
    }

    /// Adds a line that is allowed.
    fn add(&mut self, random: &mut Random, client: usize) {
        let event = self.allowed(random, &self.clients[client]);
        self.take(client, event);
    }

    /// Adds the line of an event that is allowed, by the table's name.
    fn take(&mut self, client: usize, event: Event) {
        let client = &mut self.clients[client];
        let own = client.own(event.name).unwrap_or(0);
        let line = line(Event { name: own, ..event });
        client.text.extend(line.bytes());
        let made = agree::oracle_apply(&mut self.table, event).expect("it is allowed");
        client.names.extend((made != 0).then_some(made));
    }

    /// An event that is allowed, by the table's name.
    fn allowed(&self, random: &mut Random, client: &Client) -> Event {
        if self.keeps_some && client.keeps_next() {
            let start = client.area.start;
            return event(1, 0, Span { start, length: 0 });
        }
        let kind = random.pick(match self.has_room() {
            true => &[1, 1, 2, 2, 2, 2, 2, 3, 3, 4, 4, 5],
            false => &[3, 4, 5, 5],
        });
        let mut its = self.live_of(client);
        if self.keeps_some && kind == 5 {
            its.retain(|row| !client.keeps(row.name));
        }
        let Some(user) = some_of(random, &its) else {
            return event(1, 0, generate::inside(random, client.area));
        };
        let is_read_only = user.right == u32::from(READ_ONLY);
        match kind {
            1 => Event {
                right: random.pick(&[1, 2, 2, 2]),
                ..event(1, 0, generate::inside(random, client.area))
            },
            2 if user.depth < MAX_DEPTH => Event {
                right: random.pick(if is_read_only { &[1] } else { &[1, 2, 2, 2] }),
                ..event(2, user.name, generate::inside(random, user.span()))
            },
            4 if !is_read_only => event(4, user.name, generate::inside(random, user.span())),
            5 => event(5, user.name, user.span()),
            _ => event(3, user.name, generate::inside(random, user.span())),
        }
    }

    /// Adds a line that is refused in most cases. Those that are added behind it do not count on it.
    fn add_fault(&mut self, random: &mut Random, at: usize) {
        let line = self.fault(random, &self.clients[at]);
        self.clients[at].text.extend(line);
    }

    fn fault(&self, random: &mut Random, client: &Client) -> Vec<u8> {
        let user = some_of(random, &self.live_of(client));
        let span = user.map_or(client.area, |user| user.span());
        let own = user.and_then(|user| client.own(user.name)).unwrap_or(0);
        let kind = random.pick(&[2, 3, 4, 5]);
        let line = match random.below(8) {
            0 => line(event(kind, self.not_given(random, client), span)),
            1 => line(event(kind, self.ended(random, client), span)),
            2 => line(event(kind, own, outside(random, span))),
            3 => line(event(kind, random.pick(&[own, 0, u32::MAX]), ILLEGAL)),
            4 => self.against_read_only(random, client),
            5 => random.pick(&OTHER_LINES).to_string(),
            6 => {
                let mut line = line(event(kind, own, span)).into_bytes();
                generate::damage(random, &mut line);
                return line;
            }
            // Without its newline.
            _ => line(event(kind, own, span)).trim_end().to_string(),
        };
        line.into_bytes()
    }

    /// A name that was not given to a client, though to another, or to this one by the table.
    fn not_given(&self, random: &mut Random, client: &Client) -> u32 {
        let given = client.names.len() as u32;
        let most = self.clients.iter().map(|other| other.names.len()).max();
        let by_table = client.names.last().copied();
        random.pick(&[
            0,
            given + 1,
            given + 2,
            most.unwrap_or(0) as u32,
            by_table.unwrap_or(0),
            self.table.tally.issued,
            u32::MAX,
        ])
    }

    /// A name of a client's that has ended, where there is one.
    fn ended(&self, random: &mut Random, client: &Client) -> u32 {
        let live: Vec<u32> = self.live_of(client).iter().map(|row| row.name).collect();
        let names = (1..).zip(&client.names);
        let ended = names.filter(|(_, name)| !live.contains(name));
        let ended: Vec<u32> = ended.map(|(own, _)| own).collect();
        some_of(random, &ended).unwrap_or(0)
    }

    /// A write, or a borrow that may write, through a name that may not, where there is one.
    fn against_read_only(&self, random: &mut Random, client: &Client) -> String {
        let its = self.live_of(client);
        let lowered = its.iter().find(|row| row.right == u32::from(READ_ONLY));
        let user = lowered.or(its.first()).copied().unwrap_or_default();
        let own = client.own(user.name).unwrap_or(0);
        line(event(random.pick(&[2, 4]), own, user.span()))
    }
}

/// A span that ends too high.
const ILLEGAL: Span = Span {
    start: u32::MAX,
    length: 2,
};

/// A span that reaches out of another.
fn outside(random: &mut Random, span: Span) -> Span {
    let Span { start, length } = span;
    match random.one_in(2) {
        true => Span {
            start: start.wrapping_sub(1),
            length,
        },
        false => Span {
            start,
            length: length.saturating_add(1),
        },
    }
}

/// An event's line.
fn line(event: Event) -> String {
    generate::line(event, Spelling::Plain).expect("these events have lines")
}
