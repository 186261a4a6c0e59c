//! Tables to time the calls on: who is borrowed from whom, and which names they have.

use interface::{
    CELL, Cap, DOMAINS, FRESH, Memory, REFERENCE, SHEET_PLACES, STORED_BYTES, STORED_ROWS, Tally,
    WRITTEN_BYTES,
};

use crate::random::Random;

pub const READ_WRITE: u32 = 2;

const MAX_DEPTH: u32 = 64;
const MAX_NAME: u32 = 1_000_000;

/// Names that are equal modulo this share what notes the place of a name by its low bits.
const SLOTS: u32 = 2_048;

/// The length of the span of each of the two trees. No other shape reaches behind them.
const TREE_LENGTH: u32 = 1 << 20;

/// How many addresses have a written bit. But for what times these bits, every shape begins behind them.
pub const WRITABLE: u32 = 1 << 16;

/// The first address behind every shape, but for those of clients.
pub const BESIDE: u32 = WRITABLE + 2 * TREE_LENGTH;

/// A lent table and tally, and limits and a sheet where they are lent.
#[derive(Clone)]
pub struct Lent {
    pub table: Vec<Cap>,
    pub tally: Tally,
    pub limits: Vec<u32>,
    pub sheet: Vec<u8>,
}

/// What is lent besides, and that many tables may share: written bits, at first all of them set, and room for
/// states, of which none is stored.
pub struct Shared {
    pub written: Vec<u8>,
    pub stored: Vec<Cap>,
    pub stored_bits: Vec<u8>,
}

impl Shared {
    pub fn new() -> Shared {
        Shared {
            written: vec![u8::MAX; WRITTEN_BYTES],
            stored: vec![Cap::default(); STORED_ROWS],
            stored_bits: vec![0; STORED_BYTES],
        }
    }
}

impl Lent {
    /// The sheet, and the rest with written bits and room for states.
    pub fn lend<'a>(&'a mut self, shared: &'a mut Shared) -> (&'a [u8], Memory<'a>) {
        let memory = Memory {
            table: &mut self.table,
            written: &mut shared.written,
            stored: &mut shared.stored,
            stored_bits: &mut shared.stored_bits,
            tally: &mut self.tally,
            limits: &self.limits,
        };
        (&self.sheet, memory)
    }

    /// How many rows are live.
    pub fn live(&self) -> usize {
        self.table.iter().take_while(|row| row.name != 0).count()
    }

    /// The same with limits: each domain has made as much as it may, but for one, which has the empty rows.
    pub fn limited_for(mut self, domain: u32) -> Lent {
        let mut limits = vec![0; DOMAINS];
        for row in &self.table {
            let maker = if row.name == 0 { domain } else { row.maker };
            limits[maker as usize] += 1;
        }
        self.limits = limits;
        self
    }

    /// The same with a sheet that says what the default one does.
    pub fn with_sheet(mut self) -> Lent {
        let mut text = [0; 1_024];
        let mut sheet = [0; SHEET_PLACES];
        let length = interface::baseline().write_sheet(&[], &mut text) as usize;
        interface::baseline().read_sheet(&text[..length], &mut sheet);
        self.sheet = sheet.to_vec();
        self
    }

    /// The same with the last live row in no order.
    pub fn disordered(mut self) -> Lent {
        let last = self.live() - 1;
        self.table[last].depth += 1;
        self
    }
}

/// Makes a table of so many live rows.
pub type Shape = fn(usize) -> Vec<Cap>;

/// The shapes, the first of which is that of all measurements that are not said to have another. Where names are
/// counted from 1 the last three are none of their own, and without kinds the last four.
pub const SHAPES: [(&str, Shape); 9] = [
    (TWO_TREES, two_trees),
    ("random trees", random_trees),
    ("roots", roots),
    ("star", star),
    ("chains", chains),
    ("cells", cells),
    ("spread star", spread_star),
    ("covered star", covered_star),
    ("shared slots", shared_slots),
];

/// How many of them there are without names of their own, and without kinds.
pub const WITHOUT_NAMES: usize = 6;
pub const WITHOUT_KINDS: usize = 5;

pub const TWO_TREES: &str = "two trees";

pub const MOST_ROWS: usize = 1_024;

/// One row or 16 of the two trees are live of all that can be lent, each case by its name.
pub fn few_live() -> [(&'static str, Case); 2] {
    [("1 of 1,024", 1), ("16 of 1,024", 16)].map(|(name, live)| {
        let case = Case {
            shape: two_trees,
            live,
            lent: MOST_ROWS,
        };
        (name, case)
    })
}

/// The shapes at each of these sizes, all rows live, and those of few live rows.
pub fn cases(shapes: &[(&'static str, Shape)], sizes: &[usize]) -> Vec<(&'static str, Case)> {
    let at_sizes = |(name, shape): &(&'static str, Shape)| {
        let (name, shape) = (*name, *shape);
        let case = move |rows: &usize| (name, Case::full(shape, *rows));
        sizes.iter().map(case)
    };
    shapes.iter().flat_map(at_sizes).chain(few_live()).collect()
}

/// A shape with so many live rows of so many lent.
#[derive(Clone, Copy)]
pub struct Case {
    pub shape: Shape,
    pub live: usize,
    pub lent: usize,
}

impl Case {
    pub fn full(shape: Shape, rows: usize) -> Case {
        Case {
            shape,
            live: rows,
            lent: rows,
        }
    }

    /// The table with at least so many rows free.
    pub fn with_room(&self, free: usize) -> Lent {
        let mut table = (self.shape)(self.live.min(self.lent - free));
        let tally = Tally {
            issued: table.last().map_or(0, |row| row.name),
            ..Tally::default()
        };
        table.resize(self.lent, Cap::default());
        Lent {
            table,
            tally,
            limits: Vec::new(),
            sheet: Vec::new(),
        }
    }
}

/// Two trees of borrows over two spans side by side, their rows in turn. A parent is any earlier row
/// of the same tree. Every second name has ended.
pub fn two_trees(live: usize) -> Vec<Cap> {
    let mut random = Random::new();
    let mut table = Vec::with_capacity(live);
    for at in 0..live as u32 {
        let tree = at % 2;
        table.push(match at / 2 {
            0 => root(every_second(at), tree * TREE_LENGTH, TREE_LENGTH),
            earlier => {
                let parent = tree + 2 * random.below(earlier);
                borrowed(&mut random, every_second(at), &table[parent as usize])
            }
        });
    }
    table
}

/// About every eighth row is a root, and the parent of another is any row before it. Some of the
/// names between have ended.
fn random_trees(live: usize) -> Vec<Cap> {
    const ROOT_LENGTH: u32 = TREE_LENGTH / 256;
    let mut random = Random::new();
    let mut table: Vec<Cap> = Vec::with_capacity(live);
    let mut name = 0;
    let mut next_root = 0;
    for at in 0..live {
        name += 1 + random.below(4);
        table.push(if at == 0 || random.below(8) == 0 {
            next_root += ROOT_LENGTH;
            root(name, next_root - ROOT_LENGTH, ROOT_LENGTH)
        } else {
            let parent = random.pick(&table);
            borrowed(&mut random, name, &parent)
        });
    }
    table
}

/// Roots side by side.
fn roots(live: usize) -> Vec<Cap> {
    const ROOT_LENGTH: u32 = TREE_LENGTH / 1_024;
    (0..live as u32)
        .map(|at| root(every_second(at), at * ROOT_LENGTH, ROOT_LENGTH))
        .collect()
}

/// A root, and all others borrowed from it.
fn star(live: usize) -> Vec<Cap> {
    star_of(live, every_second)
}

/// A star whose names lie far from each other, and the first far from the last.
fn spread_star(live: usize) -> Vec<Cap> {
    // A run makes names behind the last.
    const FREE_NAMES: u32 = 10_000;
    let step = (MAX_NAME - FREE_NAMES) / live as u32;
    star_of(live, |at| (at + 1) * step)
}

/// A star whose first borrow has the root's name modulo 2,048: what notes the place of a name by its low bits loses
/// that of the root, which is the parent of all.
fn covered_star(live: usize) -> Vec<Cap> {
    star_of(live, |at| match at {
        0 => 1,
        at => SLOTS + at,
    })
}

fn star_of(live: usize, name: impl Fn(u32) -> u32) -> Vec<Cap> {
    let mut random = Random::new();
    let center = root(name(0), 0, TREE_LENGTH);
    let mut table = vec![center];
    table.extend((1..live as u32).map(|at| borrowed(&mut random, name(at), &center)));
    table
}

/// Chains side by side, as deep as a row can be, each behind the other in the table.
fn chains(live: usize) -> Vec<Cap> {
    const CHAIN_LENGTH: u32 = TREE_LENGTH / 16;
    let mut random = Random::new();
    let mut table: Vec<Cap> = Vec::with_capacity(live);
    for at in 0..live as u32 {
        let name = every_second(at);
        table.push(match table.last() {
            Some(last) if last.depth < MAX_DEPTH => borrowed(&mut random, name, last),
            _ => root(name, at / MAX_DEPTH * CHAIN_LENGTH, CHAIN_LENGTH),
        });
    }
    table
}

/// Two trees whose names are equal modulo 2,048, or where there are too few such names, of three
/// kinds: what notes the place of a name by its low bits has one slot for all, or three.
fn shared_slots(live: usize) -> Vec<Cap> {
    let kinds = if live <= 400 { 1 } else { 3 };
    let name = |at: u32| at / kinds * SLOTS + at % kinds + 1;
    let mut table = two_trees(live);
    for (at, row) in table.iter_mut().enumerate() {
        row.name = name(at as u32);
        if row.parent != 0 {
            // The parent had the name of its place, as every second name.
            row.parent = name(row.parent / 2);
        }
    }
    table
}

/// A root, a cell borrowed from it, and behind them rows in turn inside the cell and outside of it. All
/// have the root's span, so that an access touches every row.
pub fn cells(live: usize) -> Vec<Cap> {
    let mut random = Random::new();
    let first = root(every_second(0), 0, TREE_LENGTH);
    let cell = Cap {
        kind: CELL,
        ..below(&first, every_second(1))
    };
    let mut table = vec![first, cell];
    for at in 2..live as u32 {
        // The root and what is outside have the even places.
        let parent = at % 2 + 2 * random.below(at / 2);
        table.push(below(&table[parent as usize], every_second(at)));
    }
    table
}

/// The two trees, of which each domain in turn made a row; all are held by all.
pub fn domains(live: usize) -> Vec<Cap> {
    let mut table = two_trees(live);
    for (row, maker) in table.iter_mut().zip((0..DOMAINS as u32).cycle()) {
        row.maker = maker;
        *row = row.held_by(u64::MAX);
    }
    table
}

/// The same rows with the names 1, 2, 3 and so on.
pub fn renamed(mut table: Vec<Cap>) -> Vec<Cap> {
    let names: Vec<u32> = table.iter().map(|row| row.name).collect();
    let place = |name: u32| names.binary_search(&name).map_or(0, |at| at as u32 + 1);
    for row in &mut table {
        row.name = place(row.name);
        row.parent = place(row.parent);
    }
    table
}

/// The rows of one of some clients, that have memory side by side. Its names are counted from 1.
pub fn of_client(client: u32, shape: Shape, live: usize) -> Vec<Cap> {
    let mut table = renamed(shape(live));
    for row in &mut table {
        row.start += client * 2 * TREE_LENGTH;
    }
    table
}

/// The first address behind those of so many clients.
pub fn beside_clients(clients: u32) -> u32 {
    WRITABLE + clients * 2 * TREE_LENGTH
}

/// Marked roots over all addresses that have a written bit.
pub fn marked(live: usize) -> Vec<Cap> {
    let marked = |at: u32| Cap {
        start: 0,
        fresh: FRESH,
        ..root(every_second(at), 0, WRITABLE)
    };
    (0..live as u32).map(marked).collect()
}

/// The name of a row where every second name has ended.
fn every_second(at: u32) -> u32 {
    2 * at + 1
}

/// A root so far behind the addresses that have a written bit, domain 0's alone.
fn root(name: u32, offset: u32, length: u32) -> Cap {
    Cap {
        name,
        start: WRITABLE + offset,
        length,
        right: READ_WRITE,
        depth: 1,
        ..Cap::default().held_by(1)
    }
}

fn borrowed(random: &mut Random, name: u32, parent: &Cap) -> Cap {
    let quarter = parent.length / 4 + 1;
    let offset = random.below(quarter);
    Cap {
        start: parent.start + offset,
        length: parent.length - offset - random.below(quarter),
        ..below(parent, name)
    }
}

/// A borrow of the whole span.
fn below(parent: &Cap, name: u32) -> Cap {
    Cap {
        name,
        parent: parent.name,
        depth: parent.depth + 1,
        kind: REFERENCE,
        ..*parent
    }
}
