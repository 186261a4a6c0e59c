//! Trying table sizes: clients on one table.

use interface::{SizingWords, Words};

use crate::batch::repeated_refused;
use crate::print;
use crate::rounds::{references, rounds_at, text_up_to};
use crate::shape::{
    READ_WRITE, SHAPES, Shape, WITHOUT_KINDS, beside_clients, of_client, two_trees,
};
use crate::timing::{Batch, Bench, Place};
use crate::workload::{BORROW, CREATE, MISSPELT, READ, WRITE, line, making};

pub const NOTES: &str = "\
Eight clients on one table, all by one call: 'lines' is how many they have together, and 'a line' the
time over that. Each has up to 65,536 bytes, all lines allowed: it makes rows in memory of its own, of
the shape that is said, else two trees, and then rounds as in a run. With 'few rows' 16 live besides
those of the rounds, else about 1,000 in all. 'small' are clients of four lines: a create, a borrow, a
write and a read. 'names apart' is one client that reads through its first name and one 4,096 later in
turn. Those 'refused' have few rows: the last line of the last client is misspelt, or the lengths are a
byte too many; or one client has a line of 65,536 bytes.";

const CLIENTS: u32 = 8;

/// The bytes of a client.
const BYTES: usize = 65_536;

/// How many addresses an object has.
const OBJECT: u32 = 64;

/// How many rows each client makes before its rounds, which need three more.
const FEW: usize = 2;
const MANY: usize = 122;

/// So many calls that take little time stand in a batch.
const SMALL_CALLS: usize = 64;

/// How far apart two names of a client are.
const APART: u32 = 4_096;

/// The times of some calls, and of each of their lines.
pub fn times_of_clients(bench: &mut Bench) {
    print::times_heading(bench, "clients", "lines", "a line");
    let few = texts(|client| steady(client, two_trees, FEW));
    row(bench, ("sizes", "few rows"), (0, 0), 1, &few);
    for (name, shape) in &SHAPES[..WITHOUT_KINDS] {
        let many = texts(|client| steady(client, *shape, MANY));
        row(bench, ("sizes", name), (0, 0), 1, &many);
    }
    let small = texts(small);
    row(bench, ("sizes", "small"), (0, 0), SMALL_CALLS, &small);
    row(bench, ("sizes", "names apart"), (0, 0), 1, &[names_apart()]);
    refused_rows(bench, few);
}

fn refused_rows(bench: &mut Bench, mut few: Vec<Vec<u8>>) {
    let call = "sizes refused";
    row(bench, (call, "lengths"), (MISSPELT, 1), SMALL_CALLS, &few);
    if let Some(last) = few.last_mut() {
        last.extend(b"(drop)\n");
    }
    row(bench, (call, "last line"), (MISSPELT, 0), 1, &few);
    let long = [b"(drop ", [b'1'; BYTES].as_slice()].concat();
    row(
        bench,
        (call, "long line"),
        (MISSPELT, 0),
        SMALL_CALLS,
        &[long],
    );
}

/// A row for so many calls with these texts, whose lengths are said to be so many bytes more than they are.
fn row(
    bench: &mut Bench,
    (call, shape): (&'static str, &'static str),
    (refusal, more): (u64, u32),
    calls: usize,
    texts: &[Vec<u8>],
) {
    let mut lengths: Vec<u32> = texts.iter().map(|text| text.len() as u32).collect();
    lengths[0] += more;
    let text = texts.concat();
    let lines = text.iter().filter(|byte| **byte == b'\n').count().max(1);
    let size = Some(lines);
    let place = Place { call, shape, size };
    let times = bench.time(place, &mut *sizes(refusal, calls, text, lengths));
    print::lines_row(&place, lines, &times);
}

fn sizes(refusal: u64, calls: usize, text: Vec<u8>, lengths: Vec<u32>) -> Box<dyn Batch> {
    let mut report = SizingWords::default();
    repeated_refused(refusal, calls, move |implementation, _| {
        implementation.sizes(&text, &lengths, &mut report)
    })
}

/// The text of each client.
fn texts(text_of: impl Fn(u32) -> Vec<u8>) -> Vec<Vec<u8>> {
    (0..CLIENTS).map(text_of).collect()
}

/// Where a client has its objects.
fn place(client: u32) -> u32 {
    beside_clients(CLIENTS) + client * OBJECT
}

/// A client that makes so many rows, and then goes through rounds up to the end of its text.
fn steady(client: u32, shape: Shape, rows: usize) -> Vec<u8> {
    let table = of_client(client, shape, rows);
    let mut text: Vec<u8> = table.iter().flat_map(|row| line(making(row))).collect();
    let rounds = rounds_at(place(client), table, rows as u32, references);
    text.extend(text_up_to(BYTES - text.len(), rounds));
    text
}

/// The line of an event on an object of a client.
fn on_object(client: u32, kind: u32, name: u32) -> Vec<u8> {
    line(
        Words {
            kind,
            name,
            start: place(client),
            length: OBJECT,
            right: READ_WRITE,
            ..Words::default()
        }
        .by(0, 1),
    )
}

fn small(client: u32) -> Vec<u8> {
    let lines = [(CREATE, 0), (BORROW, 1), (WRITE, 2), (READ, 1)];
    lines
        .map(|(kind, name)| on_object(client, kind, name))
        .concat()
}

/// Of all names between the first and the last only one lives at a time.
fn names_apart() -> Vec<u8> {
    let create = |client| on_object(client, CREATE, 0);
    let in_turn = [on_object(0, READ, 1), on_object(1, READ, 1 + APART)].concat();
    let making = [create(0), create(1).repeat(APART as usize)].concat();
    [making, in_turn.repeat(APART as usize)].concat()
}
