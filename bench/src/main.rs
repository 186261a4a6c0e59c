//! Times each call of the C interface, the library beside the baseline where this was built with
//! `KELZOUD_LIB` set: lines and sheets, how the times grow with the rows, how they depend on the table's shape, a
//! line of a run, what is gained by many events in one call, how the times grow with the written bits, what domains
//! and limits cost, what a mark and a back cost beside a copy of what they store, what traces by column cost, and
//! what it costs to try how many rows clients need. At the end it says where each call is slowest beside the
//! baseline.
//!
//! `bench [lines] [rows] [shapes] [runs] [many] [bits] [domains] [states] [columns] [sizes]`: with words only those
//! tables are made.

mod acting;
mod batch;
mod bits;
mod clock;
mod columns;
mod growth;
mod lines;
mod listings;
mod many;
mod print;
mod random;
mod rounds;
mod rows;
mod runs;
mod shape;
mod sizes;
mod states;
mod timing;
mod verdict;
mod workload;

use std::env;

use timing::Bench;

/// A table by its name, what is said before it, and what prints it.
type Table = (&'static str, &'static str, fn(&mut Bench));

const TABLES: [Table; 10] = [
    ("lines", lines::NOTES, lines::times_of_lines),
    ("rows", rows::NOTES, rows::growth_by_rows),
    ("shapes", rows::SHAPE_NOTES, rows::ratios_by_shape),
    ("runs", runs::NOTES, runs::times_of_a_line),
    ("many", many::NOTES, many::many_events),
    ("bits", bits::NOTES, bits::growth_by_bits),
    ("domains", acting::NOTES, acting::growth_by_domains),
    ("states", states::NOTES, states::beside_a_copy),
    ("columns", columns::NOTES, columns::growth_by_events),
    ("sizes", sizes::NOTES, sizes::times_of_clients),
];

fn main() {
    let wanted: Vec<String> = env::args().skip(1).collect();
    let mut bench = Bench::new();
    for (name, notes, table) in TABLES {
        if wanted.is_empty() || wanted.iter().any(|word| word == name) {
            println!("{notes}\n");
            table(&mut bench);
            println!();
        }
    }
    // Without the library there is nothing to judge.
    if bench.contenders.len() > 1 {
        verdict::print(&bench);
    }
}
