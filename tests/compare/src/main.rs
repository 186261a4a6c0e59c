//! Compares an implementation behind the C interface with the oracle.
//!
//! `compare [library | baseline] [SEED] [WORD]`: without the first it takes the library where it was
//! built with `KELZOUD_LIB` set, else the baseline. With WORD only the groups that have it in their
//! names are run. The exit status is 0 when every group passed.

mod acting;
mod agree;
mod charges;
mod clients;
mod columns;
mod domain_runs;
mod domain_texts;
mod domains;
mod edges;
mod events;
mod examples;
mod generate;
mod grouped_text;
mod histories;
mod kinds;
mod limits;
mod lines;
mod listings;
mod many;
mod report;
mod runs;
mod sheet_texts;
mod sheets;
mod sizes;
mod slots;
mod spellings;
mod state_runs;
mod states;
mod strikes;
mod thinned;
mod together;
mod turning;
mod written;

use std::env;
use std::process::ExitCode;

use agree::Subject;
use report::Report;

const DEFAULT_SEED: u64 = 1;

struct Options {
    subject: Subject,
    seed: u64,
    wanted: String,
}

fn options() -> Option<Options> {
    let mut subject = interface::library().unwrap_or(interface::baseline());
    let mut seed = DEFAULT_SEED;
    let mut wanted = String::new();
    for word in env::args().skip(1) {
        match word.as_str() {
            "library" => subject = interface::library()?,
            "baseline" => subject = interface::baseline(),
            other => match other.parse() {
                Ok(number) => seed = number,
                Err(_) => wanted = word,
            },
        }
    }
    Some(Options {
        subject,
        seed,
        wanted,
    })
}

fn main() -> ExitCode {
    let Some(Options {
        subject,
        seed,
        wanted,
    }) = options()
    else {
        eprintln!("usage: compare [library | baseline] [SEED] [WORD]");
        eprintln!("'library' needs a build with KELZOUD_LIB set");
        return ExitCode::from(2);
    };
    println!("{} against the oracle, seed {seed}", subject.name());
    let mut report = Report::new(seed, wanted);
    examples::groups(&mut report, subject);
    events::groups(&mut report, subject);
    histories::groups(&mut report, subject);
    edges::groups(&mut report, subject);
    lines::groups(&mut report, subject);
    listings::groups(&mut report, subject);
    runs::groups(&mut report, subject);
    spellings::groups(&mut report, subject);
    together::groups(&mut report, subject);
    grouped_text::groups(&mut report, subject);
    many::groups(&mut report, subject);
    // Before the trees of kinds, which would meet every sort by themselves.
    strikes::groups(&mut report);
    kinds::groups(&mut report, subject);
    sheets::groups(&mut report, subject);
    sheet_texts::groups(&mut report, subject);
    thinned::groups(&mut report, subject);
    written::groups(&mut report, subject);
    domains::groups(&mut report, subject);
    limits::groups(&mut report, subject);
    domain_texts::groups(&mut report, subject);
    domain_runs::groups(&mut report, subject);
    charges::groups(&mut report, subject);
    states::groups(&mut report, subject);
    state_runs::groups(&mut report, subject);
    columns::groups(&mut report, subject);
    sizes::groups(&mut report, subject);
    domains::met(&mut report);
    states::met(&mut report);
    report.met("every answer of an event was met", agree::every_answer_met);
    report.met(
        "every answer of the history was met",
        histories::every_answer_met,
    );
    report.met("every sort of create was met", agree::every_create_met);
    match report.finish() {
        true => ExitCode::SUCCESS,
        false => ExitCode::FAILURE,
    }
}
