//! What all tables say together: each call's highest ratio and growth, and the times that are asked for by name.

use crate::print::in_units;
use crate::runs::ASKED;
use crate::shape::TWO_TREES;
use crate::timing::{Bench, Found};

pub const NOTES: &str = "\
Of each call the highest ratio over all shapes and sizes above, and the growth that comes nearest to n
log n or exceeds it, each with where it stands. What is above 1.0 or 1.2 times the baseline's time, what
grows faster than n log n by more than a tenth, which is as much as times vary, and what takes longer
than is asked is said behind it.";

/// The ratios that calls are held to: the second where the cost of the proof can be named.
const LEVELS: [f64; 2] = [1.0, 1.2];

/// How far growth may be above n log n: so far times vary.
const VARIATION: f64 = 1.1;

/// How long a line of a run, or an event of many in one call, may take on few rows and on many, in nanoseconds.
const AIMS: [(&str, &str, [f64; 2]); 2] = [
    ("a line of a run", "run", [150.0, 800.0]),
    ("an event of apply_all", "apply_all", [50.0, 800.0]),
];

/// A number that was found, the most that it should be, and where it stands.
struct Peak<'a> {
    value: f64,
    most: f64,
    found: &'a Found,
}

impl Peak<'_> {
    fn over_most(&self) -> f64 {
        self.value / self.most
    }

    /// The shape and the size where it stands.
    fn place(&self) -> String {
        let place = self.found.place;
        let size = place.size.map_or(String::new(), |size| size.to_string());
        format!("{:<18}{size:>6}", place.shape)
    }
}

fn highest<'a>(peaks: impl Iterator<Item = Peak<'a>>) -> Option<Peak<'a>> {
    peaks.max_by(|one, other| one.over_most().total_cmp(&other.over_most()))
}

pub fn print(bench: &Bench) {
    println!("{NOTES}\n");
    ratios_and_growth(&bench.found);
    println!();
    aims(&bench.found);
}

/// The calls, in the order in which they were timed first.
fn calls(all: &[Found]) -> Vec<&'static str> {
    let mut calls = Vec::new();
    for found in all {
        if !calls.contains(&found.place.call) {
            calls.push(found.place.call);
        }
    }
    calls
}

fn ratios_and_growth(all: &[Found]) {
    println!(
        "{:<22}{:>7}  {:<11}{:<18}{:>6}{:>9}  {:<18}{:>6}",
        "call", "ratio", "", "shape", "size", "growth", "shape", "size"
    );
    let mut levels = [0; LEVELS.len() + 1];
    for call in calls(all) {
        let of_call: Vec<&Found> = all
            .iter()
            .filter(|found| found.place.call == call)
            .collect();
        let Some(ratio) = highest(of_call.iter().map(|found| ratio(found))) else {
            continue;
        };
        let level = LEVELS.iter().filter(|level| ratio.value > **level).count();
        levels[level] += 1;
        let above = match level {
            0 => String::new(),
            _ => format!("above {:.1}", LEVELS[level - 1]),
        };
        let growth = highest(growths(&of_call)).map_or(String::new(), growth_columns);
        println!(
            "{call:<22}{:>7.2}  {above:<11}{}{growth}",
            ratio.value,
            ratio.place()
        );
    }
    let [first, second] = LEVELS;
    let [at_first, at_second, above] = levels;
    println!(
        "\nCalls at most {first:.1}: {at_first}; at most {second:.1}: {at_second}; above: {above}."
    );
}

fn ratio(found: &Found) -> Peak<'_> {
    Peak {
        value: found.times[0] / found.times[1],
        most: 1.0,
        found,
    }
}

/// The library's times over those on fewer rows of the same shape.
fn growths<'a>(of_call: &[&'a Found]) -> impl Iterator<Item = Peak<'a>> {
    let pair = |(before, found): (&Found, &'a Found)| {
        let (fewer, size) = (before.place.size? as f64, found.place.size? as f64);
        let goes_on = before.place.shape == found.place.shape && fewer < size;
        goes_on.then(|| Peak {
            value: found.times[0] / before.times[0],
            most: size * size.ln() / (fewer * fewer.ln()),
            found,
        })
    };
    let found: Vec<_> = of_call.windows(2).map(|two| (two[0], two[1])).collect();
    found.into_iter().filter_map(pair)
}

fn growth_columns(growth: Peak) -> String {
    let above = match growth.over_most() > VARIATION {
        true => "  above n log n",
        false => "",
    };
    format!("{:>9.1}  {}{above}", growth.value, growth.place())
}

fn aims(all: &[Found]) {
    println!(
        "{:<22}{:>6}{:>9}{:>11}{:>11}  shape",
        "asked for", "rows", "at most", TWO_TREES, "highest"
    );
    for (name, call, times) in AIMS {
        for (rows, most) in ASKED.into_iter().zip(times) {
            let asked = (call, Some(rows));
            let is_asked = |found: &&Found| (found.place.call, found.place.size) == asked;
            let peaks = all.iter().filter(is_asked).map(|found| Peak {
                value: found.times[0],
                most,
                found,
            });
            aim(name, rows, most, peaks.collect());
        }
    }
}

/// A time that is asked for, on the two trees and on the shape where it is highest.
fn aim(name: &str, rows: usize, most: f64, peaks: Vec<Peak>) {
    print!("{name:<22}{rows:>6}{:>9}", in_units(most));
    let on_trees = |peak: &&Peak| peak.found.place.shape == TWO_TREES;
    let on_trees = peaks.iter().find(on_trees).map(|peak| peak.value);
    let (Some(on_trees), Some(peak)) = (on_trees, highest(peaks.into_iter())) else {
        return println!("{:>11}", "not timed");
    };
    let longer = match peak.over_most() > 1.0 {
        true => "longer",
        false => "",
    };
    println!(
        "{:>11}{:>11}  {:<18}{longer}",
        in_units(on_trees),
        in_units(peak.value),
        peak.found.place.shape
    );
}
