//! The tables that are printed.

use crate::timing::{Bench, Place};

/// Where a time stands: in the first columns of a row, each headed by a word.
pub fn place_heading(shape: &str, size: &str) {
    print!("{:<22}{shape:<18}{size:>6}", "call");
}

pub fn place(place: &Place) {
    let size = place
        .size
        .map_or("any".to_string(), |size| size.to_string());
    print!("{:<22}{:<18}{size:>6}", place.call, place.shape);
}

/// The heading of a table of times, each with one number more.
pub fn times_heading(bench: &Bench, shape: &str, size: &str, more: &str) {
    place_heading(shape, size);
    for contender in &bench.contenders {
        print!("{:>15}{more:>8}", contender.name());
    }
    println!("{:>8}", ratio_heading(bench));
}

fn ratio_heading(bench: &Bench) -> &'static str {
    match bench.contenders.len() {
        1 => "",
        _ => "ratio",
    }
}

/// A call's times, and their growth from those at fewer.
pub fn growth_row(at: &Place, times: &[f64], previous: Option<&[f64]>) {
    place(at);
    for (contender, time) in times.iter().enumerate() {
        let growth = previous.map_or(String::new(), |previous| {
            format!("{:.1}", time / previous[contender])
        });
        print!("{:>15}{growth:>8}", in_units(*time));
    }
    println!("{:>8}", ratio(times));
}

pub fn shape_heading(calls: &[&str]) {
    print!("{:<14}{:>6}", "shape", "rows");
    for call in calls {
        print!("{call:>9}");
    }
    println!();
}

/// The ratio of each call, or its time where there is but one contender.
pub fn shape_row(name: &str, rows: usize, all_times: &[Vec<f64>]) {
    print!("{name:<14}{rows:>6}");
    for times in all_times {
        let cell = match times.as_slice() {
            [time] => in_units(*time).replace(' ', ""),
            times => ratio(times),
        };
        print!("{cell:>9}");
    }
    println!();
}

pub fn many_heading(bench: &Bench) {
    place_heading("shape", "rows");
    for contender in &bench.contenders {
        let each = format!("{}, each", contender.name());
        print!("{each:>18}{:>9}{:>6}", "all", "gain");
    }
    match bench.contenders.len() {
        1 => println!(),
        _ => println!("{:>14}{:>8}", "ratio, each", "all"),
    }
}

/// The times of an event by a call for each and by one call for all.
pub fn many_row(at: &Place, each: &[f64], all: &[f64]) {
    place(at);
    for (each, all) in each.iter().zip(all) {
        let gain = each / all;
        print!("{:>18}{:>9}{gain:>6.1}", in_units(*each), in_units(*all));
    }
    println!("{:>14}{:>8}", ratio(each), ratio(all));
}

pub fn copy_heading(bench: &Bench) {
    place_heading("live rows", "rows");
    for contender in &bench.contenders {
        print!("{:>15}{:>8}", contender.name(), "copies");
    }
    println!("{:>12}{:>8}", "copy", ratio_heading(bench));
}

/// A call's times, each over that of a copy.
pub fn copy_row(at: &Place, times: &[f64], copy: f64) {
    place(at);
    for time in times {
        print!("{:>15}{:>8.2}", in_units(*time), time / copy);
    }
    println!("{:>12}{:>8}", in_units(copy), ratio(times));
}

/// A call's times, and each over so many lines.
pub fn lines_row(at: &Place, lines: usize, times: &[f64]) {
    place(at);
    for time in times {
        let each = in_units(time / lines as f64);
        print!("{:>15}{each:>8}", in_units(*time));
    }
    println!("{:>8}", ratio(times));
}

/// The library's time over the baseline's, where there are both.
fn ratio(times: &[f64]) -> String {
    match times {
        [library, baseline] => format!("{:.2}", library / baseline),
        _ => String::new(),
    }
}

pub fn in_units(nanoseconds: f64) -> String {
    match nanoseconds {
        time if time < 10_000.0 => format!("{time:.0} ns"),
        time if time < 10_000_000.0 => format!("{:.1} us", time / 1e3),
        time => format!("{:.1} ms", time / 1e6),
    }
}
