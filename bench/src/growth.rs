//! Rows of times that grow.

use crate::print;
use crate::timing::{Batch, Bench, Place};

/// A call's times as its input grows, each in a row.
pub fn growth_rows(
    bench: &mut Bench,
    call: &'static str,
    shape: &'static str,
    sizes: &[usize],
    batch: impl Fn(usize) -> Box<dyn Batch>,
) {
    let mut previous: Option<Vec<f64>> = None;
    for size in sizes {
        let place = Place {
            call,
            shape,
            size: Some(*size),
        };
        let times = bench.time(place, &mut *batch(*size));
        print::growth_row(&place, &times, previous.as_deref());
        previous = Some(times);
    }
}

/// The times of a call whose input is of one size.
pub fn single_row(
    bench: &mut Bench,
    call: &'static str,
    shape: &'static str,
    mut batch: Box<dyn Batch>,
) {
    let size = None;
    let place = Place { call, shape, size };
    let times = bench.time(place, &mut *batch);
    print::growth_row(&place, &times, None);
}
