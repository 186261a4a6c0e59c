//! Medians over batches, and all that were found.

use std::time::Duration;

use interface::Interface;

use crate::clock;

/// How many batches a median is taken over.
const BATCHES: usize = 201;

/// Where batches are long fewer have to do: no more are begun after this time, but for so many.
const LONG: Duration = Duration::from_millis(400);
const FEWEST_BATCHES: usize = 31;

/// A batch of calls.
pub trait Batch {
    /// Makes ready what the calls will change. It is not timed.
    fn prepare(&mut self);

    /// The calls, which are timed.
    fn call(&mut self, implementation: &dyn Interface);

    /// How many calls there are, or lines or events of calls, where it is their time that is asked for.
    fn calls(&self) -> usize;
}

/// What is timed: a call on tables or on other input, of what shape or sort, and how large.
#[derive(Clone, Copy)]
pub struct Place {
    pub call: &'static str,
    pub shape: &'static str,
    pub size: Option<usize>,
}

/// The time of one call for each contender, in nanoseconds.
pub struct Found {
    pub place: Place,
    pub times: Vec<f64>,
}

/// The implementations that are timed side by side, and what was found so far.
pub struct Bench {
    pub contenders: Vec<&'static dyn Interface>,
    pub found: Vec<Found>,
}

impl Bench {
    /// The library, where this was built with it, and the baseline.
    pub fn new() -> Bench {
        let library = interface::library().into_iter();
        Bench {
            contenders: library.chain([interface::baseline()]).collect(),
            found: Vec::new(),
        }
    }

    /// The time of one call for each contender.
    pub fn time(&mut self, place: Place, batch: &mut dyn Batch) -> Vec<f64> {
        self.time_beside(place, batch, &mut Nothing).0
    }

    /// The same, and the time of a batch that no contender has part in. All take turns, so that whatever else the
    /// machine does meets them alike.
    pub fn time_beside(
        &mut self,
        place: Place,
        batch: &mut dyn Batch,
        beside: &mut dyn Batch,
    ) -> (Vec<f64>, f64) {
        let mut times = vec![Vec::with_capacity(BATCHES); self.contenders.len()];
        let mut beside_times = Vec::with_capacity(BATCHES);
        let start = clock::now();
        for turn in 0..BATCHES {
            if turn >= FEWEST_BATCHES && clock::now() - start > LONG {
                break;
            }
            for (contender, times) in self.contenders.iter().zip(&mut times) {
                times.push(time(*contender, batch));
            }
            beside_times.push(time(self.contenders[0], beside));
        }
        let times: Vec<f64> = times.into_iter().map(|all| median(all, batch)).collect();
        self.found.push(Found {
            place,
            times: times.clone(),
        });
        (times, median(beside_times, beside))
    }
}

/// What takes its turn where nothing else does.
struct Nothing;

impl Batch for Nothing {
    fn prepare(&mut self) {}

    fn call(&mut self, _: &dyn Interface) {}

    fn calls(&self) -> usize {
        1
    }
}

fn time(implementation: &dyn Interface, batch: &mut dyn Batch) -> Duration {
    batch.prepare();
    let start = clock::now();
    batch.call(implementation);
    clock::now() - start
}

/// The median for one of the batch's calls.
fn median(mut times: Vec<Duration>, batch: &dyn Batch) -> f64 {
    times.sort();
    times[times.len() / 2].as_nanos() as f64 / batch.calls() as f64
}
