//! Groups of cases, each printed as one test.

use std::array;
use std::fmt::{self, Display, Formatter};
use std::sync::atomic::{AtomicU64, Ordering};

use oracle::Refused;
use oracle::random::Random;

/// How many cases a group went through, or what failed.
pub type Checked = Result<u64, String>;

pub struct Report {
    seed: u64,
    /// Only groups whose names have this in them are run.
    wanted: String,
    passed: u32,
    failed: u32,
}

impl Report {
    pub fn new(seed: u64, wanted: String) -> Report {
        Report {
            seed,
            wanted,
            passed: 0,
            failed: 0,
        }
    }

    /// Runs one group on random numbers of its own, so that a group's cases depend on the seed and
    /// its name alone.
    pub fn group(&mut self, name: &str, check: impl FnOnce(&mut Random) -> Checked) {
        self.group_saying(name, |random| {
            check(random).map(|cases| format!("{cases} cases"))
        });
    }

    /// The same with words of its own for what it went through.
    pub fn group_saying(
        &mut self,
        name: &str,
        check: impl FnOnce(&mut Random) -> Result<String, String>,
    ) {
        if !name.contains(&self.wanted) {
            return;
        }
        let by_name = |seed: u64, byte| seed.wrapping_mul(31).wrapping_add(u64::from(byte));
        let mut random = Random::new(name.bytes().fold(self.seed, by_name));
        match check(&mut random) {
            Ok(went_through) => {
                self.passed += 1;
                println!("ok      {name}: {went_through}");
            }
            Err(failure) => {
                self.failed += 1;
                println!("FAILED  {name} (seed {})\n{failure}", self.seed);
            }
        }
    }

    /// Judges what the groups before it have met together, so that it needs all of them.
    pub fn met(&mut self, name: &str, check: impl FnOnce() -> Checked) {
        if self.wanted.is_empty() {
            self.group(name, |_| check());
        }
    }

    /// Prints the last line and says whether there were groups and every one passed.
    pub fn finish(self) -> bool {
        println!("{} passed, {} failed", self.passed, self.failed);
        self.failed == 0 && self.passed > 0
    }
}

/// How often cases of each of some sorts were met.
pub struct Met<const SORTS: usize>([AtomicU64; SORTS]);

impl<const SORTS: usize> Met<SORTS> {
    pub const fn none() -> Met<SORTS> {
        Met([const { AtomicU64::new(0) }; SORTS])
    }

    /// Counts a case for each sort that it is of.
    pub fn count(&self, is_of_sort: [bool; SORTS]) {
        for (met, is_of_sort) in self.0.iter().zip(is_of_sort) {
            met.fetch_add(is_of_sort.into(), Ordering::Relaxed);
        }
    }

    pub fn counts(&self) -> [u64; SORTS] {
        self.0.each_ref().map(|met| met.load(Ordering::Relaxed))
    }

    /// Whether cases were of every sort, each often enough that no accident decides.
    pub fn every_sort(&self, names: &[&str; SORTS], least: u64) -> Checked {
        let met = self.counts();
        match met.iter().all(|count| *count >= least) {
            true => Ok(met.iter().sum()),
            false => {
                let sorts: Vec<_> = names.iter().zip(met).collect();
                Err(format!("sorts, each {least} times or more: {sorts:#?}"))
            }
        }
    }
}

/// How often requests were allowed, and refused by each number.
pub type MetAnswers = Met<20>;

impl MetAnswers {
    /// Counts an answer by its refusal, 0 for none.
    pub fn count_refusal(&self, refusal: u64) {
        self.count_answer(match refusal {
            0 => Ok(0),
            number => Err(number as Refused),
        });
    }

    pub fn count_answer(&self, answer: Result<u32, Refused>) {
        let number = usize::from(answer.err().unwrap_or(0));
        self.count(array::from_fn(|sort| sort == number));
    }

    /// Whether every answer was met, but for those that cannot be, and how often.
    pub fn every_answer_but(&self, never: &[usize]) -> Checked {
        let met = self.counts();
        let as_due = |number: usize| (met[number] > 0) != never.contains(&number);
        match (0..met.len()).all(as_due) {
            true => Ok(met.iter().sum()),
            false => Err(format!("allowed and refusals 1 to 19: {met:?}")),
        }
    }
}

/// Checks items; on failure gives why, and few items that still fail.
pub fn check_few<T: Clone>(
    items: &[T],
    check: impl Fn(&[T]) -> Result<(), String>,
) -> Result<(), (String, Vec<T>)> {
    if check(items).is_ok() {
        return Ok(());
    }
    let fewer = shrink(items, |fewer| check(fewer).is_err());
    let why = check(&fewer).expect_err("a smaller case fails too");
    Err((why, fewer))
}

/// Takes out of a failing case whatever it fails without.
fn shrink<T: Clone>(items: &[T], fails: impl Fn(&[T]) -> bool) -> Vec<T> {
    let mut kept = items.to_vec();
    let mut size = kept.len();
    while size > 0 {
        let mut at = 0;
        while at < kept.len() {
            let mut shorter = kept.clone();
            shorter.drain(at..kept.len().min(at + size));
            if fails(&shorter) {
                kept = shorter;
            } else {
                at += size;
            }
        }
        size /= 2;
    }
    kept
}

/// How many requests a group had, and how they were answered: allowed, or refused by one of some numbers.
pub struct Counts<const NUMBERS: usize> {
    numbers: [u64; NUMBERS],
    met: &'static MetAnswers,
    requests: u64,
    allowed: u64,
    refused: [u64; NUMBERS],
}

impl<const NUMBERS: usize> Counts<NUMBERS> {
    /// None yet; what is counted is counted there too.
    pub fn of(numbers: [u64; NUMBERS], met: &'static MetAnswers) -> Counts<NUMBERS> {
        Counts {
            numbers,
            met,
            requests: 0,
            allowed: 0,
            refused: [0; NUMBERS],
        }
    }

    pub fn count(&mut self, refusal: u64) {
        self.requests += 1;
        self.allowed += u64::from(refusal == 0);
        for (refused, number) in self.refused.iter_mut().zip(self.numbers) {
            *refused += u64::from(refusal == number);
        }
        self.met.count_refusal(refusal);
    }
}

impl<const NUMBERS: usize> Display for Counts<NUMBERS> {
    fn fmt(&self, formatter: &mut Formatter) -> fmt::Result {
        write!(
            formatter,
            "{} cases, {} allowed",
            self.requests, self.allowed
        )?;
        let met = self.refused.iter().zip(self.numbers);
        for (refused, number) in met.filter(|(refused, _)| **refused > 0) {
            write!(formatter, ", {refused} refused {number}")?;
        }
        Ok(())
    }
}
