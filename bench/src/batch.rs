//! Batches of calls: on tables that each call changes, and of calls that leave everything as it was.

use std::hint::black_box;

use interface::{Cap, Interface, Words};

use crate::shape::{Lent, Shared};
use crate::timing::Batch;
use crate::workload::{MARK, slot_event};

/// About so many bytes of tables or lines stand in a batch, few enough for the second cache.
pub const BATCH_BYTES: usize = 128 * 1024;

/// How many rows of tables that are only looked at, or of listings, stand in a batch.
pub const BATCH_ROWS: usize = 4 * 1024;

type LentCall = Box<dyn FnMut(&dyn Interface, &mut Lent, &mut Shared)>;

/// Calls that change what is lent: each has a copy of its own, made anew before every batch.
struct OnCopies {
    original: Lent,
    copies: Vec<Lent>,
    /// What all copies share: each call finds the written bits as the last left them, and so the same bits.
    shared: Shared,
    /// How many calls, or lines or events of one call, are timed on a copy.
    on_each: usize,
    call: LentCall,
}

/// How many copies stand in a batch.
fn copies_of(lent: &Lent) -> usize {
    BATCH_BYTES / (lent.table.len() * size_of::<Cap>())
}

fn on_copies(
    original: Lent,
    copies: usize,
    on_each: usize,
    call: impl FnMut(&dyn Interface, &mut Lent, &mut Shared) + 'static,
) -> Box<dyn Batch> {
    Box::new(OnCopies {
        copies: vec![original.clone(); copies],
        shared: Shared::new(),
        original,
        on_each,
        call: Box::new(call),
    })
}

impl Batch for OnCopies {
    fn prepare(&mut self) {
        for copy in &mut self.copies {
            copy.table.copy_from_slice(&self.original.table);
            copy.tally = self.original.tally;
        }
    }

    fn call(&mut self, implementation: &dyn Interface) {
        for copy in &mut self.copies {
            (self.call)(implementation, copy, &mut self.shared);
        }
    }

    fn calls(&self) -> usize {
        self.copies.len() * self.on_each
    }
}

type RepeatedCall = Box<dyn FnMut(&dyn Interface, usize) -> u64>;

/// Calls that leave everything as they found it, or write the same again.
struct Repeated {
    times: usize,
    /// How many lines of a call are timed.
    on_each: usize,
    refusal: u64,
    call: RepeatedCall,
}

pub fn repeated(
    times: usize,
    call: impl FnMut(&dyn Interface, usize) -> u64 + 'static,
) -> Box<dyn Batch> {
    repeated_refused(0, times, call)
}

/// The same where each call is refused so, or is allowed where that is 0.
pub fn repeated_refused(
    refusal: u64,
    times: usize,
    call: impl FnMut(&dyn Interface, usize) -> u64 + 'static,
) -> Box<dyn Batch> {
    Box::new(Repeated {
        times,
        on_each: 1,
        refusal,
        call: Box::new(call),
    })
}

/// So many calls of so many lines each, which are timed.
pub fn on_lines(
    times: usize,
    lines: usize,
    call: impl FnMut(&dyn Interface, usize) -> u64 + 'static,
) -> Box<dyn Batch> {
    Box::new(Repeated {
        times,
        on_each: lines,
        refusal: 0,
        call: Box::new(call),
    })
}

impl Batch for Repeated {
    fn prepare(&mut self) {}

    fn call(&mut self, implementation: &dyn Interface) {
        for at in 0..self.times {
            refused(self.refusal, (self.call)(implementation, at));
        }
    }

    fn calls(&self) -> usize {
        self.times * self.on_each
    }
}

/// A call with another answer than is meant would be timed for nothing.
pub fn refused(expected: u64, answer: u64) {
    assert!(
        black_box(answer) >> 32 == expected,
        "refusal {}",
        answer >> 32
    );
}

pub fn apply(event: Words, lent: Lent) -> Box<dyn Batch> {
    apply_refused(0, event, lent)
}

pub fn apply_refused(refusal: u64, event: Words, lent: Lent) -> Box<dyn Batch> {
    apply_names(refusal, event, Vec::new(), lent)
}

/// Names dropped together.
pub fn apply_group(refusal: u64, names: Vec<u32>, lent: Lent) -> Box<dyn Batch> {
    let event = Words::drop_all(0, names.len() as u32);
    apply_names(refusal, event, names, lent)
}

fn apply_names(refusal: u64, event: Words, names: Vec<u32>, lent: Lent) -> Box<dyn Batch> {
    let copies = copies_of(&lent);
    on_copies(lent, copies, 1, move |implementation, lent, shared| {
        let (sheet, memory) = lent.lend(shared);
        refused(
            refusal,
            implementation.apply_words_by(sheet, memory, &event, &names),
        );
    })
}

/// Events, and the list in which the names stand that some of them drop together.
#[derive(Clone)]
pub struct Events {
    pub events: Vec<Words>,
    pub names: Vec<u32>,
}

/// Each event by a call of its own, and all of them refused so.
pub fn apply_each(refusal: u64, list: Events, lent: Lent) -> Box<dyn Batch> {
    let Events { events, names } = list;
    let count = events.len();
    on_copies(lent, 1, count, move |implementation, lent, shared| {
        for event in &events {
            let (sheet, memory) = lent.lend(shared);
            let answer = implementation.apply_words_by(sheet, memory, event, &names);
            refused(refusal, answer);
        }
    })
}

/// All events by one call.
pub fn apply_all(refusal: u64, list: Events, lent: Lent) -> Box<dyn Batch> {
    let Events { events, names } = list;
    let count = events.len();
    let mut answers = vec![[0; 2]; count];
    let is_meant = move |answer: &[u32; 2]| u64::from(answer[0]) == refusal;
    on_copies(lent, 1, count, move |implementation, lent, shared| {
        let (sheet, memory) = lent.lend(shared);
        let taken = implementation.apply_all_by(sheet, memory, &events, &names, &mut answers);
        assert_eq!(taken, count);
        assert!(black_box(&answers).iter().all(is_meant));
    })
}

/// How many marks, backs or copies stand in a batch.
const BATCH_STATES: usize = 32;

/// A mark, or a back to what is stored, which is what the table is already: all stays as it is.
pub fn turn(kind: u32, mut lent: Lent) -> Box<dyn Batch> {
    let mut shared = Shared::new();
    let (mark, event) = (slot_event(MARK), slot_event(kind));
    let (sheet, memory) = lent.lend(&mut shared);
    refused(
        0,
        interface::baseline().apply_words_by(sheet, memory, &mark, &[]),
    );
    repeated(BATCH_STATES, move |implementation, _| {
        let (sheet, memory) = lent.lend(&mut shared);
        implementation.apply_words_by(sheet, memory, &event, &[])
    })
}

/// A copy of the live rows of a table and of its written bits, to where a slot has them.
pub fn copy(lent: Lent) -> Box<dyn Batch> {
    let mut shared = Shared::new();
    let live = lent.live();
    repeated(BATCH_STATES, move |_, _| {
        let Shared {
            written,
            stored,
            stored_bits,
        } = black_box(&mut shared);
        stored[..live].copy_from_slice(&black_box(&lent.table)[..live]);
        stored_bits[..written.len()].copy_from_slice(written);
        0
    })
}

/// A run, whose lines are timed: all of them, or those up to the one that is refused so.
pub fn run(refusal: u64, lent: Lent, text: Vec<u8>) -> Box<dyn Batch> {
    let lines = lines_taken(lent.clone(), &text);
    let copies = if lines == 1 { copies_of(&lent) } else { 1 };
    on_copies(lent, copies, lines, move |implementation, lent, shared| {
        let (sheet, memory) = lent.lend(shared);
        refused(refusal, implementation.run_by(sheet, memory, &text));
    })
}

fn lines_taken(mut lent: Lent, text: &[u8]) -> usize {
    let mut shared = Shared::new();
    let (sheet, memory) = lent.lend(&mut shared);
    let answer = interface::baseline().run_by(sheet, memory, text);
    answer as u32 as usize
}

/// What the holders of a row in the middle are charged.
pub fn charge(lent: Lent) -> Box<dyn Batch> {
    charge_for(0, lent.table[lent.live() / 2].name, lent)
}

/// What those of a name are charged, or its refusal.
pub fn charge_for(refusal: u64, name: u32, lent: Lent) -> Box<dyn Batch> {
    let times = BATCH_ROWS / lent.table.len();
    repeated_refused(refusal, times, move |implementation, _| {
        let [refusal, share, _] = implementation.charge(&lent.table, lent.tally.issued, name);
        u64::from(refusal) << 32 | u64::from(share)
    })
}
