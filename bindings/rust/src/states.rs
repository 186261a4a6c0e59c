//! States to come back to.

use core::fmt;

use crate::{Cap, MAX_ROWS, SLOTS, WRITTEN_BYTES};

/// A slot for a state to come back to, 0 to 7, and nothing else.
///
/// ```
/// use kelzoud::Slot;
///
/// assert_eq!(Slot::new(0), Some(Slot::ZERO));
/// assert_eq!(Slot::new(7).map(Slot::number), Some(7));
/// assert_eq!(Slot::new(8), None);
/// assert_eq!(Slot::all().count(), 8);
/// ```
#[derive(Clone, Copy, Debug, Default, PartialEq, Eq, PartialOrd, Ord, Hash)]
pub struct Slot(u8);

impl Slot {
    /// Slot 0.
    pub const ZERO: Slot = Slot(0);

    /// The slot with this number, if there is one.
    pub const fn new(number: u32) -> Option<Slot> {
        match number < SLOTS as u32 {
            true => Some(Slot(number as u8)),
            false => None,
        }
    }

    /// Its number, 0 to 7.
    pub const fn number(self) -> u32 {
        self.0 as u32
    }

    /// All 8, from 0 on.
    pub fn all() -> impl Iterator<Item = Slot> {
        (0..SLOTS as u8).map(Slot)
    }
}

/// Its number.
impl fmt::Display for Slot {
    fn fmt(&self, formatter: &mut fmt::Formatter<'_>) -> fmt::Result {
        self.0.fmt(formatter)
    }
}

/// Room for [eight](SLOTS) states to come back to, each a table of up to [`MAX_ROWS`] rows with its
/// written bits.
///
/// [`Event::Mark`](crate::Event::Mark) stores the table and the written bits in a [slot](Slot), over
/// whatever is stored there, and [`Event::Back`](crate::Event::Back) brings them back and keeps what is
/// stored. Both leave the tally, the issued number in it: no name is given twice, and a name that was
/// given after the mark has ended after the back. Only there may a capability that has ended live again,
/// and one that was lowered be read-write again.
///
/// It begins with [nothing](States::NOTHING) stored, and only marks change it. It belongs to one table, as
/// the [written bits](crate::Written) do; tables that are never marked may share one. Every event and run
/// is lent one, whether it marks or not.
///
/// What is stored is judged on going back to it, with the names that are issued then and the limits that
/// are lent then: where it is not in order, as where something else was written there, where a limit is
/// exceeded, or where it has another number of rows than the table, the back is
/// [`Disordered`](crate::Refusal::Disordered).
///
/// It has 426,336 bytes, so it lies in a `static` or in a box, and on the stack only where that is large:
///
/// ```
/// use std::sync::Mutex;
/// use kelzoud::{run, Cap, Refusal, RunAnswer, States, Tally, Written};
///
/// static STATES: Mutex<States> = Mutex::new(States::NOTHING);
///
/// let mut boxed = Box::new(States::NOTHING);
/// let mut table = [Cap::EMPTY; 16];
/// let mut written = Written::NONE;
/// let mut tally = Tally::default();
/// let text = b"(create 0 64 rw)\n(borrow 1 0 8 rw)\n(mark 3)\n(write 1 0 8)\n(back 3)\n(write 2 0 8)\n";
/// let answer = run(&mut table, &mut written, &mut boxed, &mut tally, text);
/// assert_eq!(answer, RunAnswer::Allowed { lines: 6 });
/// // Nothing is stored in the other.
/// let mut states = STATES.lock().unwrap();
/// let answer = run(&mut table, &mut written, &mut states, &mut tally, b"(back 3)\n");
/// assert_eq!(answer, RunAnswer::Refused { refusal: Refusal::NothingStored, line: 1 });
/// ```
#[repr(C)]
#[derive(Clone, PartialEq, Eq)]
pub struct States {
    /// The rows in which the tables lie. How they do is the library's to choose.
    pub rows: [Cap; States::ROWS],
    /// The bytes in which their written bits lie.
    pub written: [u8; States::BYTES],
}

impl States {
    /// How many rows it has.
    pub const ROWS: usize = SLOTS * (MAX_ROWS + 1);

    /// How many bytes for written bits.
    pub const BYTES: usize = SLOTS * WRITTEN_BYTES;

    /// Nothing is stored: all zeros.
    pub const NOTHING: States = States {
        rows: [Cap::EMPTY; States::ROWS],
        written: [0; States::BYTES],
    };
}

impl Default for States {
    /// [Nothing](States::NOTHING).
    fn default() -> States {
        States::NOTHING
    }
}

/// Not what it has, which would be long.
impl fmt::Debug for States {
    fn fmt(&self, formatter: &mut fmt::Formatter<'_>) -> fmt::Result {
        formatter.debug_struct("States").finish_non_exhaustive()
    }
}
