//! Traces by column.
//!
//! Safety, of each call below: as `calls` says of its own, and an `Addr` is laid out as its number is.

use core::ptr;

use crate::answers::value;
use crate::{ffi, Addr, Name, Refusal, Request};

/// A trace by column, with like beside like, as one stores it: the kinds of its events, their names,
/// starts, lengths and rights, each in the events' order, and with no entry where a kind lacks the value.
/// [`to_columns`] fills [room](ColumnsMut) for such columns, and [`from_columns`] makes their events again.
///
/// Only creates, borrows, reads, writes and drops of one name have columns, and only as domain 0 does
/// them for itself alone: without a written name, a kind or a mark, and without other holders. Names and
/// spans may be any; no table is asked whether they are right.
///
/// Each column has just as many entries as the kinds ask for. They may be of any value, since they may
/// come from a file; those that no events have are refused.
#[derive(Clone, Copy, Debug, PartialEq, Eq, Hash)]
pub struct Columns<'a> {
    /// The kind of every event: 1 for a create, 2 for a borrow, 3 for a read, 4 for a write and 5 for a
    /// drop.
    pub kinds: &'a [u8],
    /// The name that each goes through, but for creates, which have none.
    pub names: &'a [Name],
    /// The first address of the span of each, but for drops, which have none.
    pub starts: &'a [Addr],
    /// How many addresses the span has, of the same events.
    pub lengths: &'a [u32],
    /// The [right](crate::Right) of what each create and borrow makes: 1 for `ro` and 2 for `rw`.
    pub rights: &'a [u8],
}

/// Room for [`Columns`]. Each column has at least as many entries as it gets.
#[derive(Debug, PartialEq, Eq, Hash)]
pub struct ColumnsMut<'a> {
    /// Of every event.
    pub kinds: &'a mut [u8],
    /// Of borrows, reads, writes and drops.
    pub names: &'a mut [Name],
    /// Of creates, borrows, reads and writes.
    pub starts: &'a mut [Addr],
    /// Of the same events.
    pub lengths: &'a mut [u32],
    /// Of creates and borrows.
    pub rights: &'a mut [u8],
}

impl ColumnsMut<'_> {
    /// The first entries of each, as many as are said.
    ///
    /// # Panics
    ///
    /// Where a column has fewer, as never with what [`to_columns`] answered of these.
    pub fn used(&self, counts: Counts) -> Columns<'_> {
        Columns {
            kinds: &self.kinds[..counts.kinds],
            names: &self.names[..counts.names],
            starts: &self.starts[..counts.starts],
            lengths: &self.lengths[..counts.lengths],
            rights: &self.rights[..counts.rights],
        }
    }
}

/// How many entries of each list were used.
#[derive(Clone, Copy, Debug, Default, PartialEq, Eq, Hash)]
pub struct Counts {
    /// How many events there are, at most [`MAX_COLUMN_EVENTS`](crate::MAX_COLUMN_EVENTS).
    pub events: usize,
    /// As many.
    pub kinds: usize,
    /// One for each event but the creates.
    pub names: usize,
    /// One for each event but the drops.
    pub starts: usize,
    /// As many.
    pub lengths: usize,
    /// One for each create and borrow.
    pub rights: usize,
}

impl Counts {
    fn of(words: ffi::CountWords) -> Counts {
        let [events, kinds, names, starts, lengths, rights] = words.map(|count| count as usize);
        Counts {
            events,
            kinds,
            names,
            starts,
            lengths,
            rights,
        }
    }
}

/// Puts events, in their order, into columns, from the start of each, and answers how many entries each
/// got. The entries behind them stay.
///
/// ```
/// use kelzoud::{
///     from_columns, to_columns, Addr, Columns, ColumnsMut, Event, Name, Request, Right, Span,
/// };
///
/// let span = Span { start: Addr(4096), length: 64 };
/// let right = Right::ReadWrite;
/// let create = Event::Create { written: None, span, right, fresh: false, holders: None };
/// let write = Event::Write { name: Name(1), span };
/// let drop = Event::Drop { name: Name(1) };
/// let events = [create, write, drop].map(Request::from);
///
/// let (mut kinds, mut names, mut rights) = ([0; 8], [Name(0); 8], [0; 8]);
/// let (mut starts, mut lengths) = ([Addr(0); 8], [0; 8]);
/// let mut columns = ColumnsMut {
///     kinds: &mut kinds,
///     names: &mut names,
///     starts: &mut starts,
///     lengths: &mut lengths,
///     rights: &mut rights,
/// };
/// let counts = to_columns(&events, &mut columns)?;
/// let stored = columns.used(counts);
/// assert_eq!(stored.kinds, [1, 4, 5]);
/// assert_eq!(stored.names, [Name(1), Name(1)]);
/// assert_eq!(stored.lengths, [64, 64]);
/// assert_eq!(stored.rights, [2]);
///
/// let mut again = [Request::EMPTY; 3];
/// assert_eq!(from_columns(stored, &mut again)?, counts);
/// assert_eq!(again, events);
/// # Ok::<(), kelzoud::Refusal>(())
/// ```
///
/// # Errors
///
/// [`Refusal::Misspelt`] for more than [`MAX_COLUMN_EVENTS`](crate::MAX_COLUMN_EVENTS) events, and where
/// one of them has no [columns](Columns); else [`Refusal::BufferTooShort`] where a column has too few
/// entries. No column is touched then.
pub fn to_columns(events: &[Request], columns: &mut ColumnsMut) -> Result<Counts, Refusal> {
    let mut used = [0; 6];
    let answer = unsafe {
        ffi::kz_abi_to_columns(
            events.as_ptr().cast(),
            events.len(),
            columns.kinds.as_mut_ptr(),
            columns.kinds.len(),
            columns.names.as_mut_ptr().cast(),
            columns.names.len(),
            columns.starts.as_mut_ptr().cast(),
            columns.starts.len(),
            columns.lengths.as_mut_ptr(),
            columns.lengths.len(),
            columns.rights.as_mut_ptr(),
            columns.rights.len(),
            ptr::from_mut(&mut used),
        )
    };
    value(answer)?;
    Ok(Counts::of(used))
}

/// Takes the events from columns to the start of a list, and answers how many they are, with the number
/// of entries of each column. Those behind them in the list stay. They are the same that [`to_columns`]
/// puts into these columns.
///
/// # Errors
///
/// [`Refusal::Misspelt`] for more than [`MAX_COLUMN_EVENTS`](crate::MAX_COLUMN_EVENTS) kinds, for a kind
/// or right that is none, and where another column has more or fewer entries than the kinds ask for; else
/// [`Refusal::BufferTooShort`] where the list is too short. It is untouched then.
pub fn from_columns(columns: Columns, events: &mut [Request]) -> Result<Counts, Refusal> {
    let mut used = [0; 6];
    let answer = unsafe {
        ffi::kz_abi_from_columns(
            columns.kinds.as_ptr(),
            columns.kinds.len(),
            columns.names.as_ptr().cast(),
            columns.names.len(),
            columns.starts.as_ptr().cast(),
            columns.starts.len(),
            columns.lengths.as_ptr(),
            columns.lengths.len(),
            columns.rights.as_ptr(),
            columns.rights.len(),
            events.as_mut_ptr().cast(),
            events.len(),
            ptr::from_mut(&mut used),
        )
    };
    value(answer)?;
    Ok(Counts::of(used))
}
