//! Conflict sheets: what a read or write does to what it strikes.

use crate::Kind;

/// What strikes. A create strikes as a stranger's write does.
#[derive(Clone, Copy, Debug, PartialEq, Eq, Hash)]
#[repr(u8)]
pub enum Access {
    /// `read`
    Read = 0,
    /// `write`
    Write = 1,
}

/// Where a read or write comes from, for the capability that it strikes: the first of these that fits.
#[derive(Clone, Copy, Debug, PartialEq, Eq, Hash)]
#[repr(u8)]
pub enum Origin {
    /// `cell`: from a [cell](Kind::Cell), or from below one, that the struck one is not under.
    Cell = 0,
    /// `kin`: from its parent, or from below its parent.
    Kin = 1,
    /// `stranger`: from anywhere else. A create's write is always a stranger's.
    Stranger = 2,
}

/// What a read or write does to a capability that it strikes, and to its subtree.
#[derive(Clone, Copy, Debug, PartialEq, Eq, Hash)]
#[repr(u8)]
pub enum Effect {
    /// `keep`: nothing.
    Keep = 0,
    /// `lower`: it becomes read-only.
    Lower = 1,
    /// `end`: it ends.
    End = 2,
}

impl Effect {
    /// The effect with this number. Any number that is none ends.
    const fn from_number(number: u8) -> Effect {
        match number {
            0 => Effect::Keep,
            1 => Effect::Lower,
            _ => Effect::End,
        }
    }
}

/// A conflict sheet: what a read or write does to what it strikes, for each kind of the struck
/// capability, each access, and where the access comes from.
///
/// A table is used with one sheet throughout, which a [`Lent`](crate::Lent) holds beside it. A sheet is
/// made of the [default one](Sheet::DEFAULT), place by place, or [read](Sheet::read) from its text.
///
/// Here is one for a language in which an exclusive borrow outlives reads of what it was borrowed from:
///
/// ```
/// use kelzoud::{
///     run, Access, Cap, Effect, Kind, Lent, Origin, Refusal, RunAnswer, Sheet, States, Tally,
///     Written,
/// };
///
/// let text = b"(create 0 64 rw)\n(borrow 1 0 8 rw)\n(read 1 0 8)\n(write 2 0 8)\n";
/// let mut table = [Cap::EMPTY; 16];
/// let mut written = Written::NONE;
/// let mut states = Box::new(States::NOTHING);
/// let mut tally = Tally::default();
/// let answer = run(&mut table, &mut written, &mut states, &mut tally, text);
/// assert_eq!(answer, RunAnswer::Refused { refusal: Refusal::ReadOnly, line: 4 });
///
/// let sheet = Sheet::DEFAULT.with(Kind::Reference, Access::Read, Origin::Kin, Effect::Keep);
/// let mut table = [Cap::EMPTY; 16];
/// let mut written = Written::NONE;
/// let mut states = Box::new(States::NOTHING);
/// let mut tally = Tally::default();
/// let mut lent = Lent { sheet, ..Lent::new(&mut table, &mut written, &mut states, &mut tally) };
/// assert_eq!(lent.run(text), RunAnswer::Allowed { lines: 4 });
/// ```
#[derive(Clone, Copy, Debug, PartialEq, Eq, Hash)]
#[repr(transparent)]
pub struct Sheet([u8; Sheet::PLACES]);

impl Sheet {
    /// How many combinations there are, each with a place of its own.
    pub const PLACES: usize = 18;

    /// The sheet by which [`Event`](crate::Event) says what events do.
    pub const DEFAULT: Sheet = Sheet([1, 1, 1, 0, 2, 2, 0, 0, 0, 0, 0, 2, 1, 1, 1, 0, 2, 2]);

    /// The sheet of these numbers of [effects](Effect), by rising place: that of a combination is the
    /// number of the kind times 6, plus 3 for a write, plus the number of the origin. Any number that
    /// is no effect's ends, and becomes that of [`Effect::End`].
    ///
    /// ```
    /// use kelzoud::{Effect, Sheet};
    ///
    /// assert_eq!(Sheet::from_bytes([255; 18]), Sheet::from_bytes([Effect::End as u8; 18]));
    /// ```
    pub const fn from_bytes(bytes: [u8; Sheet::PLACES]) -> Sheet {
        let mut results = bytes;
        let mut place = 0;
        while place < Sheet::PLACES {
            results[place] = Effect::from_number(bytes[place]) as u8;
            place += 1;
        }
        Sheet(results)
    }

    /// The numbers of its effects, by rising place.
    pub const fn as_bytes(&self) -> &[u8; Sheet::PLACES] {
        &self.0
    }

    /// What this access from there does to a capability of this kind.
    pub const fn result(&self, kind: Kind, access: Access, origin: Origin) -> Effect {
        Effect::from_number(self.0[place(kind, access, origin)])
    }

    /// The sheet with another effect of one combination.
    #[must_use]
    pub const fn with(self, kind: Kind, access: Access, origin: Origin, effect: Effect) -> Sheet {
        let mut results = self.0;
        results[place(kind, access, origin)] = effect as u8;
        Sheet(results)
    }
}

const fn place(kind: Kind, access: Access, origin: Origin) -> usize {
    kind as usize * 6 + access as usize * 3 + origin as usize
}

impl Default for Sheet {
    /// The [default sheet](Sheet::DEFAULT).
    fn default() -> Sheet {
        Sheet::DEFAULT
    }
}
