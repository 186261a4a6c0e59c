//! What is lent and what is asked.

use crate::{Holders, Slot, WRITTEN_ADDRESSES, WRITTEN_BYTES};

/// The name of a capability: 1 to [`MAX_NAME`](crate::MAX_NAME), given out in order, never twice.
#[derive(Clone, Copy, Debug, PartialEq, Eq, PartialOrd, Ord, Hash)]
#[repr(transparent)]
pub struct Name(pub u32);

/// An address.
#[derive(Clone, Copy, Debug, PartialEq, Eq, PartialOrd, Ord, Hash)]
#[repr(transparent)]
pub struct Addr(pub u32);

/// A run of addresses, of any length, 0 included. Legal when its end is at most 4,294,967,296. One
/// of length 0 touches nothing, and lies inside another when its start is at or between the other's
/// start and end.
#[derive(Clone, Copy, Debug, PartialEq, Eq, Hash)]
pub struct Span {
    /// The first address.
    pub start: Addr,
    /// How many addresses.
    pub length: u32,
}

/// What a capability may be used for.
#[derive(Clone, Copy, Debug, PartialEq, Eq, PartialOrd, Ord, Hash)]
#[repr(u8)]
pub enum Right {
    /// `ro`
    ReadOnly = 1,
    /// `rw`
    ReadWrite = 2,
}

impl Right {
    /// The right with this number, if there is one.
    pub const fn from_number(number: u32) -> Option<Right> {
        match number {
            1 => Some(Right::ReadOnly),
            2 => Some(Right::ReadWrite),
            _ => None,
        }
    }
}

/// What a capability stands for: what a read or write does to one that it strikes goes by its kind, as a
/// [`Sheet`](crate::Sheet) says. What is said of each here is so by the default sheet. There is no bond
/// between kind and right.
#[derive(Clone, Copy, Debug, Default, PartialEq, Eq, Hash)]
#[repr(u8)]
pub enum Kind {
    /// A reference, `&T` or `&mut T`: the kind of all that is created. It is not written in lines and
    /// listings.
    #[default]
    Reference = 0,
    /// `raw`, a raw pointer, `*const T` or `*mut T`: it is used in turn with its parent, and with others
    /// that are borrowed from its parent.
    Raw = 1,
    /// `cell`, a reference to an `UnsafeCell`: writes through it, or from below it, strike nothing
    /// outside its subtree.
    Cell = 2,
}

impl Kind {
    /// The kind with this number, if there is one.
    pub const fn from_number(number: u32) -> Option<Kind> {
        match number {
            0 => Some(Kind::Reference),
            1 => Some(Kind::Raw),
            2 => Some(Kind::Cell),
            _ => None,
        }
    }
}

/// An event. Names, spans and holders may be any; those that are wrong are refused.
///
/// Who acts is said beside it: an event by itself is [domain 0](crate::Domain::ZERO)'s, and
/// [`by`](Event::by) makes a request of any domain of it. What an event goes through, and what it drops,
/// the domain that acts must hold, else it is refused [`NotHolder`](crate::Refusal::NotHolder). What it
/// makes is that domain's, for the [holders](Holders) that it gives; these must have the domain itself
/// among them, else it is refused [`Misspelt`](crate::Refusal::Misspelt).
///
/// A log may write out the name of what a create or borrow makes. A written name that is not the one
/// that is given out next, the issued number plus one, is refused
/// [`Misnamed`](crate::Refusal::Misnamed).
///
/// What reads, writes and creates do to others is said here by the default [`Sheet`](crate::Sheet). By
/// another sheet each capability that a read or write touches, and that is neither its user nor an
/// ancestor of its user, is kept, lowered or ended as that says; and a create is a stranger's write.
#[derive(Clone, Copy, Debug, PartialEq, Eq, Hash)]
pub enum Event {
    /// Makes a new root, a reference, as a new allocation: ends every capability that its span
    /// touches, of whatever kind and whoever holds it, with their subtrees. One of length 0 ends nothing.
    Create {
        /// The root's name, where it is written out.
        written: Option<Name>,
        /// The root's span. Of a fresh one it ends at
        /// [`WRITTEN_ADDRESSES`](crate::WRITTEN_ADDRESSES) or below.
        span: Span,
        /// The root's right.
        right: Right,
        /// Whether the root's memory must be written before it is read: a read of what is not
        /// [written](Written), through the root or through anything that is borrowed from it, is
        /// refused [`NotWritten`](crate::Refusal::NotWritten).
        fresh: bool,
        /// Who may use the root; without it, the domain that acts alone.
        holders: Option<Holders>,
    },
    /// Makes a new capability under a live one, fresh where that one is. Nothing is taken away.
    Borrow {
        /// The new capability's name, where it is written out.
        written: Option<Name>,
        /// The capability borrowed from.
        parent: Name,
        /// The new capability's span, inside its parent's.
        span: Span,
        /// The new capability's right, not above its parent's.
        right: Right,
        /// The new capability's kind.
        kind: Kind,
        /// Who may use the new capability, whoever holds its parent; without it, the domain that acts
        /// alone.
        holders: Option<Holders>,
    },
    /// Lowers to read-only every capability that it strikes, with its subtree: each that is touched and
    /// is neither the reader nor an ancestor of it, but for [raw](Kind::Raw) ones, which no read
    /// strikes. A raw one is lowered only with an ancestor. What a fresh capability reads must be
    /// written.
    Read {
        /// The reader.
        name: Name,
        /// What it reads, inside its own span.
        span: Span,
    },
    /// Ends every capability that it strikes, with its subtree: each that is touched and is neither the
    /// writer nor an ancestor of it. But a write does not strike a [raw](Kind::Raw) one whose parent is
    /// the writer or an ancestor of the writer; and one through a [cell](Kind::Cell), or from below it,
    /// strikes nothing outside that cell's subtree.
    Write {
        /// The writer.
        name: Name,
        /// What it writes, inside its own span.
        span: Span,
    },
    /// Ends a capability with its subtree.
    Drop {
        /// The capability.
        name: Name,
    },
    /// Stores the table and the written bits in a slot of the lent [`States`](crate::States), over
    /// whatever is stored there. Any domain may, whatever it holds. It is not counted in the tally.
    Mark {
        /// The slot.
        slot: Slot,
    },
    /// Brings back the table and the written bits that are stored in a slot, and keeps them there. The
    /// tally stays, and with it the names given out: those given since the mark have ended. Where nothing
    /// is stored it is refused [`NothingStored`](crate::Refusal::NothingStored), and where what is stored
    /// does not fit [`Disordered`](crate::Refusal::Disordered).
    Back {
        /// The slot.
        slot: Slot,
    },
}

impl Event {
    /// Whether the event makes a capability, and so a name.
    pub const fn makes(self) -> bool {
        matches!(self, Event::Create { .. } | Event::Borrow { .. })
    }

    /// The kind of what the event makes, where it makes something. All that is created is a reference.
    pub const fn kind(self) -> Option<Kind> {
        match self {
            Event::Create { .. } => Some(Kind::Reference),
            Event::Borrow { kind, .. } => Some(kind),
            _ => None,
        }
    }

    /// Whether the event creates memory that must be written before it is read.
    pub const fn is_fresh(self) -> bool {
        matches!(self, Event::Create { fresh: true, .. })
    }

    /// Who may use what the event makes, where that is not left to the domain that acts alone.
    pub const fn holders(self) -> Option<Holders> {
        match self {
            Event::Create { holders, .. } | Event::Borrow { holders, .. } => holders,
            _ => None,
        }
    }

    /// The name of what the event makes, where it is written out.
    pub const fn written(self) -> Option<Name> {
        match self {
            Event::Create { written, .. } | Event::Borrow { written, .. } => written,
            _ => None,
        }
    }
}

/// A row of a table.
///
/// Live capabilities stand first, in rising order of name, and every later row is
/// [empty](Cap::EMPTY).
#[repr(C)]
#[derive(Clone, Copy, Debug, Default, PartialEq, Eq, Hash)]
pub struct Cap {
    /// Its name.
    pub name: u32,
    /// The name that it was borrowed from, 0 for a created one.
    pub parent: u32,
    /// The first address of its span.
    pub start: u32,
    /// The number of addresses in its span.
    pub length: u32,
    /// The number of its [`Right`].
    pub right: u32,
    /// 1 for a created one, one more for each borrow.
    pub depth: u32,
    /// The number of its [`Kind`].
    pub kind: u32,
    /// 1 where what it reads must be written, else 0: as that which it was borrowed from.
    pub fresh: u32,
    /// The number of the [`Domain`](crate::Domain) that made it.
    pub maker: u32,
    /// The lower half of its [holders](Cap::holders), the domains 0 to 31.
    pub holders_low: u32,
    /// The higher half, the domains 32 to 63.
    pub holders_high: u32,
}

impl Cap {
    /// A row that holds no capability.
    pub const EMPTY: Cap = Cap {
        name: 0,
        parent: 0,
        start: 0,
        length: 0,
        right: 0,
        depth: 0,
        kind: 0,
        fresh: 0,
        maker: 0,
        holders_low: 0,
        holders_high: 0,
    };

    /// The domains that may use it, its maker among them.
    pub const fn holders(&self) -> Holders {
        Holders::from_halves(self.holders_low, self.holders_high)
    }
}

/// The written bits of a table: which addresses below [`WRITTEN_ADDRESSES`] were written since they
/// were last created over. That of address A is the bit worth 2^(A mod 8) in byte A / 8.
///
/// Every allowed create clears the bits of its addresses, and every allowed write sets those of its
/// own, whether anything is fresh or not; nothing else changes them. Reads through fresh capabilities
/// look at them. Addresses from [`WRITTEN_ADDRESSES`] on have no bit, and no fresh capability reaches
/// them.
///
/// A table has the same bits throughout, and begins with [none](Written::NONE). Tables that stand for
/// parts of one memory, each with its own allocations, share them. They are not in a listing, so a tool
/// that keeps listings to come back to keeps them too. [`States`](crate::States) have them.
///
/// ```
/// use kelzoud::{run, Addr, Cap, Refusal, RunAnswer, States, Tally, Written};
///
/// let mut table = [Cap::EMPTY; 16];
/// let mut written = Written::NONE;
/// let mut states = Box::new(States::NOTHING);
/// let mut tally = Tally::default();
/// let text = b"(create 0 8 rw fresh)\n(write 1 0 4)\n(read 1 0 4)\n(read 1 0 8)\n";
/// let answer = run(&mut table, &mut written, &mut states, &mut tally, text);
/// let refusal = Refusal::NotWritten;
/// assert_eq!(answer, RunAnswer::Refused { refusal, line: 4 });
/// // Which address it was.
/// assert_eq!((0..8).find(|&at| !written.contains(Addr(at))), Some(4));
/// ```
#[repr(transparent)]
#[derive(Clone, Debug, PartialEq, Eq, Hash)]
pub struct Written(pub [u8; WRITTEN_BYTES]);

impl Written {
    /// The bits of a new table: no address is written.
    pub const NONE: Written = Written([0; WRITTEN_BYTES]);

    /// Whether this address is written. One that has no bit is not.
    pub const fn contains(&self, address: Addr) -> bool {
        address.0 < WRITTEN_ADDRESSES && self.0[address.0 as usize / 8] >> (address.0 % 8) & 1 == 1
    }
}

impl Default for Written {
    /// [None](Written::NONE).
    fn default() -> Written {
        Written::NONE
    }
}

/// The tally of a table. A count at `u32::MAX` stays there.
#[repr(C)]
#[derive(Clone, Copy, Debug, Default, PartialEq, Eq, Hash)]
pub struct Tally {
    /// Names issued.
    pub issued: u32,
    /// Allowed creates.
    pub creates: u32,
    /// Allowed borrows.
    pub borrows: u32,
    /// Allowed reads.
    pub reads: u32,
    /// Allowed writes.
    pub writes: u32,
    /// Allowed drops, names dropped together as one.
    pub drops: u32,
    /// Refused events.
    pub refused: u32,
}
