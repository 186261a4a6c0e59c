//! Events and names dropped together, each with who acts, as the C interface passes them and as lines
//! hold them.

use core::fmt;
use core::ops::{Deref, Range};

use crate::{Addr, Domain, Event, Holders, Kind, Name, Right, Slot, Span, MAX_GROUP};

const CREATE: u32 = 1;
const BORROW: u32 = 2;
const READ: u32 = 3;
const WRITE: u32 = 4;
const DROP: u32 = 5;
const DROP_ALL: u32 = 6;
const MARK: u32 = 7;
const BACK: u32 = 8;

/// What a domain asks for: an [`Event`], or names that are dropped together, which stand in a list beside
/// the requests. It is made of one or the other, and laid out as `kz_event` is.
///
/// ```
/// use kelzoud::{Domain, Event, Name, Request};
///
/// let names = [Name(2), Name(5), Name(9)];
/// let (three, drop) = (Domain::new(3).unwrap(), Event::Drop { name: Name(1) });
/// // By domain 0, and by domain 3.
/// let requests = [Request::from(drop), Request::drop_all(0..names.len())];
/// let requests = [drop.by(three), Request::drop_all_by(three, 0..names.len())];
/// ```
#[repr(C)]
#[derive(Clone, Copy, Debug, PartialEq, Eq, Hash)]
pub struct Request {
    kind: u32,
    name: u32,
    start: u32,
    length: u32,
    right: u32,
    named: u32,
    written: u32,
    cap_kind: u32,
    fresh: u32,
    actor: u32,
    holders_low: u32,
    holders_high: u32,
}

impl Request {
    /// Room for a request. Until one is written it is of no kind, and refused
    /// [`Misspelt`](crate::Refusal::Misspelt).
    pub const EMPTY: Request = Request {
        kind: 0,
        name: 0,
        start: 0,
        length: 0,
        right: 0,
        named: 0,
        written: 0,
        cap_kind: 0,
        fresh: 0,
        actor: 0,
        holders_low: 0,
        holders_high: 0,
    };

    /// Drops the names together that stand at these places of the list, as domain 0. Places past its end,
    /// and places that 32 bits cannot hold, are no names, and refused so.
    pub fn drop_all(places: Range<usize>) -> Request {
        Request::drop_all_by(Domain::ZERO, places)
    }

    /// The same by any domain, which has to hold each of them.
    pub fn drop_all_by(actor: Domain, places: Range<usize>) -> Request {
        let start = u32::try_from(places.start);
        let length = u32::try_from(places.len());
        let (start, length) = start.and_then(|at| Ok((at, length?))).unwrap_or((0, 0));
        Request {
            kind: DROP_ALL,
            start,
            length,
            actor: actor.number(),
            ..Request::EMPTY
        }
    }

    /// The event, and the domain that acts; nothing for names that are dropped together, which stand beside
    /// the request, and for [room](Request::EMPTY). Holders that an event need not give it does not give.
    ///
    /// ```
    /// use kelzoud::{Domain, Event, Name, Request};
    ///
    /// let (three, drop) = (Domain::new(3).unwrap(), Event::Drop { name: Name(1) });
    /// assert_eq!(drop.by(three).event(), Some((drop, three)));
    /// assert_eq!(Request::drop_all(0..2).event(), None);
    /// ```
    pub fn event(self) -> Option<(Event, Domain)> {
        let actor = Domain::new(self.actor)?;
        Some((self.event_of(actor)?, actor))
    }

    /// What a line asks for that was read into this request and these names; nothing for a kind, right,
    /// kind of capability, mark, domain or slot that no line has.
    pub(crate) fn line(self, names: [Name; MAX_GROUP]) -> Option<Line> {
        if self.kind == DROP_ALL {
            let actor = Domain::new(self.actor)?;
            let count = self.length as usize;
            let names = Group { names, count };
            return Some(Line::DropAll { actor, names });
        }
        let (event, actor) = self.event()?;
        Some(Line::Event { actor, event })
    }

    /// The event of this domain, if it is one.
    fn event_of(self, actor: Domain) -> Option<Event> {
        let name = Name(self.name);
        let holders = Holders::from_halves(self.holders_low, self.holders_high);
        let holders = (holders != Holders::of(actor)).then_some(holders);
        let written = (self.named != 0).then_some(Name(self.written));
        let span = Span {
            start: Addr(self.start),
            length: self.length,
        };
        Some(match self.kind {
            CREATE => Event::Create {
                written,
                span,
                right: Right::from_number(self.right)?,
                fresh: match self.fresh {
                    0 => false,
                    1 => true,
                    _ => return None,
                },
                holders,
            },
            BORROW => Event::Borrow {
                written,
                parent: name,
                span,
                right: Right::from_number(self.right)?,
                kind: Kind::from_number(self.cap_kind)?,
                holders,
            },
            READ => Event::Read { name, span },
            WRITE => Event::Write { name, span },
            DROP => Event::Drop { name },
            MARK => Event::Mark {
                slot: Slot::new(self.name)?,
            },
            BACK => Event::Back {
                slot: Slot::new(self.name)?,
            },
            _ => return None,
        })
    }
}

/// By domain 0.
impl From<Event> for Request {
    fn from(event: Event) -> Request {
        event.by(Domain::ZERO)
    }
}

impl Event {
    /// The event as a domain asks for it.
    ///
    /// ```
    /// use kelzoud::{write_event, Addr, Domain, Event, Name, Span};
    ///
    /// let three = Domain::new(3).unwrap();
    /// let span = Span { start: Addr(0), length: 8 };
    /// let mut out = [0; 32];
    /// let length = write_event(Event::Read { name: Name(2), span }.by(three), &mut out)?;
    /// assert_eq!(&out[..length], b"(as 3 (read 2 0 8))\n");
    /// # Ok::<(), kelzoud::Refusal>(())
    /// ```
    pub fn by(self, actor: Domain) -> Request {
        let none = Span {
            start: Addr(0),
            length: 0,
        };
        let (kind, name, span, right) = match self {
            Event::Create { span, right, .. } => (CREATE, Name(0), span, right as u32),
            Event::Borrow {
                parent,
                span,
                right,
                ..
            } => (BORROW, parent, span, right as u32),
            Event::Read { name, span } => (READ, name, span, 0),
            Event::Write { name, span } => (WRITE, name, span, 0),
            Event::Drop { name } => (DROP, name, none, 0),
            // The slot stands in the place of the name.
            Event::Mark { slot } => (MARK, Name(slot.number()), none, 0),
            Event::Back { slot } => (BACK, Name(slot.number()), none, 0),
        };
        let holders = match self.makes() {
            true => self.holders().unwrap_or(Holders::of(actor)),
            false => Holders::NONE,
        };
        let (holders_low, holders_high) = holders.halves();
        Request {
            kind,
            name: name.0,
            start: span.start.0,
            length: span.length,
            right,
            named: self.written().is_some().into(),
            written: self.written().map_or(0, |written| written.0),
            cap_kind: self.kind().unwrap_or_default() as u32,
            fresh: self.is_fresh().into(),
            actor: actor.number(),
            holders_low,
            holders_high,
        }
    }
}

/// Whether the lines of a text write out the names of what creates and borrows make.
#[derive(Clone, Copy, Debug, PartialEq, Eq, Hash)]
pub enum Spelling {
    /// No name is written out: `(create 0 64 rw)`.
    Plain,
    /// Each is, in a text that starts with [`NAMED_HEADER`](crate::NAMED_HEADER):
    /// `(create 1 0 64 rw)`.
    Named,
}

/// What a line asks for.
#[derive(Clone, Copy, Debug, PartialEq, Eq)]
#[allow(clippy::large_enum_variant)] // Nothing can be allocated for the names.
pub enum Line {
    /// An event, of which a line of one name is [`Event::Drop`]. Where the domain that acts alone holds
    /// what is made the event has no holders, as the line has none.
    Event {
        /// The domain that acts.
        actor: Domain,
        /// What it asks for.
        event: Event,
    },
    /// Two names or more that are dropped together.
    DropAll {
        /// The domain that acts.
        actor: Domain,
        /// The names.
        names: Group,
    },
}

/// The names of a line that drops them together: a slice of them, strictly rising.
#[derive(Clone, Copy)]
pub struct Group {
    names: [Name; MAX_GROUP],
    count: usize,
}

impl Deref for Group {
    type Target = [Name];

    fn deref(&self) -> &[Name] {
        &self.names[..self.count]
    }
}

impl fmt::Debug for Group {
    fn fmt(&self, formatter: &mut fmt::Formatter<'_>) -> fmt::Result {
        formatter.debug_list().entries(self.iter()).finish()
    }
}

impl PartialEq for Group {
    fn eq(&self, other: &Group) -> bool {
        **self == **other
    }
}

impl Eq for Group {}
