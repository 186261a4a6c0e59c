//! Who acts, who may use what is made, how much each may make, and what each is charged.

use core::fmt;
use core::iter::FusedIterator;
use core::ops::{BitOr, Index, IndexMut};

use crate::DOMAINS;

/// A domain: one of those that act on a table, 0 to 63, and nothing else.
///
/// ```
/// use kelzoud::Domain;
///
/// assert_eq!(Domain::new(0), Some(Domain::ZERO));
/// assert_eq!(Domain::new(63).map(Domain::number), Some(63));
/// assert_eq!(Domain::new(64), None);
/// ```
#[derive(Clone, Copy, Debug, Default, PartialEq, Eq, PartialOrd, Ord, Hash)]
pub struct Domain(u8);

impl Domain {
    /// Domain 0, which acts where nothing else is said.
    pub const ZERO: Domain = Domain(0);

    /// The domain with this number, if there is one.
    pub const fn new(number: u32) -> Option<Domain> {
        match number < DOMAINS as u32 {
            true => Some(Domain(number as u8)),
            false => None,
        }
    }

    /// Its number, 0 to 63.
    pub const fn number(self) -> u32 {
        self.0 as u32
    }

    /// All 64, from 0 on.
    pub fn all() -> impl Iterator<Item = Domain> {
        (0..DOMAINS as u8).map(Domain)
    }
}

/// Its number.
impl fmt::Display for Domain {
    fn fmt(&self, formatter: &mut fmt::Formatter<'_>) -> fmt::Result {
        self.0.fmt(formatter)
    }
}

/// The domains that may use a capability: any set of them. A create or borrow gives the set, which has to
/// have the domain that acts in it, and it never changes. Each domain has the bit worth 2^D.
///
/// ```
/// use kelzoud::{Domain, Holders};
///
/// let [two, five] = [2, 5].map(|number| Domain::new(number).unwrap());
/// let holders = Holders::of(two).with(five);
/// assert!(holders.contains(five) && !holders.contains(Domain::ZERO));
/// assert_eq!((holders.len(), holders.bits()), (2, 0b100100));
/// assert!(holders.iter().eq([two, five]));
/// assert_eq!(holders.without(two), Holders::of(five));
/// assert_eq!([five, two].into_iter().collect::<Holders>(), holders);
/// assert_eq!(holders.to_string(), "0000000000000024");
/// ```
#[derive(Clone, Copy, Debug, Default, PartialEq, Eq, Hash)]
pub struct Holders(u64);

impl Holders {
    /// No domain at all. No capability has these holders.
    pub const NONE: Holders = Holders(0);

    /// All 64 domains.
    pub const ALL: Holders = Holders(u64::MAX);

    /// One domain alone.
    pub const fn of(domain: Domain) -> Holders {
        Holders(1 << domain.0)
    }

    /// The domains whose bits these are.
    pub const fn from_bits(bits: u64) -> Holders {
        Holders(bits)
    }

    /// The bits of the domains.
    pub const fn bits(self) -> u64 {
        self.0
    }

    /// These and this domain.
    #[must_use]
    pub const fn with(self, domain: Domain) -> Holders {
        Holders(self.0 | Holders::of(domain).0)
    }

    /// These but for this domain.
    #[must_use]
    pub const fn without(self, domain: Domain) -> Holders {
        Holders(self.0 & !Holders::of(domain).0)
    }

    /// Whether this domain is among them.
    pub const fn contains(self, domain: Domain) -> bool {
        self.0 & Holders::of(domain).0 != 0
    }

    /// How many there are.
    pub const fn len(self) -> usize {
        self.0.count_ones() as usize
    }

    /// Whether there is none.
    pub const fn is_empty(self) -> bool {
        self.0 == 0
    }

    /// Each domain, from the lowest on.
    pub const fn iter(self) -> HoldersIter {
        HoldersIter(self)
    }

    /// The set of two halves, the lower and the higher, as a row and an event have it.
    pub(crate) const fn from_halves(low: u32, high: u32) -> Holders {
        Holders((high as u64) << 32 | low as u64)
    }

    /// Its two halves, the lower and the higher.
    pub(crate) const fn halves(self) -> (u32, u32) {
        (self.0 as u32, (self.0 >> 32) as u32)
    }
}

impl From<Domain> for Holders {
    fn from(domain: Domain) -> Holders {
        Holders::of(domain)
    }
}

impl From<u64> for Holders {
    fn from(bits: u64) -> Holders {
        Holders(bits)
    }
}

impl From<Holders> for u64 {
    fn from(holders: Holders) -> u64 {
        holders.0
    }
}

/// All of both.
impl BitOr for Holders {
    type Output = Holders;

    fn bitor(self, other: Holders) -> Holders {
        Holders(self.0 | other.0)
    }
}

impl FromIterator<Domain> for Holders {
    fn from_iter<I: IntoIterator<Item = Domain>>(domains: I) -> Holders {
        domains.into_iter().fold(Holders::NONE, Holders::with)
    }
}

impl Extend<Domain> for Holders {
    fn extend<I: IntoIterator<Item = Domain>>(&mut self, domains: I) {
        *self = domains.into_iter().fold(*self, Holders::with);
    }
}

impl IntoIterator for Holders {
    type Item = Domain;
    type IntoIter = HoldersIter;

    fn into_iter(self) -> HoldersIter {
        self.iter()
    }
}

/// The 16 digits of a line or listing.
impl fmt::Display for Holders {
    fn fmt(&self, formatter: &mut fmt::Formatter<'_>) -> fmt::Result {
        write!(formatter, "{:016x}", self.0)
    }
}

/// The domains of a set, from the lowest on.
#[derive(Clone, Debug)]
pub struct HoldersIter(Holders);

impl Iterator for HoldersIter {
    type Item = Domain;

    fn next(&mut self) -> Option<Domain> {
        let lowest = Domain::new(self.0 .0.trailing_zeros())?;
        self.0 = self.0.without(lowest);
        Some(lowest)
    }

    fn size_hint(&self) -> (usize, Option<usize>) {
        (self.0.len(), Some(self.0.len()))
    }
}

impl ExactSizeIterator for HoldersIter {}

impl FusedIterator for HoldersIter {}

/// A sheet of limits: for each domain, how many capabilities that it made may live at once.
///
/// Where a sheet is [lent](crate::Lent::limits), a domain that has reached its limit is refused
/// [`LimitReached`](crate::Refusal::LimitReached), and no table is ever full: each domain has the rows of
/// its limit, whatever the others do. So the sum must not be above the rows that are lent, and a table in
/// which some domain has made more already is not taken: both are
/// [`Disordered`](crate::Refusal::Disordered).
///
/// ```
/// use kelzoud::{Domain, Limits};
///
/// let mut limits = Limits::NOTHING;
/// limits[Domain::ZERO] = 8;
/// assert_eq!(limits.sum(), 8);
/// assert_eq!(Limits::each(16).sum(), 1_024);
/// ```
#[repr(transparent)]
#[derive(Clone, Copy, Debug, PartialEq, Eq, Hash)]
pub struct Limits(pub [u32; DOMAINS]);

impl Limits {
    /// No domain may make anything.
    pub const NOTHING: Limits = Limits::each(0);

    /// The same for each domain.
    pub const fn each(limit: u32) -> Limits {
        Limits([limit; DOMAINS])
    }

    /// How many rows they need.
    pub fn sum(&self) -> u64 {
        self.0.iter().copied().map(u64::from).sum()
    }
}

impl Index<Domain> for Limits {
    type Output = u32;

    fn index(&self, domain: Domain) -> &u32 {
        &self.0[domain.0 as usize]
    }
}

impl IndexMut<Domain> for Limits {
    fn index_mut(&mut self, domain: Domain) -> &mut u32 {
        &mut self.0[domain.0 as usize]
    }
}

/// What the holders of a capability are charged for it: its length in equal shares.
#[derive(Clone, Copy, Debug, PartialEq, Eq, Hash)]
pub struct Charge {
    /// What each holder is charged.
    pub share: u32,
    /// What is left over, less than there are holders.
    pub rest: u32,
}
