//! Domains: who acts, who holds what is made, and how much each may make.

use crate::order::Cap;

/// How many domains there are, from 0 on.
pub const DOMAINS: usize = 64;

#[inline]
pub(crate) fn is_domain(number: u32) -> bool {
    number < DOMAINS as u32
}

/// Whether a mask of holders has the bit of a domain. What is no domain is taken modulo 64: whoever asks looks
/// whether it is one besides, without a branch.
#[inline]
pub(crate) fn holds(holders: u64, domain: u32) -> bool {
    holders >> (domain % DOMAINS as u32) & 1 == 1
}

/// The mask of one domain alone.
#[inline]
pub(crate) fn alone(domain: u32) -> u64 {
    1 << (domain % DOMAINS as u32)
}

/// How many more capabilities each domain may make, where limits are lent.
#[derive(Clone)]
pub(crate) struct Room([u32; DOMAINS]);

impl Room {
    /// The room that limits leave to the makers of the live rows of so many; nothing where they are no sheet of
    /// limits, need more rows, or leave less than was made already.
    pub(crate) fn of(limits: &[u32], live: &[Cap], rows: usize) -> Option<Room> {
        let mut room = Room(limits.try_into().ok()?);
        let sum: u64 = room.0.iter().copied().map(u64::from).sum();
        if sum > rows as u64 {
            return None;
        }
        for row in live {
            let left = room.of_maker(row.maker);
            *left = left.checked_sub(1)?;
        }
        Some(room)
    }

    #[inline]
    fn of_maker(&mut self, domain: u32) -> &mut u32 {
        &mut self.0[domain as usize % DOMAINS]
    }

    #[inline]
    pub(crate) fn is_left(&self, domain: u32) -> bool {
        self.0[domain as usize % DOMAINS] > 0
    }

    /// A domain, to which room is left, has made one.
    #[inline]
    pub(crate) fn take(&mut self, domain: u32) {
        *self.of_maker(domain) -= 1;
    }

    /// One that a domain made has ended, if it has.
    #[inline]
    pub(crate) fn give_back(&mut self, domain: u32, ended: bool) {
        *self.of_maker(domain) += u32::from(ended);
    }
}

#[cfg(test)]
mod tests {
    use super::*;

    fn made_by(makers: &[u32]) -> Vec<Cap> {
        let row = |maker: &u32| Cap {
            maker: *maker,
            ..Cap::default()
        };
        makers.iter().map(row).collect()
    }

    #[test]
    fn no_other_number_of_limits() {
        for length in [1, DOMAINS - 1, DOMAINS + 1] {
            assert!(Room::of(&vec![0; length], &[], 8).is_none());
        }
        assert!(Room::of(&[0; DOMAINS], &[], 0).is_some());
    }

    #[test]
    fn a_sum_is_taken_in_more_bits_than_a_limit_has() {
        let mut limits = [0; DOMAINS];
        limits[3] = 5;
        assert!(Room::of(&limits, &[], 5).is_some());
        assert!(Room::of(&limits, &[], 4).is_none());
        limits[4] = u32::MAX - 4;
        assert!(Room::of(&limits, &[], 5).is_none());
        assert!(Room::of(&[u32::MAX; DOMAINS], &[], 1_024).is_none());
    }

    #[test]
    fn what_lives_takes_room() {
        let mut limits = [1; DOMAINS];
        limits[63] = 2;
        let mut room = Room::of(&limits, &made_by(&[63, 0]), DOMAINS + 1).unwrap();
        assert!(!room.is_left(0) && room.is_left(1) && room.is_left(63));
        room.take(63);
        assert!(!room.is_left(63));
        room.give_back(63, false);
        assert!(!room.is_left(63));
        room.give_back(63, true);
        assert!(room.is_left(63));
        assert!(Room::of(&limits, &made_by(&[1, 1]), DOMAINS + 1).is_none());
    }

    #[test]
    fn each_domain_has_its_bit() {
        for domain in 0..DOMAINS as u32 {
            assert!(is_domain(domain) && holds(alone(domain), domain));
            let others = (0..DOMAINS as u32).filter(|other| *other != domain);
            assert!(others.into_iter().all(|other| !holds(alone(domain), other)));
        }
        assert!(!is_domain(64) && !is_domain(u32::MAX));
    }
}
