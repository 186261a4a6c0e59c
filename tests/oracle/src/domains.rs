//! Card 10: domains, masks of holders, sheets of limits, and charges.
//!
//! Holders are a set of domains, and limits a map from domains to numbers of rows. A mask is told of only
//! where it is read or written, and is then taken apart digit by digit.

use std::collections::{BTreeMap, BTreeSet};

use crate::table::{has_ended, in_order, is_issued, live_rows};
use crate::values::{Refused, Row};

/// 'Up to 64 domains', from 0 on.
pub const DOMAINS: u32 = 64;

/// How many digits a mask is written with, each for four domains.
const DIGITS: u32 = 16;

pub fn is_domain(number: u32) -> bool {
    number < DOMAINS
}

/// A set of domains.
pub type Holders = BTreeSet<u32>;

/// The domains of a mask, 'domain D being worth 2^D'.
pub fn holders_of(mask: u64) -> Holders {
    let mut holders = Holders::new();
    let mut rest = mask;
    let mut domain = 0;
    while rest > 0 {
        if rest % 2 == 1 {
            holders.insert(domain);
        }
        rest /= 2;
        domain += 1;
    }
    holders
}

/// The mask of domains.
pub fn mask_of(holders: &Holders) -> u64 {
    holders.iter().map(|domain| 2_u64.pow(*domain)).sum()
}

/// Each digit of a mask, and which of the four domains of its place it has.
const MASK_DIGITS: [(char, &[u32]); 16] = [
    ('0', &[]),
    ('1', &[0]),
    ('2', &[1]),
    ('3', &[0, 1]),
    ('4', &[2]),
    ('5', &[0, 2]),
    ('6', &[1, 2]),
    ('7', &[0, 1, 2]),
    ('8', &[3]),
    ('9', &[0, 3]),
    ('a', &[1, 3]),
    ('b', &[0, 1, 3]),
    ('c', &[2, 3]),
    ('d', &[0, 2, 3]),
    ('e', &[1, 2, 3]),
    ('f', &[0, 1, 2, 3]),
];

/// The 16 digits of a mask, 'highest first'.
pub fn mask_word(holders: &Holders) -> String {
    let digit = |place: u32| {
        let first = 4 * place;
        let here: Vec<u32> = holders
            .range(first..first + 4)
            .map(|at| at - first)
            .collect();
        let found = MASK_DIGITS.iter().find(|(_, domains)| **domains == here);
        found.map_or('?', |(digit, _)| *digit)
    };
    (0..DIGITS).rev().map(digit).collect()
}

/// The domains of a word of 16 digits, if it is one.
pub fn read_mask(word: &[u8]) -> Option<Holders> {
    if word.len() != DIGITS as usize {
        return None;
    }
    let mut holders = Holders::new();
    for (place, byte) in (0..DIGITS).rev().zip(word) {
        let mut digits = MASK_DIGITS.iter();
        let (_, domains) = digits.find(|(digit, _)| *digit == char::from(*byte))?;
        holders.extend(domains.iter().map(|domain| 4 * place + domain));
    }
    Some(holders)
}

/// What is lent for limits.
#[derive(Clone, Debug, PartialEq, Eq)]
pub enum Limits {
    /// No number.
    None,
    /// 'One for each domain, on the live rows it made.'
    Each(BTreeMap<u32, u64>),
    /// 'A sheet of another length.'
    Other,
}

impl Limits {
    pub fn lent(numbers: &[u32]) -> Limits {
        match numbers.len() {
            0 => Limits::None,
            64 => {
                let limits = numbers.iter().map(|limit| u64::from(*limit));
                Limits::Each((0..DOMAINS).zip(limits).collect())
            }
            _ => Limits::Other,
        }
    }

    /// 'A sheet of another length, or whose sum is above the rows, or which a lent table already exceeds.'
    pub fn is_refused(&self, rows: &[Row]) -> bool {
        match self {
            Limits::None => false,
            Limits::Other => true,
            Limits::Each(limits) => {
                let sum: u64 = limits.values().sum();
                let made = made(rows);
                let mut makers = made.iter();
                sum > rows.len() as u64
                    || makers
                        .any(|(maker, count)| limits.get(maker).is_none_or(|most| count > most))
            }
        }
    }

    /// Whether a domain may make no more.
    pub fn is_reached(&self, rows: &[Row], domain: u32) -> bool {
        let Limits::Each(limits) = self else {
            return false;
        };
        let count = made(rows).get(&domain).copied().unwrap_or(0);
        limits.get(&domain).is_some_and(|most| count >= *most)
    }
}

/// How many live rows each domain made that made any.
fn made(rows: &[Row]) -> BTreeMap<u32, u64> {
    let mut made = BTreeMap::new();
    for row in live_rows(rows) {
        *made.entry(row.maker).or_default() += 1;
    }
    made
}

/// What each holder is charged of a capability's length, and what is left over.
#[derive(Clone, Copy, Debug, PartialEq, Eq)]
pub struct Charge {
    pub share: u32,
    pub left: u32,
}

/// 'A capability's length is charged in equal shares to its holders .. for a live name (else 1, 4 or 5).'
pub fn charge(rows: &[Row], issued: u32, name: u32) -> Result<Charge, Refused> {
    if !in_order(rows, issued) {
        return Err(1);
    }
    if !is_issued(name, issued) {
        return Err(4);
    }
    if has_ended(rows, name, issued) {
        return Err(5);
    }
    let row = rows.iter().find(|row| row.name == name).ok_or(5)?;
    Ok(shared_out(row.length, &holders_of(row.holders)))
}

/// The length shared out as it is done by hand, from its first decimal digit on: what is left over of one
/// place is worth ten at the next.
fn shared_out(length: u32, holders: &Holders) -> Charge {
    let among = holders.len() as u32;
    let mut charge = Charge { share: 0, left: 0 };
    for digit in length.to_string().bytes() {
        let mut here = 10 * charge.left + u32::from(digit - b'0');
        charge.share *= 10;
        while here >= among {
            here -= among;
            charge.share += 1;
        }
        charge.left = here;
    }
    charge
}

#[cfg(test)]
mod tests {
    use super::*;

    /// What is given out one by one, in turn.
    fn dealt(length: u32, among: u32) -> Charge {
        let mut charge = Charge { share: 0, left: 0 };
        for _ in 0..length {
            charge.left += 1;
            if charge.left == among {
                charge = Charge {
                    share: charge.share + 1,
                    left: 0,
                };
            }
        }
        charge
    }

    #[test]
    fn shares_are_as_dealt_one_by_one() {
        for among in 1..=DOMAINS {
            let holders: Holders = (0..among).collect();
            for length in (0..=300).chain([999, 1_000, 1_001, 65_536, 100_000]) {
                assert_eq!(shared_out(length, &holders), dealt(length, among));
            }
            let Charge { share, left } = shared_out(u32::MAX, &holders);
            assert_eq!(
                u64::from(share) * u64::from(among) + u64::from(left),
                u32::MAX.into()
            );
            assert!(left < among);
        }
    }

    #[test]
    fn each_domain_has_its_bit_and_its_digit() {
        for domain in 0..DOMAINS {
            let alone = Holders::from([domain]);
            assert_eq!(mask_of(&alone), 1 << domain);
            assert_eq!(holders_of(1 << domain), alone);
            assert_eq!(mask_word(&alone), format!("{:016x}", 1_u64 << domain));
        }
        for mask in [
            0,
            1,
            3,
            0x8000_0000_0000_0001,
            0x0123_4567_89ab_cdef,
            u64::MAX,
        ] {
            let holders = holders_of(mask);
            assert_eq!(mask_of(&holders), mask);
            assert_eq!(mask_word(&holders), format!("{mask:016x}"));
            assert_eq!(read_mask(mask_word(&holders).as_bytes()), Some(holders));
        }
    }

    #[test]
    fn no_other_word_is_a_mask() {
        for word in [
            "",
            "1",
            "000000000000001",
            "00000000000000001",
            "000000000000000A",
            "000000000000000g",
            "0x00000000000001",
            "+000000000000001",
            " 000000000000001",
            "00000000\u{e9}000001",
        ] {
            assert_eq!(read_mask(word.as_bytes()), None, "{word}");
        }
    }

    #[test]
    fn sums_are_not_cut() {
        let rows = [Row::default(); 4];
        let of = |limits: &[(usize, u32)]| {
            let mut numbers = [0; 64];
            for (domain, limit) in limits {
                numbers[*domain] = *limit;
            }
            Limits::lent(&numbers).is_refused(&rows)
        };
        assert!(!of(&[]) && !of(&[(0, 4)]) && !of(&[(0, 1), (63, 3)]));
        assert!(of(&[(0, 5)]) && of(&[(0, 4), (63, 1)]));
        // These sums are 0 and 4 in 32 bits.
        assert!(of(&[(0, u32::MAX), (1, 1)]) && of(&[(5, 1 << 31), (6, 1 << 31), (7, 4)]));
        assert!(Limits::lent(&[u32::MAX; 64]).is_refused(&rows));
        assert!(!Limits::lent(&[]).is_refused(&rows));
        for length in [1, 63, 65, 128] {
            assert!(Limits::lent(&vec![0; length]).is_refused(&rows));
        }
    }
}
