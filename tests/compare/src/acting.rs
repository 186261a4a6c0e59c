//! Random domains, holders and limits.

use interface::Event;
use oracle::random::Random;
use oracle::{DOMAINS, Row};

use crate::agree::Lent;

/// Numbers that are no domain, of which some end in the bits of one.
pub const NO_DOMAINS: [u32; 10] = [
    64,
    65,
    127,
    128,
    255,
    256,
    65_536,
    65_599,
    1 << 31,
    u32::MAX,
];

/// Domains on both sides of the middle of a mask and at its ends.
const SOME_DOMAINS: [u32; 10] = [0, 0, 1, 2, 3, 31, 32, 33, 62, 63];

/// The domains that made the rows of a table: domain 0 alone in half of the cases, else a few.
pub fn cast(random: &mut Random) -> Vec<u32> {
    match random.one_in(2) {
        true => vec![0],
        false => {
            let count = random.between(1, 4);
            (0..count).map(|_| some_domain(random)).collect()
        }
    }
}

fn some_domain(random: &mut Random) -> u32 {
    match random.one_in(4) {
        true => random.below(u64::from(DOMAINS)) as u32,
        false => random.pick(&SOME_DOMAINS),
    }
}

/// The mask of one domain; of none where the number is none.
pub fn mask_of(domain: u32) -> u64 {
    1_u64.checked_shl(domain).unwrap_or(0)
}

/// A mask with the maker: alone, with all who act, or with any others.
pub fn holders(random: &mut Random, cast: &[u32], maker: u32) -> u64 {
    let alone = mask_of(maker);
    match random.below(8) {
        0..=2 => alone,
        3..=5 => cast.iter().fold(alone, |mask, one| mask | mask_of(*one)),
        6 => alone | random.bits(),
        _ => u64::MAX,
    }
}

/// One of the domains of a mask, and domain 0 where it has none.
fn holder(random: &mut Random, mask: u64) -> u32 {
    let all: Vec<u32> = (0..DOMAINS)
        .filter(|one| mask & mask_of(*one) != 0)
        .collect();
    match all.is_empty() {
        true => 0,
        false => random.pick(&all),
    }
}

/// A number that is seldom a domain that may do it, or else nothing.
fn stray(random: &mut Random) -> Option<u32> {
    match random.below(120) {
        0 => Some(random.pick(&NO_DOMAINS)),
        1 => Some(random.number()),
        2..=8 => Some(random.below(u64::from(DOMAINS)) as u32),
        _ => None,
    }
}

/// Who acts: in most cases a holder of what it goes through, or without that a maker of something.
pub fn actor(random: &mut Random, live: &[Row], user: Option<&Row>) -> u32 {
    if let Some(stray) = stray(random) {
        return stray;
    }
    match user {
        Some(user) => holder(random, user.holders),
        None => live
            .get(random.index(live.len().max(1)))
            .map_or(0, |row| row.maker),
    }
}

/// Any number, in most cases that of a domain.
pub fn any_actor(random: &mut Random) -> u32 {
    match random.below(6) {
        0 | 1 => 0,
        2 => stray(random).unwrap_or(63),
        _ => random.below(u64::from(DOMAINS)) as u32,
    }
}

/// Who drops these names: in most cases a domain that holds all of them.
pub fn dropper(random: &mut Random, live: &[Row], names: &[u32]) -> u32 {
    if let Some(stray) = stray(random) {
        return stray;
    }
    let named = |row: &&Row| names.contains(&row.name);
    let masks: Vec<u64> = live.iter().filter(named).map(|row| row.holders).collect();
    let of_all = masks.iter().fold(u64::MAX, |all, mask| all & mask);
    match (masks.first(), of_all) {
        (None, _) => 0,
        (Some(mask), 0) => holder(random, *mask),
        _ => holder(random, of_all),
    }
}

/// Keeps those of the names that are held by one domain, which holds the first.
pub fn keep_held(random: &mut Random, live: &[Row], names: &mut Vec<u32>) {
    let mask_of_name = |name: u32| {
        let row = live.iter().find(|row| row.name == name);
        row.map_or(0, |row| row.holders)
    };
    let first = names.first().map_or(0, |name| mask_of_name(*name));
    let domain = holder(random, first);
    names.retain(|name| mask_of_name(*name) & mask_of(domain) != 0);
}

/// The mask that an event of this sort has, and anything where it makes nothing.
pub fn holders_asked(random: &mut Random, live: &[Row], actor: u32, kind: u8) -> u64 {
    if !matches!(kind, 1 | 2) {
        return random.pick(&[0, 1, u64::MAX]) & random.bits();
    }
    if random.one_in(25) {
        let some = random.bits();
        return random.pick(&[0, some, u64::MAX]) & !mask_of(actor);
    }
    let cast: Vec<u32> = live.iter().map(|row| row.maker).collect();
    holders(random, &cast, actor)
}

/// How many live rows a domain made.
fn made(rows: &[Row], domain: u32) -> u32 {
    let its = |row: &&Row| row.maker == domain;
    oracle::live_rows(rows).iter().filter(its).count() as u32
}

/// Limits that a table in order does not exceed, for a fourth of the tables, else none. Half of them are
/// reached.
pub fn some_limits(random: &mut Random, rows: &[Row], cast: &[u32]) -> Vec<u32> {
    match random.one_in(4) {
        true => fitting_limits(random, rows, cast),
        false => Vec::new(),
    }
}

/// The same for every table.
pub fn fitting_limits(random: &mut Random, rows: &[Row], cast: &[u32]) -> Vec<u32> {
    let mut limits: Vec<u32> = (0..DOMAINS).map(|domain| made(rows, domain)).collect();
    let mut spare = rows.len() - oracle::live_rows(rows).len();
    for domain in cast {
        let more = match random.one_in(2) {
            true => 0,
            false => random.index(spare + 1),
        };
        limits[*domain as usize] += more as u32;
        spare -= more;
    }
    limits
}

/// Numbers of limits that are not lent rightly.
pub const OTHER_COUNTS: [usize; 7] = [1, 2, 63, 65, 128, 1_024, 5_000];

/// Limits that are refused, of a table with so many rows, or at times are not.
pub fn other_limits(random: &mut Random, rows: usize) -> Vec<u32> {
    let mut limits = vec![0; DOMAINS as usize];
    let mut set = |random: &mut Random, limit: u32| {
        let domain = some_domain(random) as usize;
        limits[domain] = limit;
    };
    match random.below(6) {
        0 | 1 => {
            let count = random.pick(&OTHER_COUNTS);
            return vec![random.pick(&[0, 0, 1, u32::MAX]); count];
        }
        // In 32 bits these sums are small.
        2 => {
            set(random, u32::MAX);
            set(random, 1);
        }
        3 => {
            set(random, 1 << 31);
            set(random, 1 << 31);
        }
        4 => {
            let above = random.below(2) as u32;
            set(random, rows as u32 + above);
        }
        _ => {}
    }
    limits
}

/// Lends other limits.
pub fn disturb_limits(random: &mut Random, lent: &mut Lent) {
    let one = random.index(DOMAINS as usize);
    match random.below(3) {
        0 if one < lent.limits.len() => {
            lent.limits[one] = lent.limits[one].wrapping_sub(1);
        }
        1 => {
            let cast: Vec<u32> = (0..DOMAINS).collect();
            lent.limits = fitting_limits(random, &lent.rows, &cast);
        }
        _ => lent.limits = other_limits(random, lent.rows.len()),
    }
}

/// Changes a mask: one bit, its halves, or all of it.
pub fn disturb_holders(random: &mut Random, row: &mut Row) {
    row.holders = match random.below(5) {
        0 => row.holders ^ mask_of(row.maker),
        1 => row.holders ^ mask_of(random.below(64) as u32),
        2 => row.holders.rotate_left(32),
        3 => random.pick(&[0, 1, u64::MAX]),
        _ => random.bits(),
    };
}

/// The line of a form as a domain says it, or as a number that is no domain would.
pub fn form_of(actor: u32, form: String) -> String {
    match actor {
        0 => format!("{form}\n"),
        _ => format!("(as {actor} {form})\n"),
    }
}

/// The maker and the mask of a row, as they stand in a listing, whether they are right or not.
pub fn listed(row: &Row) -> String {
    format!(" {} {:016x}", row.maker, row.holders)
}

/// Whether who acts is a domain, and holds what the event makes where it makes something.
pub fn is_known(event: Event) -> bool {
    let makes = matches!(event.kind, 1 | 2);
    event.actor < DOMAINS && (!makes || event.holders & mask_of(event.actor) != 0)
}

/// Gives every live row a maker of these, and holders of any sort.
pub fn recast(random: &mut Random, rows: &mut [Row], cast: &[u32]) {
    for row in rows.iter_mut().filter(|row| row.name != 0) {
        row.maker = random.pick(cast);
        row.holders = holders(random, cast, row.maker);
    }
}
