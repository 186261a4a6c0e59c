//! Card 5: capabilities that are dropped together, by card 10 each by a holder.

use crate::domains::{Limits, is_domain};
use crate::table::{By, Lent, has_ended, holds, is_issued, live_rows, subtrees, without};
use crate::values::{MAX_GROUP, Refused, Row};

/// Whether there are 1 to 64 names, strictly rising.
pub fn is_group(names: &[u32]) -> bool {
    !names.is_empty() && names.len() <= MAX_GROUP && names.windows(2).all(|pair| pair[0] < pair[1])
}

/// The number that a group is refused with: 13 stands after 1 and before 2, and then the first name that
/// cannot be dropped from this table decides.
fn group_refusal(rows: &[Row], issued: u32, actor: u32, names: &[u32]) -> Option<Refused> {
    if !is_group(names) {
        return Some(13);
    }
    if !is_domain(actor) {
        return Some(2);
    }
    let mut refusals = names.iter().map(|name| {
        let row = rows.iter().find(|row| row.name == *name);
        let conditions = [
            (4, !is_issued(*name, issued)),
            (5, has_ended(rows, *name, issued)),
            (17, row.is_some_and(|row| !holds(row, actor))),
        ];
        let first = conditions.into_iter().find(|(_, holds)| *holds);
        first.map(|(number, _)| number)
    });
    refusals.find_map(|refusal| refusal)
}

/// Names dropped together on what is lent: 0, or the refusal. It is counted once. No address is looked at and
/// no slot, but without the lent bytes or the memory it is refusal 1, as every event is.
pub fn drop_all(by: By, lent: Lent, actor: u32, names: &[u32]) -> Result<u32, Refused> {
    if lent.is_unfit(&Limits::lent(by.limits)) {
        return Err(1);
    }
    let Lent { rows, tally, .. } = lent;
    if let Some(number) = group_refusal(rows, tally.issued, actor, names) {
        tally.refused = tally.refused.saturating_add(1);
        return Err(number);
    }
    let live = live_rows(rows);
    let left = without(live, &subtrees(live, |row| names.contains(&row.name)));
    rows.fill(Row::default());
    rows[..left.len()].copy_from_slice(&left);
    tally.drops = tally.drops.saturating_add(1);
    Ok(0)
}
