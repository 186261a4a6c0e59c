//! What the holders of a capability are charged.

use crate::event::Refusal;
use crate::order::{Cap, Index, MAX_ROWS, SLOTS, find};

/// The length of a live capability in equal shares for its holders: a share, and what is left over.
pub fn charge(table: &[Cap], issued: u32, name: u32) -> Result<(u32, u32), Refusal> {
    match table.len() {
        0..=16 => charge_rows::<16, 32>(table, issued, name),
        17..=64 => charge_rows::<64, 128>(table, issued, name),
        65..=256 => charge_rows::<256, 512>(table, issued, name),
        257..=MAX_ROWS => charge_rows::<MAX_ROWS, SLOTS>(table, issued, name),
        _ => Err(Refusal::Disordered),
    }
}

fn charge_rows<const ROWS: usize, const SLOTS: usize>(
    table: &[Cap],
    issued: u32,
    name: u32,
) -> Result<(u32, u32), Refusal> {
    let index = Index::<ROWS>::of::<SLOTS>(table, issued).ok_or(Refusal::Disordered)?;
    if name == 0 || name > issued {
        return Err(Refusal::Unissued);
    }
    let at = find(&table[..index.live], name).ok_or(Refusal::Ended)?;
    // A row in order has its maker among its holders, so there is one at least.
    let holders = table[at].holders().count_ones().max(1);
    Ok((table[at].length / holders, table[at].length % holders))
}

#[cfg(test)]
mod tests {
    use super::*;

    fn row(name: u32, length: u32, holders: u64) -> Cap {
        Cap {
            name,
            length,
            right: 2,
            depth: 1,
            maker: holders.trailing_zeros(),
            ..Cap::default().held_by(holders)
        }
    }

    #[test]
    fn lengths_are_shared() {
        let table = [
            row(1, 65, 1),
            row(2, 65, 0b110),
            row(4, u32::MAX, u64::MAX),
            Cap::default(),
        ];
        assert_eq!(charge(&table, 5, 1), Ok((65, 0)));
        assert_eq!(charge(&table, 5, 2), Ok((32, 1)));
        assert_eq!(charge(&table, 5, 4), Ok((u32::MAX / 64, 63)));
        for name in [3, 5] {
            assert_eq!(charge(&table, 5, name), Err(Refusal::Ended));
        }
        for name in [0, 6, u32::MAX] {
            assert_eq!(charge(&table, 5, name), Err(Refusal::Unissued));
        }
        assert_eq!(charge(&table, 3, 0), Err(Refusal::Disordered));
        let many = vec![Cap::default(); MAX_ROWS + 1];
        assert_eq!(charge(&many, 5, 1), Err(Refusal::Disordered));
    }
}
