//! Names that are dropped together, on a lent table and as a line.

use crate::domain::is_domain;
use crate::event::Refusal;
use crate::lines::{next_actor, next_end, put_actor, put_end};
use crate::step::{Lent, Ordered, Work, in_order};
use crate::text::{Reader, Writer};

/// The most names of a group.
pub const MAX_GROUP: usize = 64;

/// The longest line, of 64 names of ten digits that a domain of two digits drops.
const LINE_CAPACITY: usize = 719;

fn is_group(names: &[u32]) -> bool {
    matches!(names.len(), 1..=MAX_GROUP) && names.is_sorted_by(|one, next| one < next)
}

/// Drops the names of a group together, or none of them.
pub fn drop_all(lent: Lent, actor: u32, names: &[u32]) -> Result<(), Refusal> {
    in_order(lent, Together(actor, names)).unwrap_or(Err(Refusal::Disordered))
}

struct Together<'a>(u32, &'a [u32]);

impl Work for Together<'_> {
    type Answer = Result<(), Refusal>;

    fn on<const ROWS: usize>(self, mut ordered: Ordered<ROWS>) -> Self::Answer {
        drop_names(&mut ordered, self.0, self.1)
    }
}

/// What is wrong with names and who drops them, whatever the table.
fn judge_group(actor: u32, names: &[u32]) -> Result<(), Refusal> {
    if !is_group(names) {
        return Err(Refusal::Misgrouped);
    }
    match is_domain(actor) {
        true => Ok(()),
        false => Err(Refusal::Misspelt),
    }
}

/// Drops names together where they are a group.
pub(crate) fn drop_names<const ROWS: usize>(
    ordered: &mut Ordered<ROWS>,
    actor: u32,
    names: &[u32],
) -> Result<(), Refusal> {
    match judge_group(actor, names) {
        Ok(()) => ordered.drop_group(actor, names),
        Err(refusal) => Err(ordered.refuse(refusal)),
    }
}

/// Writes the line of a group: its length, or the refusal.
pub fn write_drop(actor: u32, names: &[u32], out: &mut [u8]) -> Result<u32, Refusal> {
    judge_group(actor, names)?;
    let mut line = [0; LINE_CAPACITY];
    let mut writer = Writer::new(&mut line);
    put_actor(&mut writer, actor);
    writer.put(b"(drop");
    for name in names {
        writer.next_number(*name);
    }
    put_end(&mut writer, actor);
    let length = writer.length();
    let target = out.get_mut(..length).ok_or(Refusal::BufferTooShort)?;
    target.copy_from_slice(&line[..length]);
    Ok(length as u32)
}

/// Reads exactly one line of a group, its newline included: who drops its names, and how many they are.
pub fn read_drop(line: &[u8], names: &mut [u32; MAX_GROUP]) -> Result<(u32, u32), Refusal> {
    let mut reader = Reader::new(line);
    let mut found = [0; MAX_GROUP];
    let (actor, count) = next_group(&mut reader, &mut found).ok_or(Refusal::Misspelt)?;
    if !reader.is_at_end() {
        return Err(Refusal::Misspelt);
    }
    names[..count].copy_from_slice(&found[..count]);
    Ok((actor, count as u32))
}

/// Reads the next line of a text, where it is a group's: who drops its names, and how many they are.
pub(crate) fn next_group(
    reader: &mut Reader,
    names: &mut [u32; MAX_GROUP],
) -> Option<(u32, usize)> {
    let actor = next_actor(reader)?;
    reader.skip(b"(drop")?;
    let mut count = 0;
    while reader.peek(0) == Some(b' ') {
        *names.get_mut(count)? = reader.next_number()?;
        count += 1;
    }
    next_end(reader, actor)?;
    is_group(&names[..count]).then_some((actor, count))
}
