//! Event lines, in the two spellings.

use crate::domain::{alone, holds, is_domain};
use crate::event::{Event, Kind, Refusal};
use crate::states::is_slot;
use crate::text::{Reader, Writer};

/// Whether creates and borrows are spelt with their new names.
#[derive(Clone, Copy, Debug, PartialEq, Eq)]
pub enum Spelling {
    Plain,
    Named,
}

/// Above the longest line, by a domain of two digits: a borrow of four numbers of ten digits that makes a cell
/// for others too.
const LINE_CAPACITY: usize = 96;

/// Writes the event's line: its length, or the refusal.
pub fn write_event(event: Event, spelling: Spelling, out: &mut [u8]) -> Result<u32, Refusal> {
    let kind = event.known_kind().ok_or(Refusal::Misspelt)?;
    if kind.makes() && event.written.is_some() != (spelling == Spelling::Named) {
        return Err(Refusal::Misspelt);
    }
    let mut line = [0; LINE_CAPACITY];
    let mut writer = Writer::new(&mut line);
    put_actor(&mut writer, event.actor);
    writer.put(opening(kind));
    if let (true, Some(written)) = (kind.makes(), event.written) {
        writer.next_number(written);
    }
    if kind.has_name() || kind.has_slot() {
        writer.next_number(event.name);
    }
    if kind.has_span() {
        writer.next_number(event.start);
        writer.next_number(event.length);
    }
    if kind.makes() {
        writer.next_right(u32::from(event.right));
    }
    match kind {
        Kind::Create => writer.next_mark(u32::from(event.fresh)),
        Kind::Borrow => writer.next_kind(u32::from(event.cap_kind)),
        _ => {}
    }
    if kind.makes() && event.holders != alone(event.actor) {
        writer.next_holders(event.holders);
    }
    put_end(&mut writer, event.actor);
    let length = writer.length();
    let target = out.get_mut(..length).ok_or(Refusal::BufferTooShort)?;
    target.copy_from_slice(&line[..length]);
    Ok(length as u32)
}

/// What stands before and behind the line of any domain but 0.
#[inline]
pub(crate) fn put_actor(writer: &mut Writer, actor: u32) {
    if actor != 0 {
        writer.put(b"(as");
        writer.next_number(actor);
        writer.put(b" ");
    }
}

#[inline]
pub(crate) fn put_end(writer: &mut Writer, actor: u32) {
    writer.put(ending(actor));
}

#[inline]
fn ending(actor: u32) -> &'static [u8] {
    match actor {
        0 => b")\n",
        _ => b"))\n",
    }
}

#[inline]
fn opening(kind: Kind) -> &'static [u8] {
    match kind {
        Kind::Create => b"(create",
        Kind::Borrow => b"(borrow",
        Kind::Read => b"(read",
        Kind::Write => b"(write",
        Kind::Drop => b"(drop",
        Kind::Mark => b"(mark",
        Kind::Back => b"(back",
    }
}

/// Reads exactly one line, its newline included.
pub fn read_event(line: &[u8], spelling: Spelling) -> Result<Event, Refusal> {
    let mut reader = Reader::new(line);
    let event = next_event(&mut reader, spelling).ok_or(Refusal::Misspelt)?;
    match reader.is_at_end() {
        true => Ok(event),
        false => Err(Refusal::Misspelt),
    }
}

/// Reads the next line of a text. Each kind is read by itself, so that its values are read one after
/// the other without asking which of them it has.
#[inline]
pub(crate) fn next_event(reader: &mut Reader, spelling: Spelling) -> Option<Event> {
    let actor = next_actor(reader)?;
    // The letter after the bracket tells the kinds apart, but for a borrow and a back.
    let mut event = match reader.peek(1)? {
        b'c' => Event {
            kind: next_kind(reader, Kind::Create)?,
            written: next_written(reader, spelling)?,
            start: reader.next_number()?,
            length: reader.next_number()?,
            right: reader.next_right()?,
            fresh: reader.next_mark()? as u8,
            holders: next_holders(reader, actor)?,
            ..Event::default()
        },
        b'b' if reader.peek(2)? == b'a' => next_turn(reader, Kind::Back)?,
        b'b' => Event {
            kind: next_kind(reader, Kind::Borrow)?,
            written: next_written(reader, spelling)?,
            name: reader.next_number()?,
            start: reader.next_number()?,
            length: reader.next_number()?,
            right: reader.next_right()?,
            cap_kind: reader.next_kind()? as u8,
            holders: next_holders(reader, actor)?,
            ..Event::default()
        },
        b'r' => next_access(reader, Kind::Read)?,
        b'w' => next_access(reader, Kind::Write)?,
        b'd' => Event {
            kind: next_kind(reader, Kind::Drop)?,
            name: reader.next_number()?,
            ..Event::default()
        },
        b'm' => next_turn(reader, Kind::Mark)?,
        _ => return None,
    };
    next_end(reader, actor)?;
    event.actor = actor;
    Some(event)
}

/// The domain that acts, which is 0 where a line does not say so, and is not 0 where it does.
#[inline]
pub(crate) fn next_actor(reader: &mut Reader) -> Option<u32> {
    if reader.peek(1) != Some(b'a') {
        return Some(0);
    }
    reader.skip(b"(as")?;
    let actor = reader.next_number()?;
    reader.skip_byte(b' ')?;
    (actor != 0 && is_domain(actor)).then_some(actor)
}

/// The end of a line of a domain.
#[inline]
pub(crate) fn next_end(reader: &mut Reader, actor: u32) -> Option<()> {
    reader.skip(ending(actor))
}

/// The holders of what a domain makes, which are written where it is not alone.
#[inline]
fn next_holders(reader: &mut Reader, actor: u32) -> Option<u64> {
    if reader.peek(0) != Some(b' ') {
        return Some(alone(actor));
    }
    let holders = reader.next_holders()?;
    (holders != alone(actor) && holds(holders, actor)).then_some(holders)
}

#[inline]
fn next_access(reader: &mut Reader, kind: Kind) -> Option<Event> {
    Some(Event {
        kind: next_kind(reader, kind)?,
        name: reader.next_number()?,
        start: reader.next_number()?,
        length: reader.next_number()?,
        ..Event::default()
    })
}

fn next_turn(reader: &mut Reader, kind: Kind) -> Option<Event> {
    let event = Event {
        kind: next_kind(reader, kind)?,
        name: reader.next_number()?,
        ..Event::default()
    };
    is_slot(event.name).then_some(event)
}

#[inline]
fn next_kind(reader: &mut Reader, kind: Kind) -> Option<u8> {
    reader.skip(opening(kind))?;
    Some(kind as u8)
}

/// The new name, where the spelling has it.
#[inline]
fn next_written(reader: &mut Reader, spelling: Spelling) -> Option<Option<u32>> {
    match spelling {
        Spelling::Plain => Some(None),
        Spelling::Named => reader.next_number().map(Some),
    }
}
