//! Event lines, in the two spellings, and the lines of names that are dropped together, with who acts in them.
//! A mark and a back are events, and spelt alike in both.

use crate::domains::{Holders, holders_of, is_domain, mask_of, mask_word, read_mask};
use crate::span::Span;
use crate::states::is_slot;
use crate::table::is_unknown;
use crate::together::is_group;
use crate::values::{Act, CELL, Event, FRESH, RAW, READ_ONLY, READ_WRITE, REFERENCE};

/// How a create or borrow is spelt: without its new name, or with it after the word.
#[derive(Clone, Copy, Debug, PartialEq, Eq)]
pub enum Spelling {
    Plain,
    Named,
}

impl Spelling {
    /// Whether the event carries a new name exactly where this spelling has one.
    fn suits(self, event: Event) -> bool {
        !event.makes() || event.written().is_some() == (self == Spelling::Named)
    }
}

pub fn right_word(right: u32) -> &'static str {
    match right == u32::from(READ_WRITE) {
        true => "rw",
        false => "ro",
    }
}

/// The last word of a capability of this kind, with the space before it. A reference has none.
pub fn kind_word(kind: u32) -> &'static str {
    match kind {
        RAW => " raw",
        CELL => " cell",
        _ => "",
    }
}

/// The last word of a capability with this mark, with the space before it. Without one there is none.
pub fn mark_word(fresh: u32) -> &'static str {
    match fresh {
        FRESH => " fresh",
        _ => "",
    }
}

/// The event's one spelling of this sort, newline included; none where it, its right, its kind, its mark, its
/// actor, its holders or its slot are unknown, and none for a create or borrow with a name in the plain one or
/// without in the other.
pub fn event_line(act: Act, spelling: Spelling) -> Option<String> {
    let Act { actor, event } = act;
    if is_unknown(act) || !spelling.suits(event) {
        return None;
    }
    let [_, name, start, length, right] = event.fields();
    let new_name = event.written().map(|written| format!("{written} "));
    let new_name = new_name.unwrap_or_default();
    let right = right_word(right);
    let kind = event.kind().map_or("", kind_word);
    let mark = event.fresh().map_or("", mark_word);
    let holders = event.holders().map(|mask| holders_word(actor, mask));
    let holders = holders.unwrap_or_default();
    Some(line_of(
        actor,
        match event {
            Event::Create { .. } => {
                format!("(create {new_name}{start} {length} {right}{mark}{holders})")
            }
            Event::Borrow { .. } => {
                format!("(borrow {new_name}{name} {start} {length} {right}{kind}{holders})")
            }
            Event::Read { .. } => format!("(read {name} {start} {length})"),
            Event::Write { .. } => format!("(write {name} {start} {length})"),
            Event::Mark { slot } => format!("(mark {slot})"),
            Event::Back { slot } => format!("(back {slot})"),
            Event::Drop { .. } | Event::Unknown => format!("(drop {name})"),
        },
    ))
}

/// The line in which a domain acts: 'domain 0, and only it, acts without' saying so.
fn line_of(actor: u32, form: String) -> String {
    match actor {
        0 => format!("{form}\n"),
        _ => format!("(as {actor} {form})\n"),
    }
}

/// The last word of what a domain makes for these holders, with the space before it: 'a mask of the maker
/// alone is left out'.
fn holders_word(maker: u32, mask: u64) -> String {
    let holders = holders_of(mask);
    match holders == Holders::from([maker]) {
        true => String::new(),
        false => format!(" {}", mask_word(&holders)),
    }
}

/// Who acts in a line, and the form of what happens.
fn actor_and_form(line: &[u8]) -> Option<(u32, &[u8])> {
    let form = line.strip_suffix(b"\n")?;
    let Some(inside) = form.strip_prefix(b"(as ") else {
        return Some((0, form));
    };
    let inside = inside.strip_suffix(b")")?;
    let space = inside.iter().position(|byte| *byte == b' ')?;
    let actor = number(&inside[..space])?;
    let is_written = actor != 0 && is_domain(actor);
    is_written.then_some((actor, &inside[space + 1..]))
}

/// What happens in the line, and who acts, if the line is one.
pub fn read_event_line(line: &[u8], spelling: Spelling) -> Option<Act> {
    let (actor, form) = actor_and_form(line)?;
    let body = form.strip_suffix(b")")?.strip_prefix(b"(")?;
    let words: Vec<&[u8]> = body.split(|byte| *byte == b' ').collect();
    let (kind, values) = words.split_first()?;
    let event = match (*kind, spelling) {
        (b"create" | b"borrow", Spelling::Plain) => made(actor, kind, None, values),
        (b"create" | b"borrow", Spelling::Named) => {
            let (written, values) = values.split_first()?;
            made(actor, kind, Some(number(written)?), values)
        }
        _ => used(kind, values),
    };
    Some(Act {
        actor,
        event: event?,
    })
}

/// A create or borrow of the words after its new name.
fn made(actor: u32, kind: &[u8], written: Option<u32>, values: &[&[u8]]) -> Option<Event> {
    let (holders, values) = holders_in(actor, values)?;
    Some(match (kind, values) {
        (b"create", [start, length, right, last @ ..]) => Event::Create {
            written,
            span: span(start, length)?,
            right: self::right(right)?,
            fresh: mark_of(last)?,
            holders,
        },
        (b"borrow", [name, start, length, right, last @ ..]) => Event::Borrow {
            written,
            parent: number(name)?,
            span: span(start, length)?,
            right: self::right(right)?,
            kind: kind_of(last)?,
            holders,
        },
        _ => return None,
    })
}

/// The mask of holders that the words of a create or borrow end in, and those before it. Without one it is
/// the maker alone, which is never written.
fn holders_in<'a>(maker: u32, words: &'a [&'a [u8]]) -> Option<(u64, &'a [&'a [u8]])> {
    let alone = Holders::from([maker]);
    let (last, before) = words.split_last()?;
    match read_mask(last) {
        None => Some((mask_of(&alone), words)),
        Some(holders) if holders.contains(&maker) && holders != alone => {
            Some((mask_of(&holders), before))
        }
        Some(_) => None,
    }
}

/// A read, write, drop, mark or back.
fn used(kind: &[u8], values: &[&[u8]]) -> Option<Event> {
    Some(match (kind, values) {
        (b"read", [name, start, length]) => Event::Read {
            name: number(name)?,
            span: span(start, length)?,
        },
        (b"write", [name, start, length]) => Event::Write {
            name: number(name)?,
            span: span(start, length)?,
        },
        (b"drop", [name]) => Event::Drop {
            name: number(name)?,
        },
        (b"mark", [word]) => Event::Mark { slot: slot(word)? },
        (b"back", [word]) => Event::Back { slot: slot(word)? },
        _ => return None,
    })
}

/// 'K above 7 is 2.'
fn slot(word: &[u8]) -> Option<u32> {
    number(word).filter(|slot| is_slot(*slot))
}

/// The one spelling of names that are dropped together, in both sorts of traces, if they are a group and a
/// domain drops them. Of one name it is the line of the drop.
pub fn drop_line(actor: u32, names: &[u32]) -> Option<String> {
    let words: String = names.iter().map(|name| format!(" {name}")).collect();
    let has_line = is_group(names) && is_domain(actor);
    has_line.then(|| line_of(actor, format!("(drop{words})")))
}

/// Who drops names together in the line, and which, if it is such a line.
pub fn read_drop_line(line: &[u8]) -> Option<(u32, Vec<u32>)> {
    let (actor, form) = actor_and_form(line)?;
    let body = form.strip_suffix(b")")?.strip_prefix(b"(drop ")?;
    let words = body.split(|byte| *byte == b' ');
    let names: Vec<u32> = words.map(number).collect::<Option<_>>()?;
    is_group(&names).then_some((actor, names))
}

pub fn span(start: &[u8], length: &[u8]) -> Option<Span> {
    Some(Span {
        start: number(start)?,
        length: number(length)?,
    })
}

/// A number from 0 to 4,294,967,295 in decimal, without leading zeros.
pub fn number(word: &[u8]) -> Option<u32> {
    let digits = !word.is_empty() && word.iter().all(u8::is_ascii_digit);
    let leading_zero = word.len() > 1 && word[0] == b'0';
    if !digits || leading_zero {
        return None;
    }
    str::from_utf8(word).ok()?.parse().ok()
}

pub fn right(word: &[u8]) -> Option<u8> {
    match word {
        b"ro" => Some(READ_ONLY),
        b"rw" => Some(READ_WRITE),
        _ => None,
    }
}

/// The kind that the words after a right say: none for a reference, and one for the others.
fn kind_of(words: &[&[u8]]) -> Option<u32> {
    match words {
        [] => Some(REFERENCE),
        [b"raw"] => Some(RAW),
        [b"cell"] => Some(CELL),
        _ => None,
    }
}

/// The mark that the words after a create's right say.
fn mark_of(words: &[&[u8]]) -> Option<u32> {
    match words {
        [] => Some(0),
        [b"fresh"] => Some(FRESH),
        _ => None,
    }
}
