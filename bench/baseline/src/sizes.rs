//! Trying table sizes: clients take a line each in turn on one table, and the most rows that they need at a time are
//! counted on the way.

use crate::domain::alone;
use crate::event::{Event, Kind, Refusal};
use crate::lines::{Spelling, next_event};
use crate::order::{Cap, EMPTY, Index, MAX_ROWS};
use crate::states::States;
use crate::step::{Ordered, Tally};
use crate::text::Reader;
use crate::written::{WRITTEN_BYTES, Written};

/// How many clients there are at most.
pub const MAX_CLIENTS: usize = 8;

/// The fewest rows with which every line is allowed, or the first refusal with the most that a table has, its client
/// and its line there, both from 1.
type Answer = Result<u32, (Refusal, u32, u32)>;

/// The length of the shortest line that makes something, `(create 0 0 rw)`.
const SHORTEST_MAKING: usize = 16;

/// The fewest rows for clients whose texts stand end to end.
pub fn sizes(text: &[u8], lengths: &[u32]) -> Answer {
    if !do_fit(text, lengths) {
        return Err((Refusal::Misspelt, 0, 0));
    }
    // With a row for each line that can make something no table is ever full, so that no more are needed. Clearing
    // them is a good part of the time for few lines.
    match text.len() / SHORTEST_MAKING {
        0..=16 => on_rows::<16, 32>(text, lengths),
        17..=64 => on_rows::<64, 128>(text, lengths),
        65..=256 => on_rows::<256, 512>(text, lengths),
        _ => on_rows::<MAX_ROWS, { 2 * MAX_ROWS }>(text, lengths),
    }
}

fn do_fit(text: &[u8], lengths: &[u32]) -> bool {
    let sum = || lengths.iter().copied().map(u64::from).sum::<u64>();
    lengths.len() <= MAX_CLIENTS && sum() == text.len() as u64
}

/// Clients on a table of so many rows, each of which keeps so many of its names.
fn on_rows<const ROWS: usize, const NAMES: usize>(text: &[u8], lengths: &[u32]) -> Answer {
    let mut rest = text;
    let mut clients = [const { Client::<NAMES>::NONE }; MAX_CLIENTS];
    for (client, length) in clients.iter_mut().zip(lengths) {
        let (first, behind) = rest.split_at(*length as usize);
        client.reader = Reader::new(first);
        rest = behind;
    }
    let mut table = [EMPTY; ROWS];
    let mut index = Index::<ROWS>::EMPTY;
    let mut written = [0; WRITTEN_BYTES];
    let mut tally = Tally::default();
    let mut ordered = Ordered {
        table: &mut table,
        index: &mut index,
        written: Written::of(&mut written),
        states: States::none(),
        tally: &mut tally,
        sheet: None,
        limits: &[],
        room: None,
    };
    let mut rows = 0;
    let mut is_going_on = true;
    while is_going_on {
        is_going_on = false;
        for (number, client) in (1..).zip(&mut clients) {
            if client.reader.is_at_end() {
                continue;
            }
            is_going_on = true;
            client.lines += 1;
            let needed = client.take(&mut ordered);
            rows = rows.max(needed.map_err(|refusal| (refusal, number, client.lines))?);
        }
    }
    Ok(rows as u32)
}

/// A name of a client's own, and the table's for the same.
#[derive(Clone, Copy)]
struct Given {
    own: u32,
    name: u32,
}

struct Client<'a, const NAMES: usize> {
    reader: Reader<'a>,
    /// How many lines were taken.
    lines: u32,
    /// How many names were given.
    given: u32,
    /// The names that are kept, rising: all that live, and some that have ended.
    names: [Given; NAMES],
    kept: usize,
    /// One of those that are no longer kept, by the table's name.
    ended: u32,
}

impl<'a, const NAMES: usize> Client<'a, NAMES> {
    /// One without lines.
    const NONE: Client<'a, NAMES> = Client {
        reader: Reader::new(&[]),
        lines: 0,
        given: 0,
        names: [Given { own: 0, name: 0 }; NAMES],
        kept: 0,
        ended: 0,
    };

    /// Takes the next line: how many rows it needs.
    fn take<const ROWS: usize>(&mut self, ordered: &mut Ordered<ROWS>) -> Result<usize, Refusal> {
        let event = next_event(&mut self.reader, Spelling::Plain).filter(is_plain);
        let mut event = event.ok_or(Refusal::Misspelt)?;
        // A create has no name, which is 0 and stays so.
        event.name = self.name_in_table(event.name);
        let live = ordered.index.live;
        match ordered.step(event)? {
            0 => Ok(0),
            name => {
                self.give(name, &ordered.table[..ordered.index.live]);
                // Whether a row is empty is judged before the line ends others.
                Ok(live + 1)
            }
        }
    }

    /// The table's name for one of its own: 0 where that was not given yet.
    #[inline]
    fn name_in_table(&self, own: u32) -> u32 {
        if own == 0 || own > self.given {
            return 0;
        }
        let names = &self.names[..self.kept];
        // Since names were last forgotten there are no gaps.
        let behind = (self.given - own) as usize + 1;
        match names.len().checked_sub(behind).map(|at| names[at]) {
            Some(guess) if guess.own == own => guess.name,
            _ => match names.binary_search_by_key(&own, |given| given.own) {
                Ok(at) => names[at].name,
                Err(_) => self.ended,
            },
        }
    }

    /// Gives it a name that the table has given.
    #[inline]
    fn give(&mut self, name: u32, live: &[Cap]) {
        if self.kept == NAMES {
            self.forget_ended(live);
        }
        self.given += 1;
        self.names[self.kept] = Given {
            own: self.given,
            name,
        };
        self.kept += 1;
    }

    /// Keeps those that live, which are fewer than half. Both lists rise.
    #[inline(never)]
    fn forget_ended(&mut self, live: &[Cap]) {
        let mut live = live.iter().map(|row| row.name).peekable();
        let mut kept = 0;
        for at in 0..self.kept {
            let given = self.names[at];
            while live.next_if(|name| *name < given.name).is_some() {}
            match live.peek() == Some(&given.name) {
                true => {
                    self.names[kept] = given;
                    kept += 1;
                }
                false => self.ended = given.name,
            }
        }
        self.kept = kept;
    }
}

/// Whether a line has nothing but its word, a name, a span and a right: no domain, no kind, no mark and no holders.
#[inline]
fn is_plain(event: &Event) -> bool {
    event.kind <= Kind::Drop as u8
        && event.actor == 0
        && event.cap_kind == 0
        && event.fresh == 0
        && event.holders <= alone(0)
}

#[cfg(test)]
mod tests {
    use super::*;

    /// The texts end to end, and their lengths.
    fn lent(clients: &[&str]) -> (String, Vec<u32>) {
        let lengths = clients.iter().map(|text| text.len() as u32).collect();
        (clients.concat(), lengths)
    }

    fn of(clients: &[&str]) -> Answer {
        let (text, lengths) = lent(clients);
        sizes(text.as_bytes(), &lengths)
    }

    #[test]
    fn clients_take_lines_in_turn() {
        let first = "(create 0 8 rw)\n(borrow 1 0 8 rw)\n(drop 2)\n";
        let second = "(create 8 8 rw)\n(borrow 1 8 8 ro)\n(borrow 2 8 4 ro)\n(read 3 8 4)\n";
        assert_eq!(of(&[first, second]), Ok(4));
        // The drop comes behind the third line of the other then.
        assert_eq!(of(&[second, first]), Ok(5));
        assert_eq!(of(&[first, "", second, ""]), Ok(4));
        assert_eq!(of(&[]), Ok(0));
        assert_eq!(of(&[""; MAX_CLIENTS]), Ok(0));
        // Of two wrong lines the first that is taken is told of.
        let wrong = format!("{second}x\n");
        assert_eq!(of(&[&wrong, first]), Err((Refusal::Misspelt, 1, 5)));
        let earlier = format!("{first}x\n");
        assert_eq!(of(&[&wrong, &earlier]), Err((Refusal::Misspelt, 2, 4)));
    }

    /// Whether a row is empty is judged before a create ends others.
    #[test]
    fn memory_is_reused() {
        let create = "(create 0 8 rw)\n";
        assert_eq!(of(&[create; MAX_CLIENTS]), Ok(2));
        let user = "(create 0 8 rw)\n(read 1 0 8)\n";
        assert_eq!(of(&[user, create]), Err((Refusal::Ended, 1, 2)));
        assert_eq!(of(&[create, user]), Ok(2));
    }

    #[test]
    fn lengths_fit() {
        let text = b"(create 0 8 rw)\n";
        assert_eq!(sizes(text, &[16]), Ok(1));
        assert_eq!(sizes(text, &[0, 0, 0, 0, 0, 0, 0, 16]), Ok(1));
        for lengths in [
            &[][..],
            &[15],
            &[17],
            &[16, 1],
            &[u32::MAX, 17],
            &[16, 0, 0, 0, 0, 0, 0, 0, 0],
        ] {
            let expected = Err((Refusal::Misspelt, 0, 0));
            assert_eq!(sizes(text, lengths), expected, "{lengths:?}");
        }
    }

    #[test]
    fn other_lines_are_misspelt() {
        for line in [
            "\n",
            "(create 0 8 rw)",
            "(create 0 8 rw fresh)\n",
            "(create 0 8 rw 0000000000000003)\n",
            "(borrow 1 0 8 rw raw)\n",
            "(borrow 1 0 8 rw cell)\n",
            "(as 3 (read 1 0 8))\n",
            "(as 3 (drop 1))\n",
            "(drop 1 2)\n",
            "(mark 3)\n",
            "(back 3)\n",
            "(trace 2)\n",
        ] {
            let text = format!("(create 0 8 rw)\n{line}");
            let expected = Err((Refusal::Misspelt, 2, 2));
            assert_eq!(of(&["", &text]), expected, "{line}");
        }
    }

    /// Each row that can be needed has its place, whatever the table is that the text is run on.
    #[test]
    fn tables_are_large_enough() {
        for rows in [1, 15, 16, 17, 63, 64, 65, 255, 256, 257, MAX_ROWS] {
            let text = "(create 0 0 rw)\n".repeat(rows);
            assert_eq!(of(&[&text]), Ok(rows as u32));
            let part = "(create 0 0 rw)\n".repeat(rows / 2);
            assert_eq!(of(&[&part, &part]), Ok(2 * (rows as u32 / 2)));
        }
        let text = "(create 0 0 rw)\n".repeat(MAX_ROWS + 1);
        let expected = Err((Refusal::TableFull, 1, MAX_ROWS as u32 + 1));
        assert_eq!(of(&[&text]), expected);
    }

    /// Two clients are given many names, of which all but one in so many are dropped at once. Each name is asked for
    /// then, on a table of few rows, so that few names are kept.
    #[test]
    fn names_are_kept_as_long_as_they_live() {
        const NAMES: u32 = 300;
        const LIVING: u32 = 47;
        let mut text = "(create 0 8 rw)\n".to_string();
        for name in 2..=NAMES {
            text += "(borrow 1 0 8 rw)\n";
            if name % LIVING != 0 {
                text += &format!("(drop {name})\n");
            }
        }
        let lines = text.lines().count() as u32;
        let other = text.replace("e 0 8", "e 8 8").replace("1 0 8", "1 8 8");
        for name in 0..=NAMES + 1 {
            let used = format!("{text}(read {name} 0 8)\n");
            let (text, lengths) = lent(&[&used, &other]);
            let answer = on_rows::<16, 32>(text.as_bytes(), &lengths);
            let refusal = match name {
                1 => None,
                _ if name == 0 || name > NAMES => Some(Refusal::Unissued),
                _ if name % LIVING == 0 => None,
                _ => Some(Refusal::Ended),
            };
            let expected = match refusal {
                None => Ok(16),
                Some(refusal) => Err((refusal, 1, lines + 1)),
            };
            assert_eq!(answer, expected, "{name}");
        }
    }

    /// 3 stands before 4 and 5.
    #[test]
    fn spans_are_judged_before_names() {
        for name in [0, 1, 2, 9] {
            let text = format!("(create 0 8 rw)\n(drop 1)\n(read {name} 4294967295 2)\n");
            assert_eq!(of(&[&text]), Err((Refusal::IllegalSpan, 1, 3)));
        }
    }
}
