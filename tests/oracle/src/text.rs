//! Listings, runs, and what `capcheck` prints.

use crate::domains::{Limits, holders_of, mask_of, mask_word, read_mask};
use crate::lines::{
    Spelling, drop_line, event_line, kind_word, mark_word, number, read_drop_line, read_event_line,
    right, right_word,
};
use crate::states::States;
use crate::table::{By, Lent, apply, in_order, live_rows};
use crate::together::{drop_all, is_group};
use crate::values::{
    Act, CELL, Event, FRESH, MAX_DEPTH, MAX_INPUT, MAX_ROWS, RAW, REFERENCE, Refused, Row, Tally,
};
use crate::written::Written;

/// The number of lines allowed, or the refusal and its line.
pub type Run = Result<u32, (Refused, u32)>;

/// The listing of a table in order.
pub fn listing(rows: &[Row], issued: u32) -> String {
    let live = live_rows(rows);
    let roots = live.iter().filter(|row| row.parent == 0);
    let lines = roots.map(|root| form(live, root) + "\n");
    format!("(issued {issued})\n") + &lines.collect::<String>()
}

fn form(live: &[Row], row: &Row) -> String {
    let children = live.iter().filter(|child| child.parent == row.name);
    let inner: String = children
        .map(|child| format!(" {}", form(live, child)))
        .collect();
    let (right, kind) = (right_word(row.right), kind_word(row.kind));
    let mark = mark_word(row.fresh);
    let holders = mask_word(&holders_of(row.holders));
    let Row {
        name,
        start,
        length,
        maker,
        ..
    } = row;
    format!("({name} {start} {length} {right}{kind}{mark} {maker} {holders}{inner})")
}

/// The issued number and the rows of the one table in order that has this listing, if there is one.
fn table_of(text: &[u8]) -> Option<(u32, Vec<Row>)> {
    let mut reader = Reader {
        rest: text,
        rows: Vec::new(),
    };
    reader.skip(b"(issued ")?;
    let issued = reader.number()?;
    reader.skip(b")\n")?;
    let mut previous = 0;
    while !reader.rest.is_empty() {
        previous = reader.form(0, 1, previous)?;
        reader.skip(b"\n")?;
    }
    let mut rows = reader.rows;
    rows.sort_by_key(|row| row.name);
    in_order(&rows, issued).then_some((issued, rows))
}

struct Reader<'a> {
    rest: &'a [u8],
    /// The capabilities read so far, as they were met.
    rows: Vec<Row>,
}

impl Reader<'_> {
    fn skip(&mut self, piece: &[u8]) -> Option<()> {
        self.rest = self.rest.strip_prefix(piece)?;
        Some(())
    }

    fn number(&mut self) -> Option<u32> {
        let is_digit = |byte: &&u8| byte.is_ascii_digit();
        let digits = self.rest.iter().take_while(is_digit).count();
        let (word, rest) = self.rest.split_at(digits);
        self.rest = rest;
        number(word)
    }

    fn right(&mut self) -> Option<u8> {
        let (word, rest) = self.rest.split_at_checked(2)?;
        self.rest = rest;
        right(word)
    }

    /// The kind whose word stands next, or a reference, which has none.
    fn kind(&mut self) -> u32 {
        let mut words = [RAW, CELL].into_iter();
        let found = words.find(|kind| self.skip(kind_word(*kind).as_bytes()).is_some());
        found.unwrap_or(REFERENCE)
    }

    /// The mark whose word stands next, or none.
    fn mark(&mut self) -> u32 {
        match self.skip(mark_word(FRESH).as_bytes()) {
            Some(()) => FRESH,
            None => 0,
        }
    }

    /// The mask of holders that stands next.
    fn holders(&mut self) -> Option<u64> {
        let (word, rest) = self.rest.split_at_checked(16)?;
        self.rest = rest;
        Some(mask_of(&read_mask(word)?))
    }

    /// One capability with all below it. Its name, which must be above that of the sibling before
    /// it, is the answer.
    fn form(&mut self, parent: u32, depth: u32, previous: u32) -> Option<u32> {
        self.skip(b"(")?;
        let name = self.number()?;
        self.skip(b" ")?;
        let start = self.number()?;
        self.skip(b" ")?;
        let length = self.number()?;
        self.skip(b" ")?;
        let right = u32::from(self.right()?);
        let kind = self.kind();
        let fresh = self.mark();
        self.skip(b" ")?;
        let maker = self.number()?;
        self.skip(b" ")?;
        let holders = self.holders()?;
        if depth > MAX_DEPTH || name <= previous {
            return None;
        }
        self.rows.push(Row {
            name,
            parent,
            start,
            length,
            right,
            depth,
            kind,
            fresh,
            maker,
            holders,
        });
        let mut child = 0;
        while self.rest.starts_with(b" ") {
            self.skip(b" ")?;
            child = self.form(name, depth + 1, child)?;
        }
        self.skip(b")")?;
        Some(name)
    }
}

/// The whole table and the issued number that reading a listing into so many rows leaves. It is lent no
/// written addresses.
pub fn read_listing(text: &[u8], rows: usize) -> Result<(u32, Vec<Row>), Refused> {
    if rows > MAX_ROWS {
        return Err(1);
    }
    let (issued, mut table) = table_of(text).ok_or(2)?;
    if table.len() > rows {
        return Err(10);
    }
    table.resize(rows, Row::default());
    Ok((issued, table))
}

/// The text, if it is no longer than the output buffer.
fn fitting(text: String, buffer: usize) -> Result<String, Refused> {
    match text.len() <= buffer {
        true => Ok(text),
        false => Err(11),
    }
}

pub fn write_event(act: Act, spelling: Spelling, buffer: usize) -> Result<String, Refused> {
    fitting(event_line(act, spelling).ok_or(2)?, buffer)
}

/// 13 stands before 2, which is given to a domain that is none.
pub fn write_drop(actor: u32, names: &[u32], buffer: usize) -> Result<String, Refused> {
    if !is_group(names) {
        return Err(13);
    }
    fitting(drop_line(actor, names).ok_or(2)?, buffer)
}

pub fn write_listing(rows: &[Row], issued: u32, buffer: usize) -> Result<String, Refused> {
    if !in_order(rows, issued) {
        return Err(1);
    }
    fitting(listing(rows, issued), buffer)
}

/// The first line of a trace whose events are spelt with names.
pub const HEADER: &[u8] = b"(trace 2)\n";

/// The lines of a text: each with its newline, and what stands after the last newline.
pub fn lines(text: &[u8]) -> impl Iterator<Item = &[u8]> {
    text.split_inclusive(|byte| *byte == b'\n')
}

/// Takes lines until one is refused. A first line that says so is no event, and is counted as a
/// line; the others are then spelt with names. What is lent is judged before the first line; by card 11 a
/// stored table is judged where a line goes back to it, and its 1 'carries its own line number'.
pub fn run(by: By, mut lent: Lent, text: &[u8]) -> Run {
    if lent.is_unfit(&Limits::lent(by.limits)) {
        return Err((1, 0));
    }
    let (spelling, mut allowed, rest) = match text.strip_prefix(HEADER) {
        Some(rest) => (Spelling::Named, 1, rest),
        None => (Spelling::Plain, 0, text),
    };
    // An unknown event is refused and counted just as a misspelt line is.
    let misspelt = Act {
        actor: 0,
        event: Event::Unknown,
    };
    for line in lines(rest) {
        let answer = match read_drop_line(line) {
            Some((actor, names)) => drop_all(by, lent.again(), actor, &names),
            None => {
                let act = read_event_line(line, spelling).unwrap_or(misspelt);
                apply(by, lent.again(), act)
            }
        };
        answer.map_err(|number| (number, allowed + 1))?;
        allowed += 1;
    }
    Ok(allowed)
}

/// What `capcheck` prints, if it is no longer than the output buffer.
pub fn check(input: &[u8], buffer: usize) -> Result<String, Refused> {
    check_with(Some(&mut States::default()), input, buffer)
}

/// The same where the memory lent for states has another size.
pub fn check_without_states(input: &[u8], buffer: usize) -> Result<String, Refused> {
    check_with(None, input, buffer)
}

fn check_with(states: Option<&mut States>, input: &[u8], buffer: usize) -> Result<String, Refused> {
    if input.len() > MAX_INPUT {
        return fitting("(long)\n".to_string(), buffer);
    }
    let mut rows = vec![Row::default(); MAX_ROWS];
    let mut tally = Tally::default();
    let lent = Lent {
        rows: &mut rows,
        written: Some(&mut Written::default()),
        states,
        tally: &mut tally,
    };
    let verdict = match run(By::default(), lent, input) {
        Ok(lines) => format!("(allowed {lines})\n"),
        Err((number, line)) => format!("(refused {number} {line})\n"),
    };
    fitting(verdict + &listing(&rows, tally.issued), buffer)
}
