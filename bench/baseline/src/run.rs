//! Runs of lines, and what `capcheck` prints.

use crate::event::Refusal;
use crate::group::{MAX_GROUP, next_group};
use crate::lines::{Spelling, next_event};
use crate::listing::write_after;
use crate::order::{Cap, EMPTY, Index, MAX_ROWS};
use crate::states::States;
use crate::step::{Lent, Ordered, Tally, Work, in_order};
use crate::text::{Reader, Writer};
use crate::written::{WRITTEN_BYTES, Written};

/// The longest input that `check` runs, in bytes.
const MAX_INPUT: usize = 65_536;

/// The first line of a trace whose creates and borrows are spelt with their new names.
const HEADER: &[u8] = b"(trace 2)\n";

/// How many lines were allowed, or the refusal and its line.
type Answer = Result<u32, (Refusal, u32)>;

/// Takes lines until one is refused.
pub fn run(lent: Lent, text: &[u8]) -> Answer {
    in_order(lent, Lines(text)).unwrap_or(Err((Refusal::Disordered, 0)))
}

struct Lines<'a>(&'a [u8]);

impl Work for Lines<'_> {
    type Answer = Answer;

    fn on<const ROWS: usize>(self, ordered: Ordered<ROWS>) -> Answer {
        run_lines(ordered, self.0)
    }
}

fn run_lines<const ROWS: usize>(mut ordered: Ordered<ROWS>, text: &[u8]) -> Answer {
    let mut reader = Reader::new(text);
    let (spelling, mut allowed) = match reader.skip(HEADER) {
        Some(()) => (Spelling::Named, 1),
        None => (Spelling::Plain, 0),
    };
    while !reader.is_at_end() {
        let line = reader;
        let outcome = match next_event(&mut reader, spelling) {
            Some(event) => ordered.step(event).map(|_| ()),
            None => {
                reader = line;
                drop_next(&mut ordered, &mut reader)
            }
        };
        outcome.map_err(|refusal| (refusal, allowed + 1))?;
        allowed += 1;
    }
    Ok(allowed)
}

/// Takes a line that is no event's: one of names that are dropped together, or none at all.
fn drop_next<const ROWS: usize>(
    ordered: &mut Ordered<ROWS>,
    reader: &mut Reader,
) -> Result<(), Refusal> {
    let mut names = [0; MAX_GROUP];
    match next_group(reader, &mut names) {
        Some((actor, count)) => ordered.drop_group(actor, &names[..count]),
        None => Err(ordered.refuse(Refusal::Misspelt)),
    }
}

/// Writes what `capcheck` prints for an input: its length, or the refusal. The memory for states is its working
/// space; without it nothing is run.
pub fn check(
    input: &[u8],
    stored: &mut [Cap],
    stored_bits: &mut [u8],
    out: &mut [u8],
) -> Result<u32, Refusal> {
    if input.len() > MAX_INPUT {
        let text = b"(long)\n";
        let target = out.get_mut(..text.len()).ok_or(Refusal::BufferTooShort)?;
        target.copy_from_slice(text);
        return Ok(text.len() as u32);
    }
    let mut table = [EMPTY; MAX_ROWS];
    let mut index = Index::<MAX_ROWS>::EMPTY;
    let mut written = [0; WRITTEN_BYTES];
    let mut tally = Tally::default();
    let answer = match States::lent(stored, stored_bits) {
        Some(states) => {
            let ordered = Ordered {
                table: &mut table,
                index: &mut index,
                written: Written::of(&mut written),
                states: states.cleared(),
                tally: &mut tally,
                sheet: None,
                limits: &[],
                room: None,
            };
            run_lines(ordered, input)
        }
        None => Err((Refusal::Disordered, 0)),
    };
    let mut line = [0; 32];
    let length = put_verdict(&mut Writer::new(&mut line), answer);
    write_after(&line[..length], &table, &index, tally.issued, out)
}

fn put_verdict(writer: &mut Writer, answer: Answer) -> usize {
    match answer {
        Ok(lines) => {
            writer.put(b"(allowed");
            writer.next_number(lines);
        }
        Err((refusal, line)) => {
            writer.put(b"(refused");
            writer.next_number(refusal as u32);
            writer.next_number(line);
        }
    }
    writer.put(b")\n");
    writer.length()
}
