//! The calls of the C interface, made safe. Those that take events are made on a [`Lent`], and stand
//! there; here are their shorthands for the default sheet.
//!
//! Safety, of each call below: a slice is a pointer to as many elements as its length says, an
//! exclusive one overlaps nothing else, `Cap`, `Tally`, `Request` and `Outcome` are laid out as the C
//! structs are, a `Name` as its number is, `Written` as its bytes are and `States` as its rows and bytes
//! are, and the library follows no pointer whose length is 0.

use core::mem::size_of;
use core::ptr;

use crate::answers::{numbered, value};
use crate::{
    ffi, Answer, Cap, Charge, Domain, Lent, Line, Name, Outcome, Refusal, Request, RunAnswer,
    Sheet, Spelling, States, Tally, Written, MAX_GROUP,
};

/// Each is cast to the other, where it is passed.
const _: () = assert!(
    size_of::<Request>() == size_of::<ffi::EventWords>()
        && size_of::<Outcome>() == size_of::<ffi::AnswerWords>()
);

/// The length that was written.
fn length(answer: u64) -> Result<usize, Refusal> {
    value(answer).map(|length| length as usize)
}

/// One event on a lent table, written bits, states and tally, which follow it, by the default sheet and
/// without limits: an [`Event`](crate::Event), which is domain 0's, or one [by](crate::Event::by) any
/// domain. [`Lent::apply`] is the same by any sheet and within limits.
///
/// [`Refusal::Disordered`] changes nothing; any other refusal adds one to the refused count and
/// changes nothing else.
pub fn apply(
    table: &mut [Cap],
    written: &mut Written,
    states: &mut States,
    tally: &mut Tally,
    event: impl Into<Request>,
) -> Answer {
    Lent::new(table, written, states, tally).apply(event)
}

/// Many requests on a lent table, written bits, states and tally, each in its turn on what those before it
/// left, by the default sheet and without limits; a refused one stops nothing. [`Lent::apply_all`] is the
/// same by any sheet and within limits.
///
/// In `names` stand the names of every [`Request::drop_all`], which is taken as [`drop_all`] takes it;
/// several may share names.
///
/// The answers are written to the start of `answers`, one for each request, and given back. Where it
/// is shorter than the requests, those that it has no room for are not taken; the entries behind the
/// answers stay.
///
/// On a table that is not in order every answer is [`Refusal::Disordered`], and nothing else changes. A
/// [back](crate::Event::Back) to what does not fit is refused so by itself.
///
/// ```
/// use kelzoud::*;
///
/// let mut table = [Cap::EMPTY; 16];
/// let mut written = Written::NONE;
/// let mut states = Box::new(States::NOTHING);
/// let mut tally = Tally::default();
/// let create = |start| Event::Create {
///     written: None,
///     span: Span { start: Addr(start), length: 8 },
///     right: Right::ReadWrite,
///     fresh: false,
///     holders: None,
/// };
/// let names = [Name(1), Name(2)];
/// let mut requests = [Request::drop_all(0..2); 4];
/// requests[0] = create(0).into();
/// requests[1] = create(8).into();
/// let mut answers = [Outcome::EMPTY; 4];
/// let answers = apply_all(
///     &mut table, &mut written, &mut states, &mut tally, &requests, &names, &mut answers,
/// );
/// assert_eq!(answers[1].answer(), Answer::Allowed(Some(Name(2))));
/// assert_eq!(answers[2].answer(), Answer::Allowed(None));
/// assert_eq!(answers[3].answer(), Answer::Refused(Refusal::Ended));
/// ```
pub fn apply_all<'a>(
    table: &mut [Cap],
    written: &mut Written,
    states: &mut States,
    tally: &mut Tally,
    requests: &[Request],
    names: &[Name],
    answers: &'a mut [Outcome],
) -> &'a [Outcome] {
    Lent::new(table, written, states, tally).apply_all(requests, names, answers)
}

/// Capabilities dropped together, as when a function returns: 1 to [`MAX_GROUP`] names, each above the
/// one before it. It is domain 0's; [`Lent::drop_all_by`] is the same by any domain.
///
/// All are judged on the table before the call, in their order, and either all are dropped, with their
/// subtrees, or none; the first name that is refused gives the refusal. The table is then as after
/// single drops in falling order. The tally counts one drop.
///
/// [`Refusal::Disordered`] changes nothing; any other refusal, [`Refusal::Misgrouped`] among them, adds
/// one to the refused count and changes nothing else.
pub fn drop_all(
    table: &mut [Cap],
    written: &mut Written,
    states: &mut States,
    tally: &mut Tally,
    names: &[Name],
) -> Answer {
    Lent::new(table, written, states, tally).drop_all(names)
}

/// A run of event lines on a lent table, written bits, states and tally, until one is refused, by the
/// default sheet and without limits. [`Lent::run`] is the same by any sheet and within limits.
///
/// In a text whose first line is [`NAMED_HEADER`](crate::NAMED_HEADER) every create and borrow has its
/// new name written out, else none has: the lines are those of [`write_event`]. That first line is
/// counted as a line; it is no event and raises no count. Anywhere else it is refused. In both, a line
/// of [`write_drop`] drops its names together.
///
/// The table, the written bits and the states are then as after the last allowed line. The refused line
/// adds one to the refused count; [`Refusal::Disordered`] of what is lent changes nothing and has line 0,
/// and that of a [back](crate::Event::Back) has its own line, and the lines before it stand.
pub fn run(
    table: &mut [Cap],
    written: &mut Written,
    states: &mut States,
    tally: &mut Tally,
    text: &[u8],
) -> RunAnswer {
    Lent::new(table, written, states, tally).run(text)
}

/// What the holders of a live capability of a table, with so many names issued, are charged for it: its
/// length in equal shares, and what is left over. Who asks is not asked.
///
/// # Errors
///
/// [`Refusal::Disordered`] for a table that is not in order, else [`Refusal::Unissued`] or
/// [`Refusal::Ended`].
pub fn charge(table: &[Cap], issued: u32, name: Name) -> Result<Charge, Refusal> {
    let mut words = [0; 3];
    unsafe { ffi::kz_abi_charge(table.as_ptr(), table.len(), issued, name.0, &mut words) };
    match words {
        [0, share, rest] => Ok(Charge { share, rest }),
        [number, ..] => Err(numbered(number)),
    }
}

/// Writes the line of an event, its newline included, to the start of the buffer, and answers its
/// length. The bytes after it stay. An [`Event`](crate::Event) by itself is domain 0's, which is not
/// written; that it is [by](crate::Event::by) another domain is. Where the event has a written name so
/// has the line, which is then one of the [named spelling](Spelling::Named), and at most
/// [`MAX_NAMED_LINE`](crate::MAX_NAMED_LINE) bytes long; else it is at most
/// [`MAX_LINE`](crate::MAX_LINE) bytes long.
///
/// # Errors
///
/// [`Refusal::Misspelt`] where the event gives holders without the domain that acts, else
/// [`Refusal::BufferTooShort`], with the buffer untouched.
pub fn write_event(event: impl Into<Request>, out: &mut [u8]) -> Result<usize, Refusal> {
    write_request(event.into(), &[], out)
}

/// Writes the line of names that domain 0 drops together, its newline included, to the start of the
/// buffer, and answers its length. The bytes after it stay. It is the same in both spellings, and at
/// most [`MAX_DROP_LINE`](crate::MAX_DROP_LINE) bytes long. Of one name it is the line of
/// [`Event::Drop`](crate::Event::Drop).
///
/// # Errors
///
/// [`Refusal::Misgrouped`] for a list of no name, of more than [`MAX_GROUP`], or that does not rise
/// strictly, else [`Refusal::BufferTooShort`], with the buffer untouched.
pub fn write_drop(names: &[Name], out: &mut [u8]) -> Result<usize, Refusal> {
    write_drop_by(Domain::ZERO, names, out)
}

/// The same of any domain.
///
/// # Errors
///
/// As of [`write_drop`].
pub fn write_drop_by(actor: Domain, names: &[Name], out: &mut [u8]) -> Result<usize, Refusal> {
    write_request(Request::drop_all_by(actor, 0..names.len()), names, out)
}

fn write_request(request: Request, names: &[Name], out: &mut [u8]) -> Result<usize, Refusal> {
    let request = ptr::from_ref(&request).cast();
    let list = names.as_ptr().cast();
    let size = out.len();
    let out = out.as_mut_ptr();
    length(unsafe { ffi::kz_abi_write_event(request, list, names.len(), out, size) })
}

/// Reads exactly one line of a text in this spelling, its newline included: an event, or names that are
/// dropped together. All but creates and borrows are the same in both spellings.
///
/// ```
/// use kelzoud::{read_event, Domain, Event, Line, Name, Refusal, Spelling};
///
/// let event = Event::Drop { name: Name(2) };
/// let (zero, three) = (Domain::ZERO, Domain::new(3).unwrap());
/// let line = read_event(Spelling::Plain, b"(drop 2)\n");
/// assert_eq!(line, Ok(Line::Event { actor: zero, event }));
/// let line = read_event(Spelling::Plain, b"(as 3 (drop 2))\n");
/// assert_eq!(line, Ok(Line::Event { actor: three, event }));
/// match read_event(Spelling::Plain, b"(drop 2 5)\n") {
///     Ok(Line::DropAll { names, .. }) => assert_eq!(*names, [Name(2), Name(5)]),
///     other => panic!("{other:?}"),
/// }
/// assert_eq!(read_event(Spelling::Named, b"(create 0 64 rw)\n"), Err(Refusal::Misspelt));
/// ```
///
/// # Errors
///
/// [`Refusal::Misspelt`].
pub fn read_event(spelling: Spelling, line: &[u8]) -> Result<Line, Refusal> {
    let named = (spelling == Spelling::Named).into();
    let mut request = Request::EMPTY;
    let mut names = [Name(0); MAX_GROUP];
    let answer = unsafe {
        ffi::kz_abi_read_event(
            named,
            line.as_ptr(),
            line.len(),
            ptr::from_mut(&mut request).cast(),
            ptr::from_mut(&mut names).cast(),
        )
    };
    value(answer)?;
    let line = request.line(names);
    Ok(line.expect("a line that is read has known kinds and a known right"))
}

/// Writes the listing of a table and its issued number to the start of the buffer, and answers its
/// length. The bytes after it stay.
///
/// # Errors
///
/// [`Refusal::Disordered`], else [`Refusal::BufferTooShort`], with the buffer untouched.
pub fn write_listing(table: &[Cap], issued: u32, out: &mut [u8]) -> Result<usize, Refusal> {
    let size = out.len();
    let out = out.as_mut_ptr();
    let rows = table.len();
    length(unsafe { ffi::kz_abi_write_listing(table.as_ptr(), rows, issued, out, size) })
}

/// Reads a listing into a table, whose old contents are not judged, and into the tally's issued
/// number. The tally's other counts stay. Written bits and states are not in a listing: those that the
/// listed table had are lent with the read one.
///
/// # Errors
///
/// [`Refusal::Disordered`] for more than [`MAX_ROWS`](crate::MAX_ROWS) rows, else
/// [`Refusal::Misspelt`] when no table in order has this listing, else [`Refusal::TableFull`] when
/// it has more capabilities than rows. Nothing is changed then.
pub fn read_listing(text: &[u8], table: &mut [Cap], tally: &mut Tally) -> Result<(), Refusal> {
    let rows = table.len();
    let table = table.as_mut_ptr();
    value(unsafe { ffi::kz_abi_read_listing(table, rows, tally, text.as_ptr(), text.len()) })?;
    Ok(())
}

impl Sheet {
    /// Reads the text of a sheet: lines such as
    /// `(rule (holder raw cell) (access write) (from kin) keep)`, each ended by a newline, with one space
    /// between words. Each bracket lists one word or more, in any order. A rule gives its result to every
    /// combination of its words, and every combination is given exactly once in the whole text.
    ///
    /// ```
    /// use kelzoud::{Refusal, Sheet};
    ///
    /// let text = b"(rule (holder reference cell) (access read) (from cell kin stranger) lower)\n\
    ///     (rule (holder raw) (access read) (from cell kin stranger) keep)\n\
    ///     (rule (holder reference raw cell) (access write) (from cell) keep)\n\
    ///     (rule (holder raw) (access write) (from kin) keep)\n\
    ///     (rule (holder reference cell) (access write) (from kin) end)\n\
    ///     (rule (holder reference raw cell) (access write) (from stranger) end)\n";
    /// assert_eq!(Sheet::read(text), Ok(Sheet::DEFAULT));
    /// assert_eq!(Sheet::read(b""), Err(Refusal::NotGiven));
    /// ```
    ///
    /// # Errors
    ///
    /// Over the whole text [`Refusal::Misspelt`] where a line is not of this form, else
    /// [`Refusal::GivenTwice`], else [`Refusal::NotGiven`].
    pub fn read(text: &[u8]) -> Result<Sheet, Refusal> {
        let mut bytes = [0; Sheet::PLACES];
        value(unsafe { ffi::kz_abi_read_sheet(text.as_ptr(), text.len(), &mut bytes) })?;
        Ok(Sheet::from_bytes(bytes))
    }

    /// Writes one text of the sheet to the start of the buffer, and answers its length, at most
    /// [`MAX_SHEET`](crate::MAX_SHEET). The bytes after it stay. It has a line for each combination, by
    /// rising place, and reads back to the sheet.
    ///
    /// # Errors
    ///
    /// [`Refusal::BufferTooShort`], with the buffer untouched.
    pub fn write(&self, out: &mut [u8]) -> Result<usize, Refusal> {
        let sheet = self.as_bytes().as_ptr();
        let size = out.len();
        let out = out.as_mut_ptr();
        length(unsafe { ffi::kz_abi_write_sheet(sheet, Sheet::PLACES, out, size) })
    }
}

/// Writes what the program `capcheck` prints for an input to the start of the buffer, and answers
/// its length. The bytes after it stay. It begins with [no address written](Written::NONE) and
/// [nothing stored](States::NOTHING), and has no limits. The states are its working space: what stands
/// there before is not looked at, and what stands there afterwards is not said.
///
/// # Errors
///
/// [`Refusal::BufferTooShort`], with the buffer untouched.
pub fn check(states: &mut States, input: &[u8], out: &mut [u8]) -> Result<usize, Refusal> {
    let answer = unsafe {
        ffi::kz_abi_check(
            input.as_ptr(),
            input.len(),
            states.rows.as_mut_ptr(),
            States::ROWS,
            states.written.as_mut_ptr(),
            States::BYTES,
            out.as_mut_ptr(),
            out.len(),
        )
    };
    length(answer)
}
