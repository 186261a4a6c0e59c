//! What is lent for events, and the calls on it.
//!
//! Safety, of each call below: as `calls` says of its own, and a sheet is as many bytes, and limits are
//! as many numbers, as are said.

use core::ptr;

use crate::answers::{split, value};
use crate::{
    charge, ffi, Answer, Cap, Charge, Domain, Limits, Name, Outcome, Refusal, Request, RunAnswer,
    Sheet, States, Tally, Written, DOMAINS, WRITTEN_BYTES,
};

/// What is lent for events: a table, its written bits, room for its states, its tally, the conflict sheet
/// by which events are carried out, and the limits of the domains that act. Each call is the function of
/// its name, by this sheet and within these limits.
///
/// ```
/// use kelzoud::{Cap, Lent, Refusal, RunAnswer, Sheet, States, Tally, Written};
///
/// let mut table = [Cap::EMPTY; 16];
/// let mut written = Written::NONE;
/// let mut states = Box::new(States::NOTHING);
/// let mut tally = Tally::default();
/// let mut lent = Lent::new(&mut table, &mut written, &mut states, &mut tally);
/// lent.sheet = Sheet::read(
///     b"(rule (holder reference raw cell) (access read write) (from cell kin stranger) end)\n",
/// )?;
/// let text = b"(create 0 64 rw)\n(borrow 1 0 8 rw raw)\n(read 1 0 8)\n(read 2 0 8)\n";
/// let refusal = Refusal::Ended;
/// assert_eq!(lent.run(text), RunAnswer::Refused { refusal, line: 4 });
/// # Ok::<(), Refusal>(())
/// ```
///
/// Two domains, of which each may make two capabilities; 1 is held by both, and 2 by domain 3 alone:
///
/// ```
/// use kelzoud::{
///     Addr, Answer, Cap, Charge, Domain, Event, Holders, Kind, Lent, Limits, Name, Refusal, Right, Span,
///     States, Tally, Written,
/// };
///
/// let (zero, three) = (Domain::ZERO, Domain::new(3).unwrap());
/// let mut limits = Limits::NOTHING;
/// (limits[zero], limits[three]) = (2, 2);
/// let mut table = [Cap::EMPTY; 4];
/// let mut written = Written::NONE;
/// let mut states = Box::new(States::NOTHING);
/// let mut tally = Tally::default();
/// let mut lent = Lent {
///     limits: Some(&limits),
///     ..Lent::new(&mut table, &mut written, &mut states, &mut tally)
/// };
/// let (span, right) = (Span { start: Addr(0), length: 65 }, Right::ReadWrite);
/// let both = Some(Holders::of(zero).with(three));
/// let shared = Event::Create { written: None, span, right, fresh: false, holders: both };
/// assert_eq!(lent.apply(shared), Answer::Allowed(Some(Name(1))));
/// assert_eq!(lent.charge(Name(1)), Ok(Charge { share: 32, rest: 1 }));
/// let (parent, kind) = (Name(1), Kind::Reference);
/// let own = Event::Borrow { written: None, parent, span, right, kind, holders: None };
/// assert_eq!(lent.apply(own.by(three)), Answer::Allowed(Some(Name(2))));
/// // It is not domain 0's to use.
/// let read = Event::Read { name: Name(2), span };
/// assert_eq!(lent.apply(read), Answer::Refused(Refusal::NotHolder));
/// assert_eq!(lent.apply(read.by(three)), Answer::Allowed(None));
/// // Domain 3 has one more row, and then none, though one is empty.
/// assert_eq!(lent.apply(own.by(three)), Answer::Allowed(Some(Name(3))));
/// assert_eq!(lent.apply(own.by(three)), Answer::Refused(Refusal::LimitReached));
/// assert_eq!(lent.apply(own), Answer::Allowed(Some(Name(4))));
/// ```
#[derive(Debug)]
pub struct Lent<'a> {
    /// The table.
    pub table: &'a mut [Cap],
    /// Its written bits, the same in all calls with this table.
    pub written: &'a mut Written,
    /// Room for its states, the same in all calls with this table.
    pub states: &'a mut States,
    /// Its tally.
    pub tally: &'a mut Tally,
    /// The sheet, one and the same in all calls with this table.
    pub sheet: Sheet,
    /// How many live capabilities each domain may have made, or nothing where only the rows are a limit.
    pub limits: Option<&'a Limits>,
}

impl<'a> Lent<'a> {
    /// A table, its written bits, room for its states and its tally, lent with the
    /// [default sheet](Sheet::DEFAULT) and without limits.
    pub fn new(
        table: &'a mut [Cap],
        written: &'a mut Written,
        states: &'a mut States,
        tally: &'a mut Tally,
    ) -> Lent<'a> {
        Lent {
            table,
            written,
            states,
            tally,
            sheet: Sheet::DEFAULT,
            limits: None,
        }
    }

    /// One event, as [`apply`](crate::apply) takes it.
    pub fn apply(&mut self, event: impl Into<Request>) -> Answer {
        self.request(event.into(), &[])
    }

    /// Names dropped together, as [`drop_all`](crate::drop_all) takes them. What is dropped ends,
    /// whatever the sheet says.
    pub fn drop_all(&mut self, names: &[Name]) -> Answer {
        self.drop_all_by(Domain::ZERO, names)
    }

    /// The same by any domain, which has to hold each of them: the first that it does not hold is refused
    /// [`NotHolder`](Refusal::NotHolder).
    pub fn drop_all_by(&mut self, actor: Domain, names: &[Name]) -> Answer {
        self.request(Request::drop_all_by(actor, 0..names.len()), names)
    }

    /// What the holders of a live capability are charged, as [`charge`] says it.
    ///
    /// # Errors
    ///
    /// As of [`charge`].
    pub fn charge(&self, name: Name) -> Result<Charge, Refusal> {
        charge(self.table, self.tally.issued, name)
    }

    /// The limits, and how many they are.
    fn limit_numbers(&self) -> (*const u32, usize) {
        match self.limits {
            Some(limits) => (limits.0.as_ptr(), DOMAINS),
            None => (ptr::null(), 0),
        }
    }

    /// One request and the list in which its names stand, if it has some.
    fn request(&mut self, request: Request, names: &[Name]) -> Answer {
        let (limits, limit_count) = self.limit_numbers();
        let answer = unsafe {
            ffi::kz_abi_apply(
                self.table.as_mut_ptr(),
                self.table.len(),
                self.written.0.as_mut_ptr(),
                WRITTEN_BYTES,
                self.states.rows.as_mut_ptr(),
                States::ROWS,
                self.states.written.as_mut_ptr(),
                States::BYTES,
                self.tally,
                self.sheet.as_bytes().as_ptr(),
                Sheet::PLACES,
                limits,
                limit_count,
                ptr::from_ref(&request).cast(),
                names.as_ptr().cast(),
                names.len(),
            )
        };
        Answer::of(value(answer))
    }

    /// Many requests, as [`apply_all`](crate::apply_all) takes them.
    pub fn apply_all<'b>(
        &mut self,
        requests: &[Request],
        names: &[Name],
        answers: &'b mut [Outcome],
    ) -> &'b [Outcome] {
        let (limits, limit_count) = self.limit_numbers();
        let taken = unsafe {
            ffi::kz_abi_apply_all(
                self.table.as_mut_ptr(),
                self.table.len(),
                self.written.0.as_mut_ptr(),
                WRITTEN_BYTES,
                self.states.rows.as_mut_ptr(),
                States::ROWS,
                self.states.written.as_mut_ptr(),
                States::BYTES,
                self.tally,
                self.sheet.as_bytes().as_ptr(),
                Sheet::PLACES,
                limits,
                limit_count,
                requests.as_ptr().cast(),
                requests.len(),
                names.as_ptr().cast(),
                names.len(),
                answers.as_mut_ptr().cast(),
                answers.len(),
            )
        };
        &answers[..taken]
    }

    /// A run of event lines, as [`run`](crate::run) takes them.
    pub fn run(&mut self, text: &[u8]) -> RunAnswer {
        let (limits, limit_count) = self.limit_numbers();
        let answer = unsafe {
            ffi::kz_abi_run(
                self.table.as_mut_ptr(),
                self.table.len(),
                self.written.0.as_mut_ptr(),
                WRITTEN_BYTES,
                self.states.rows.as_mut_ptr(),
                States::ROWS,
                self.states.written.as_mut_ptr(),
                States::BYTES,
                self.tally,
                self.sheet.as_bytes().as_ptr(),
                Sheet::PLACES,
                limits,
                limit_count,
                text.as_ptr(),
                text.len(),
            )
        };
        match split(answer) {
            Ok(lines) => RunAnswer::Allowed { lines },
            Err((refusal, line)) => RunAnswer::Refused { refusal, line },
        }
    }
}
