//! The history: notes, and all that follows from them, worked out from the notes each time.
//!
//! It asks nothing of the lent table's rules: what refuses an event is written here again, kind by kind.

use std::collections::BTreeSet;

use crate::domains::{DOMAINS, holders_of};
use crate::sheet::{Access, Outcome, Sheet, Source};
use crate::span::{ADDRESSES, Span};
use crate::states::SLOTS;
use crate::values::{
    Act, CELL, Event, FRESH, MAX_DEPTH, MAX_GROUP, MAX_NAME, MAX_ROWS, RAW, READ_ONLY, READ_WRITE,
    REFERENCE, Refused, Row,
};
use crate::written::{WRITABLE, Written};

/// An allowed event, and who acted. A create or borrow is noted with the name that it made, the others
/// with 0.
#[derive(Clone, Copy, Debug, PartialEq)]
struct Note {
    made: u32,
    actor: u32,
    event: Event,
}

/// What the note that made a name says of it, and where it stands.
#[derive(Clone, Copy)]
struct Made {
    at: usize,
    parent: u32,
    span: Span,
    right: u8,
    kind: u32,
    maker: u32,
    holders: u64,
}

/// Nothing, or the refusal.
type Judged = Result<(), Refused>;

fn refuse(number: Refused, applies: bool) -> Judged {
    match applies {
        true => Err(number),
        false => Ok(()),
    }
}

fn judge_right(right: u8) -> Judged {
    refuse(2, ![READ_ONLY, READ_WRITE].contains(&right))
}

/// Card 6: kinds are 0, 1 and 2.
fn judge_kind(kind: u32) -> Judged {
    refuse(2, kind > CELL)
}

/// Card 9: marks are 0 and 1.
fn judge_mark(fresh: u32) -> Judged {
    refuse(2, fresh > FRESH)
}

/// Card 10: 'a domain above 63 .. is 2 in an event'.
fn judge_actor(actor: u32) -> Judged {
    refuse(2, actor >= DOMAINS)
}

/// Card 11: 'K above 7 is 2'.
fn judge_slot(slot: u32) -> Judged {
    refuse(2, slot >= SLOTS)
}

/// Card 10: 'a mask without its maker, is 2 in an event'.
fn judge_holders(maker: u32, mask: u64) -> Judged {
    refuse(2, !holders_of(mask).contains(&maker))
}

/// Card 9: 'a `fresh` create ending above 65,536 is refusal 3'.
fn judge_place(span: Span, fresh: u32) -> Judged {
    judge_span(span)?;
    refuse(3, fresh == FRESH && span.end() > u64::from(WRITABLE))
}

fn judge_span(span: Span) -> Judged {
    refuse(3, span.end() > ADDRESSES)
}

#[derive(Clone, Debug, PartialEq)]
pub struct History {
    rows: usize,
    /// The sheet that is kept throughout. Without one card 6's sentences say what is struck.
    sheet: Option<Sheet>,
    notes: Vec<Note>,
    count: u32,
    /// Card 11: the notes that stood at the last mark of each slot.
    kept: [Option<Vec<Note>>; SLOTS as usize],
}

impl History {
    pub fn new(rows: usize) -> History {
        History {
            rows,
            sheet: None,
            notes: Vec::new(),
            count: 0,
            kept: Default::default(),
        }
    }

    /// Card 7: a history that is read by a sheet.
    pub fn by(sheet: Sheet, rows: usize) -> History {
        History {
            sheet: Some(sheet),
            ..History::new(rows)
        }
    }

    /// The count of names.
    pub fn count(&self) -> u32 {
        self.count
    }

    /// The answer to the next event, with which these limits are lent: the new name (0 where none is made),
    /// or the refusal.
    pub fn answer(&mut self, limits: &[u32], act: Act) -> Result<u32, Refused> {
        self.judge(limits, act)?;
        let Act { actor, event } = act;
        match event {
            Event::Mark { slot } => {
                self.kept[slot as usize] = Some(self.notes.clone());
                return Ok(0);
            }
            Event::Back { slot } => {
                self.go_back(slot);
                return Ok(0);
            }
            _ => {}
        }
        let made = match event.makes() {
            true => self.count + 1,
            false => 0,
        };
        self.count = self.count.max(made);
        self.notes.push(Note { made, actor, event });
        Ok(made)
    }

    /// Card 11: 'the history is the one that stood at the mark, except that its count of names stays as it is
    /// now, and names given since are ended', as no note made them.
    fn go_back(&mut self, slot: u32) {
        if let Some(Some(notes)) = self.kept.get(slot as usize) {
            self.notes.clone_from(notes);
        }
    }

    /// Card 5, the answer to names that are dropped together: 0, or the refusal. Allowed, each is noted
    /// as dropped, in falling order.
    pub fn answer_all(
        &mut self,
        limits: &[u32],
        actor: u32,
        names: &[u32],
    ) -> Result<u32, Refused> {
        self.judge_all(limits, actor, names)?;
        let drops = names.iter().rev().map(|name| Note {
            made: 0,
            actor,
            event: Event::Drop { name: *name },
        });
        self.notes.extend(drops);
        Ok(0)
    }

    /// What refuses each kind of event, the lowest number first, with 12 between 9 and 10 (card 1), 16 after
    /// 7 (card 9), 17 after 5 and 18 in the place of 10 (card 10), and 19 after 2 (card 11).
    fn judge(&self, limits: &[u32], act: Act) -> Judged {
        self.judge_lent(limits)?;
        let Act { actor, event } = act;
        if let Event::Back { slot } = event {
            self.judge_going_back(limits, slot)?;
        }
        judge_actor(actor)?;
        match event {
            Event::Create {
                written,
                span,
                right,
                fresh,
                holders,
            } => {
                judge_right(right)?;
                judge_mark(fresh)?;
                judge_holders(actor, holders)?;
                judge_place(span, fresh)?;
                self.judge_new_name(written)?;
                self.judge_room(limits, actor)
            }
            Event::Borrow {
                written,
                parent,
                span,
                right,
                kind,
                holders,
            } => {
                judge_right(right)?;
                judge_kind(kind)?;
                judge_holders(actor, holders)?;
                self.judge_use(actor, parent, span)?;
                refuse(7, right == READ_WRITE && !self.is_read_write(parent))?;
                refuse(8, self.depth(parent) == MAX_DEPTH)?;
                self.judge_new_name(written)?;
                self.judge_room(limits, actor)
            }
            Event::Read { name, span } => {
                self.judge_use(actor, name, span)?;
                refuse(16, self.is_marked(name) && !self.is_written(span))
            }
            Event::Write { name, span } => {
                self.judge_use(actor, name, span)?;
                refuse(7, !self.is_read_write(name))
            }
            Event::Drop { name } => self.judge_name(actor, name),
            Event::Mark { slot } => judge_slot(slot),
            Event::Back { slot } => {
                judge_slot(slot)?;
                refuse(19, self.kept[slot as usize].is_none())
            }
            Event::Unknown => Err(2),
        }
    }

    /// Card 11: 'over a lent limit .. is 1 on going back to it'. Only marks change the memory, so that what is
    /// stored is in order and has as many rows as there are.
    fn judge_going_back(&self, limits: &[u32], slot: u32) -> Judged {
        let mut then = self.clone();
        then.go_back(slot);
        then.judge_lent(limits)
    }

    /// Card 5: the list itself is judged first, and then each name in the order written.
    fn judge_all(&self, limits: &[u32], actor: u32, names: &[u32]) -> Judged {
        self.judge_lent(limits)?;
        let is_too_few_or_many = !(1..=MAX_GROUP).contains(&names.len());
        let rises_strictly = names.is_sorted_by(|one, next| one < next);
        refuse(13, is_too_few_or_many || !rises_strictly)?;
        judge_actor(actor)?;
        let mut names = names.iter();
        names.try_for_each(|name| self.judge_name(actor, *name))
    }

    /// Nobody else writes the table, so that it is out of order only if it is too large. The limits that are
    /// lent with the event may be refused.
    fn judge_lent(&self, limits: &[u32]) -> Judged {
        refuse(1, self.rows > MAX_ROWS || self.is_refused(limits))
    }

    /// Card 10: limits 'of another length, or whose sum is above the rows, or which a lent table already
    /// exceeds'. None at all are no limits.
    fn is_refused(&self, limits: &[u32]) -> bool {
        if limits.is_empty() {
            return false;
        }
        let sum: u64 = limits.iter().copied().map(u64::from).sum();
        if limits.len() != DOMAINS as usize || sum > self.rows as u64 {
            return true;
        }
        let mut spare = limits.to_vec();
        self.makers().into_iter().any(|maker| {
            let left = &mut spare[maker as usize];
            let is_exceeded = *left == 0;
            *left = left.saturating_sub(1);
            is_exceeded
        })
    }

    /// The makers of what lives, one for each name.
    fn makers(&self) -> Vec<u32> {
        let made = self.living().filter_map(|name| self.made(name));
        made.map(|made| made.maker).collect()
    }

    fn judge_use(&self, actor: u32, name: u32, span: Span) -> Judged {
        judge_span(span)?;
        self.judge_name(actor, name)?;
        let within = |made: Made| span.is_inside(made.span);
        refuse(6, !self.made(name).is_some_and(within))
    }

    fn judge_name(&self, actor: u32, name: u32) -> Judged {
        refuse(4, name == 0 || name > self.count)?;
        refuse(5, !self.lives(name))?;
        refuse(17, !self.is_held(name, actor))
    }

    /// Card 10: whether the name was noted with this domain among its holders.
    fn is_held(&self, name: u32, domain: u32) -> bool {
        self.made(name)
            .is_some_and(|made| holders_of(made.holders).contains(&domain))
    }

    fn judge_new_name(&self, written: Option<u32>) -> Judged {
        refuse(9, self.count == MAX_NAME)?;
        refuse(12, written.is_some_and(|name| name != self.count + 1))
    }

    /// Without limits an empty row is needed, and with them one that the domain may still make.
    fn judge_room(&self, limits: &[u32], actor: u32) -> Judged {
        let makers = self.makers();
        let Some(limit) = limits.get(actor as usize) else {
            return refuse(10, makers.len() == self.rows);
        };
        let its = makers.iter().filter(|maker| **maker == actor);
        refuse(18, its.count() as u64 >= u64::from(*limit))
    }

    /// The history's table: a row for each living name, rising, then zeros.
    pub fn table(&self) -> Vec<Row> {
        let mut rows: Vec<Row> = self.living().filter_map(|name| self.row(name)).collect();
        rows.resize(self.rows, Row::default());
        rows
    }

    fn living(&self) -> impl Iterator<Item = u32> {
        let names = self.notes.iter().map(|note| note.made);
        names.filter(|name| self.lives(*name))
    }

    fn row(&self, name: u32) -> Option<Row> {
        let made = self.made(name)?;
        let right = match self.is_read_write(name) {
            true => READ_WRITE,
            false => READ_ONLY,
        };
        Some(Row {
            name,
            parent: made.parent,
            start: made.span.start,
            length: made.span.length,
            right: right.into(),
            depth: self.depth(name),
            kind: made.kind,
            fresh: self.mark(name),
            maker: made.maker,
            holders: made.holders,
        })
    }

    fn made(&self, name: u32) -> Option<Made> {
        let made_it = |note: &Note| name != 0 && note.made == name;
        let at = self.notes.iter().position(made_it)?;
        let Note { actor, event, .. } = self.notes[at];
        Some(Made {
            at,
            parent: event.user().unwrap_or(0),
            span: event.span()?,
            right: event.right()?,
            kind: event.kind().unwrap_or(REFERENCE),
            maker: actor,
            holders: event.holders()?,
        })
    }

    /// Whether the name was noted with this kind.
    fn is_of_kind(&self, name: u32, kind: u32) -> bool {
        self.made(name).is_some_and(|made| made.kind == kind)
    }

    /// Card 9: the mark that a name's root was noted with, which the borrows below it carry.
    fn mark(&self, name: u32) -> u32 {
        let root = self.ancestry(name).last().and_then(|root| self.made(*root));
        let noted = root.and_then(|root| self.notes[root.at].event.fresh());
        noted.unwrap_or(0)
    }

    fn is_marked(&self, name: u32) -> bool {
        self.mark(name) == FRESH
    }

    /// Card 9: whether an address is 'written since the last allowed create over it', that is, whether of
    /// the notes of writes and creates over it the last is a write.
    fn is_address_written(&self, address: u64) -> bool {
        let last = self.notes.iter().rev().find(|note| match note.event {
            Event::Create { span, .. } | Event::Write { span, .. } => span.has(address),
            _ => false,
        });
        last.is_some_and(|note| matches!(note.event, Event::Write { .. }))
    }

    /// Addresses of a span that tell of all of them: its first, and each at which the span of a create or
    /// write starts or has come to its end. Up to the next of these the notes over an address are the same.
    fn telling(&self, span: Span) -> BTreeSet<u64> {
        let noted = self.notes.iter().filter_map(|note| match note.event {
            Event::Create { span, .. } | Event::Write { span, .. } => Some(span),
            _ => None,
        });
        let edges = noted.flat_map(|noted| [noted.start.into(), noted.end()]);
        let all = edges.chain([span.start.into()]);
        all.filter(|address| span.has(*address)).collect()
    }

    /// Whether each address of a span is written.
    fn is_written(&self, span: Span) -> bool {
        match span.is_short() {
            true => span
                .addresses()
                .all(|address| self.is_address_written(address)),
            false => self
                .telling(span)
                .into_iter()
                .all(|address| self.is_address_written(address)),
        }
    }

    /// The addresses that are written.
    pub fn written(&self) -> Written {
        let whole = Span {
            start: 0,
            length: WRITABLE,
        };
        let starts = self.telling(whole);
        let ends = starts.iter().copied().skip(1).chain([whole.end()]);
        let mut written = Written::default();
        for (start, end) in starts.iter().zip(ends) {
            if self.is_address_written(*start) {
                written.add(Span {
                    start: *start as u32,
                    length: (end - start) as u32,
                });
            }
        }
        written
    }

    /// The name, its noted parent, and so on up to its root.
    fn ancestry(&self, name: u32) -> Vec<u32> {
        let mut path = Vec::new();
        let mut at = name;
        while let Some(made) = self.made(at) {
            path.push(at);
            at = made.parent;
        }
        path
    }

    fn depth(&self, name: u32) -> u32 {
        self.ancestry(name).len() as u32
    }

    /// Whether the one name is in the subtree of the other.
    fn is_in_subtree(&self, name: u32, of: u32) -> bool {
        self.ancestry(name).contains(&of)
    }

    /// Whether a read, write or create through `user`, of a create the name that it made, touches the
    /// name's span from outside the name's subtree.
    fn meets(&self, user: u32, span: Span, name: u32) -> bool {
        let touches = self.made(name).is_some_and(|made| made.span.touches(span));
        touches && !self.is_in_subtree(user, name)
    }

    /// Card 6: no read strikes a raw name.
    fn read_strikes(&self, user: u32, span: Span, name: u32) -> bool {
        self.meets(user, span, name) && !self.is_of_kind(name, RAW)
    }

    /// Card 6: a write strikes no raw name from the subtree of its parent, and from the subtree of a cell
    /// no name that is not in it.
    fn write_strikes(&self, user: u32, span: Span, name: u32) -> bool {
        self.meets(user, span, name)
            && !self.is_raw_beside(user, name)
            && !self.is_outside_a_cell_of(user, name)
    }

    fn is_raw_beside(&self, user: u32, name: u32) -> bool {
        let of_raw = self.made(name).filter(|made| made.kind == RAW);
        of_raw.is_some_and(|made| self.is_in_subtree(user, made.parent))
    }

    fn is_outside_a_cell_of(&self, user: u32, name: u32) -> bool {
        let path = self.ancestry(user);
        let mut cells = path.iter().filter(|above| self.is_of_kind(**above, CELL));
        cells.any(|cell| !self.is_in_subtree(name, *cell))
    }

    /// Card 6: what an access does to a name.
    fn outcome_by_card_6(&self, access: Access, user: u32, span: Span, name: u32) -> Outcome {
        match access {
            Access::Read if self.read_strikes(user, span, name) => Outcome::Lower,
            Access::Write if self.write_strikes(user, span, name) => Outcome::End,
            _ => Outcome::Keep,
        }
    }

    /// Card 7: where an access comes from, for a name that it meets.
    fn source(&self, user: u32, name: u32) -> Source {
        if self.is_outside_a_cell_of(user, name) {
            return Source::Cell;
        }
        let parent = self.made(name).map(|made| made.parent);
        match parent.is_some_and(|parent| self.is_in_subtree(user, parent)) {
            true => Source::Kin,
            false => Source::Stranger,
        }
    }

    /// What a noted event does to a name that is not dropped by it. Card 4: a create counts as a write
    /// through the name that it made; card 7: it acts as a stranger's.
    fn outcome(&self, note: &Note, name: u32) -> Outcome {
        let (access, user, span) = match note.event {
            Event::Read { name, span } => (Access::Read, name, span),
            Event::Write { name, span } => (Access::Write, name, span),
            Event::Create { span, .. } => (Access::Write, note.made, span),
            _ => return Outcome::Keep,
        };
        let Some(sheet) = &self.sheet else {
            return self.outcome_by_card_6(access, user, span, name);
        };
        if !self.meets(user, span, name) {
            return Outcome::Keep;
        }
        let source = match note.event.makes() {
            true => Source::Stranger,
            false => self.source(user, name),
        };
        let kind = self.made(name).map_or(REFERENCE, |made| made.kind);
        sheet.outcome((kind, access, source))
    }

    /// Whether a note later than the one that made the name is one of those that take something from
    /// it.
    fn any_later(&self, made: Made, takes: impl Fn(&Note) -> bool) -> bool {
        self.notes[made.at + 1..].iter().any(takes)
    }

    /// Whether the name was made and nothing later ended it or an ancestor of it.
    pub fn lives(&self, name: u32) -> bool {
        let path = self.ancestry(name);
        let ends = |note: &Note| match note.event {
            Event::Drop { name } => path.contains(&name),
            _ => path
                .iter()
                .any(|at| self.outcome(note, *at) == Outcome::End),
        };
        self.made(name)
            .is_some_and(|made| !self.any_later(made, ends))
    }

    /// Whether the name was made writable and nothing later took that away from it or an ancestor of it.
    pub fn is_read_write(&self, name: u32) -> bool {
        let path = self.ancestry(name);
        let lowers = |note: &Note| {
            path.iter()
                .any(|at| self.outcome(note, *at) == Outcome::Lower)
        };
        self.made(name)
            .is_some_and(|made| made.right == READ_WRITE && !self.any_later(made, lowers))
    }

    /// Demand 3 of a read: that of any use, and by card 9 each address is written where the capability is
    /// marked.
    pub fn may_read(&self, limits: &[u32], actor: u32, name: u32, span: Span) -> bool {
        self.may_use(limits, actor, name, span) && (!self.is_marked(name) || self.is_written(span))
    }

    /// The capability was made, the span is legal and within its own, and it lives. By card 10 the actor is
    /// a holder of it, and no refused limits are lent with the event.
    fn may_use(&self, limits: &[u32], actor: u32, name: u32, span: Span) -> bool {
        let within = |made: Made| span.is_legal() && span.is_inside(made.span);
        self.made(name).is_some_and(within)
            && self.lives(name)
            && self.is_held(name, actor)
            && !self.is_refused(limits)
    }

    /// Demand 3 of a write: that of any use, and the capability is still writable.
    pub fn may_write(&self, limits: &[u32], actor: u32, name: u32, span: Span) -> bool {
        self.may_use(limits, actor, name, span) && self.is_read_write(name)
    }
}

#[cfg(test)]
mod tests {
    use super::*;

    fn create(written: Option<u32>) -> Act {
        let event = Event::Create {
            written,
            span: Span {
                start: 0,
                length: 8,
            },
            right: READ_WRITE,
            fresh: 0,
            holders: 1,
        };
        Act { actor: 0, event }
    }

    /// A list that gives out a million names is too long to be compared, so that this begins near
    /// the last one.
    #[test]
    fn the_last_name() {
        let mut history = History::new(1);
        history.count = MAX_NAME - 1;
        let mut answer = |written| history.answer(&[], create(written));
        assert_eq!(answer(Some(MAX_NAME - 1)), Err(12));
        assert_eq!(answer(Some(MAX_NAME)), Ok(MAX_NAME));
        // 9 stands before 12, and both before 10 and 18.
        assert_eq!(answer(None), Err(9));
        assert_eq!(answer(Some(MAX_NAME + 1)), Err(9));
        assert_eq!(answer(Some(7)), Err(9));
        let mut limits = [0; 64];
        limits[0] = 1;
        assert_eq!(history.answer(&limits, create(None)), Err(9));
        assert_eq!(history.count(), MAX_NAME);
    }
}
