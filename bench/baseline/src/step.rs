//! Events on a lent table, written bits, states and tally, one or many.

use crate::domain::{Room, holds};
use crate::event::{BACK, Event, Kind, MARK, Refusal};
use crate::order::{
    CELL, Cap, EMPTY, Index, MAX_DEPTH, MAX_NAME, MAX_ROWS, RAW, REFERENCE, SLOTS, Span, find,
};
use crate::sheet::{Sheet, Take};
use crate::states::{States, Stored, is_slot};
use crate::written::{FRESH, Written};

#[repr(C)]
#[derive(Clone, Copy, Debug, Default, PartialEq, Eq)]
pub struct Tally {
    pub issued: u32,
    pub creates: u32,
    pub borrows: u32,
    pub reads: u32,
    pub writes: u32,
    pub drops: u32,
    pub refused: u32,
}

impl Tally {
    fn count_allowed(&mut self, kind: Kind) {
        let count = match kind {
            Kind::Create => &mut self.creates,
            Kind::Borrow => &mut self.borrows,
            Kind::Read => &mut self.reads,
            Kind::Write => &mut self.writes,
            Kind::Drop => &mut self.drops,
            Kind::Mark | Kind::Back => return,
        };
        *count = count.saturating_add(1);
    }
}

/// What a caller lends for events.
pub struct Lent<'a> {
    pub table: &'a mut [Cap],
    pub written: &'a mut [u8],
    /// The memory for states: rows, and their written bits.
    pub stored: &'a mut [Cap],
    pub stored_bits: &'a mut [u8],
    pub tally: &'a mut Tally,
    /// The conflict sheet, none of it for the default one.
    pub sheet: &'a [u8],
    /// The limits of the domains, none of them where only the rows are a limit.
    pub limits: &'a [u32],
}

/// Work on a lent table that is in order.
pub(crate) trait Work {
    type Answer;

    fn on<const ROWS: usize>(self, ordered: Ordered<ROWS>) -> Self::Answer;
}

/// Checks the order of a lent table once and works on it by the sheet and within the limits; nothing where
/// the table is disordered, the written bits or the memory for states are not as many as there have to be, or the
/// limits are refused.
/// What is kept beside the table is as large as the table needs: clearing it is a good part of the
/// time for few rows.
pub(crate) fn in_order<W: Work>(lent: Lent, work: W) -> Option<W::Answer> {
    match lent.table.len() {
        0..=16 => in_rows::<16, 32, W>(lent, work),
        17..=64 => in_rows::<64, 128, W>(lent, work),
        65..=256 => in_rows::<256, 512, W>(lent, work),
        257..=MAX_ROWS => in_rows::<MAX_ROWS, SLOTS, W>(lent, work),
        _ => None,
    }
}

fn in_rows<const ROWS: usize, const SLOTS: usize, W: Work>(
    lent: Lent,
    work: W,
) -> Option<W::Answer> {
    let written = Written::lent(lent.written)?;
    let states = States::lent(lent.stored, lent.stored_bits)?;
    let sheet = Sheet::lent(lent.sheet);
    let mut index = Index::<ROWS>::of::<SLOTS>(lent.table, lent.tally.issued)?;
    let mut room = match lent.limits {
        [] => None,
        limits => {
            let live = &lent.table[..index.live];
            Some(Room::of(limits, live, lent.table.len())?)
        }
    };
    Some(work.on(Ordered {
        table: lent.table,
        index: &mut index,
        written,
        states,
        tally: lent.tally,
        sheet: sheet.as_ref(),
        limits: lent.limits,
        room: room.as_mut(),
    }))
}

/// One event: the new name (0 where none is made), or the refusal. Whoever has its values in another layout
/// need not copy them first.
pub fn apply(lent: Lent, event: impl Into<Event>) -> Result<u32, Refusal> {
    let one = One(event.into());
    in_order(lent, one).unwrap_or(Err(Refusal::Disordered))
}

struct One(Event);

impl Work for One {
    type Answer = Result<u32, Refusal>;

    fn on<const ROWS: usize>(self, mut ordered: Ordered<ROWS>) -> Self::Answer {
        ordered.step(self.0)
    }
}

/// A lent table whose order the index vouches for, its written bits and its tally. The index follows the table.
pub(crate) struct Ordered<'a, const ROWS: usize> {
    pub(crate) table: &'a mut [Cap],
    pub(crate) index: &'a mut Index<ROWS>,
    pub(crate) written: Written<'a>,
    pub(crate) states: States<'a>,
    pub(crate) tally: &'a mut Tally,
    /// The sheet by which events are carried out, where it is not the default one.
    pub(crate) sheet: Option<&'a Sheet>,
    /// The limits, none where none are lent.
    pub(crate) limits: &'a [u32],
    /// What the limits leave to each domain, where limits are lent. It follows the table.
    pub(crate) room: Option<&'a mut Room>,
}

/// A mark for each live row, of the bits below.
type Marks<const ROWS: usize> = [u8; ROWS];

/// The row is taken from, and so are all below it.
const STRUCK: u8 = 1;

/// The row is the user of an access or above it: it is not taken from.
const SPARED: u8 = 2;

/// The row is inside the cell that an access comes from, and so are all below it.
const INSIDE: u8 = 4;

/// The row becomes read-only, and so do all below it.
const LOWERED: u8 = 8;

/// The bits that a row has from its parent.
const INHERITED: u8 = STRUCK | INSIDE | LOWERED;

/// What a read, a write or a create strikes.
#[derive(Clone, Copy)]
struct Access {
    span: Span,
    is_read: bool,
    /// The bits without which a row is out of reach.
    reach: u8,
}

impl Access {
    #[inline(always)]
    fn touches(&self, row: &Cap) -> bool {
        row.span().touches(self.span)
    }

    /// Whether it strikes by itself a row with this mark, whose parent has that one. A raw row is kept by
    /// every read, and by a write from below its parent, which is spared then.
    #[inline(always)]
    fn strikes(&self, row: &Cap, mark: u8, parent: u8) -> bool {
        let is_in_reach = mark & (SPARED | self.reach) == self.reach;
        let keeps_raw = self.is_read | (parent & SPARED != 0);
        self.touches(row) & is_in_reach & !((row.kind == RAW) & keeps_raw)
    }

    /// The bits that a row gets by itself.
    #[inline(always)]
    fn takes(&self, row: &Cap, mark: u8, parent: u8) -> u8 {
        match self.strikes(row, mark, parent) {
            true => STRUCK,
            false => 0,
        }
    }
}

/// The same by a sheet other than the default one.
#[derive(Clone, Copy)]
struct AccessBy {
    span: Span,
    /// The bits for the row's kind times 3, plus where the access comes from.
    bits: [u8; 16],
    /// The bits without which a row is outside the cell that the access comes from.
    reach: u8,
}

impl AccessBy {
    /// The bits that a row with this mark gets by itself, whose parent has that one.
    #[inline(always)]
    fn takes(&self, row: &Cap, mark: u8, parent: u8) -> u8 {
        let is_inside = mark & self.reach == self.reach;
        let is_stranger = parent & SPARED == 0;
        let from = usize::from(is_inside) + usize::from(is_inside & is_stranger);
        let is_met = (mark & SPARED == 0) & row.span().touches(self.span);
        let bits = self.bits[(row.kind as usize * 3 + from) % self.bits.len()];
        if is_met { bits } else { 0 }
    }
}

/// Takes nothing from any row by itself.
fn none(_: &Cap, _: u8, _: u8) -> u8 {
    0
}

impl<const ROWS: usize> Ordered<'_, ROWS> {
    #[inline]
    pub(crate) fn step(&mut self, event: Event) -> Result<u32, Refusal> {
        match event.kind {
            MARK => return self.store(event),
            BACK => return self.go_back(event),
            _ => {}
        }
        match self.judge(event) {
            Ok((kind, user)) => Ok(self.carry_out(event, kind, user)),
            Err(refusal) => Err(self.refuse(refusal)),
        }
    }

    /// Drops the names of a group, with their subtrees, or none.
    pub(crate) fn drop_group(&mut self, actor: u32, names: &[u32]) -> Result<(), Refusal> {
        let mut marks = [0; ROWS];
        let mut first = self.index.live;
        for name in names {
            match self.row_of(*name, actor) {
                Ok(at) => {
                    marks[at] = STRUCK;
                    first = first.min(at);
                }
                Err(refusal) => return Err(self.refuse(refusal)),
            }
        }
        self.tally.count_allowed(Kind::Drop);
        self.remove::<false>(&mut marks, first, none);
        Ok(())
    }

    /// Stores the table and its written bits.
    #[inline(never)]
    fn store(&mut self, event: Event) -> Result<u32, Refusal> {
        if event.known_kind().is_none() {
            return Err(self.refuse(Refusal::Misspelt));
        }
        let live = &self.table[..self.index.live];
        let (slot, rows) = (event.name as usize, self.table.len());
        self.states.store(slot, live, rows, self.written.bytes());
        Ok(0)
    }

    /// Brings back what is stored, which is judged before the event is.
    #[inline(never)]
    fn go_back(&mut self, event: Event) -> Result<u32, Refusal> {
        let slot = event.name as usize;
        let is_stored = is_slot(event.name) && self.states.is_stored(slot);
        let fitting = match is_stored {
            true => Some(self.fitting(slot).ok_or(Refusal::Disordered)?),
            false => None,
        };
        if event.known_kind().is_none() {
            return Err(self.refuse(Refusal::Misspelt));
        }
        let (Some((index, room)), Some(stored)) = (fitting, self.states.stored(slot)) else {
            return Err(self.refuse(Refusal::NothingStored));
        };
        let (kept, live) = (stored.kept.len(), self.index.live);
        self.table[..kept].copy_from_slice(stored.kept);
        self.table[kept..live.max(kept)].fill(EMPTY);
        self.written.copy_from(self.states.written(slot));
        *self.index = index;
        if let (Some(present), Some(room)) = (&mut self.room, room) {
            **present = room;
        }
        Ok(0)
    }

    /// The index of a stored table and the room that the limits leave beside it; nothing where it has another
    /// number of rows, is not in order, or exceeds the limits.
    fn fitting(&self, slot: usize) -> Option<(Index<ROWS>, Option<Room>)> {
        let Stored { rows, kept } = self.states.stored(slot)?;
        if rows != self.table.len() {
            return None;
        }
        let issued = self.tally.issued;
        // Two slots for a row, as where the table is lent.
        let index = match ROWS {
            16 => Index::of::<32>(kept, issued)?,
            64 => Index::of::<128>(kept, issued)?,
            256 => Index::of::<512>(kept, issued)?,
            _ => Index::of::<SLOTS>(kept, issued)?,
        };
        let room = match self.limits {
            [] => None,
            limits => Some(Room::of(limits, &kept[..index.live], rows)?),
        };
        Some((index, room))
    }

    /// Counts a refusal.
    pub(crate) fn refuse(&mut self, refusal: Refusal) -> Refusal {
        self.tally.refused = self.tally.refused.saturating_add(1);
        refusal
    }

    /// The event's kind and the row that it goes through (none for a create), or the first refusal.
    fn judge(&self, event: Event) -> Result<(Kind, Option<usize>), Refusal> {
        let kind = event.known_kind().ok_or(Refusal::Misspelt)?;
        if kind.has_span() && !event.is_in_place(kind) {
            return Err(Refusal::IllegalSpan);
        }
        let user = match kind.has_name() {
            true => Some(self.judge_user(event, kind)?),
            false => None,
        };
        if kind.makes() {
            self.judge_room(event)?;
        }
        Ok((kind, user))
    }

    /// The row of a name, which the domain that acts must hold.
    fn row_of(&self, name: u32, actor: u32) -> Result<usize, Refusal> {
        if name == 0 || name > self.tally.issued {
            return Err(Refusal::Unissued);
        }
        let at = find(&self.table[..self.index.live], name).ok_or(Refusal::Ended)?;
        match holds(self.table[at].holders(), actor) {
            true => Ok(at),
            false => Err(Refusal::NotHolder),
        }
    }

    fn judge_user(&self, event: Event, kind: Kind) -> Result<usize, Refusal> {
        let at = self.row_of(event.name, event.actor)?;
        let user = &self.table[at];
        if kind.has_span() && !event.span().is_inside(user.span()) {
            return Err(Refusal::OutsideSpan);
        }
        let needs_read_write = match kind {
            Kind::Write => true,
            Kind::Borrow => event.right == 2,
            _ => false,
        };
        if needs_read_write && user.right != 2 {
            return Err(Refusal::ReadOnly);
        }
        let is_marked_read = kind == Kind::Read && user.fresh == FRESH;
        if is_marked_read && !self.written.are_set(event.span()) {
            return Err(Refusal::NotWritten);
        }
        if kind == Kind::Borrow && user.depth == MAX_DEPTH {
            return Err(Refusal::TooDeep);
        }
        Ok(at)
    }

    /// Where limits are lent their sum is within the rows, so that a row is empty wherever room is left.
    fn judge_room(&self, event: Event) -> Result<(), Refusal> {
        if self.tally.issued == MAX_NAME {
            return Err(Refusal::NamesSpent);
        }
        let next = self.tally.issued + 1;
        if event.written.is_some_and(|name| name != next) {
            return Err(Refusal::Misnamed);
        }
        match &self.room {
            None if self.index.live == self.table.len() => Err(Refusal::TableFull),
            Some(room) if !room.is_left(event.actor) => Err(Refusal::LimitReached),
            _ => Ok(()),
        }
    }

    fn carry_out(&mut self, event: Event, kind: Kind, user: Option<usize>) -> u32 {
        self.tally.count_allowed(kind);
        match kind {
            Kind::Create => self.written.clear(event.span()),
            Kind::Write => self.written.set(event.span()),
            _ => {}
        }
        match (kind, user) {
            (Kind::Borrow, _) => {}
            (Kind::Drop, Some(at)) => {
                let mut marks = [0; ROWS];
                marks[at] = STRUCK;
                self.remove::<false>(&mut marks, at, none);
            }
            _ => match self.sheet {
                None => self.access(kind, user, event.span()),
                Some(sheet) => self.access_by(sheet, kind, user, event.span()),
            },
        }
        match kind.makes() {
            true => self.append(event, user),
            false => 0,
        }
    }

    /// What a read, a write or a create takes by the default sheet; a create is a write that no row is
    /// the user of.
    fn access(&mut self, kind: Kind, user: Option<usize>, span: Span) {
        let mut marks = [0; ROWS];
        let mut access = Access {
            span,
            is_read: kind == Kind::Read,
            reach: 0,
        };
        let cell = self.spare(&mut marks, user);
        let first = match cell {
            Some(cell) if !access.is_read => {
                access.reach = INSIDE;
                self.first_inside(&mut marks, cell, access)
            }
            _ => self.first_struck(&marks, access),
        };
        let takes = |row: &Cap, mark, parent| access.takes(row, mark, parent);
        match access.is_read {
            true => self.lower(&mut marks, first, takes),
            false => self.remove::<false>(&mut marks, first, takes),
        }
    }

    /// The same by another sheet. Rows before the first that is touched, and before the cell that the
    /// access comes from, inherit nothing.
    #[inline(never)]
    fn access_by(&mut self, sheet: &Sheet, kind: Kind, user: Option<usize>, span: Span) {
        let live = self.index.live;
        let mut rows = self.table[..live].iter();
        let Some(touched) = rows.position(|row| row.span().touches(span)) else {
            return;
        };
        let mut marks = [0; ROWS];
        let cell = self.spare(&mut marks, user);
        if let Some(cell) = cell {
            marks[cell] |= INSIDE;
        }
        let takes = match kind {
            Kind::Read => &sheet.reads,
            _ => &sheet.writes,
        };
        let mut bits = [0; 16];
        for (bits, take) in bits.iter_mut().zip(takes) {
            *bits = match take {
                Take::Nothing => 0,
                Take::ReadWrite => LOWERED,
                Take::Life => STRUCK,
            };
        }
        let access = AccessBy {
            span,
            bits,
            reach: if cell.is_some() { INSIDE } else { 0 },
        };
        let takes = |row: &Cap, mark, parent| access.takes(row, mark, parent);
        let mut first = touched.min(cell.unwrap_or(touched));
        while first < live {
            let mark = self.mark(&mut marks, first, takes);
            if mark & STRUCK != 0 {
                break;
            }
            self.lower_row(first, mark & LOWERED != 0);
            first += 1;
        }
        self.remove::<true>(&mut marks, first, takes);
    }

    /// Marks the user of an access and all above it: the cell among them that is nearest to the user.
    #[inline]
    fn spare(&self, marks: &mut Marks<ROWS>, user: Option<usize>) -> Option<usize> {
        let mut cell = None;
        let mut next = user;
        while let Some(at) = next {
            marks[at] = SPARED;
            if cell.is_none() && self.table[at].kind == CELL {
                cell = next;
            }
            next = self.index.parent(at);
        }
        cell
    }

    fn append(&mut self, event: Event, parent: Option<usize>) -> u32 {
        let (parent_name, parent_depth, kind, fresh) = match parent {
            Some(at) => {
                let row = &self.table[at];
                (row.name, row.depth, event.cap_kind.into(), row.fresh)
            }
            None => (0, 0, REFERENCE, event.fresh.into()),
        };
        self.tally.issued += 1;
        if let Some(room) = &mut self.room {
            room.take(event.actor);
        }
        let row = self.index.live;
        let held = EMPTY.held_by(event.holders);
        self.table[row] = Cap {
            name: self.tally.issued,
            parent: parent_name,
            start: event.start,
            length: event.length,
            right: u32::from(event.right),
            depth: parent_depth + 1,
            kind,
            fresh,
            maker: event.actor,
            ..held
        };
        self.index.parents[row] = parent.unwrap_or(row) as u16;
        self.index.live = row + 1;
        self.tally.issued
    }

    /// The first row that a write from inside the cell strikes by itself. What is inside stands behind
    /// the cell, and the rows up to the one that is found are marked.
    #[inline]
    fn first_inside(&self, marks: &mut Marks<ROWS>, cell: usize, access: Access) -> usize {
        marks[cell] |= INSIDE;
        let takes = |row: &Cap, mark, parent| access.takes(row, mark, parent);
        let is_struck = |at: &usize| self.mark(marks, *at, takes) & STRUCK != 0;
        let live = self.index.live;
        (cell + 1..live).find(is_struck).unwrap_or(live)
    }

    /// The first row that the access strikes by itself. No row before it can inherit a mark. Most rows
    /// are not touched, so four are looked at for each branch.
    #[inline]
    fn first_struck(&self, marks: &Marks<ROWS>, access: Access) -> usize {
        let rows = &self.table[..self.index.live];
        let touched = |row: &Cap| access.touches(row);
        let struck = |at: &usize| {
            let parent = usize::from(self.index.parents[*at % ROWS]);
            access.strikes(&rows[*at], marks[*at % ROWS], marks[parent % ROWS])
        };
        let mut at = 0;
        for [one, two, three, four] in rows.as_chunks().0 {
            if touched(one) | touched(two) | touched(three) | touched(four)
                && let Some(found) = (at..at + 4).find(struck)
            {
                return found;
            }
            at += 4;
        }
        (at..rows.len()).find(struck).unwrap_or(rows.len())
    }

    /// Marks what is struck from the row `first` on, and lowers it.
    fn lower(&mut self, marks: &mut Marks<ROWS>, first: usize, takes: impl Fn(&Cap, u8, u8) -> u8) {
        for at in first..self.index.live {
            let mark = self.mark(marks, at, &takes);
            self.lower_row(at, mark & STRUCK != 0);
        }
    }

    #[inline(always)]
    fn lower_row(&mut self, at: usize, lowers: bool) {
        let row = &mut self.table[at];
        row.right = if lowers { 1 } else { row.right };
    }

    /// Marks what is struck from the row `first` on, closes the gaps that it leaves, all in one
    /// pass, and clears the rows that come free. Where the access lowers too, so does this. Not inlined,
    /// so that events that end nothing do not make room for its places.
    #[inline(never)]
    fn remove<const LOWERS: bool>(
        &mut self,
        marks: &mut Marks<ROWS>,
        first: usize,
        takes: impl Fn(&Cap, u8, u8) -> u8,
    ) {
        let live = self.index.live;
        if first == live {
            return;
        }
        let mut moved = [0; ROWS];
        for (at, to) in moved[..first].iter_mut().enumerate() {
            *to = at as u16;
        }
        let mut kept = first;
        for at in first..live {
            let mark = self.mark(marks, at, &takes);
            if let Some(room) = &mut self.room {
                room.give_back(self.table[at].maker, mark & STRUCK != 0);
            }
            moved[at] = kept as u16;
            // A row that ends is written too, and the next one is written over it.
            let right = self.table[at].right;
            self.table[kept] = self.table[at];
            if LOWERS {
                self.table[kept].right = if mark & LOWERED != 0 { 1 } else { right };
            }
            self.index.parents[kept] = moved[usize::from(self.index.parents[at]) % ROWS];
            kept += usize::from(mark & STRUCK == 0);
        }
        self.table[kept..live].fill(EMPTY);
        self.index.live = kept;
    }

    /// Marks a row whose parent has been marked: bits are inherited or had before, and it gets those that
    /// `takes` says by itself. A root's parent is its own row, from which it inherits what it had.
    #[inline(always)]
    fn mark(&self, marks: &mut Marks<ROWS>, at: usize, takes: impl Fn(&Cap, u8, u8) -> u8) -> u8 {
        let parent = marks[usize::from(self.index.parents[at]) % ROWS];
        let before = marks[at] | (parent & INHERITED);
        let mark = before | takes(&self.table[at], before, parent);
        marks[at] = mark;
        mark
    }
}
