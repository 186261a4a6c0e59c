//! The lent table, written addresses, states, tally and limits: when a table is in order, what refuses an
//! event, what an event does.

use std::collections::BTreeSet;

use crate::domains::{Limits, holders_of, is_domain};
use crate::sheet::{Access, Combination, Outcome, Sheet, Source};
use crate::span::Span;
use crate::states::{Slot, State, States, is_slot};
use crate::values::{
    Act, CELL, Event, FRESH, MAX_DEPTH, MAX_NAME, MAX_ROWS, RAW, READ_ONLY, READ_WRITE, REFERENCE,
    Refused, Row, Tally,
};
use crate::written::{WRITABLE, Written};

/// The rows up to the last that is not all zeros.
pub fn live_rows(rows: &[Row]) -> &[Row] {
    let last = rows.iter().rposition(|row| *row != Row::default());
    &rows[..last.map_or(0, |last| last + 1)]
}

/// What is lent, and follows the events.
pub struct Lent<'a> {
    pub rows: &'a mut [Row],
    /// Nothing where the lent bytes are not as many as there have to be.
    pub written: Option<&'a mut Written>,
    /// Nothing where the lent memory is not as large as it has to be.
    pub states: Option<&'a mut States>,
    pub tally: &'a mut Tally,
}

impl Lent<'_> {
    /// The same, to be lent once more.
    pub fn again(&mut self) -> Lent<'_> {
        Lent {
            rows: self.rows,
            written: self.written.as_deref_mut(),
            states: self.states.as_deref_mut(),
            tally: self.tally,
        }
    }

    /// Refusal 1 of every request: 'table not in order', and with card 9 bytes of another length, with card
    /// 10 refused limits, with card 11 memory of another size.
    pub fn is_unfit(&self, limits: &Limits) -> bool {
        self.written.is_none()
            || self.states.is_none()
            || !in_order(self.rows, self.tally.issued)
            || limits.is_refused(self.rows)
    }
}

/// What is lent besides, which no event changes: the sheet by which events strike, without which card 6's
/// sentences say what is struck, and the numbers of limits, none where there are no limits.
#[derive(Clone, Copy, Debug, Default)]
pub struct By<'a> {
    pub sheet: Option<&'a Sheet>,
    pub limits: &'a [u32],
}

/// Document 01's sentence, 'A table is in order when', clause by clause, card 6 on kinds, card 9 on marks and
/// card 10 on domains.
pub fn in_order(rows: &[Row], issued: u32) -> bool {
    if rows.len() > MAX_ROWS || issued > MAX_NAME {
        return false;
    }
    let live = live_rows(rows);
    live.iter().all(|row| 1 <= row.name && row.name <= issued)
        && live.windows(2).all(|pair| pair[0].name < pair[1].name)
        && (0..live.len()).all(|at| row_is_in_order(&live[at], &live[..at]))
}

fn row_is_in_order(row: &Row, earlier: &[Row]) -> bool {
    row.span().is_legal()
        && (row.right == u32::from(READ_ONLY) || row.right == u32::from(READ_WRITE))
        && is_kind(row.kind)
        && is_mark(row.fresh)
        && !(row.fresh == FRESH && ends_above_writable(row.span()))
        && is_domain(row.maker)
        && holds(row, row.maker)
        && if row.parent == 0 {
            row.depth == 1 && row.kind == REFERENCE
        } else {
            find(earlier, row.parent).is_some_and(|parent| row_fits_parent(row, parent))
        }
}

fn row_fits_parent(row: &Row, parent: &Row) -> bool {
    row.span().is_inside(parent.span())
        && row.right <= parent.right
        && row.depth == parent.depth + 1
        && row.depth <= MAX_DEPTH
        && row.fresh == parent.fresh
}

fn is_kind(number: u32) -> bool {
    number == REFERENCE || number == RAW || number == CELL
}

fn is_mark(number: u32) -> bool {
    number == 0 || number == FRESH
}

fn ends_above_writable(span: Span) -> bool {
    span.end() > u64::from(WRITABLE)
}

/// Whether a domain is a holder of a row.
pub fn holds(row: &Row, domain: u32) -> bool {
    holders_of(row.holders).contains(&domain)
}

fn find(rows: &[Row], name: u32) -> Option<&Row> {
    rows.iter().find(|row| row.name == name && name != 0)
}

/// The row, its parent, and so on up to its root.
fn ancestry<'a>(live: &'a [Row], row: &'a Row) -> Vec<&'a Row> {
    let mut path = vec![row];
    let mut child = row;
    while let Some(parent) = find(live, child.parent) {
        path.push(parent);
        child = parent;
    }
    path
}

/// The table and the addresses of an event, what the slots have, and the issued number.
struct View<'a> {
    rows: &'a [Row],
    written: &'a Written,
    states: &'a States,
    issued: u32,
}

/// The number that an event is refused with: the first, in the order of the papers, whose condition
/// holds. Card 1 puts 12 between 9 and 10, card 9 puts 16 after 7, card 10 puts 17 after 5 and 18 in the
/// place of 10, and card 11 puts 19 after 2.
fn refusal(limits: &Limits, view: &View, act: Act) -> Option<Refused> {
    let View {
        rows,
        written,
        states,
        issued,
    } = *view;
    if !in_order(rows, issued) || limits.is_refused(rows) {
        return Some(1);
    }
    let Act { actor, event } = act;
    let conditions = [
        (1, goes_back_to_what_does_not_fit(limits, view, event)),
        (2, is_unknown(act)),
        (
            19,
            slot_to_go_back_to(states, event) == Some(&Slot::Nothing),
        ),
        (3, has_illegal_span(event)),
        (4, event.user().is_some_and(|name| !is_issued(name, issued))),
        (
            5,
            event
                .user()
                .is_some_and(|name| has_ended(rows, name, issued)),
        ),
        (
            17,
            user_row(rows, event).is_some_and(|user| !holds(user, actor)),
        ),
        (6, is_outside_its_capability(rows, event)),
        (7, needs_more_than_read_only(rows, event)),
        (16, reads_what_is_not_written(rows, written, event)),
        (8, borrows_too_deep(rows, event)),
        (9, event.makes() && issued == MAX_NAME),
        (12, event.written().is_some_and(|name| name != issued + 1)),
        (18, event.makes() && limits.is_reached(rows, actor)),
        (10, event.makes() && live_rows(rows).len() == rows.len()),
    ];
    let mut holding = conditions.into_iter().filter(|(_, holds)| *holds);
    holding.next().map(|(number, _)| number)
}

/// What the slot of a back has.
fn slot_to_go_back_to(states: &States, event: Event) -> Option<&Slot> {
    match event {
        Event::Back { slot } => states.slot(slot),
        _ => None,
    }
}

/// Card 11: 'a stored table that is out of order, over a lent limit, or has another number of rows, is 1 on
/// going back to it'. It is judged with the names that are issued now and the limits that are lent now.
fn goes_back_to_what_does_not_fit(limits: &Limits, view: &View, event: Event) -> bool {
    match slot_to_go_back_to(view.states, event) {
        None | Some(Slot::Nothing) => false,
        Some(Slot::Misfit) => true,
        Some(Slot::Stored(State { rows, .. })) => {
            rows.len() != view.rows.len() || !in_order(rows, view.issued) || limits.is_refused(rows)
        }
    }
}

/// An unknown event, a right that is neither 1 nor 2, a kind that is none of the three, a mark that is neither
/// 0 nor 1, an actor that is no domain, a mask of holders without the maker, or a slot that is none.
pub fn is_unknown(act: Act) -> bool {
    let Act { actor, event } = act;
    event == Event::Unknown
        || !is_domain(actor)
        || event.slot().is_some_and(|slot| !is_slot(slot))
        || event
            .right()
            .is_some_and(|right| right != READ_ONLY && right != READ_WRITE)
        || event.kind().is_some_and(|kind| !is_kind(kind))
        || event.fresh().is_some_and(|fresh| !is_mark(fresh))
        || event
            .holders()
            .is_some_and(|mask| !holders_of(mask).contains(&actor))
}

/// A span that is not legal, or of a create with the mark one that ends above the addresses that can be
/// written.
fn has_illegal_span(event: Event) -> bool {
    let is_marked = event.fresh() == Some(FRESH);
    event
        .span()
        .is_some_and(|span| !span.is_legal() || (is_marked && ends_above_writable(span)))
}

pub fn is_issued(name: u32, issued: u32) -> bool {
    1 <= name && name <= issued
}

pub fn has_ended(rows: &[Row], name: u32, issued: u32) -> bool {
    is_issued(name, issued) && find(rows, name).is_none()
}

/// The live row that the event goes through.
fn user_row(rows: &[Row], event: Event) -> Option<&Row> {
    find(rows, event.user()?)
}

fn is_outside_its_capability(rows: &[Row], event: Event) -> bool {
    match (user_row(rows, event), event.span()) {
        (Some(user), Some(span)) => !span.is_inside(user.span()),
        _ => false,
    }
}

fn needs_more_than_read_only(rows: &[Row], event: Event) -> bool {
    let through_read_only =
        user_row(rows, event).is_some_and(|user| user.right == u32::from(READ_ONLY));
    let needs_read_write = match event {
        Event::Write { .. } => true,
        Event::Borrow { right, .. } => right == READ_WRITE,
        _ => false,
    };
    through_read_only && needs_read_write
}

/// Card 9: 'a read through a marked capability with some address not yet written'.
fn reads_what_is_not_written(rows: &[Row], written: &Written, event: Event) -> bool {
    let is_marked = user_row(rows, event).is_some_and(|user| user.fresh == FRESH);
    match event {
        Event::Read { span, .. } => is_marked && !written.has_all(span),
        _ => false,
    }
}

fn borrows_too_deep(rows: &[Row], event: Event) -> bool {
    matches!(event, Event::Borrow { .. })
        && user_row(rows, event).is_some_and(|parent| parent.depth == MAX_DEPTH)
}

/// One event on what is lent: the new name (0 where none is made), or the refusal. Lent bytes of another
/// length than there have to be are no written addresses, memory of another size has no slots, and both are
/// refusal 1.
pub fn apply(by: By, lent: Lent, act: Act) -> Result<u32, Refused> {
    let Lent { rows, tally, .. } = lent;
    let written = lent.written.ok_or(1)?;
    let states = lent.states.ok_or(1)?;
    let limits = Limits::lent(by.limits);
    let view = View {
        rows,
        written,
        states,
        issued: tally.issued,
    };
    if let Some(number) = refusal(&limits, &view, act) {
        if number != 1 {
            tally.refused = tally.refused.saturating_add(1);
        }
        return Err(number);
    }
    // 'Allowed, they answer name 0 and count only as a line.'
    match act.event {
        Event::Mark { slot } => {
            states.mark(slot, rows, written);
            return Ok(0);
        }
        Event::Back { slot } => {
            if let Some(Slot::Stored(stored)) = states.slot(slot) {
                rows.copy_from_slice(&stored.rows);
                written.clone_from(&stored.written);
            }
            return Ok(0);
        }
        _ => {}
    }
    let live = live_rows(rows);
    let after = match by.sheet {
        None => rows_after(live, act, tally.issued + 1),
        Some(sheet) => rows_after_by(sheet, live, act, tally.issued + 1),
    };
    rows.fill(Row::default());
    rows[..after.len()].copy_from_slice(&after);
    write_addresses(written, act.event);
    count_allowed(tally, act.event);
    Ok(if act.event.makes() { tally.issued } else { 0 })
}

/// 'Every allowed create clears its addresses, every allowed write sets its own.'
fn write_addresses(written: &mut Written, event: Event) {
    match event {
        Event::Create { span, .. } => written.remove(span),
        Event::Write { span, .. } => written.add(span),
        _ => {}
    }
}

fn rows_after(live: &[Row], act: Act, new_name: u32) -> Vec<Row> {
    match act.event {
        Event::Create { span, .. } => {
            let left = without(live, &reclaimed(live, span));
            with_new(&left, act, new_name)
        }
        Event::Borrow { .. } => with_new(live, act, new_name),
        Event::Read { name, span } => {
            let lowered = below(live, &struck_by_read(live, name, span));
            let right_of = |row: &Row| match lowered.contains(&row.name) {
                true => u32::from(READ_ONLY),
                false => row.right,
            };
            let rows = live.iter().map(|row| Row {
                right: right_of(row),
                ..*row
            });
            rows.collect()
        }
        Event::Write { name, span } => {
            without(live, &below(live, &struck_by_write(live, name, span)))
        }
        Event::Drop { name } => without(live, &subtrees(live, |row| row.name == name)),
        Event::Mark { .. } | Event::Back { .. } | Event::Unknown => live.to_vec(),
    }
}

/// The rows, and that of what a create or borrow makes. A create makes a reference, and a borrow carries
/// its parent's mark. Who acts is the maker.
fn with_new(live: &[Row], act: Act, name: u32) -> Vec<Row> {
    let Act { actor, event } = act;
    let mut rows = live.to_vec();
    let parent = user_row(live, event);
    let [_, _, start, length, right] = event.fields();
    rows.push(Row {
        name,
        parent: parent.map_or(0, |parent| parent.name),
        start,
        length,
        right,
        depth: parent.map_or(0, |parent| parent.depth) + 1,
        kind: event.kind().unwrap_or(REFERENCE),
        fresh: parent.map_or(event.fresh().unwrap_or(0), |parent| parent.fresh),
        maker: actor,
        holders: event.holders().unwrap_or(0),
    });
    rows
}

pub fn without(live: &[Row], ended: &[u32]) -> Vec<Row> {
    let kept = live.iter().filter(|row| !ended.contains(&row.name));
    kept.copied().collect()
}

/// The names in the subtrees of the rows that pass.
pub fn subtrees(live: &[Row], passes: impl Fn(&Row) -> bool) -> Vec<u32> {
    let below = |row: &&Row| ancestry(live, row).into_iter().any(&passes);
    live.iter().filter(below).map(|row| row.name).collect()
}

/// The names in the subtrees of these.
fn below(live: &[Row], names: &BTreeSet<u32>) -> Vec<u32> {
    subtrees(live, |row| names.contains(&row.name))
}

/// The names of one subtree. A parent's row stands before its children's.
fn subtree(live: &[Row], name: u32) -> BTreeSet<u32> {
    let mut names = BTreeSet::from([name]);
    for row in live {
        if names.contains(&row.parent) {
            names.insert(row.name);
        }
    }
    names
}

/// The user of an access and its ancestors, none of which is struck.
fn at_or_above(live: &[Row], user: u32) -> Vec<&Row> {
    find(live, user).map_or(Vec::new(), |user| ancestry(live, user))
}

/// The rows that an access touches, and that are neither its user nor an ancestor of it.
fn touched(live: &[Row], user: u32, span: Span) -> Vec<&Row> {
    let spared = at_or_above(live, user);
    let touched = live.iter().filter(|row| row.span().touches(span));
    touched.filter(|row| !spared.contains(row)).collect()
}

fn names_of(rows: Vec<&Row>) -> BTreeSet<u32> {
    rows.iter().map(|row| row.name).collect()
}

/// The names that a read strikes. Card 6: of a raw capability, 'no read strikes it'.
fn struck_by_read(live: &[Row], user: u32, span: Span) -> BTreeSet<u32> {
    let mut struck = touched(live, user, span);
    struck.retain(|row| row.kind != RAW);
    names_of(struck)
}

/// The names that a write strikes, by card 6.
fn struck_by_write(live: &[Row], user: u32, span: Span) -> BTreeSet<u32> {
    let mut struck = touched(live, user, span);
    // 'A write through a user below the parent of a raw capability, or that parent, doesn't strike the
    // raw one.'
    let above = at_or_above(live, user);
    let is_of_kin = |row: &Row| above.iter().any(|one| one.name == row.parent);
    struck.retain(|row| row.kind != RAW || !is_of_kin(row));
    // 'A write through a cell, or from below it, strikes nothing outside that cell's subtree.'
    for cell in above.iter().filter(|row| row.kind == CELL) {
        let inside = subtree(live, cell.name);
        struck.retain(|row| inside.contains(&row.name));
    }
    names_of(struck)
}

/// Card 4: the names that a create ends, which are all that its span touches, and their subtrees. It is
/// a write from outside every subtree but its own, so that card 6 spares no raw one and no cell of it.
fn reclaimed(live: &[Row], span: Span) -> Vec<u32> {
    subtrees(live, |row| row.span().touches(span))
}

/// Card 7: the rows that an event leaves by a sheet. A create makes its row besides.
fn rows_after_by(sheet: &Sheet, live: &[Row], act: Act, new_name: u32) -> Vec<Row> {
    match act.event {
        Event::Read { .. } | Event::Write { .. } => rows_struck(sheet, live, act.event),
        Event::Create { .. } => {
            let left = rows_struck(sheet, live, act.event);
            with_new(&left, act, new_name)
        }
        _ => rows_after(live, act, new_name),
    }
}

/// '`end` taking life and `lower` taking `rw`', of what is struck and of its subtree.
fn rows_struck(sheet: &Sheet, live: &[Row], event: Event) -> Vec<Row> {
    let strikes = strikes(live, event);
    let struck = |wanted: Outcome| {
        let by_it = strikes
            .iter()
            .filter(|(_, one)| sheet.outcome(*one) == wanted);
        below(live, &by_it.map(|(name, _)| *name).collect())
    };
    let lowered = struck(Outcome::Lower);
    let mut left = without(live, &struck(Outcome::End));
    for row in left.iter_mut().filter(|row| lowered.contains(&row.name)) {
        row.right = READ_ONLY.into();
    }
    left
}

/// Every name that an access touches from outside the name's subtree, with its combination. 'A create acts
/// as a stranger's write.'
pub fn strikes(live: &[Row], event: Event) -> Vec<(u32, Combination)> {
    let (access, user, span) = match event {
        Event::Read { name, span } => (Access::Read, name, span),
        Event::Write { name, span } => (Access::Write, name, span),
        // No name is 0.
        Event::Create { span, .. } => (Access::Write, 0, span),
        _ => return Vec::new(),
    };
    let cells = live.iter().filter(|row| row.kind == CELL);
    let insides = cells.map(|cell| subtree(live, cell.name));
    let around_user: Vec<BTreeSet<u32>> = insides.filter(|inside| inside.contains(&user)).collect();
    let combination = |holder: &Row| {
        let source = source(live, &around_user, user, holder);
        (holder.name, (holder.kind, access, source))
    };
    touched(live, user, span)
        .into_iter()
        .map(combination)
        .collect()
}

/// Card 8: the names that a read strikes, which are those of its touched that the sheet does not keep.
/// Without a sheet card 6's sentence says which they are.
pub fn read_strikes(sheet: Option<&Sheet>, live: &[Row], user: u32, span: Span) -> BTreeSet<u32> {
    let Some(sheet) = sheet else {
        return struck_by_read(live, user, span);
    };
    let touched = strikes(live, Event::Read { name: user, span }).into_iter();
    let struck = touched.filter(|(_, one)| sheet.outcome(*one) != Outcome::Keep);
    struck.map(|(name, _)| name).collect()
}

/// '`cell` when it is in the subtree of a cell the holder is not under, else `kin` when in the subtree of
/// the holder's parent, else `stranger`.' The subtrees are those of cells that the user is in.
fn source(live: &[Row], around_user: &[BTreeSet<u32>], user: u32, holder: &Row) -> Source {
    if around_user
        .iter()
        .any(|inside| !inside.contains(&holder.name))
    {
        return Source::Cell;
    }
    let parent = find(live, holder.parent);
    match parent.is_some_and(|parent| subtree(live, parent.name).contains(&user)) {
        true => Source::Kin,
        false => Source::Stranger,
    }
}

/// What an allowed event adds to the tally.
fn count_allowed(tally: &mut Tally, event: Event) {
    if event.makes() {
        tally.issued += 1;
    }
    let count = match event {
        Event::Create { .. } => &mut tally.creates,
        Event::Borrow { .. } => &mut tally.borrows,
        Event::Read { .. } => &mut tally.reads,
        Event::Write { .. } => &mut tally.writes,
        Event::Drop { .. } => &mut tally.drops,
        Event::Mark { .. } | Event::Back { .. } | Event::Unknown => return,
    };
    *count = count.saturating_add(1);
}
