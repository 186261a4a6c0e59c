//! Card 10's independence, for tests: a domain that uses only what it made, in sequences of events that differ
//! only in what others do. By card 11 it may mark and go back, and no other domain does.
//!
//! What such a domain does is told of by names that are counted inside the domain, so that it is the same in
//! sequences that number names in other ways.

use crate::domains::{DOMAINS, Holders, holders_of, mask_of};
use crate::random::Random;
use crate::span::Span;
use crate::values::{Act, Event, READ_ONLY, READ_WRITE, Refused, Row};

/// The answer to a request, or what is wrong with the world that gave it.
pub type Answered = Result<Result<u32, Refused>, String>;

/// A table with all that is lent with it throughout.
pub trait World {
    fn act(&mut self, act: Act) -> Answered;
    fn drop_all(&mut self, actor: u32, names: &[u32]) -> Answered;
    /// The live rows.
    fn live(&self) -> Vec<Row>;
    fn issued(&self) -> u32;
}

/// An event, or names that are dropped together.
#[derive(Clone, Debug, PartialEq)]
pub enum Request {
    Single(Event),
    Group(Vec<u32>),
}

/// Who acts: the domain that uses only what it made, and the others.
#[derive(Clone, Debug)]
pub struct Cast {
    pub domain: u32,
    pub others: Vec<u32>,
}

impl Cast {
    /// Two to four domains.
    pub fn some(random: &mut Random) -> Cast {
        let mut all: Vec<u32> = Vec::new();
        let count = random.between(2, 4);
        while all.len() < count {
            let one = match random.one_in(3) {
                true => random.below(DOMAINS.into()) as u32,
                false => random.pick(&[0, 1, 2, 31, 32, 33, 62, 63]),
            };
            if !all.contains(&one) {
                all.push(one);
            }
        }
        Cast {
            domain: all.remove(0),
            others: all,
        }
    }

    /// The domain by itself.
    fn alone(&self) -> Cast {
        Cast {
            others: Vec::new(),
            ..self.clone()
        }
    }

    /// Limits for all of them, that are as many as there are rows or fewer.
    pub fn limits(&self, random: &mut Random, rows: usize) -> Vec<u32> {
        let mut limits = vec![0; 64];
        let mut left = rows as u64;
        for domain in [&self.domain].into_iter().chain(&self.others) {
            let limit = (random.below(left / 2 + 2) + 1).min(left);
            limits[*domain as usize] = limit as u32;
            left -= limit;
        }
        limits
    }
}

/// The domain in a world: the names that it was given, and the answers that it got, with new names counted
/// inside the domain.
#[derive(Clone, Debug, Default, PartialEq)]
pub struct Course {
    given: Vec<u32>,
    pub answers: Vec<Result<u32, Refused>>,
    /// How often the domain went back.
    pub backs: u64,
    /// How many of others' requests were allowed.
    pub others: u64,
}

impl Course {
    /// The name in this world of one counted inside the domain; 0 for one that it was not given here.
    fn name(&self, own: u32) -> u32 {
        let at = (own as usize).checked_sub(1);
        let given = at.and_then(|at| self.given.get(at));
        given.copied().unwrap_or(0)
    }

    /// The same the other way round, and 0 for 0.
    fn own(&self, name: u32) -> u32 {
        let at = self.given.iter().position(|given| *given == name);
        at.map_or(0, |at| at as u32 + 1)
    }

    /// A request with the names of this world.
    fn translated(&self, request: &Request) -> Request {
        let event = match request {
            Request::Group(names) => {
                let names = names.iter().map(|own| self.name(*own));
                return Request::Group(names.collect());
            }
            Request::Single(event) => event,
        };
        let mut event = *event;
        match &mut event {
            Event::Borrow { parent: name, .. }
            | Event::Read { name, .. }
            | Event::Write { name, .. }
            | Event::Drop { name } => *name = self.name(*name),
            Event::Create { .. } | Event::Mark { .. } | Event::Back { .. } | Event::Unknown => {}
        }
        Request::Single(event)
    }

    /// The domain makes a request.
    fn take(
        &mut self,
        world: &mut impl World,
        domain: u32,
        request: &Request,
    ) -> Result<(), String> {
        let answer = ask(world, domain, &self.translated(request))?;
        if let Ok(name) = answer
            && name != 0
        {
            self.given.push(name);
        }
        let goes_back = matches!(request, Request::Single(Event::Back { .. }));
        self.backs += u64::from(goes_back && answer.is_ok());
        self.answers.push(answer.map(|name| self.own(name)));
        Ok(())
    }

    /// The rows that the domain made, by names counted inside it. None has a parent that others made.
    pub fn rows(&self, world: &impl World, domain: u32) -> Vec<Row> {
        let its = world.live().into_iter().filter(|row| row.maker == domain);
        let counted = its.map(|row| Row {
            name: self.own(row.name),
            parent: self.own(row.parent),
            ..row
        });
        counted.collect()
    }
}

/// The answer to a request. A name that is written is made the right one.
fn ask(world: &mut impl World, actor: u32, request: &Request) -> Answered {
    let mut event = match request {
        Request::Group(names) => return world.drop_all(actor, names),
        Request::Single(event) => *event,
    };
    if let Event::Create { written, .. } | Event::Borrow { written, .. } = &mut event {
        *written = written.map(|_| world.issued() + 1);
    }
    world.act(Act { actor, event })
}

/// Whether others may do something: whether it touches no span of what the domain has, drops none of that and
/// borrows from none, and by card 11 neither marks nor goes back.
pub fn leaves_alone(live: &[Row], domain: u32, request: &Request) -> bool {
    spares(live, domain, request) && !turns_state(request)
}

fn turns_state(request: &Request) -> bool {
    matches!(
        request,
        Request::Single(Event::Mark { .. } | Event::Back { .. })
    )
}

/// Card 10's proviso alone.
pub fn spares(live: &[Row], domain: u32, request: &Request) -> bool {
    let mut its = live.iter().filter(|row| row.maker == domain);
    match request {
        Request::Group(names) => !its.any(|row| names.contains(&row.name)),
        Request::Single(event) => !its.any(|row| {
            let touches = event.span().is_some_and(|span| span.touches(row.span()));
            let takes = matches!(event, Event::Borrow { .. } | Event::Drop { .. });
            touches || (takes && event.user() == Some(row.name))
        }),
    }
}

/// What others may do.
pub type Proviso = fn(&[Row], u32, &Request) -> bool;

/// The addresses of all that is made: few, so that spans touch, and enough for others to keep away.
const AREA: Span = Span {
    start: 65_504,
    length: 48,
};

fn inside(random: &mut Random, outer: Span) -> Span {
    let offset = random.below(u64::from(outer.length) + 1) as u32;
    let most = (outer.length - offset).min(12);
    Span {
        start: outer.start + offset,
        length: random.below(u64::from(most) + 1) as u32,
    }
}

/// Holders of what a domain makes: itself alone, or some of the others too.
fn holders(random: &mut Random, cast: &Cast, maker: u32) -> u64 {
    let all = cast.others.iter().copied().chain([cast.domain]);
    let some = all.filter(|domain| *domain == maker || random.one_in(3));
    let some: Holders = some.collect();
    match random.one_in(2) {
        true => mask_of(&Holders::from([maker])),
        false => mask_of(&some),
    }
}

/// A mark, or a back.
fn turn(random: &mut Random) -> Request {
    let slot = random.pick(&[0, 0, 0, 7]);
    Request::Single(match random.one_in(2) {
        true => Event::Mark { slot },
        false => Event::Back { slot },
    })
}

/// Something that a domain does with one of these rows, or with a name that may have ended, or with a slot.
fn request(random: &mut Random, cast: &Cast, actor: u32, rows: &[Row], names: &[u32]) -> Request {
    if random.one_in(6) {
        return turn(random);
    }
    let user = rows.get(random.index(rows.len().max(1)));
    let name = match user {
        Some(user) if !random.one_in(5) => Some(user.name),
        _ => names.get(random.index(names.len().max(1))).copied(),
    };
    let outer = user.map_or(AREA, Row::span);
    let span = match random.one_in(3) {
        true => outer,
        false => inside(random, outer),
    };
    let right = random.pick(&[READ_ONLY, READ_WRITE, READ_WRITE]);
    let written = random.one_in(3).then_some(0);
    let holders = holders(random, cast, actor);
    let sort = match name {
        None => 0,
        Some(_) => random.below(12),
    };
    let name = name.unwrap_or(0);
    Request::Single(match sort {
        0..=2 => Event::Create {
            written,
            span: inside(random, AREA),
            right,
            fresh: u32::from(random.one_in(3)),
            holders,
        },
        3..=5 => Event::Borrow {
            written,
            parent: name,
            span,
            right,
            kind: random.pick(&[0, 0, 1, 2]),
            holders,
        },
        6 | 7 => Event::Read { name, span },
        8..=10 => Event::Write { name, span },
        _ if random.one_in(3) => return group(random, names),
        _ => Event::Drop { name },
    })
}

/// Some of these names, which rise, dropped together.
fn group(random: &mut Random, names: &[u32]) -> Request {
    let some = names.iter().copied().filter(|_| random.one_in(3));
    Request::Group(some.take(64).collect())
}

/// Something that the domain does, by names counted inside it.
fn own_request(random: &mut Random, cast: &Cast, course: &Course, world: &impl World) -> Request {
    let rows = course.rows(world, cast.domain);
    let names: Vec<u32> = (1..=course.given.len() as u32).collect();
    request(random, cast, cast.domain, &rows, &names)
}

/// Something that one of the others does, with what it holds or not, if the proviso has it.
fn take_other(
    random: &mut Random,
    cast: &Cast,
    proviso: Proviso,
    course: &mut Course,
    world: &mut impl World,
) -> Result<(), String> {
    let actor = random.pick(&cast.others);
    let live = world.live();
    let held: Vec<Row> = live
        .iter()
        .filter(|row| random.one_in(6) || holders_of(row.holders).contains(&actor))
        .copied()
        .collect();
    let names: Vec<u32> = live.iter().map(|row| row.name).collect();
    let next = request(random, cast, actor, &held, &names);
    if proviso(&live, cast.domain, &next) {
        course.others += u64::from(ask(world, actor, &next)?.is_ok());
    }
    Ok(())
}

/// Lets others act, up to so many times.
fn take_others(
    random: &mut Random,
    cast: &Cast,
    proviso: Proviso,
    course: &mut Course,
    world: &mut impl World,
) -> Result<(), String> {
    if cast.others.is_empty() {
        return Ok(());
    }
    for _ in 0..random.below(4) {
        take_other(random, cast, proviso, course, world)?;
    }
    Ok(())
}

/// A sequence in which the domain makes so many requests: these, and its course.
pub fn first(
    random: &mut Random,
    cast: &Cast,
    proviso: Proviso,
    world: &mut impl World,
    count: usize,
) -> Result<(Vec<Request>, Course), String> {
    let mut course = Course::default();
    let mut requests = Vec::with_capacity(count);
    for _ in 0..count {
        take_others(random, cast, proviso, &mut course, world)?;
        let next = own_request(random, cast, &course, world);
        course.take(world, cast.domain, &next)?;
        requests.push(next);
    }
    Ok((requests, course))
}

/// A sequence in which the domain makes the same requests, and others make others.
fn again(
    random: &mut Random,
    cast: &Cast,
    proviso: Proviso,
    world: &mut impl World,
    requests: &[Request],
) -> Result<Course, String> {
    let mut course = Course::default();
    for request in requests {
        take_others(random, cast, proviso, &mut course, world)?;
        course.take(world, cast.domain, request)?;
    }
    Ok(course)
}

/// What sequences came to.
#[derive(Clone, Copy, Debug, Default)]
pub struct Counts {
    /// How many were compared with another, and how many of these differ in the domain's answers or rows.
    pub pairs: u64,
    pub differing: u64,
    /// How often the domain was allowed something, reached its limit, and found a capability ended.
    pub allowed: u64,
    pub limited: u64,
    pub ended: u64,
    /// How often the domain went back.
    pub backs: u64,
    /// How often others were allowed something.
    pub others: u64,
}

impl Counts {
    fn count(&mut self, course: &Course) {
        let those = |wanted: fn(&Result<u32, Refused>) -> bool| {
            let found = course.answers.iter().filter(|answer| wanted(answer));
            found.count() as u64
        };
        self.allowed += those(Result::is_ok);
        self.limited += those(|answer| *answer == Err(18));
        self.ended += those(|answer| *answer == Err(5));
        self.backs += course.backs;
        self.others += course.others;
    }
}

/// Compares a sequence with that of the domain alone, and with two in which others do something else, each
/// from an empty world of one sort.
pub fn compare<W: World>(
    random: &mut Random,
    cast: &Cast,
    proviso: Proviso,
    empty: impl Fn() -> W,
    counts: &mut Counts,
) -> Result<(), String> {
    let mut world = empty();
    let (requests, course) = first(random, cast, proviso, &mut world, 24)?;
    let rows = course.rows(&world, cast.domain);
    counts.count(&course);
    for cast in [&cast.alone(), cast, cast] {
        let mut world = empty();
        let other = again(random, cast, proviso, &mut world, &requests)?;
        let is_same = other.answers == course.answers && other.rows(&world, cast.domain) == rows;
        counts.pairs += 1;
        counts.differing += u64::from(!is_same);
    }
    Ok(())
}
