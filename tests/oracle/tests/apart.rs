//! Trees apart: from an empty table by card 6's sheet no two live roots share an address, and an event through
//! a name changes no row of another tree, whoever acts.

mod world;

use oracle::independence::{Answered, Cast, World, first};
use oracle::random::Random;
use oracle::{Act, Event, Row, Sheet, live_rows};
use world::Table;

/// The name of the root of a row.
fn root(live: &[Row], name: u32) -> u32 {
    let mut at = name;
    while let Some(row) = live.iter().find(|row| row.name == at && row.parent != 0) {
        at = row.parent;
    }
    at
}

/// The rows that are not in the trees of these names.
fn elsewhere(live: &[Row], before: &[Row], names: &[u32]) -> Vec<Row> {
    let trees: Vec<u32> = names.iter().map(|name| root(before, *name)).collect();
    let others = live
        .iter()
        .filter(|row| !trees.contains(&root(before, row.name)));
    others.copied().collect()
}

/// A table that is looked at after each event.
struct Apart {
    table: Table,
    /// How often there were two trees, and an event through a name of one was allowed.
    met: u64,
}

impl Apart {
    fn check(&mut self, before: &[Row], names: &[u32], is_allowed: bool) {
        let live = live_rows(&self.table.rows);
        let roots: Vec<&Row> = live.iter().filter(|row| row.parent == 0).collect();
        for (at, one) in roots.iter().enumerate() {
            for other in &roots[at + 1..] {
                assert!(!one.span().touches(other.span()), "{one:?} {other:?}");
            }
        }
        if names.is_empty() {
            return;
        }
        // What a borrow makes is in its parent's tree.
        let known: Vec<Row> = [before, live].concat();
        let [then, now] = [before, live].map(|rows| elsewhere(rows, &known, names));
        assert_eq!(then, now, "through {names:?}");
        self.met += u64::from(is_allowed && !then.is_empty());
    }
}

impl World for Apart {
    fn act(&mut self, act: Act) -> Answered {
        let before = self.live();
        let answer = self.table.act(act)?;
        let through = match act.event {
            Event::Create { .. } | Event::Unknown => None,
            event => event.user(),
        };
        let names: Vec<u32> = through.into_iter().collect();
        self.check(&before, &names, answer.is_ok());
        Ok(answer)
    }

    fn drop_all(&mut self, actor: u32, names: &[u32]) -> Answered {
        let before = self.live();
        let answer = self.table.drop_all(actor, names)?;
        self.check(&before, names, answer.is_ok());
        Ok(answer)
    }

    fn live(&self) -> Vec<Row> {
        self.table.live()
    }

    fn issued(&self) -> u32 {
        self.table.issued()
    }
}

#[test]
fn trees_stay_apart() {
    for sheet in [None, Some(Sheet::lent(&[]))] {
        let mut random = Random::new(6);
        let mut met = 0;
        for _ in 0..800 {
            let cast = Cast::some(&mut random);
            let table = Table::empty(random.between(2, 16), sheet.clone(), &[]);
            let mut apart = Apart { table, met: 0 };
            first(&mut random, &cast, |_, _, _| true, &mut apart, 24).expect("a table");
            met += apart.met;
        }
        assert!(met > 5_000, "{met}");
    }
}
