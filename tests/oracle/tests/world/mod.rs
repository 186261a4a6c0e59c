//! A table with all that is lent with it, on which random domains act.

use oracle::independence::{Answered, World};
use oracle::{Act, By, Lent, Row, Sheet, States, Tally, Written, apply, drop_all, live_rows};

pub struct Table {
    pub rows: Vec<Row>,
    written: Written,
    states: States,
    tally: Tally,
    sheet: Option<Sheet>,
    limits: Vec<u32>,
}

impl Table {
    pub fn empty(rows: usize, sheet: Option<Sheet>, limits: &[u32]) -> Table {
        Table {
            rows: vec![Row::default(); rows],
            written: Written::default(),
            states: States::default(),
            tally: Tally::default(),
            sheet,
            limits: limits.to_vec(),
        }
    }

    /// What is lent, and what is lent besides.
    fn lent(&mut self) -> (By<'_>, Lent<'_>) {
        let by = By {
            sheet: self.sheet.as_ref(),
            limits: &self.limits,
        };
        let lent = Lent {
            rows: &mut self.rows,
            written: Some(&mut self.written),
            states: Some(&mut self.states),
            tally: &mut self.tally,
        };
        (by, lent)
    }
}

impl World for Table {
    fn act(&mut self, act: Act) -> Answered {
        let (by, lent) = self.lent();
        Ok(apply(by, lent, act))
    }

    fn drop_all(&mut self, actor: u32, names: &[u32]) -> Answered {
        let (by, lent) = self.lent();
        Ok(drop_all(by, lent, actor, names))
    }

    fn live(&self) -> Vec<Row> {
        live_rows(&self.rows).to_vec()
    }

    fn issued(&self) -> u32 {
        self.tally.issued
    }
}
