//! Lines taken on a table and beside its history.
//! Each file of tests uses a part of this.
#![allow(dead_code)]

use oracle::traces::Step;
use oracle::{
    Act, By, Event, History, Lent, Row, Spelling, States, Tally, Written, apply, read_event_line,
};

pub const ROWS: usize = 8;

/// What is lent, and its history.
pub struct Both {
    pub rows: Vec<Row>,
    pub written: Written,
    pub states: States,
    pub tally: Tally,
    pub history: History,
}

impl Both {
    pub fn empty(rows: usize) -> Both {
        Both {
            rows: vec![Row::default(); rows],
            written: Written::default(),
            states: States::default(),
            tally: Tally::default(),
            history: History::new(rows),
        }
    }

    /// What is lent.
    pub fn lent(&mut self) -> Lent<'_> {
        Lent {
            rows: &mut self.rows,
            written: Some(&mut self.written),
            states: Some(&mut self.states),
            tally: &mut self.tally,
        }
    }

    /// An event with which these limits are lent.
    pub fn answer(&mut self, limits: &[u32], act: Act) -> Result<u32, u8> {
        let by = By {
            limits,
            ..By::default()
        };
        let answer = apply(by, self.lent(), act);
        self.demand_three(limits, act, answer);
        assert_eq!(answer, self.history.answer(limits, act), "{act:?}");
        assert_eq!(self.rows, self.history.table(), "{act:?}");
        assert_eq!(self.written, self.history.written(), "{act:?}");
        answer
    }

    fn demand_three(&self, limits: &[u32], act: Act, answer: Result<u32, u8>) {
        let Act { actor, event } = act;
        let expected = match event {
            Event::Read { name, span } => self.history.may_read(limits, actor, name, span),
            Event::Write { name, span } => self.history.may_write(limits, actor, name, span),
            _ => return,
        };
        assert_eq!(answer.is_ok(), expected, "{act:?}");
    }

    /// Lines with which these limits are lent, each with the answer that it should have.
    pub fn take(&mut self, limits: &[u32], steps: &[Step]) {
        for (line, expected) in steps {
            assert_eq!(self.answer(limits, act(line)), *expected, "{line}");
        }
    }
}

/// What lines leave without limits, each with the answer that it should have.
pub fn after(steps: &[Step]) -> Both {
    let mut both = Both::empty(ROWS);
    both.take(&[], steps);
    both
}

pub fn act(line: &str) -> Act {
    let line = format!("{line}\n");
    read_event_line(line.as_bytes(), Spelling::Plain).expect("a line")
}

/// One event on rows with so many names issued, nothing written and nothing stored.
pub fn answer_on(by: By, rows: &[Row], issued: u32, act: Act) -> Result<u32, u8> {
    let mut tally = Tally {
        issued,
        ..Tally::default()
    };
    let lent = Lent {
        rows: &mut rows.to_vec(),
        written: Some(&mut Written::default()),
        states: Some(&mut States::default()),
        tally: &mut tally,
    };
    apply(by, lent, act)
}
