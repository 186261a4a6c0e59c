//! Card 7: texts of sheets, sentence by sentence, and traces by sheets, each taken on a table and beside
//! its history.

use oracle::domain_traces::DOMAINS;
use oracle::state_traces::{OF_DOMAINS, STATES};
use oracle::traces::{KINDS, MARKS, SHEETS, Step, whole};
use oracle::{
    Access, Act, By, CARD_6, CELL, History, Lent, Outcome, RAW, REFERENCE, Row, Sheet, Source,
    Span, Spelling, States, Tally, Written, apply, combinations, listing, read_event_line,
    read_strikes, write_sheet,
};

const ROWS: usize = 8;

/// The bytes of card 6's sheet, by the places that the C header gives.
const CARD_6_BYTES: [u8; 18] = [1, 1, 1, 0, 2, 2, 0, 0, 0, 0, 0, 2, 1, 1, 1, 0, 2, 2];

fn act(line: &str) -> Act {
    let line = format!("{line}\n");
    read_event_line(line.as_bytes(), Spelling::Plain).expect("a line")
}

/// The listing that lines leave by a sheet, each with the answer that it should have.
fn listed(sheet: &Sheet, steps: &[Step]) -> String {
    let mut rows = vec![Row::default(); ROWS];
    let mut written = Written::default();
    let mut states = States::default();
    let mut tally = Tally::default();
    let mut history = History::by(sheet.clone(), ROWS);
    for (line, expected) in steps {
        let by = By {
            sheet: Some(sheet),
            limits: &[],
        };
        let lent = Lent {
            rows: &mut rows,
            written: Some(&mut written),
            states: Some(&mut states),
            tally: &mut tally,
        };
        assert_eq!(apply(by, lent, act(line)), *expected, "{line}");
        assert_eq!(history.answer(&[], act(line)), *expected, "{line}");
        assert_eq!(history.table(), rows, "{line}");
        assert_eq!(history.written(), written, "{line}");
    }
    listing(&rows, tally.issued)
}

#[test]
fn every_trace_goes_as_it_says() {
    for (name, text, steps, expected) in SHEETS {
        let sheet = Sheet::read(text.as_bytes()).expect(name);
        assert_eq!(listed(&sheet, steps), whole(expected), "{name}");
    }
}

#[test]
fn the_sheet_of_card_6_gives_its_verdicts() {
    let sheet = Sheet::lent(&[]);
    for (name, steps, expected) in KINDS.into_iter().chain(MARKS).chain(STATES) {
        assert_eq!(listed(&sheet, steps), whole(expected), "{name}");
    }
    for (name, steps, expected) in DOMAINS.into_iter().chain(OF_DOMAINS) {
        assert_eq!(listed(&sheet, steps), expected, "{name}");
    }
    assert_eq!(sheet, Sheet::lent(&CARD_6_BYTES));
    assert_eq!(sheet.bytes(), CARD_6_BYTES);
    assert_eq!(Sheet::read(CARD_6.as_bytes()), Ok(sheet));
}

#[test]
fn lent_bytes() {
    let of = |bytes: &[u8], place: usize| Sheet::lent(bytes).outcome(combinations()[place]);
    assert_eq!(combinations()[0], (REFERENCE, Access::Read, Source::Cell));
    assert_eq!(combinations()[10], (RAW, Access::Write, Source::Kin));
    assert_eq!(combinations()[17], (CELL, Access::Write, Source::Stranger));
    assert_eq!(of(&[0], 0), Outcome::Keep);
    assert_eq!(of(&[1], 0), Outcome::Lower);
    for end in [2, 3, 255] {
        assert_eq!(of(&[end], 0), Outcome::End);
    }
    assert_eq!(of(&[0], 1), Outcome::End);
    assert_eq!(of(&[0; 17], 17), Outcome::End);
    assert_eq!(of(&[0; 18], 17), Outcome::Keep);
    assert_eq!(Sheet::lent(&[1; 19]), Sheet::lent(&[1; 18]));
}

#[test]
fn one_text_is_written() {
    let text = write_sheet(&[], 1_005).expect("the longest text fits");
    assert!(text.starts_with("(rule (holder reference) (access read) (from cell) lower)\n"));
    assert!(text.ends_with("(rule (holder cell) (access write) (from stranger) end)\n"));
    assert_eq!(text.lines().count(), 18);
    assert_eq!(Sheet::read(text.as_bytes()), Ok(Sheet::lent(&[])));
    assert_eq!(write_sheet(&[], text.len() - 1), Err(11));
    assert_eq!(
        write_sheet(&[1; 18], 1_005).map(|text| text.len()),
        Ok(1_005)
    );
}

const ALL: &str =
    "(rule (holder raw cell reference) (access write read) (from kin cell stranger) end)\n";

#[test]
fn each_lists_one_word_or_more_in_any_order() {
    assert_eq!(Sheet::read(ALL.as_bytes()), Ok(Sheet::lent(&[2; 18])));
    let by_lines: Vec<&str> = CARD_6.split_inclusive('\n').rev().collect();
    assert_eq!(
        Sheet::read(by_lines.concat().as_bytes()),
        Ok(Sheet::lent(&[]))
    );
}

#[test]
fn refused_texts() {
    let card = "(rule (holder raw cell) (access write) (from kin) keep)\n";
    let refusal = |text: &str| Sheet::read(text.as_bytes()).err();
    assert_eq!(refusal(""), Some(15));
    assert_eq!(refusal(card), Some(15));
    assert_eq!(refusal(&(card.to_string() + card)), Some(14));
    assert_eq!(refusal(&(card.to_string() + ALL)), Some(14));
    assert_eq!(refusal(&card.replace("raw", "cell")), Some(14));
    assert_eq!(
        refusal(&card.replace("write", "write write write")),
        Some(14)
    );
    let many = ["kin"; 70_000].join(" ");
    assert_eq!(refusal(&card.replace("kin", &many)), Some(14));
    // 2 is judged over the whole text, before the other two.
    for wrong in [
        "\n",
        " ",
        "(rule)\n",
        "(rule (holder raw) (access read) (from kin) keep)",
    ] {
        assert_eq!(refusal(wrong), Some(2), "{wrong}");
        for others in [card, ALL] {
            assert_eq!(refusal(&format!("{others}{others}{wrong}")), Some(2));
        }
        if wrong.ends_with('\n') {
            assert_eq!(refusal(&format!("{wrong}{ALL}")), Some(2));
        }
    }
}

#[test]
fn no_other_line_is_a_rule() {
    let lines = [
        "(rule (holder raw) (from kin) (access write) keep)\n",
        "(rule (access write) (holder raw) (from kin) keep)\n",
        "(rule (holder raw) (access write) keep)\n",
        "(rule (holder raw) (access write) (from kin))\n",
        "(rule (holder raw) (access write) (from kin) )\n",
        "(rule (holder raw) (access write) (from kin) keep end)\n",
        "(rule (holder raw) (access write) (from kin) Keep)\n",
        "(rule (holder raw) (access write) (from kin) (keep))\n",
        "(rule (holder raw) (access write) (from kin) keep)) \n",
        "(rule (holder raw) (access write) (from kin) keep))\n",
        "(rule (holder raw) (access write) (from kin) keep) \n",
        "(rule (holder raw) (access write) (from kin) keep)\r\n",
        "(rule (holder raw) (access write) (from kin)  keep)\n",
        "(rule (holder raw) (access write)(from kin) keep)\n",
        "(rule (holder raw) (access write)  (from kin) keep)\n",
        "(rule (holder ) (access write) (from kin) keep)\n",
        "(rule (holder) (access write) (from kin) keep)\n",
        "(rule (holder  raw) (access write) (from kin) keep)\n",
        "(rule (holder raw ) (access write) (from kin) keep)\n",
        "(rule (holder raw  cell) (access write) (from kin) keep)\n",
        "(rule (holder raw, cell) (access write) (from kin) keep)\n",
        "(rule (holder kin) (access write) (from kin) keep)\n",
        "(rule (holder raw) (access create) (from kin) keep)\n",
        "(rule (holder raw) (access write) (from parent) keep)\n",
        "(rule (holder raw) (access write) (from raw) keep)\n",
        "(rule (holders raw) (access write) (from kin) keep)\n",
        "(rule  (holder raw) (access write) (from kin) keep)\n",
        "( rule (holder raw) (access write) (from kin) keep)\n",
        " (rule (holder raw) (access write) (from kin) keep)\n",
        "(Rule (holder raw) (access write) (from kin) keep)\n",
        "rule (holder raw) (access write) (from kin) keep\n",
        "(rule (holder (raw)) (access write) (from kin) keep)\n",
        "(rule (holder raw) (access write) (from kin) keep)\0\n",
    ];
    for line in lines {
        assert_eq!(Sheet::read(line.as_bytes()), Err(2), "{line}");
    }
    assert_eq!(
        Sheet::read(b"(rule (holder raw) (access write) (from k\xffn) keep)\n"),
        Err(2)
    );
}

/// Card 8: of what a read touches, what the sheet does not keep is struck, and never the user or what
/// stands above it.
#[test]
fn what_a_read_strikes() {
    let mut rows = vec![Row::default(); ROWS];
    let mut written = Written::default();
    let mut tally = Tally::default();
    for line in [
        "(create 0 16 rw)",
        "(borrow 1 0 8 rw)",
        "(borrow 2 4 4 rw)",
        "(borrow 1 0 8 rw raw)",
        "(borrow 1 0 8 ro cell)",
        "(borrow 1 8 8 rw)",
    ] {
        let lent = Lent {
            rows: &mut rows,
            written: Some(&mut written),
            states: Some(&mut States::default()),
            tally: &mut tally,
        };
        assert!(apply(By::default(), lent, act(line)).is_ok());
    }
    let live = &rows[..6];
    let struck = |sheet: Option<&Sheet>, user, start, length| {
        let span = Span { start, length };
        let names = read_strikes(sheet, live, user, span);
        names.into_iter().collect::<Vec<u32>>()
    };
    let card_6 = Sheet::lent(&[]);
    for sheet in [None, Some(&card_6)] {
        assert_eq!(struck(sheet, 1, 0, 4), [2, 5]);
        assert_eq!(struck(sheet, 3, 4, 4), [5]);
        assert_eq!(struck(sheet, 6, 8, 8), []);
        assert_eq!(struck(sheet, 1, 0, 16), [2, 3, 5, 6]);
        assert_eq!(struck(sheet, 1, 4, 0), []);
    }
    let [keeps, ends] = [0, 2].map(|result| Sheet::lent(&[result; 18]));
    assert_eq!(struck(Some(&keeps), 1, 0, 16), []);
    assert_eq!(struck(Some(&ends), 1, 0, 4), [2, 4, 5]);
    // Only a read by kin takes from a raw one; 5 is a cell, so that its read is not by kin.
    let mut of_kin = [0; 18];
    of_kin[7] = 1;
    let of_kin = Sheet::lent(&of_kin);
    assert_eq!(struck(Some(&of_kin), 3, 4, 4), [4]);
    assert_eq!(struck(Some(&of_kin), 5, 4, 4), []);
}
