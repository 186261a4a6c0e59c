//! Card 10: 'a domain that uses only capabilities it made gets the same results, up to the numbering of names,
//! in two sequences of events .. that differ only in others' events', and where it would not. By card 11 the
//! domain may mark and go back, and others may not.

mod world;

use oracle::independence::{Cast, Counts, Proviso, compare, leaves_alone, spares};
use oracle::random::Random;
use oracle::{MAX_ROWS, Sheet};
use world::Table;

/// Sequences of one sort: what they are lent, and what others may do.
struct Sort {
    rows: fn(&mut Random) -> usize,
    sheet: fn(&mut Random) -> Option<Sheet>,
    limits: fn(&mut Random, &Cast, usize) -> Vec<u32>,
    proviso: Proviso,
}

const BY_CARD_6: Sort = Sort {
    rows: |random| random.between(2, 14),
    sheet: |_| None,
    limits: |random, cast, rows| cast.limits(random, rows),
    proviso: leaves_alone,
};

fn some_sheet(random: &mut Random) -> Option<Sheet> {
    let results: Vec<u8> = (0..18).map(|_| random.pick(&[0, 0, 1, 2])).collect();
    Some(Sheet::lent(&results))
}

fn pairs(seed: u64, sort: &Sort, lists: u64) -> Counts {
    let mut random = Random::new(seed);
    let mut counts = Counts::default();
    for _ in 0..lists {
        let cast = Cast::some(&mut random);
        let rows = (sort.rows)(&mut random);
        let sheet = (sort.sheet)(&mut random);
        let limits = (sort.limits)(&mut random, &cast, rows);
        let empty = || Table::empty(rows, sheet.clone(), &limits);
        compare(&mut random, &cast, sort.proviso, empty, &mut counts).expect("a table");
    }
    counts
}

/// Nothing differs, and there was much that could.
fn all_the_same(counts: Counts) {
    assert_eq!(counts.differing, 0, "{counts:?}");
    let met = [counts.allowed, counts.limited, counts.ended, counts.others];
    assert!(met.iter().all(|met| *met > counts.pairs / 2), "{counts:?}");
    assert!(counts.backs > counts.pairs / 5, "{counts:?}");
}

#[test]
fn by_card_6() {
    all_the_same(pairs(1, &BY_CARD_6, 600));
}

#[test]
fn by_any_sheet() {
    let sort = Sort {
        sheet: some_sheet,
        ..BY_CARD_6
    };
    all_the_same(pairs(2, &sort, 600));
}

/// With refused limits, or too many rows, every event is 1.
#[test]
fn where_all_is_refused() {
    let refused = Sort {
        limits: |random, _, rows| match random.below(3) {
            0 => vec![0; random.pick(&[1, 63, 65])],
            1 => [vec![rows as u32 + 1], vec![0; 63]].concat(),
            _ => [vec![u32::MAX, 1], vec![0; 62]].concat(),
        },
        ..BY_CARD_6
    };
    let too_many = Sort {
        rows: |_| MAX_ROWS + 1,
        ..BY_CARD_6
    };
    for sort in [&refused, &too_many] {
        let counts = pairs(3, sort, 50);
        assert_eq!((counts.differing, counts.allowed, counts.others), (0, 0, 0));
    }
}

/// Without limits others take its rows.
#[test]
fn not_without_limits() {
    let sort = Sort {
        limits: |_, _, _| Vec::new(),
        ..BY_CARD_6
    };
    let counts = pairs(4, &sort, 300);
    assert!(counts.differing > 50, "{counts:?}");
}

/// Where others touch its spans they end and lower what it has.
#[test]
fn not_where_others_touch_its_spans() {
    let sort = Sort {
        proviso: |_, _, _| true,
        ..BY_CARD_6
    };
    let counts = pairs(5, &sort, 300);
    assert!(counts.differing > 50, "{counts:?}");
}

/// Where others mark and go back, what it has ends and comes back.
#[test]
fn not_where_others_mark_and_go_back() {
    let sort = Sort {
        proviso: spares,
        ..BY_CARD_6
    };
    let counts = pairs(6, &sort, 300);
    assert!(counts.differing > 50, "{counts:?}");
}
