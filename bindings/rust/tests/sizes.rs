//! Table sizes: clients in turn, the first refusal with its client and line, and lengths that do not fit.

use std::error::Error;

use kelzoud::{sizes, ClientRefusal, Refusal, MAX_CLIENTS, MAX_ROWS};

/// What is answered of clients with these traces.
fn sizes_of(traces: &[&str]) -> Result<usize, ClientRefusal> {
    let lengths: Vec<u32> = traces.iter().map(|trace| trace.len() as u32).collect();
    sizes(traces.concat().as_bytes(), &lengths)
}

fn refused(refusal: Refusal, client: usize, line: u32) -> Result<usize, ClientRefusal> {
    Err(ClientRefusal {
        refusal,
        client,
        line,
    })
}

const UNFIT: ClientRefusal = ClientRefusal {
    refusal: Refusal::Misspelt,
    client: 0,
    line: 0,
};

#[test]
fn rows_of_one_client() {
    assert_eq!(sizes_of(&[]), Ok(0));
    assert_eq!(sizes_of(&[""]), Ok(0));
    assert_eq!(sizes_of(&["(create 0 8 rw)\n"]), Ok(1));
    let in_turn = "(create 0 8 rw)\n(drop 1)\n(create 0 8 rw)\n(drop 2)\n";
    assert_eq!(sizes_of(&[in_turn]), Ok(1));
    // Full is judged before the create ends what it touches.
    assert_eq!(sizes_of(&["(create 0 8 rw)\n(create 0 8 rw)\n"]), Ok(2));
}

#[test]
fn one_line_of_each_in_turn() {
    let short = "(create 0 8 rw)\n(drop 1)\n";
    let lasting = "(create 64 8 rw)\n(borrow 1 64 8 rw)\n";
    assert_eq!(sizes_of(&[short, lasting]), Ok(2));
    assert_eq!(sizes_of(&[lasting, short]), Ok(3));
    assert_eq!(sizes_of(&["", short, "", lasting, ""]), Ok(2));
    let longer = "(create 128 8 rw)\n(write 1 128 8)\n(read 1 128 8)\n(borrow 1 128 8 ro)\n";
    assert_eq!(sizes_of(&[short, longer]), Ok(2));
}

#[test]
fn names_are_counted_in_each_client() {
    let first = "(create 0 8 rw)\n(write 1 0 8)\n(drop 1)\n";
    let second = "(create 64 8 rw)\n(write 1 64 8)\n(drop 1)\n";
    assert_eq!(sizes_of(&[first, second]), Ok(2));
    let reader = "(read 1 0 8)\n";
    assert_eq!(sizes_of(&[first, reader]), refused(Refusal::Unissued, 2, 1));
    // The span is judged before the name.
    let wrapped = "(read 1 4294967295 2)\n";
    let answer = sizes_of(&[first, wrapped]);
    assert_eq!(answer, refused(Refusal::IllegalSpan, 2, 1));
}

#[test]
fn addresses_are_shared() {
    let first = "(create 0 8 rw)\n(read 1 0 8)\n";
    let answer = sizes_of(&[first, "(create 4 8 rw)\n"]);
    assert_eq!(answer, refused(Refusal::Ended, 1, 2));
    assert_eq!(sizes_of(&[first, "(create 8 8 rw)\n"]), Ok(2));
}

#[test]
fn the_first_refusal_in_turn() {
    let ended = "(create 0 8 rw)\n(drop 1)\n(drop 1)\n";
    let outside = "(create 64 8 rw)\n(read 1 64 9)\n";
    let misspelt = "(create 128 8 rw)\n(drop 1)\n(drop 01)\n";
    let outside_first = refused(Refusal::OutsideSpan, 2, 2);
    assert_eq!(sizes_of(&[ended, outside, misspelt]), outside_first);
    assert_eq!(sizes_of(&[ended, misspelt]), refused(Refusal::Ended, 1, 3));
    assert_eq!(
        sizes_of(&[misspelt, ended]),
        refused(Refusal::Misspelt, 1, 3)
    );
}

#[test]
fn lines_with_other_words() {
    for line in [
        "(trace 2)\n",
        "(create 1 0 8 rw)\n",
        "(create 0 8 rw fresh)\n",
        "(create 0 8 rw 0000000000000003)\n",
        "(borrow 1 0 8 rw raw)\n",
        "(as 1 (drop 1))\n",
        "(drop 1 2)\n",
        "(mark 0)\n",
        "(back 0)\n",
        "\n",
        "(drop 1)",
    ] {
        assert_eq!(
            sizes_of(&[line]),
            refused(Refusal::Misspelt, 1, 1),
            "{line}"
        );
    }
}

#[test]
fn as_many_rows_as_there_may_be() {
    let creates = |places: std::ops::Range<usize>| -> String {
        let line = |place| format!("(create {} 8 rw)\n", place * 8);
        places.map(line).collect()
    };
    assert_eq!(sizes_of(&[&creates(0..MAX_ROWS)]), Ok(MAX_ROWS));
    let full = refused(Refusal::TableFull, 1, MAX_ROWS as u32 + 1);
    assert_eq!(sizes_of(&[&creates(0..MAX_ROWS + 1)]), full);
    let halves = [creates(0..512), creates(512..MAX_ROWS + 1)];
    let full = refused(Refusal::TableFull, 2, 513);
    assert_eq!(sizes_of(&[&halves[0], &halves[1]]), full);
}

#[test]
fn lengths_that_do_not_fit() {
    let text = b"(create 0 8 rw)\n";
    assert_eq!(sizes(text, &[16]), Ok(1));
    for lengths in [
        &[][..],
        &[15],
        &[17],
        &[16, 1],
        &[8, 7],
        &[u32::MAX, 17],
        &[0; MAX_CLIENTS + 1],
    ] {
        assert_eq!(sizes(text, lengths), Err(UNFIT), "{lengths:?}");
    }
    assert_eq!(sizes(b"", &[0; MAX_CLIENTS]), Ok(0));
    assert_eq!(sizes(b"", &[0; MAX_CLIENTS + 1]), Err(UNFIT));
    let cut = refused(Refusal::Misspelt, 1, 1);
    assert_eq!(sizes(text, &[8, 8]), cut);
}

#[test]
fn what_is_said() {
    let ended = sizes_of(&["", "(create 0 8 rw)\n(drop 1)\n(read 1 0 8)\n"]).unwrap_err();
    let said = ended.to_string();
    assert_eq!(
        said,
        "client 2, line 3: refusal 5, the capability has ended"
    );
    let source = ended.source().unwrap().to_string();
    assert_eq!(source, "refusal 5, the capability has ended");
    let said = UNFIT.to_string();
    assert_eq!(
        said,
        "the lengths of the traces: refusal 2, not in the one spelling"
    );
}
