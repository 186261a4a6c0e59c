//! Card 13: trying table sizes. All lines are put into the order in which they are taken, and are taken on a table of
//! one number of rows after the other.

use std::collections::BTreeMap;

use crate::history::History;
use crate::lines::{number, right, span};
use crate::states::States;
use crate::table::{By, Lent, apply};
use crate::text::lines;
use crate::values::{Act, Event, MAX_ROWS, REFERENCE, Refused, Row, Tally};
use crate::written::Written;

/// 'Up to 8 simulated clients.'
pub const MAX_CLIENTS: usize = 8;

/// A refusal, 'its client and the line within that client's trace', both from 1.
#[derive(Clone, Copy, Debug, PartialEq, Eq)]
pub struct Stop {
    pub number: Refused,
    pub client: u32,
    pub line: u32,
}

/// 'Above 8 of these, or a sum that isn't the text's, is 2, client and line 0.'
const MISFIT: Stop = Stop {
    number: 2,
    client: 0,
    line: 0,
};

/// A line, behind its number and its client's.
type Turn<'a> = (u32, u32, &'a [u8]);

/// The names that a client was given, its own with the table's.
type Names = BTreeMap<u32, u32>;

/// The mask of domain 0 alone, which acts in every line of document 01.
const DOMAIN_0: u64 = 1;

/// The texts of the clients, 'lent end to end with a list of lengths'.
fn texts<'a>(text: &'a [u8], lengths: &[u32]) -> Result<Vec<&'a [u8]>, Stop> {
    let sum: u64 = lengths.iter().copied().map(u64::from).sum();
    if lengths.len() > MAX_CLIENTS || sum != text.len() as u64 {
        return Err(MISFIT);
    }
    let mut rest = text;
    let mut texts = Vec::new();
    for length in lengths {
        let (first, behind) = rest.split_at(*length as usize);
        texts.push(first);
        rest = behind;
    }
    Ok(texts)
}

/// The lines in the order in which they are taken: 'singly in turn from client 1, finished clients are passed over'.
/// So every client's first line comes before anybody's second.
fn turns<'a>(texts: &[&'a [u8]]) -> Vec<Turn<'a>> {
    let mut turns: Vec<Turn> = Vec::new();
    for (client, text) in (1..).zip(texts) {
        turns.extend((1..).zip(lines(text)).map(|(at, line)| (at, client, line)));
    }
    turns.sort_by_key(|(at, client, _)| (*at, *client));
    turns
}

/// What a line 'in document 01's form' asks for, by the table's name. A name that was 'not yet given to that client'
/// is 0 there, which is no name of the table's either.
fn asked(line: &[u8], given: &Names) -> Option<Event> {
    let body = line.strip_suffix(b")\n")?.strip_prefix(b"(")?;
    let words: Vec<&[u8]> = body.split(|byte| *byte == b' ').collect();
    let name = |word: &[u8]| Some(given.get(&number(word)?).copied().unwrap_or(0));
    Some(match words[..] {
        [b"create", start, length, word] => Event::Create {
            written: None,
            span: span(start, length)?,
            right: right(word)?,
            fresh: 0,
            holders: DOMAIN_0,
        },
        [b"borrow", parent, start, length, word] => Event::Borrow {
            written: None,
            parent: name(parent)?,
            span: span(start, length)?,
            right: right(word)?,
            kind: REFERENCE,
            holders: DOMAIN_0,
        },
        [b"read", user, start, length] => Event::Read {
            name: name(user)?,
            span: span(start, length)?,
        },
        [b"write", user, start, length] => Event::Write {
            name: name(user)?,
            span: span(start, length)?,
        },
        [b"drop", user] => Event::Drop { name: name(user)? },
        _ => return None,
    })
}

/// Takes the lines in turn until one is refused. The judge answers domain 0's events, with the names that it gives.
fn follow(
    text: &[u8],
    lengths: &[u32],
    mut judge: impl FnMut(Act) -> Result<u32, Refused>,
) -> Result<(), Stop> {
    let texts = texts(text, lengths)?;
    let mut given = vec![Names::new(); texts.len()];
    for (line, client, bytes) in turns(&texts) {
        let given = &mut given[client as usize - 1];
        let event = asked(bytes, given).ok_or(2);
        let answer = event.and_then(|event| judge(Act { actor: 0, event }));
        let made = answer.map_err(|number| Stop {
            number,
            client,
            line,
        })?;
        if made != 0 {
            // 'With names counted inside that client.'
            given.insert(given.len() as u32 + 1, made);
        }
    }
    Ok(())
}

/// Nothing where every line is allowed on a table of so many rows, else the first refusal.
pub fn try_rows(text: &[u8], lengths: &[u32], rows: usize) -> Result<(), Stop> {
    let mut rows = vec![Row::default(); rows];
    let (mut written, mut states) = (Written::default(), States::default());
    let mut tally = Tally::default();
    follow(text, lengths, |act| {
        let lent = Lent {
            rows: &mut rows,
            written: Some(&mut written),
            states: Some(&mut states),
            tally: &mut tally,
        };
        apply(By::default(), lent, act)
    })
}

/// The same by the history of a table of so many rows.
pub fn try_rows_by_history(text: &[u8], lengths: &[u32], rows: usize) -> Result<(), Stop> {
    let mut history = History::new(rows);
    follow(text, lengths, |act| history.answer(&[], act))
}

/// 'The fewest rows, up to 1,024, with which every line is allowed', or 'the first refusal with 1,024 rows'. That is
/// asked first, because the other numbers need not be tried then; the tests try them.
pub fn sizes(text: &[u8], lengths: &[u32]) -> Result<u32, Stop> {
    try_rows(text, lengths, MAX_ROWS)?;
    let fewest = (0..MAX_ROWS).find(|rows| try_rows(text, lengths, *rows).is_ok());
    Ok(fewest.unwrap_or(MAX_ROWS) as u32)
}

#[cfg(test)]
mod tests {
    use super::*;
    use crate::values::{MAX_DEPTH, MAX_NAME};

    /// The texts end to end, and their lengths.
    fn lent(clients: &[&str]) -> (Vec<u8>, Vec<u32>) {
        let lengths = clients.iter().map(|text| text.len() as u32).collect();
        (clients.concat().into_bytes(), lengths)
    }

    fn of(clients: &[&str]) -> Result<u32, Stop> {
        let (text, lengths) = lent(clients);
        sizes(&text, &lengths)
    }

    fn stop(number: Refused, client: u32, line: u32) -> Stop {
        Stop {
            number,
            client,
            line,
        }
    }

    fn refused(number: Refused, client: u32, line: u32) -> Result<u32, Stop> {
        Err(stop(number, client, line))
    }

    /// Tries every number of rows up to so many, by the table and by the history, for clients of which each line is
    /// allowed with as many as are said: the first refusal with each number below.
    fn with_fewer(clients: &[&str], fewest: usize, most: usize) -> Vec<Stop> {
        let (text, lengths) = lent(clients);
        let mut stops = Vec::new();
        for rows in 0..=most {
            let answer = try_rows(&text, &lengths, rows);
            assert_eq!(answer, try_rows_by_history(&text, &lengths, rows));
            assert_eq!(answer.is_ok(), rows >= fewest, "{rows} rows: {answer:?}");
            stops.extend(answer.err());
        }
        assert_eq!(of(clients), Ok(fewest as u32));
        stops
    }

    const CREATE: &str = "(create 0 8 rw)\n";
    const BESIDE: &str = "(create 8 8 rw)\n";

    #[test]
    fn no_lines_need_no_rows() {
        for clients in [&[][..], &[""], &["", ""], &[""; 8]] {
            assert!(with_fewer(clients, 0, 3).is_empty());
        }
    }

    #[test]
    fn the_printed_trace_alone() {
        let allowed = "(create 0 64 rw)\n(borrow 1 0 16 rw)\n(borrow 1 16 16 rw)\n(write 2 0 8)\n(read 1 0 4)\n";
        let stops = with_fewer(&[allowed], 3, 6);
        assert_eq!(stops, [stop(10, 1, 1), stop(10, 1, 2), stop(10, 1, 3)]);
        let printed = format!("{allowed}(write 2 0 8)\n");
        assert_eq!(of(&[&printed]), refused(7, 1, 6));
    }

    #[test]
    fn two_clients_on_one_table() {
        let first = "(create 0 8 rw)\n(borrow 1 0 8 rw)\n(write 2 0 8)\n";
        let second = "(create 8 8 rw)\n(borrow 1 8 4 ro)\n(read 2 8 4)\n(read 1 8 8)\n";
        let stops = with_fewer(&[first, second], 4, 8);
        assert_eq!(
            stops,
            [
                stop(10, 1, 1),
                stop(10, 2, 1),
                stop(10, 1, 2),
                stop(10, 2, 2)
            ]
        );
        // In one trace the names are counted on.
        let both = "(create 0 8 rw)\n(borrow 1 0 8 rw)\n(drop 1)\n(create 8 8 rw)\n(read 3 8 8)\n";
        with_fewer(&[both], 2, 4);
    }

    /// What was dropped leaves its row, so that it tells in which order lines are taken.
    #[test]
    fn what_lives_at_the_same_time() {
        let briefly = "(create 0 0 rw)\n(drop 1)\n";
        with_fewer(&[briefly], 1, 3);
        with_fewer(&[briefly; 2], 2, 4);
        with_fewer(&[briefly; 8], 8, 10);
        let twice = briefly.to_string() + &briefly.replace("1", "2");
        with_fewer(&[&twice], 1, 3);
        // The borrow comes behind the first drop, and before the second create.
        let stays = "(create 0 0 rw)\n(borrow 1 0 0 rw)\n";
        with_fewer(&[briefly, stays], 2, 4);
        with_fewer(&[&twice, stays], 3, 5);
    }

    #[test]
    fn names_are_counted_inside_a_client() {
        // Both have a 1, and each its own.
        let write = |start: u32| format!("(create {start} 8 rw)\n(write 1 {start} 8)\n");
        with_fewer(&[&write(0), &write(8), &write(16)], 3, 5);
        // The table has three names by then, client 2 but one.
        let two = "(create 0 8 rw)\n(borrow 1 0 8 rw)\n(read 2 0 8)\n";
        for (name, number) in [(0, 4), (1, 6), (2, 4), (3, 4), (u32::MAX, 4)] {
            let other = format!("{BESIDE}(read 1 8 8)\n(read {name} 0 8)\n");
            assert_eq!(of(&[two, &other]), refused(number, 2, 3), "{name}");
        }
        // A name is given by its line, and not before.
        assert_eq!(of(&["(borrow 1 0 8 rw)\n"]), refused(4, 1, 1));
        assert_eq!(of(&[CREATE, "(borrow 1 0 8 rw)\n"]), refused(4, 2, 1));
        assert_eq!(
            of(&["(create 0 8 rw)\n(borrow 2 0 8 rw)\n", BESIDE]),
            refused(4, 1, 2)
        );
    }

    #[test]
    fn names_that_have_ended() {
        let dropped = "(create 0 8 rw)\n(drop 1)\n(read 1 0 8)\n";
        assert_eq!(of(&[dropped]), refused(5, 1, 3));
        // The same number lives with another client.
        assert_eq!(of(&[BESIDE, dropped]), refused(5, 2, 3));
        let with_its_parent = "(create 0 8 rw)\n(borrow 1 0 8 rw)\n(drop 1)\n(drop 2)\n";
        assert_eq!(of(&[with_its_parent]), refused(5, 1, 4));
        let by_a_write = "(create 0 8 rw)\n(borrow 1 0 8 rw)\n(write 1 0 8)\n(borrow 2 0 8 rw)\n";
        assert_eq!(of(&[by_a_write]), refused(5, 1, 4));
    }

    /// Memory that one client's create hands out again was another's.
    #[test]
    fn a_create_ends_what_another_client_has() {
        let user = "(create 0 8 rw)\n(borrow 1 0 2 rw)\n(read 2 0 2)\n";
        assert_eq!(of(&[user, "(create 4 8 rw)\n"]), refused(5, 1, 2));
        with_fewer(&[user, "(create 8 8 rw)\n"], 3, 5);
        // In the second round what client 1 had is ended, and in the third it is asked for.
        let later = "(create 64 8 rw)\n(create 4 8 rw)\n";
        assert_eq!(of(&[user, later]), refused(5, 1, 3));
        // Fullness is judged before, so the new one needs a row beside those that it ends.
        with_fewer(&[CREATE, "(create 4 8 rw)\n"], 2, 4);
        with_fewer(&[CREATE; 8], 2, 4);
        // Of length 0 nothing is touched.
        with_fewer(&["(create 4 0 rw)\n(read 1 4 0)\n"; 8], 8, 9);
    }

    #[test]
    fn lengths_that_do_not_fit() {
        let text = [CREATE; 9].concat().into_bytes();
        assert_eq!(sizes(&text, &[16; 9]), Err(MISFIT));
        assert_eq!(sizes(&text[..128], &[16; 8]), Ok(2));
        assert_eq!(sizes(&[], &[0; 9]), Err(MISFIT));
        assert_eq!(sizes(&[], &[0; 8]), Ok(0));
        assert_eq!(sizes(&[], &[0; 5_000]), Err(MISFIT));
        for lengths in [
            &[][..],
            &[0],
            &[15],
            &[17],
            &[16, 1],
            &[1, 14],
            &[u32::MAX],
            // In 32 bits the sums are 16.
            &[u32::MAX, 17],
            &[u32::MAX, u32::MAX, 18],
            &[1 << 31, 1 << 31, 16],
        ] {
            assert_eq!(
                sizes(CREATE.as_bytes(), lengths),
                Err(MISFIT),
                "{lengths:?}"
            );
        }
        assert_eq!(sizes(&[], &[u32::MAX, 1]), Err(MISFIT));
        // It is asked before any line is.
        assert_eq!(sizes(b"no line", &[3]), Err(MISFIT));
        assert_eq!(sizes(b"no line", &[7]), refused(2, 1, 1));
    }

    /// Where a text is cut tells whose line it is.
    #[test]
    fn texts_are_cut_by_their_lengths() {
        let text = [CREATE, "(read 1 0 8)\n"].concat().into_bytes();
        for length in 0..=29 {
            let expected = match length {
                0 | 29 => Ok(1),
                16 => refused(4, 2, 1),
                // The create is whole, and what is left of the read is the other client's.
                17.. => refused(2, 2, 1),
                _ => refused(2, 1, 1),
            };
            assert_eq!(sizes(&text, &[length, 29 - length]), expected, "{length}");
        }
        assert_eq!(sizes(&text, &[16, 0, 13]), refused(4, 3, 1));
        assert_eq!(sizes(&text, &[0, 29, 0]), Ok(1));
    }

    #[test]
    fn lines_that_are_none() {
        for line in [
            "\n",
            "(create 0 8 rw)",
            "(create 0 8 rw) \n",
            "(create 00 8 rw)\n",
            "(create 0 8)\n",
            "(create 0 8 r)\n",
            "(create  0 8 rw)\n",
            "(read 1 0 4294967296)\n",
            "(drop 1",
            "(drop)\n",
            "x",
        ] {
            let text = format!("{CREATE}{line}");
            assert_eq!(of(&[&text]), refused(2, 1, 2), "{line:?}");
            assert_eq!(of(&[&text, BESIDE]), refused(2, 1, 2), "{line:?}");
        }
        // It is told of where it is taken, and not before.
        assert_eq!(of(&["x\n", "x\n"]), refused(2, 1, 1));
        assert_eq!(of(&["(create 0 8 rw)\nx\n", "x\n"]), refused(2, 2, 1));
    }

    #[test]
    fn lines_that_later_cards_added() {
        for line in [
            "(trace 2)\n",
            "(create 1 0 8 rw)\n",
            "(borrow 2 1 0 8 rw)\n",
            "(drop 1 2)\n",
            "(borrow 1 0 8 rw raw)\n",
            "(borrow 1 0 8 rw cell)\n",
            "(borrow 1 0 8 rw reference)\n",
            "(create 0 8 rw fresh)\n",
            "(create 0 8 rw 0000000000000001)\n",
            "(create 0 8 rw 0000000000000003)\n",
            "(borrow 1 0 8 ro 0000000000000003)\n",
            "(as 0 (read 1 0 8))\n",
            "(as 3 (read 1 0 8))\n",
            "(as 3 (create 0 8 rw))\n",
            "(mark 0)\n",
            "(back 0)\n",
        ] {
            assert_eq!(of(&[line]), refused(2, 1, 1), "{line}");
            let behind = format!("{CREATE}{line}");
            assert_eq!(of(&["", &behind]), refused(2, 2, 2), "{line}");
        }
    }

    /// Zero-sized spans are card 2's, and memory is reused by card 4: the rules are those of all cards.
    #[test]
    fn later_rules_are_followed() {
        let zero = "(create 4 0 rw)\n(borrow 1 4 0 rw)\n(write 2 4 0)\n(read 1 4 0)\n(drop 2)\n";
        with_fewer(&[zero], 2, 4);
        let reused = "(create 0 8 rw)\n(borrow 1 0 8 rw)\n(create 0 1 rw)\n(read 2 0 8)\n";
        assert_eq!(of(&[reused]), refused(5, 1, 4));
    }

    #[test]
    fn every_refusal_but_9() {
        let root = "(create 0 64 rw)\n(borrow 1 0 8 ro)\n";
        for (line, number) in [
            ("(read 01 0 8)\n", 2),
            ("(create 4294967295 2 rw)\n", 3),
            ("(read 1 4294967295 2)\n", 3),
            // 3 comes before 4 and 5.
            ("(read 9 4294967295 2)\n", 3),
            ("(read 9 4294967295 1)\n", 4),
            ("(write 0 0 8)\n", 4),
            ("(drop 3)\n", 4),
            ("(borrow 3 0 8 rw)\n", 4),
            ("(read 1 60 8)\n", 6),
            ("(borrow 2 0 9 ro)\n", 6),
            ("(write 2 0 8)\n", 7),
            ("(borrow 2 0 8 rw)\n", 7),
        ] {
            let text = format!("{root}{line}");
            assert_eq!(of(&[&text]), refused(number, 1, 3), "{line}");
            assert_eq!(of(&[CREATE, "", &text]), refused(number, 3, 3), "{line}");
        }
        let dropped = format!("{root}(drop 2)\n(read 2 4294967295 2)\n");
        assert_eq!(of(&[&dropped]), refused(3, 1, 4));
        let dropped = format!("{root}(drop 2)\n(borrow 2 0 8 ro)\n");
        assert_eq!(of(&[&dropped]), refused(5, 1, 4));
    }

    /// Depths are those of each client's own capabilities.
    #[test]
    fn the_greatest_depth() {
        let chain = |depth: u32| {
            let borrows = (1..depth).map(|name| format!("(borrow {name} 0 0 rw)\n"));
            format!("(create 0 0 rw)\n{}", borrows.collect::<String>())
        };
        let (deepest, deeper) = (chain(MAX_DEPTH), chain(MAX_DEPTH + 1));
        assert_eq!(of(&[&deepest, &deepest]), Ok(128));
        assert_eq!(of(&[&deepest, &deeper]), refused(8, 2, 65));
        assert_eq!(of(&[&deeper, &deepest]), refused(8, 1, 65));
    }

    /// A root at an address, and borrows of it: so many in all.
    fn star(start: u32, rows: usize) -> String {
        let borrow = format!("(borrow 1 {start} 8 rw)\n");
        format!("(create {start} 8 rw)\n") + &borrow.repeat(rows - 1)
    }

    /// 'Up to 1,024.' To try all numbers of rows would take long: this one and one less tell.
    #[test]
    fn the_most_rows() {
        let (text, lengths) = lent(&[&star(0, 512), &star(8, 512)]);
        assert_eq!(try_rows(&text, &lengths, 1_024), Ok(()));
        assert_eq!(try_rows(&text, &lengths, 1_023), Err(stop(10, 2, 512)));
        // One more, of either client, or of one that goes on where the other is finished.
        assert_eq!(of(&[&star(0, 513), &star(8, 512)]), refused(10, 1, 513));
        assert_eq!(of(&[&star(0, 512), &star(8, 513)]), refused(10, 2, 513));
        assert_eq!(of(&[&star(0, 995), &star(8, 30)]), refused(10, 1, 995));
        // What comes behind the first refusal is not looked at.
        let text = star(0, 1_025) + "x";
        assert_eq!(of(&[&text]), refused(10, 1, 1_025));
    }

    /// With so few that some line is refused 10, and with none.
    #[test]
    fn no_number_of_rows_helps_against_another_refusal() {
        let (text, lengths) = lent(&[
            "(create 0 8 rw)\n(borrow 1 0 8 ro)\n(write 2 0 8)\n",
            BESIDE,
        ]);
        for rows in 0..=MAX_ROWS {
            let expected = match rows {
                0 => stop(10, 1, 1),
                1 => stop(10, 2, 1),
                2 => stop(10, 1, 2),
                _ => stop(7, 1, 3),
            };
            assert_eq!(try_rows(&text, &lengths, rows), Err(expected));
        }
        assert_eq!(sizes(&text, &lengths), refused(7, 1, 3));
    }

    /// Each of three clients has none to three lines, and one of them has one more, that is none: all lines before it
    /// are allowed, and it is told of with its place.
    #[test]
    fn lines_are_taken_in_turn() {
        let text = |client: usize, count: usize| {
            let create = format!("(create {client} 1 rw)\n");
            let reads = format!("(read 1 {client} 1)\n");
            match count {
                0 => String::new(),
                _ => create + &reads.repeat(count - 1),
            }
        };
        for number in 0..64 {
            let counts = [number % 4, number / 4 % 4, number / 16];
            let texts: Vec<String> = (0..3).map(|client| text(client, counts[client])).collect();
            let clients: Vec<&str> = texts.iter().map(String::as_str).collect();
            let having_lines = counts.iter().filter(|count| **count > 0).count();
            assert_eq!(of(&clients), Ok(having_lines as u32));
            for wrong in 0..3 {
                let longer = format!("{}x\n", texts[wrong]);
                let mut clients = clients.clone();
                clients[wrong] = &longer;
                let place = (wrong as u32 + 1, counts[wrong] as u32 + 1);
                assert_eq!(of(&clients), refused(2, place.0, place.1));
                // Of two such lines the one in the earlier round is met, and of one round the first client's.
                for other in (0..3).filter(|other| *other != wrong) {
                    let also = format!("{}x\n", texts[other]);
                    let mut clients = clients.clone();
                    clients[other] = &also;
                    let first = [other, wrong]
                        .into_iter()
                        .min_by_key(|at| (counts[*at], *at));
                    let first = first.expect("there are two");
                    let place = (first as u32 + 1, counts[first] as u32 + 1);
                    assert_eq!(of(&clients), refused(2, place.0, place.1));
                }
            }
        }
    }

    /// The table's names are a million for all clients together. Each create ends the one before it.
    #[test]
    fn names_are_spent() {
        let half = CREATE.repeat(MAX_NAME as usize / 2);
        let more = format!("{half}{CREATE}");
        let (text, lengths) = lent(&[&half, &more]);
        assert_eq!(try_rows(&text, &lengths, 2), Err(stop(9, 2, 500_001)));
    }
}
