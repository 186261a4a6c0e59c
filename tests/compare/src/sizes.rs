//! Card 13: how many rows clients need on one table. Every number of rows is tried; lengths, turns, lines, names and
//! memory that clients share, at their edges; and more names than anybody would keep.

use interface::SizingWords;
use oracle::random::Random;
use oracle::{MAX_CLIENTS, MAX_DEPTH, MAX_INPUT, MAX_NAME, MAX_ROWS, Stop};

use crate::agree::{Agreed, Subject, packed, same, same_answer};
use crate::clients::{OTHER_LINES, Plan, Texts, clients, crowded_clients, long_clients};
use crate::generate;
use crate::lines::{NUMBERS, each_byte};
use crate::report::{Checked, Counts, MetAnswers, Report, check_few};

pub fn groups(report: &mut Report, subject: Subject) {
    let mut group = |name: &str, check: fn(&mut Random, &mut Calls) -> Agreed| {
        report.group_saying(name, |random| {
            let mut calls = Calls::to(subject);
            check(random, &mut calls)?;
            Ok(calls.counts.to_string())
        });
    };
    group("clients with every number of rows", every_number_of_rows);
    group("allowed clients", allowed);
    group("clients with a fault", with_a_fault);
    group("clients with damaged texts", damaged);
    group("lengths of clients", lengths);
    group("texts of clients cut at every byte", every_cut);
    group("lines of clients in turn", turns);
    group("other lines of clients", other_lines);
    group("numbers in lines of clients", numbers);
    group("names of clients", names);
    group("memory that clients share", shared_memory);
    group("clients down to the greatest depth", depths);
    group("clients about the most rows", most_rows);
    group("clients with many rows", many_rows);
    group("clients with many names", many_names);
    group("clients with long texts", long_texts);
    group("clients that spend all names", spent_names);
    report.group("every change of one byte of a client's line", |_| {
        every_byte(subject)
    });
    report.met("every answer to clients was met", every_answer_met);
}

static MET: MetAnswers = MetAnswers::none();

/// The refusals of lines in document 01's form.
const REFUSALS: [u64; 9] = [2, 3, 4, 5, 6, 7, 8, 9, 10];

fn every_answer_met() -> Checked {
    let never = (1..20).filter(|number| !REFUSALS.contains(&(*number as u64)));
    MET.every_answer_but(&never.collect::<Vec<_>>())
}

/// Calls beside the oracle, and how they were answered.
struct Calls {
    subject: Subject,
    counts: Counts<9>,
}

impl Calls {
    /// None yet.
    fn to(subject: Subject) -> Calls {
        Calls {
            subject,
            counts: Counts::of(REFUSALS, &MET),
        }
    }

    /// A text with these lengths: the answer.
    fn lent(&mut self, text: &[u8], lengths: &[u32]) -> Result<u64, String> {
        self.counted(agreed(self.subject, text, lengths))
    }

    /// Clients: the answer. On failure gives few lines that still fail.
    fn clients(&mut self, texts: &Texts) -> Result<u64, String> {
        self.counted(clients_agreed(self.subject, texts))
    }

    /// Clients for which so many rows are enough. All numbers below would take long: that of the answer is tried, and
    /// one less.
    fn clients_with(&mut self, texts: &Texts, enough: usize) -> Agreed {
        let (text, lengths) = end_to_end(texts);
        let found = call(self.subject, &text, &lengths)?;
        let rows = found.report[1];
        let expected = oracle::try_rows(&text, &lengths, enough).map(|()| rows);
        let answer = self.counted(says(expected, found))?;
        match answer >> 32 {
            0 => is_fewest(&text, &lengths, rows as usize, enough),
            _ => Ok(()),
        }
    }

    fn counted(&mut self, answer: Result<u64, String>) -> Result<u64, String> {
        let answer = answer?;
        self.counts.count(answer >> 32);
        Ok(answer)
    }
}

/// What a call found.
#[derive(Clone, Copy)]
struct Found {
    answer: u64,
    report: SizingWords,
}

/// What the report has before a call, and behind it.
const UNTOUCHED: u32 = 0xA5A5_A5A5;

/// What stands behind the lent text: the newline of a last line without one, and a line that would be allowed.
const BEHIND: &[u8] = b"\n(create 0 8 rw)\n";

fn call(subject: Subject, text: &[u8], lengths: &[u32]) -> Result<Found, String> {
    let lent_text = [text, BEHIND].concat();
    let lent_lengths = [lengths, &[0, BEHIND.len() as u32]].concat();
    let (text, lengths) = (&lent_text[..text.len()], &lent_lengths[..lengths.len()]);
    let mut words = [UNTOUCHED; 6];
    let report = words.first_chunk_mut().expect("there are two words more");
    let answer = subject.sizes(text, lengths, report);
    let report = *report;
    same("the words behind the report", &words[4..], &[UNTOUCHED; 2])?;
    Ok(Found { answer, report })
}

/// Whether the answer and the report say this: the answer.
fn says(expected: Result<u32, Stop>, found: Found) -> Result<u64, String> {
    let report = match expected {
        Ok(rows) => [0, rows, 0, 0],
        Err(stop) => [stop.number.into(), 0, stop.client, stop.line],
    };
    same("refusal, rows, client and line", report, found.report)?;
    let answer = packed(expected.map_err(|stop| stop.number));
    same_answer(answer, found.answer)?;
    Ok(answer)
}

fn agreed(subject: Subject, text: &[u8], lengths: &[u32]) -> Result<u64, String> {
    let expected = oracle::sizes(text, lengths);
    says(expected, call(subject, text, lengths)?).map_err(|why| shown(why, text, lengths))
}

fn shown(why: String, text: &[u8], lengths: &[u32]) -> String {
    format!(
        "{why}\n  text \"{}\", lengths {lengths:?}",
        text.escape_ascii()
    )
}

/// A line and its client.
type Line = (usize, Vec<u8>);

fn clients_agreed(subject: Subject, texts: &Texts) -> Result<u64, String> {
    let of = |texts: &Texts| {
        let (text, lengths) = end_to_end(texts);
        agreed(subject, &text, &lengths)
    };
    let of_lines = |lines: &[Line]| {
        let mut fewer = vec![Vec::new(); texts.len()];
        for (client, line) in lines {
            fewer[*client].extend(line);
        }
        of(&fewer).map(|_| ())
    };
    of(texts).map_err(|why| {
        let mut lines: Vec<Line> = Vec::new();
        for (client, text) in texts.iter().enumerate() {
            let its = text.split_inclusive(|byte| *byte == b'\n');
            lines.extend(its.map(|line| (client, line.to_vec())));
        }
        let fewer = check_few(&lines, of_lines);
        fewer.err().map_or(why, |(why, _)| why)
    })
}

/// Every line is allowed with so many rows, and with one less some line is refused 10.
fn is_fewest(text: &[u8], lengths: &[u32], rows: usize, enough: usize) -> Agreed {
    same("fewer than are enough", true, rows <= enough)?;
    let with_rows = oracle::try_rows(text, lengths, rows);
    same(&format!("with {rows} rows"), Ok(()), with_rows)?;
    let Some(less) = rows.checked_sub(1) else {
        return Ok(());
    };
    let with_less = oracle::try_rows(text, lengths, less);
    let number = with_less.map_err(|stop| stop.number);
    same(&format!("with {less} rows"), Err(10), number)
}

/// The texts end to end, and their lengths.
fn end_to_end(texts: &Texts) -> (Vec<u8>, Vec<u32>) {
    let lengths = texts.iter().map(|text| text.len() as u32).collect();
    (texts.concat(), lengths)
}

/// Clients with these texts.
fn all(texts: impl IntoIterator<Item = impl AsRef<str>>) -> Texts {
    let texts = texts.into_iter().map(|text| text.as_ref().into());
    texts.collect()
}

// ---- random clients

/// From none to a few more than are needed, and with the most, by the table and by the history: 'with fewer, some
/// line is refused 10', and with more every line is allowed. Where a line is refused for another reason, no number of
/// rows helps.
fn every_number_of_rows(random: &mut Random, calls: &mut Calls) -> Agreed {
    for _ in 0..4_000 {
        let plan = Plan {
            lines: 9,
            live: random.between(1, 12),
            has_fault: random.one_in(3),
        };
        let texts = clients(random, &plan);
        let answer = calls.clients(&texts)?;
        let (text, lengths) = end_to_end(&texts);
        each_number(&text, &lengths, answer).map_err(|why| shown(why, &text, &lengths))?;
    }
    Ok(())
}

fn each_number(text: &[u8], lengths: &[u32], answer: u64) -> Agreed {
    let is_allowed = answer >> 32 == 0;
    let last = if is_allowed { answer as usize + 3 } else { 24 };
    let with_most = oracle::try_rows(text, lengths, MAX_ROWS);
    same("with the most", is_allowed, with_most.is_ok())?;
    for rows in 0..=last {
        let found = oracle::try_rows(text, lengths, rows);
        let by_history = oracle::try_rows_by_history(text, lengths, rows);
        same(&format!("by the history of {rows} rows"), found, by_history)?;
        let is_enough = is_allowed && rows as u64 >= answer;
        let is_due = match found {
            Ok(()) => is_enough,
            Err(stop) => !is_enough && (stop.number == 10 || found == with_most),
        };
        same(&format!("{found:?} is due with {rows} rows"), true, is_due)?;
    }
    Ok(())
}

/// Clients of up to some hundred lines, with something changed.
fn random_clients(
    random: &mut Random,
    calls: &mut Calls,
    cases: u64,
    has_fault: bool,
    change: impl Fn(&mut Random, &mut Texts),
) -> Agreed {
    for _ in 0..cases {
        let plan = Plan {
            lines: random.pick(&[4, 12, 40, 120]),
            live: random.pick(&[2, 6, 16, 40]),
            has_fault,
        };
        let mut texts = clients(random, &plan);
        change(random, &mut texts);
        calls.clients(&texts)?;
    }
    Ok(())
}

fn allowed(random: &mut Random, calls: &mut Calls) -> Agreed {
    random_clients(random, calls, 1_500, false, |_, _| {})
}

fn with_a_fault(random: &mut Random, calls: &mut Calls) -> Agreed {
    random_clients(random, calls, 8_000, true, |_, _| {})
}

fn damaged(random: &mut Random, calls: &mut Calls) -> Agreed {
    random_clients(random, calls, 6_000, false, |random, texts| {
        let at = random.index(texts.len());
        generate::damage(random, &mut texts[at]);
    })
}

// ---- lengths and turns

/// A client of one line.
fn one_line(client: usize) -> String {
    format!("(create {client} 1 rw)\n")
}

/// As many lengths as there are clients, fewer and more, their sums just as long as the text, longer and shorter, and
/// longer by what 32 bits do not hold.
fn lengths(_: &mut Random, calls: &mut Calls) -> Agreed {
    for count in 0..12 {
        let (text, whole) = end_to_end(&all((0..count).map(one_line)));
        for lengths in near(&whole) {
            calls.lent(&text, &lengths)?;
        }
    }
    for many in [9, 10, 16, 64, 255, 256, 257, 5_000] {
        calls.lent(&[], &vec![0; many])?;
    }
    Ok(())
}

/// These lengths, and others near them.
fn near(whole: &[u32]) -> Vec<Vec<u32>> {
    let half = 1 << 31;
    let behind = [
        &[][..],
        &[0],
        &[0, 0],
        &[1],
        &[u32::MAX],
        &[u32::MAX, 1],
        &[u32::MAX, 2],
        &[half, half],
        &[half, half, 0],
        &[half, half - 1],
        &[u32::MAX; 8],
    ];
    let mut near: Vec<Vec<u32>> = behind.map(|behind| [whole, behind].concat()).to_vec();
    near.push([&[0], whole].concat());
    near.push([&[u32::MAX, 1], whole].concat());
    for at in 0..whole.len() {
        for changed in [0, 1, whole[at] - 1, whole[at] + 1, u32::MAX] {
            let mut lengths = whole.to_vec();
            lengths[at] = changed;
            near.push(lengths);
        }
        let mut fewer = whole.to_vec();
        fewer.remove(at);
        near.push(fewer);
        // The sum stays, and a line is cut.
        let mut moved = whole.to_vec();
        moved[at] -= 1;
        moved[(at + 1) % whole.len()] += 1;
        near.push(moved);
    }
    near
}

/// A text in three clients, cut anywhere.
fn every_cut(_: &mut Random, calls: &mut Calls) -> Agreed {
    let text = b"(create 0 8 rw)\n(borrow 1 0 8 ro)\n(create 8 8 rw)\n(read 1 8 8)\n(drop 1)\n";
    let all = text.len() as u32;
    for first in 0..=all {
        for second in first..=all {
            calls.lent(text, &[first, second - first, all - second])?;
        }
    }
    Ok(())
}

/// A client of so many lines: a create, and behind it one line again and again.
fn create_and(line: String, client: usize, lines: usize) -> String {
    match lines {
        0 => String::new(),
        _ => one_line(client) + &line.repeat(lines - 1),
    }
}

/// A client of so many lines, of which the first makes all that it has.
fn some_lines(client: usize, lines: usize) -> String {
    create_and(format!("(read 1 {client} 1)\n"), client, lines)
}

/// Three clients of none to three lines, and behind those of some of them a line that is none: the first of these is
/// told of. The same with any number of clients, some of them without lines.
fn turns(random: &mut Random, calls: &mut Calls) -> Agreed {
    for number in 0..64 {
        let lines = [number % 4, number / 4 % 4, number / 16];
        for wrong in 0..8 {
            let text = |client: usize| {
                let is_wrong = wrong & 1 << client != 0;
                some_lines(client, lines[client]) + if is_wrong { "(drop)\n" } else { "" }
            };
            calls.clients(&all((0..3).map(text)))?;
        }
    }
    for _ in 0..600 {
        let clients = random.between(1, MAX_CLIENTS);
        let most = random.pick(&[1, 3, 12]);
        let text = |client| some_lines(client, random.between(0, most));
        let mut texts = all((0..clients).map(text));
        if random.one_in(2) {
            texts[random.index(clients)].push(b'\n');
        }
        calls.clients(&texts)?;
    }
    Ok(())
}

// ---- lines

/// Lines that make a root and borrow from it.
const TWO: &str = "(create 0 16 rw)\n(borrow 1 0 8 rw)\n";

/// As a client's first line, behind others and between, without a newline, and behind clients that are finished.
fn other_lines(_: &mut Random, calls: &mut Calls) -> Agreed {
    for line in OTHER_LINES {
        let behind = format!("{TWO}{line}");
        let between = format!("{TWO}{line}(read 1 0 8)\n");
        for texts in [
            all([line]),
            all([&behind]),
            all([&between]),
            all([behind.trim_end_matches('\n')]),
            all(["(create 16 8 rw)\n", "", &behind]),
            all(["", "", "", "", "", "", TWO, line]),
        ] {
            calls.clients(&texts)?;
        }
    }
    Ok(())
}

/// Each kind with strange words in the place of its numbers, in a client that has names.
fn numbers(_: &mut Random, calls: &mut Calls) -> Agreed {
    for number in NUMBERS {
        for line in [
            format!("(drop {number})\n"),
            format!("(read {number} 0 8)\n"),
            format!("(read 1 {number} 0)\n"),
            format!("(read 1 0 {number})\n"),
            format!("(write {number} 0 8)\n"),
            format!("(write 2 {number} 1)\n"),
            format!("(write 2 1 {number})\n"),
            format!("(create {number} 8 rw)\n"),
            format!("(create 0 {number} ro)\n"),
            format!("(create 0 8 {number})\n"),
            format!("(borrow {number} 0 8 rw)\n"),
            format!("(borrow 2 {number} 1 rw)\n"),
            format!("(borrow 2 1 {number} ro)\n"),
            format!("(borrow 2 0 8 {number})\n"),
        ] {
            let text = format!("{TWO}{line}");
            calls.clients(&all([&text, "(create 16 8 rw)\n"]))?;
        }
    }
    Ok(())
}

/// The last line of the second of three clients.
fn every_byte(subject: Subject) -> Checked {
    let lines = [
        "(create 8 4 rw)\n",
        "(borrow 1 10 1 ro)\n",
        "(read 2 0 8)\n",
        "(write 1 0 8)\n",
        "(drop 2)\n",
    ];
    each_byte(&lines, |line| {
        let text = [TWO.as_bytes(), line].concat();
        let (text, lengths) = end_to_end(&vec![b"(create 16 8 rw)\n".to_vec(), text, Vec::new()]);
        let answer = agreed(subject, &text, &lengths)?;
        MET.count_refusal(answer >> 32);
        Ok(())
    })
}

// ---- names and memory

/// Three clients that were given one name, three and six, of which some have ended: each goes through every number, in
/// every way, with a span in its memory and with spans that no memory has.
fn names(_: &mut Random, calls: &mut Calls) -> Agreed {
    let given = [
        "(create 0 8 rw)\n".to_string() + &"(read 1 0 8)\n".repeat(6),
        "(create 8 8 rw)\n(borrow 1 8 8 rw)\n(borrow 2 8 8 rw)\n(drop 2)\n".to_string()
            + &"(read 1 8 8)\n".repeat(3),
        "(create 16 8 rw)\n(borrow 1 16 8 ro)\n(borrow 2 16 8 ro)\n(create 16 4 rw)\n".to_string()
            + "(create 24 0 rw)\n(borrow 4 16 2 rw)\n(write 4 16 4)\n",
    ];
    for client in 0..3 {
        for name in (0..10).chain([255, 256, 65_536, 65_537, 1 << 31, u32::MAX]) {
            let start = 8 * client;
            for line in [
                format!("(borrow {name} {start} 1 ro)\n"),
                format!("(borrow {name} {start} 1 rw)\n"),
                format!("(read {name} {start} 4)\n"),
                format!("(write {name} {start} 4)\n"),
                format!("(drop {name})\n"),
                format!("(read {name} 4294967295 2)\n"),
                format!("(write {name} 4294967295 1)\n"),
            ] {
                let mut texts = all(&given);
                texts[client].extend(line.bytes());
                calls.clients(&texts)?;
            }
        }
    }
    Ok(())
}

/// A client with a root, a borrow of it and a borrow of that; another creates anywhere about these, at once or later,
/// also with length 0. Then the first goes through one of its names, or through none.
fn shared_memory(_: &mut Random, calls: &mut Calls) -> Agreed {
    let tree = "(create 2 8 rw)\n(borrow 1 4 4 rw)\n(borrow 2 6 2 ro)\n(borrow 1 2 0 rw)\n";
    for start in 0..11 {
        for length in [0, 1, 2, 4, 10] {
            let create = format!("(create {start} {length} rw)\n");
            let late = some_lines(64, 3) + &create + &format!("(read 2 {start} {length})\n");
            for name in 0..=4 {
                let used = match name {
                    0 => tree.to_string(),
                    _ => format!("{tree}(read {name} 6 0)\n"),
                };
                calls.clients(&all([&used, &create]))?;
                calls.clients(&all([&used, &late]))?;
                calls.clients(&all([&late, "", &used]))?;
            }
        }
    }
    Ok(())
}

/// A root and borrows, each of the one before it, down to a depth; the last is written through, and dropped for
/// another.
fn chain(client: usize, depth: u32) -> String {
    let borrow = |name| format!("(borrow {name} {client} 1 rw)\n");
    let borrows: String = (1..depth).map(borrow).collect();
    let used = format!("(write {depth} {client} 1)\n(drop {depth})\n");
    one_line(client) + &borrows + &used + &borrow(depth - 1)
}

/// Chains as deep as may be, and one that is one less or one more deep.
fn depths(_: &mut Random, calls: &mut Calls) -> Agreed {
    for clients in [1, 2, 3] {
        for other in 0..clients {
            for depth in MAX_DEPTH - 1..=MAX_DEPTH + 1 {
                let depth_of = |client| if client == other { depth } else { MAX_DEPTH };
                let text = |client| chain(client, depth_of(client));
                calls.clients_with(&all((0..clients).map(text)), MAX_ROWS)?;
            }
        }
    }
    Ok(())
}

// ---- many rows

/// A root and borrows of it, so many in all.
fn star(client: usize, rows: usize) -> String {
    create_and(format!("(borrow 1 {client} 1 rw)\n"), client, rows)
}

/// About as many rows as a table has, needed by one client or by several that have their parts of them. Behind these
/// stand lines that need no more, and one that needs one more.
fn most_rows(random: &mut Random, calls: &mut Calls) -> Agreed {
    for rows in MAX_ROWS - 1..=MAX_ROWS + 2 {
        for clients in [1, 2, 7, MAX_CLIENTS] {
            let even = vec![rows / clients; clients];
            let uneven = even.iter().map(|part| random.between(0, *part)).collect();
            for mut parts in [even, uneven] {
                let at = random.index(clients);
                parts[at] += rows - parts.iter().sum::<usize>();
                let mut texts = all((0..clients).map(|client| star(client, parts[client])));
                calls.clients_with(&texts, MAX_ROWS)?;
                // What is dropped leaves its row to another.
                let (last, borrow) = (parts[at], format!("(borrow 1 {at} 1 ro)\n"));
                texts[at].extend(format!("(drop {last})\n{borrow}").bytes());
                texts[at].extend(format!("(read {} {at} 1)\n", last + 1).bytes());
                calls.clients_with(&texts, MAX_ROWS)?;
                texts[at].extend(borrow.bytes());
                calls.clients_with(&texts, MAX_ROWS)?;
            }
        }
    }
    Ok(())
}

/// Clients that go on as they like where about a thousand rows live already.
fn many_rows(random: &mut Random, calls: &mut Calls) -> Agreed {
    for _ in 0..12 {
        let clients = random.between(1, MAX_CLIENTS);
        let rows = random.between(800, 1_010) / clients;
        let texts = crowded_clients(random, clients, rows, 60 / clients);
        calls.clients_with(&texts, MAX_ROWS)?;
    }
    Ok(())
}

// ---- many names

/// How many names were given after some that live to the end: however many somebody keeps, some of these are older.
const AGES: [u32; 33] = [
    0, 1, 2, 15, 16, 17, 63, 64, 65, 255, 256, 257, 511, 512, 513, 1_023, 1_024, 1_025, 2_047,
    2_048, 2_049, 4_095, 4_096, 4_097, 8_191, 8_192, 8_193, 32_768, 65_534, 65_535, 65_536, 65_537,
    131_072,
];

/// Enough rows where few names live: more would take long over many lines.
const FEW_ROWS: usize = 128;

/// A client that is given so many names. Each is dropped by the next line, but for the first and those that are kept,
/// which are read through in the end.
fn given(client: usize, names: u32, is_kept: impl Fn(u32) -> bool) -> String {
    let mut text = one_line(client);
    for name in 2..=names {
        text += &format!("(borrow 1 {client} 1 rw)\n");
        if !is_kept(name) {
            text += &format!("(drop {name})\n");
        }
    }
    for name in (1..=names).filter(|name| *name == 1 || is_kept(*name)) {
        text += &format!("(read {name} {client} 1)\n");
    }
    text
}

/// One client with up to 70,000 names, some with a few thousand each that come as they like, and eight: old names that
/// live are used, and then one that has ended, or was not given.
fn many_names(random: &mut Random, calls: &mut Calls) -> Agreed {
    for names in [2_047, 2_048, 2_049, 2_050, 4_098, 5_003, 9_001, 70_001] {
        let text = given(0, names, |name| AGES.contains(&(names - name)));
        calls.clients_with(&all([&text]), FEW_ROWS)?;
        for _ in 0..if names > 10_000 { 2 } else { 8 } {
            let age = random.pick(&AGES) + random.pick(&[0, 3]);
            let name = match random.one_in(4) {
                true => names + 1,
                false => names.saturating_sub(age),
            };
            let text = format!("{text}(write {name} 0 1)\n");
            calls.clients_with(&all([&text]), FEW_ROWS)?;
        }
    }
    for clients in 1..=3 {
        let texts = long_clients(random, clients, 300_000, 24);
        calls.clients_with(&texts, FEW_ROWS)?;
    }
    let is_kept = |name: u32| [2, 3, 1_000, 2_049, 2_600].contains(&name);
    let text = |client| given(client, 2_600 + client as u32, is_kept);
    let texts = all((0..MAX_CLIENTS).map(text));
    calls.clients_with(&texts, FEW_ROWS)?;
    for name in [2, 3, 4, 1_000, 1_001, 2_599, 2_700] {
        let at = random.index(MAX_CLIENTS);
        let mut used = texts.clone();
        used[at].extend(format!("(write {name} {at} 0)\n").bytes());
        calls.clients_with(&used, FEW_ROWS)?;
    }
    Ok(())
}

/// Eight texts of 65,536 bytes each, of one byte less and of one more: creates of which each ends the last, and reads.
/// And lines as they come.
fn long_texts(random: &mut Random, calls: &mut Calls) -> Agreed {
    let text = |client: usize| match client % 2 {
        0 => one_line(client).repeat(MAX_INPUT / 16),
        _ => some_lines(client, 1 + (MAX_INPUT - 16) / 13),
    };
    let texts = all((0..MAX_CLIENTS).map(text));
    for text in &texts {
        same("bytes", MAX_INPUT, text.len())?;
    }
    calls.clients_with(&texts, FEW_ROWS)?;
    for client in [0, 1, 6, 7] {
        let mut shorter = texts.clone();
        shorter[client].pop();
        calls.clients_with(&shorter, FEW_ROWS)?;
        let mut longer = texts.clone();
        longer[client].push(b'\n');
        calls.clients_with(&longer, FEW_ROWS)?;
    }
    for live in [8, 40] {
        let texts = long_clients(random, MAX_CLIENTS, MAX_INPUT, live);
        calls.clients_with(&texts, FEW_ROWS)?;
    }
    Ok(())
}

/// A million names of eight clients together, of one alone, and one more. Each create ends what is there.
fn spent_names(_: &mut Random, calls: &mut Calls) -> Agreed {
    let create = one_line(0);
    let names = MAX_NAME as usize;
    let mut texts = all(vec![create.repeat(names / MAX_CLIENTS); MAX_CLIENTS]);
    calls.clients_with(&texts, FEW_ROWS)?;
    texts[2].extend(create.bytes());
    calls.clients_with(&texts, FEW_ROWS)?;
    let used = format!("(read {names} 0 1)\n(borrow {names} 0 1 ro)\n");
    calls.clients_with(&all([create.repeat(names) + &used]), FEW_ROWS)
}
