//! Traces of cards 6, 7, 9 and 10, with their answers and listings worked out by hand from the cards'
//! sentences.

/// A line and its answer.
pub type Step = (&'static str, Result<u32, u8>);

/// What a trace shows, its lines, and the listing that they leave. In those of the cards before card 10 every
/// row is of domain 0 alone, and `whole` puts that in.
pub type Trace = (&'static str, &'static [Step], &'static str);

/// The maker and the mask of what domain 0 makes for itself alone, as they stand in a listing.
pub const OF_DOMAIN_0: &str = " 0 0000000000000001";

/// A listing in which every row is of domain 0 alone and that is not written: the same with it written,
/// behind the words of each row.
pub fn whole(listing: &str) -> String {
    let mut whole = String::new();
    let mut is_row = false;
    for (at, byte) in listing.char_indices() {
        let rest = &listing[at..];
        let ends_words = rest.starts_with(" (") || rest.starts_with(')');
        if is_row && ends_words {
            whole += OF_DOMAIN_0;
            is_row = false;
        }
        if byte == '(' {
            // Other forms begin with a word.
            is_row = !rest[1..].starts_with(|next: char| next.is_ascii_lowercase());
        }
        whole.push(byte);
    }
    whole
}

const ROOT: Step = ("(create 0 64 rw)", Ok(1));

/// Raw capabilities and cells, on six rows or more with no name issued.
pub const KINDS: [Trace; 21] = [
    (
        "a raw capability and its parent, used in turn",
        &[
            ROOT,
            ("(borrow 1 0 8 rw raw)", Ok(2)),
            ("(write 1 0 8)", Ok(0)),
            ("(write 2 0 8)", Ok(0)),
            ("(read 1 0 8)", Ok(0)),
            ("(write 2 0 8)", Ok(0)),
            ("(write 1 0 64)", Ok(0)),
            ("(write 2 0 8)", Ok(0)),
        ],
        "(issued 2)\n(1 0 64 rw (2 0 8 rw raw))\n",
    ),
    (
        "a raw capability beside a reference below its parent",
        &[
            ROOT,
            ("(borrow 1 0 8 rw raw)", Ok(2)),
            ("(write 1 0 8)", Ok(0)),
            ("(borrow 1 0 8 rw)", Ok(3)),
            ("(write 3 0 8)", Ok(0)),
            ("(read 1 0 8)", Ok(0)),
        ],
        "(issued 3)\n(1 0 64 rw (2 0 8 rw raw) (3 0 8 ro))\n",
    ),
    (
        "a raw capability and a stranger's write",
        &[
            ROOT,
            ("(borrow 1 0 8 rw raw)", Ok(2)),
            ("(borrow 2 0 8 rw raw)", Ok(3)),
            ("(borrow 1 0 8 rw)", Ok(4)),
            ("(write 4 0 8)", Ok(0)),
            ("(read 3 0 8)", Err(5)),
            ("(write 2 0 8)", Ok(0)),
            ("(read 4 0 8)", Err(5)),
        ],
        "(issued 4)\n(1 0 64 rw (2 0 8 rw raw))\n",
    ),
    (
        "a raw capability and its parent's parent",
        &[
            ROOT,
            ("(borrow 1 0 8 rw)", Ok(2)),
            ("(borrow 2 0 8 rw raw)", Ok(3)),
            ("(borrow 1 8 8 rw)", Ok(4)),
            ("(write 4 8 8)", Ok(0)),
            ("(write 1 0 8)", Ok(0)),
        ],
        "(issued 4)\n(1 0 64 rw (4 8 8 rw))\n",
    ),
    (
        "reads and raw capabilities",
        &[
            ROOT,
            ("(borrow 1 0 8 rw raw)", Ok(2)),
            ("(borrow 1 0 8 rw raw)", Ok(3)),
            ("(borrow 3 0 8 rw raw)", Ok(4)),
            ("(read 1 0 8)", Ok(0)),
            ("(read 2 0 8)", Ok(0)),
            ("(read 4 0 8)", Ok(0)),
        ],
        "(issued 4)\n(1 0 64 rw (2 0 8 rw raw) (3 0 8 rw raw (4 0 8 rw raw)))\n",
    ),
    (
        "a raw capability is lowered with its parent",
        &[
            ROOT,
            ("(borrow 1 0 8 rw)", Ok(2)),
            ("(borrow 2 0 8 rw raw)", Ok(3)),
            ("(read 1 0 8)", Ok(0)),
            ("(write 3 0 8)", Err(7)),
        ],
        "(issued 3)\n(1 0 64 rw (2 0 8 ro (3 0 8 ro raw)))\n",
    ),
    (
        "two cells side by side",
        &[
            ROOT,
            ("(borrow 1 0 8 rw cell)", Ok(2)),
            ("(borrow 1 0 8 rw cell)", Ok(3)),
            ("(write 2 0 8)", Ok(0)),
            ("(write 3 0 8)", Ok(0)),
            ("(write 2 0 8)", Ok(0)),
        ],
        "(issued 3)\n(1 0 64 rw (2 0 8 rw cell) (3 0 8 rw cell))\n",
    ),
    (
        "writes inside a cell, and a read",
        &[
            ROOT,
            ("(borrow 1 0 8 rw cell)", Ok(2)),
            ("(borrow 1 0 8 rw)", Ok(3)),
            ("(borrow 2 0 8 rw)", Ok(4)),
            ("(write 4 0 8)", Ok(0)),
            ("(write 2 0 8)", Ok(0)),
            ("(read 4 0 8)", Err(5)),
            ("(read 2 0 8)", Ok(0)),
        ],
        "(issued 4)\n(1 0 64 rw (2 0 8 rw cell) (3 0 8 ro))\n",
    ),
    (
        "a read from inside a cell lowers outside it",
        &[
            ROOT,
            ("(borrow 1 0 8 rw)", Ok(2)),
            ("(borrow 1 0 8 rw cell)", Ok(3)),
            ("(borrow 3 0 8 rw)", Ok(4)),
            ("(borrow 1 0 8 rw cell)", Ok(5)),
            ("(read 4 0 8)", Ok(0)),
            ("(write 5 0 8)", Err(7)),
        ],
        "(issued 5)\n(1 0 64 rw (2 0 8 ro) (3 0 8 rw cell (4 0 8 rw)) (5 0 8 ro cell))\n",
    ),
    (
        "a cell inside a cell",
        &[
            ROOT,
            ("(borrow 1 0 8 rw cell)", Ok(2)),
            ("(borrow 2 0 8 rw cell)", Ok(3)),
            ("(borrow 2 0 8 rw)", Ok(4)),
            ("(borrow 1 0 8 rw)", Ok(5)),
            ("(write 3 0 8)", Ok(0)),
            ("(write 4 0 8)", Ok(0)),
            ("(read 3 0 8)", Err(5)),
        ],
        "(issued 5)\n(1 0 64 rw (2 0 8 rw cell (4 0 8 rw)) (5 0 8 rw))\n",
    ),
    (
        "a write from outside ends a cell",
        &[
            ROOT,
            ("(borrow 1 0 8 rw cell)", Ok(2)),
            ("(borrow 2 0 4 rw)", Ok(3)),
            ("(borrow 1 0 8 rw)", Ok(4)),
            ("(write 4 4 4)", Ok(0)),
            ("(read 3 0 4)", Err(5)),
        ],
        "(issued 4)\n(1 0 64 rw (4 0 8 rw))\n",
    ),
    (
        "raw capabilities outside a cell and inside it",
        &[
            ROOT,
            ("(borrow 1 0 8 rw)", Ok(2)),
            ("(borrow 2 0 8 rw raw)", Ok(3)),
            ("(borrow 1 0 8 rw cell)", Ok(4)),
            ("(borrow 4 0 8 rw)", Ok(5)),
            ("(borrow 5 0 8 rw raw)", Ok(6)),
            ("(write 5 0 8)", Ok(0)),
            ("(write 6 0 8)", Ok(0)),
            ("(write 4 0 8)", Ok(0)),
            ("(read 6 0 8)", Err(5)),
        ],
        "(issued 6)\n(1 0 64 rw (2 0 8 rw (3 0 8 rw raw)) (4 0 8 rw cell))\n",
    ),
    (
        "a create over a raw capability and a cell",
        &[
            ROOT,
            ("(borrow 1 0 8 rw cell)", Ok(2)),
            ("(borrow 2 0 8 rw raw)", Ok(3)),
            ("(create 0 8 rw)", Ok(4)),
            ("(read 3 0 8)", Err(5)),
            ("(read 2 0 8)", Err(5)),
        ],
        "(issued 4)\n(4 0 8 rw)\n",
    ),
    (
        "drops of raw capabilities and cells",
        &[
            ROOT,
            ("(borrow 1 0 8 rw cell)", Ok(2)),
            ("(borrow 2 0 8 rw raw)", Ok(3)),
            ("(borrow 1 0 8 ro raw)", Ok(4)),
            ("(drop 2)", Ok(0)),
            ("(drop 3)", Err(5)),
        ],
        "(issued 4)\n(1 0 64 rw (4 0 8 ro raw))\n",
    ),
    (
        "kinds and rights are not bound",
        &[
            ROOT,
            ("(borrow 1 0 8 ro raw)", Ok(2)),
            ("(borrow 2 0 8 ro cell)", Ok(3)),
            ("(borrow 3 0 8 rw raw)", Err(7)),
            ("(write 2 0 8)", Err(7)),
        ],
        "(issued 3)\n(1 0 64 rw (2 0 8 ro raw (3 0 8 ro cell)))\n",
    ),
    (
        "kinds in a listing",
        &[
            ROOT,
            ("(borrow 1 0 8 rw raw)", Ok(2)),
            ("(borrow 2 0 4 ro)", Ok(3)),
            ("(borrow 1 8 8 ro cell)", Ok(4)),
        ],
        "(issued 4)\n(1 0 64 rw (2 0 8 rw raw (3 0 4 ro)) (4 8 8 ro cell))\n",
    ),
    (
        "a write from below the parent spares a raw capability",
        &[
            ROOT,
            ("(borrow 1 0 8 rw raw)", Ok(2)),
            ("(borrow 1 0 8 rw)", Ok(3)),
            ("(borrow 3 0 8 rw)", Ok(4)),
            ("(write 4 0 8)", Ok(0)),
            ("(write 3 0 8)", Ok(0)),
            ("(borrow 1 0 8 rw raw)", Ok(5)),
            ("(write 5 0 8)", Ok(0)),
        ],
        "(issued 5)\n(1 0 64 rw (2 0 8 rw raw) (5 0 8 rw raw))\n",
    ),
    (
        "a write from below a cell strikes nothing outside",
        &[
            ROOT,
            ("(borrow 1 0 8 rw)", Ok(2)),
            ("(borrow 1 0 8 rw cell)", Ok(3)),
            ("(borrow 3 0 8 rw)", Ok(4)),
            ("(borrow 4 0 8 rw)", Ok(5)),
            ("(write 5 0 8)", Ok(0)),
        ],
        "(issued 5)\n(1 0 64 rw (2 0 8 rw) (3 0 8 rw cell (4 0 8 rw (5 0 8 rw))))\n",
    ),
    (
        "a write inside a cell strikes there",
        &[
            ROOT,
            ("(borrow 1 0 8 rw cell)", Ok(2)),
            ("(borrow 2 0 8 rw)", Ok(3)),
            ("(borrow 2 0 8 rw)", Ok(4)),
            ("(write 4 0 8)", Ok(0)),
            ("(read 3 0 8)", Err(5)),
            ("(write 2 0 8)", Ok(0)),
            ("(read 4 0 8)", Err(5)),
        ],
        "(issued 4)\n(1 0 64 rw (2 0 8 rw cell))\n",
    ),
    (
        "a cell is struck as a reference is",
        &[
            ROOT,
            ("(borrow 1 0 8 rw cell)", Ok(2)),
            ("(read 1 0 8)", Ok(0)),
            ("(write 2 0 8)", Err(7)),
            ("(write 1 0 8)", Ok(0)),
        ],
        "(issued 2)\n(1 0 64 rw)\n",
    ),
    (
        "length 0 strikes no kind",
        &[
            ROOT,
            ("(borrow 1 0 8 rw raw)", Ok(2)),
            ("(borrow 1 4 0 rw cell)", Ok(3)),
            ("(borrow 1 0 8 rw)", Ok(4)),
            ("(write 4 4 0)", Ok(0)),
            ("(write 3 4 0)", Ok(0)),
        ],
        "(issued 4)\n(1 0 64 rw (2 0 8 rw raw) (3 4 0 rw cell) (4 0 8 rw))\n",
    ),
];

/// Marked capabilities and written addresses, on six rows or more with no name issued and nothing written.
pub const MARKS: [Trace; 14] = [
    (
        "written before it is read",
        &[
            ("(create 0 8 rw fresh)", Ok(1)),
            ("(read 1 0 1)", Err(16)),
            ("(write 1 0 1)", Ok(0)),
            ("(read 1 0 1)", Ok(0)),
            ("(read 1 0 2)", Err(16)),
            ("(read 1 1 1)", Err(16)),
        ],
        "(issued 1)\n(1 0 8 rw fresh)\n",
    ),
    (
        "a borrow carries its parent's mark",
        &[
            ("(create 0 8 rw fresh)", Ok(1)),
            ("(borrow 1 0 4 rw)", Ok(2)),
            ("(read 2 0 4)", Err(16)),
            ("(write 2 0 2)", Ok(0)),
            ("(read 1 0 2)", Ok(0)),
            ("(read 1 0 3)", Err(16)),
            ("(read 1 8 0)", Ok(0)),
        ],
        "(issued 2)\n(1 0 8 rw fresh (2 0 4 ro fresh))\n",
    ),
    (
        "what is not marked may be read at once",
        &[
            ("(create 0 8 rw)", Ok(1)),
            ("(borrow 1 0 8 ro cell)", Ok(2)),
            ("(read 2 0 8)", Ok(0)),
            ("(read 1 0 8)", Ok(0)),
        ],
        "(issued 2)\n(1 0 8 rw (2 0 8 ro cell))\n",
    ),
    (
        "a create clears its addresses, marked or not",
        &[
            ("(create 0 8 rw)", Ok(1)),
            ("(write 1 0 8)", Ok(0)),
            ("(create 4 2 rw fresh)", Ok(2)),
            ("(read 2 4 1)", Err(16)),
            ("(create 0 4 rw)", Ok(3)),
            ("(read 3 0 4)", Ok(0)),
        ],
        "(issued 3)\n(2 4 2 rw fresh)\n(3 0 4 rw)\n",
    ),
    (
        "memory that is handed out again",
        &[
            ("(create 0 8 rw fresh)", Ok(1)),
            ("(write 1 0 8)", Ok(0)),
            ("(read 1 0 8)", Ok(0)),
            ("(create 0 8 rw fresh)", Ok(2)),
            ("(read 2 0 8)", Err(16)),
            ("(write 2 3 1)", Ok(0)),
            ("(read 2 3 1)", Ok(0)),
            ("(read 2 2 2)", Err(16)),
            ("(read 2 3 2)", Err(16)),
        ],
        "(issued 2)\n(2 0 8 rw fresh)\n",
    ),
    (
        "a drop clears nothing, and what a create leaves out stays written",
        &[
            ("(create 0 8 rw)", Ok(1)),
            ("(write 1 2 6)", Ok(0)),
            ("(drop 1)", Ok(0)),
            ("(create 8 4 rw fresh)", Ok(2)),
            ("(write 2 8 2)", Ok(0)),
            ("(create 10 2 rw)", Ok(3)),
            ("(create 12 4 rw fresh)", Ok(4)),
            ("(read 4 12 1)", Err(16)),
            ("(read 3 10 2)", Ok(0)),
        ],
        "(issued 4)\n(3 10 2 rw)\n(4 12 4 rw fresh)\n",
    ),
    (
        "the last addresses that can be written",
        &[
            ("(create 65528 9 rw fresh)", Err(3)),
            ("(create 65528 8 rw fresh)", Ok(1)),
            ("(create 65536 0 rw fresh)", Ok(2)),
            ("(read 2 65536 0)", Ok(0)),
            ("(write 1 65535 1)", Ok(0)),
            ("(read 1 65535 1)", Ok(0)),
            ("(read 1 65528 8)", Err(16)),
            ("(create 65537 0 rw fresh)", Err(3)),
            ("(create 4294967295 1 rw fresh)", Err(3)),
            ("(create 65529 8 rw)", Ok(3)),
        ],
        "(issued 3)\n(2 65536 0 rw fresh)\n(3 65529 8 rw)\n",
    ),
    (
        "all addresses that can be written",
        &[
            ("(create 0 65537 rw fresh)", Err(3)),
            ("(create 0 65536 rw fresh)", Ok(1)),
            ("(write 1 0 65535)", Ok(0)),
            ("(read 1 0 65535)", Ok(0)),
            ("(read 1 0 65536)", Err(16)),
            ("(write 1 65535 1)", Ok(0)),
            ("(read 1 0 65536)", Ok(0)),
        ],
        "(issued 1)\n(1 0 65536 rw fresh)\n",
    ),
    (
        "addresses above them, which have no bit",
        &[
            ("(create 65532 8 rw)", Ok(1)),
            ("(write 1 65534 6)", Ok(0)),
            ("(read 1 65532 8)", Ok(0)),
            ("(borrow 1 65536 4 rw)", Ok(2)),
            ("(write 2 65536 4)", Ok(0)),
            ("(create 65532 4 ro fresh)", Ok(3)),
            ("(read 3 65534 1)", Err(16)),
        ],
        "(issued 3)\n(3 65532 4 ro fresh)\n",
    ),
    (
        "a fresh capability that is read-only",
        &[
            ("(create 0 8 ro fresh)", Ok(1)),
            ("(read 1 0 1)", Err(16)),
            ("(write 1 0 1)", Err(7)),
            ("(borrow 1 0 8 rw)", Err(7)),
            ("(borrow 1 0 4 ro cell)", Ok(2)),
            ("(read 2 0 4)", Err(16)),
            ("(read 2 4 0)", Ok(0)),
        ],
        "(issued 2)\n(1 0 8 ro fresh (2 0 4 ro cell fresh))\n",
    ),
    (
        "16 stands after 3, 4, 5 and 6",
        &[
            ("(create 0 8 rw fresh)", Ok(1)),
            ("(create 8 8 rw fresh)", Ok(2)),
            ("(drop 2)", Ok(0)),
            ("(read 1 4294967295 2)", Err(3)),
            ("(read 3 0 1)", Err(4)),
            ("(read 0 0 1)", Err(4)),
            ("(read 2 8 1)", Err(5)),
            ("(read 1 8 1)", Err(6)),
            ("(read 1 0 9)", Err(6)),
            ("(read 1 0 8)", Err(16)),
        ],
        "(issued 2)\n(1 0 8 rw fresh)\n",
    ),
    (
        "what is refused writes and clears nothing",
        &[
            ("(create 0 8 rw fresh)", Ok(1)),
            ("(write 1 0 9)", Err(6)),
            ("(read 1 0 1)", Err(16)),
            ("(write 1 0 8)", Ok(0)),
            ("(create 0 4294967295 rw fresh)", Err(3)),
            ("(create 4294967295 2 rw)", Err(3)),
            ("(read 1 0 8)", Ok(0)),
        ],
        "(issued 1)\n(1 0 8 rw fresh)\n",
    ),
    (
        "kinds with marks, written in pieces",
        &[
            ("(create 0 32 rw fresh)", Ok(1)),
            ("(borrow 1 4 20 rw raw)", Ok(2)),
            ("(borrow 2 8 8 rw cell)", Ok(3)),
            ("(write 3 8 8)", Ok(0)),
            ("(read 2 8 8)", Ok(0)),
            ("(read 1 7 9)", Err(16)),
            ("(write 2 4 4)", Ok(0)),
            ("(read 1 4 12)", Ok(0)),
            ("(read 1 4 13)", Err(16)),
        ],
        "(issued 3)\n(1 0 32 rw fresh (2 4 20 rw raw fresh (3 8 8 ro cell fresh)))\n",
    ),
    (
        "fresh capabilities of length 0",
        &[
            ("(create 5 0 rw fresh)", Ok(1)),
            ("(write 1 5 0)", Ok(0)),
            ("(read 1 5 0)", Ok(0)),
            ("(read 1 5 1)", Err(6)),
            ("(create 0 8 rw fresh)", Ok(2)),
            ("(write 2 4 0)", Ok(0)),
            ("(read 2 4 0)", Ok(0)),
            ("(read 2 4 1)", Err(16)),
            ("(create 4 0 ro)", Ok(3)),
        ],
        "(issued 3)\n(1 5 0 rw fresh)\n(2 0 8 rw fresh)\n(3 4 0 ro)\n",
    ),
];

/// What a trace shows, the text of its sheet, its lines, and the listing that they leave, as above.
pub type SheetTrace = (&'static str, &'static str, &'static [Step], &'static str);

const KEEP_ALL: &str =
    "(rule (holder reference raw cell) (access read write) (from cell kin stranger) keep)\n";
const LOWER_ALL: &str =
    "(rule (holder cell raw reference) (access write read) (from stranger kin cell) lower)\n";
const END_ALL: &str =
    "(rule (holder raw cell reference) (access read write) (from kin stranger cell) end)\n";

/// What it does goes by where it comes from alone.
const BY_SOURCE: &str = "\
(rule (holder cell raw reference) (access read write) (from cell) lower)
(rule (holder reference raw cell) (access write read) (from kin) keep)
(rule (holder raw cell reference) (access read write) (from stranger) end)
";

/// What it does goes by the holder alone.
const BY_HOLDER: &str = "\
(rule (holder reference) (access read write) (from cell kin stranger) end)
(rule (holder raw cell) (access read write) (from cell kin stranger) keep)
";

/// A stranger's write alone takes nothing.
const STRANGERS_WRITE: &str = "\
(rule (holder reference raw cell) (access write) (from stranger) keep)
(rule (holder reference raw cell) (access read) (from stranger) end)
(rule (holder reference raw cell) (access read write) (from cell kin) end)
";

/// Traces by sheets, on six rows or more with no name issued.
pub const SHEETS: [SheetTrace; 8] = [
    (
        "a sheet that keeps all",
        KEEP_ALL,
        &[
            ROOT,
            ("(borrow 1 0 8 rw)", Ok(2)),
            ("(borrow 1 0 8 rw)", Ok(3)),
            ("(write 1 0 8)", Ok(0)),
            ("(write 2 0 8)", Ok(0)),
            ("(write 3 0 8)", Ok(0)),
            ("(read 2 0 8)", Ok(0)),
            ("(create 0 8 rw)", Ok(4)),
            ("(write 2 0 8)", Ok(0)),
            ("(write 4 0 8)", Ok(0)),
        ],
        "(issued 4)\n(1 0 64 rw (2 0 8 rw) (3 0 8 rw))\n(4 0 8 rw)\n",
    ),
    (
        "marked and not marked side by side, where all is kept",
        KEEP_ALL,
        &[
            ("(create 0 8 rw fresh)", Ok(1)),
            ("(create 4 8 rw)", Ok(2)),
            ("(read 2 4 8)", Ok(0)),
            ("(read 1 4 2)", Err(16)),
            ("(write 2 4 2)", Ok(0)),
            ("(read 1 4 2)", Ok(0)),
            ("(write 1 0 4)", Ok(0)),
            ("(read 1 0 6)", Ok(0)),
            ("(read 1 0 8)", Err(16)),
            ("(create 0 1 rw)", Ok(3)),
            ("(read 1 0 1)", Err(16)),
            ("(write 3 0 1)", Ok(0)),
            ("(read 1 0 6)", Ok(0)),
        ],
        "(issued 3)\n(1 0 8 rw fresh)\n(2 4 8 rw)\n(3 0 1 rw)\n",
    ),
    (
        "reads that end",
        END_ALL,
        &[
            ROOT,
            ("(borrow 1 0 8 rw)", Ok(2)),
            ("(borrow 2 0 8 rw)", Ok(3)),
            ("(borrow 1 0 8 rw)", Ok(4)),
            ("(read 4 0 8)", Ok(0)),
            ("(read 3 0 8)", Err(5)),
            ("(read 1 0 1)", Ok(0)),
        ],
        "(issued 4)\n(1 0 64 rw)\n",
    ),
    (
        "a write and a create that lower",
        LOWER_ALL,
        &[
            ROOT,
            ("(borrow 1 0 8 rw)", Ok(2)),
            ("(borrow 2 0 8 rw)", Ok(3)),
            ("(write 1 0 8)", Ok(0)),
            ("(write 3 0 8)", Err(7)),
            ("(create 0 8 rw)", Ok(4)),
            ("(write 1 8 8)", Err(7)),
        ],
        "(issued 4)\n(1 0 64 ro (2 0 8 ro (3 0 8 ro)))\n(4 0 8 rw)\n",
    ),
    (
        "cells before kin, and kin before strangers",
        BY_SOURCE,
        &[
            ROOT,
            ("(borrow 1 0 8 rw)", Ok(2)),
            ("(borrow 1 0 8 rw cell)", Ok(3)),
            ("(borrow 3 0 8 rw)", Ok(4)),
            ("(borrow 3 0 8 rw)", Ok(5)),
            ("(borrow 1 0 8 rw raw)", Ok(6)),
            // 4 and 5 are below the cell and have it for their parent; 2 and 6 are kin and outside it.
            ("(write 4 0 8)", Ok(0)),
            ("(write 5 0 8)", Ok(0)),
            ("(write 2 0 8)", Err(7)),
            // For 4 and 5 that is a stranger's.
            ("(write 1 0 8)", Ok(0)),
            ("(read 4 0 8)", Err(5)),
            ("(read 3 0 8)", Ok(0)),
        ],
        "(issued 6)\n(1 0 64 rw (2 0 8 ro) (3 0 8 rw cell) (6 0 8 ro raw))\n",
    ),
    (
        "a cell inside a cell, of which a holder is under one",
        BY_SOURCE,
        &[
            ROOT,
            ("(borrow 1 0 8 rw cell)", Ok(2)),
            ("(borrow 2 0 8 rw cell)", Ok(3)),
            ("(borrow 2 0 8 rw)", Ok(4)),
            ("(borrow 3 0 8 rw)", Ok(5)),
            ("(borrow 3 0 8 rw)", Ok(6)),
            ("(write 5 0 8)", Ok(0)),
            ("(write 4 0 8)", Err(7)),
            ("(write 2 0 8)", Ok(0)),
            ("(read 6 0 8)", Err(5)),
        ],
        "(issued 6)\n(1 0 64 rw (2 0 8 rw cell (3 0 8 rw cell) (4 0 8 ro)))\n",
    ),
    (
        "subtrees go along, whatever the sheet says of them",
        BY_HOLDER,
        &[
            ROOT,
            ("(borrow 1 0 8 rw)", Ok(2)),
            ("(borrow 2 0 8 rw raw)", Ok(3)),
            ("(borrow 1 0 8 rw raw)", Ok(4)),
            ("(borrow 1 0 8 rw cell)", Ok(5)),
            ("(read 1 0 8)", Ok(0)),
            ("(read 3 0 8)", Err(5)),
            ("(write 4 0 8)", Ok(0)),
            ("(create 0 8 rw)", Ok(6)),
            ("(read 5 0 8)", Err(5)),
        ],
        "(issued 6)\n(6 0 8 rw)\n",
    ),
    (
        "a create is a stranger's write",
        STRANGERS_WRITE,
        &[
            ROOT,
            ("(borrow 1 0 8 rw cell)", Ok(2)),
            ("(borrow 2 0 8 rw)", Ok(3)),
            ("(create 0 64 rw)", Ok(4)),
            ("(write 4 0 64)", Ok(0)),
            ("(write 3 0 8)", Ok(0)),
            ("(read 4 0 8)", Err(5)),
            ("(create 0 8 rw)", Ok(5)),
            ("(read 5 0 8)", Ok(0)),
        ],
        "(issued 5)\n(5 0 8 rw)\n",
    ),
];
