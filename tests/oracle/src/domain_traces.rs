//! Traces of card 10, with their answers and listings worked out by hand from its sentences.

use crate::traces::{Step, Trace};

/// Domains and holders, on six rows or more with no name issued and without limits.
pub const DOMAINS: [Trace; 9] = [
    (
        "a line says who acts",
        &[
            ("(as 3 (create 0 64 rw))", Ok(1)),
            ("(as 3 (borrow 1 0 8 ro))", Ok(2)),
            ("(as 3 (read 2 0 8))", Ok(0)),
            ("(as 3 (write 1 8 8))", Ok(0)),
            ("(read 1 0 8)", Err(17)),
            ("(as 2 (read 1 0 8))", Err(17)),
            ("(as 3 (drop 2))", Ok(0)),
        ],
        "(issued 2)\n(1 0 64 rw 3 0000000000000008)\n",
    ),
    (
        "holders beside the maker",
        &[
            ("(create 0 64 rw 000000000000000b)", Ok(1)),
            ("(as 3 (read 1 0 8))", Ok(0)),
            ("(as 1 (write 1 0 8))", Ok(0)),
            ("(as 2 (write 1 0 8))", Err(17)),
            ("(as 3 (borrow 1 0 8 rw))", Ok(2)),
            ("(read 2 0 8)", Err(17)),
            ("(as 3 (write 2 0 8))", Ok(0)),
            ("(as 1 (drop 1))", Ok(0)),
        ],
        "(issued 2)\n",
    ),
    (
        "a borrow's holders need not hold its parent",
        &[
            ("(create 0 64 rw)", Ok(1)),
            ("(borrow 1 0 8 rw raw 8000000000000001)", Ok(2)),
            ("(as 63 (write 2 0 8))", Ok(0)),
            ("(as 63 (read 1 0 8))", Err(17)),
            ("(as 63 (borrow 2 0 4 ro cell ffffffffffffffff))", Ok(3)),
            ("(as 5 (read 3 0 4))", Ok(0)),
        ],
        "(issued 3)\n(1 0 64 rw 0 0000000000000001 (2 0 8 rw raw 0 8000000000000001 \
         (3 0 4 ro cell 63 ffffffffffffffff)))\n",
    ),
    (
        "17 stands after 3, 4 and 5, and before 6, 7 and 16",
        &[
            ("(create 0 8 rw fresh)", Ok(1)),
            ("(create 8 8 ro)", Ok(2)),
            ("(create 16 8 rw)", Ok(3)),
            ("(drop 3)", Ok(0)),
            ("(as 1 (read 1 4294967295 2))", Err(3)),
            ("(as 1 (read 4 0 1))", Err(4)),
            ("(as 1 (read 3 16 1))", Err(5)),
            ("(as 1 (read 1 8 1))", Err(17)),
            ("(as 1 (write 2 8 1))", Err(17)),
            ("(as 1 (borrow 2 8 8 rw))", Err(17)),
            ("(as 1 (read 1 0 1))", Err(17)),
            ("(read 1 8 1)", Err(6)),
            ("(write 2 8 1)", Err(7)),
            ("(borrow 2 8 8 rw)", Err(7)),
            ("(read 1 0 1)", Err(16)),
        ],
        "(issued 3)\n(1 0 8 rw fresh 0 0000000000000001)\n(2 8 8 ro 0 0000000000000001)\n",
    ),
    (
        "a create ends what other domains made",
        &[
            ("(as 1 (create 0 8 rw))", Ok(1)),
            ("(as 1 (borrow 1 0 8 rw))", Ok(2)),
            ("(as 2 (create 4 8 rw 0000000000000006))", Ok(3)),
            ("(as 1 (read 2 0 8))", Err(5)),
            ("(as 1 (write 3 4 8))", Ok(0)),
        ],
        "(issued 3)\n(3 4 8 rw 2 0000000000000006)\n",
    ),
    (
        "a read and a write strike what other domains made",
        &[
            ("(create 0 64 rw 000000000000000f)", Ok(1)),
            ("(as 1 (borrow 1 0 8 rw))", Ok(2)),
            ("(as 2 (borrow 1 0 8 rw))", Ok(3)),
            ("(as 3 (borrow 1 8 8 rw))", Ok(4)),
            ("(as 1 (read 2 0 8))", Ok(0)),
            ("(as 2 (write 3 0 8))", Err(7)),
            ("(as 1 (write 2 0 8))", Ok(0)),
            ("(as 2 (read 3 0 8))", Err(5)),
        ],
        "(issued 4)\n(1 0 64 rw 0 000000000000000f (2 0 8 rw 1 0000000000000002) \
         (4 8 8 rw 3 0000000000000008))\n",
    ),
    (
        "a drop takes along what others hold below",
        &[
            ("(create 0 64 rw 0000000000000003)", Ok(1)),
            ("(as 1 (borrow 1 0 8 rw))", Ok(2)),
            ("(as 1 (borrow 1 8 8 rw))", Ok(3)),
            ("(drop 2)", Err(17)),
            ("(as 1 (drop 2))", Ok(0)),
            ("(drop 1)", Ok(0)),
            ("(as 1 (read 3 8 8))", Err(5)),
        ],
        "(issued 3)\n",
    ),
    (
        "the last domain, and the first",
        &[
            ("(as 63 (create 4294967295 1 ro 8000000000000001))", Ok(1)),
            ("(read 1 4294967295 1)", Ok(0)),
            ("(as 62 (read 1 4294967295 1))", Err(17)),
            ("(as 32 (read 1 4294967295 1))", Err(17)),
            ("(as 63 (borrow 1 4294967295 0 ro))", Ok(2)),
        ],
        "(issued 2)\n(1 4294967295 1 ro 63 8000000000000001 (2 4294967295 0 ro 63 8000000000000000))\n",
    ),
    (
        "the mask stands behind kind and mark",
        &[
            ("(as 9 (create 0 8 rw fresh 0000000000000201))", Ok(1)),
            ("(as 9 (borrow 1 0 8 rw cell 0000000000000600))", Ok(2)),
            ("(as 10 (read 2 0 1))", Err(16)),
            ("(as 10 (write 2 0 1))", Ok(0)),
            ("(read 1 0 1)", Ok(0)),
            ("(as 10 (read 1 0 1))", Err(17)),
        ],
        "(issued 2)\n(1 0 8 rw fresh 9 0000000000000201 (2 0 8 ro cell fresh 9 0000000000000600))\n",
    ),
];

/// What a trace shows, its rows, the domains whose limits are not 0 with these, its lines, and the listing
/// that they leave.
pub type LimitTrace = (
    &'static str,
    usize,
    &'static [(usize, u32)],
    &'static [Step],
    &'static str,
);

/// All limits, of those that are not 0.
pub fn limits(some: &[(usize, u32)]) -> Vec<u32> {
    let mut limits = vec![0; 64];
    for (domain, limit) in some {
        limits[*domain] = *limit;
    }
    limits
}

/// Limits, on tables with no name issued.
pub const LIMITS: [LimitTrace; 7] = [
    (
        "a limit on the live rows that a domain made",
        4,
        &[(0, 2), (3, 1)],
        &[
            ("(create 0 8 rw)", Ok(1)),
            ("(create 8 8 rw)", Ok(2)),
            ("(create 16 8 rw)", Err(18)),
            ("(borrow 1 0 4 rw)", Err(18)),
            ("(as 3 (create 16 8 rw))", Ok(3)),
            ("(as 3 (borrow 3 16 8 rw))", Err(18)),
            ("(as 5 (create 24 8 rw))", Err(18)),
            ("(drop 2)", Ok(0)),
            ("(borrow 1 0 4 rw)", Ok(4)),
        ],
        "(issued 4)\n(1 0 8 rw 0 0000000000000001 (4 0 4 rw 0 0000000000000001))\n\
         (3 16 8 rw 3 0000000000000008)\n",
    ),
    (
        "a create that would end its own maker's row",
        2,
        &[(0, 1)],
        &[
            ("(create 0 8 rw)", Ok(1)),
            ("(create 0 8 rw)", Err(18)),
            ("(write 1 0 8)", Ok(0)),
        ],
        "(issued 1)\n(1 0 8 rw 0 0000000000000001)\n",
    ),
    (
        "a domain may make again what another ended",
        2,
        &[(1, 1), (2, 1)],
        &[
            ("(as 1 (create 0 8 rw))", Ok(1)),
            ("(as 1 (create 8 8 rw))", Err(18)),
            ("(as 2 (create 0 8 rw))", Ok(2)),
            ("(as 1 (create 8 8 rw))", Ok(3)),
        ],
        "(issued 3)\n(2 0 8 rw 2 0000000000000004)\n(3 8 8 rw 1 0000000000000002)\n",
    ),
    (
        "18 stands behind the others",
        3,
        &[(0, 1), (1, 1)],
        &[
            ("(as 1 (create 0 8 ro))", Ok(1)),
            ("(as 1 (create 4294967295 2 rw))", Err(3)),
            ("(as 1 (borrow 9 0 8 ro))", Err(4)),
            ("(borrow 1 0 8 ro)", Err(17)),
            ("(as 1 (borrow 1 0 9 ro))", Err(6)),
            ("(as 1 (borrow 1 0 8 rw))", Err(7)),
            ("(as 1 (borrow 1 0 8 ro))", Err(18)),
            ("(as 1 (read 1 0 8))", Ok(0)),
        ],
        "(issued 1)\n(1 0 8 ro 1 0000000000000002)\n",
    ),
    (
        "rows count for their makers, not for their holders",
        4,
        &[(1, 1), (2, 1)],
        &[
            ("(as 1 (create 0 8 rw 0000000000000006))", Ok(1)),
            ("(as 2 (borrow 1 0 8 rw))", Ok(2)),
            ("(as 2 (borrow 1 0 8 rw))", Err(18)),
            ("(as 1 (borrow 1 0 8 rw))", Err(18)),
            ("(as 2 (drop 1))", Ok(0)),
            ("(as 2 (create 0 8 rw))", Ok(3)),
        ],
        "(issued 3)\n(3 0 8 rw 2 0000000000000004)\n",
    ),
    (
        "limits that take up all rows",
        2,
        &[(62, 1), (63, 1)],
        &[
            ("(as 63 (create 0 8 rw))", Ok(1)),
            ("(as 62 (create 8 8 rw))", Ok(2)),
            ("(as 62 (create 16 8 rw))", Err(18)),
            ("(create 16 8 rw)", Err(18)),
        ],
        "(issued 2)\n(1 0 8 rw 63 8000000000000000)\n(2 8 8 rw 62 4000000000000000)\n",
    ),
    (
        "limits of 0, on no rows",
        0,
        &[],
        &[
            ("(create 0 8 rw)", Err(18)),
            ("(as 63 (create 0 8 rw))", Err(18)),
        ],
        "(issued 0)\n",
    ),
];
