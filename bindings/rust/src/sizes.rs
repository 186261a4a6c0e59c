//! Trying table sizes.
//!
//! Safety, of the call below: as `calls` says of its own.

use core::error::Error;
use core::fmt;

use crate::answers::numbered;
use crate::{ffi, Refusal};

/// Why clients have no table size: the first of their lines that is refused, or lengths that do not fit.
#[derive(Clone, Copy, Debug, PartialEq, Eq, Hash)]
pub struct ClientRefusal {
    /// Why.
    pub refusal: Refusal,
    /// Whose line it is, from 1; 0 where the lengths do not fit.
    pub client: usize,
    /// Which line of that client's trace it is, from 1; 0 where the lengths do not fit.
    pub line: u32,
}

impl fmt::Display for ClientRefusal {
    fn fmt(&self, formatter: &mut fmt::Formatter<'_>) -> fmt::Result {
        let ClientRefusal {
            refusal,
            client,
            line,
        } = self;
        match client {
            0 => write!(formatter, "the lengths of the traces: {refusal}"),
            _ => write!(formatter, "client {client}, line {line}: {refusal}"),
        }
    }
}

impl Error for ClientRefusal {
    fn source(&self) -> Option<&(dyn Error + 'static)> {
        Some(&self.refusal)
    }
}

/// The fewest rows that a table needs for clients that use it together: programs, cores, or whatever else is
/// recorded apart and is to share one table. With so many rows every line of theirs is allowed, and with
/// fewer some line is refused [`Refusal::TableFull`]. Where nothing is made it is 0.
///
/// A client is its trace, a text of lines. The traces stand in `text` end to end, and `lengths` has how
/// many bytes each of them has. One line of each client is taken in turn, from the first client on, and
/// then from the first again; a client whose lines are all taken is passed over. Lines that are taken in
/// another order may need more rows.
///
/// All lines are taken on one table, empty at first, by the [default](crate::Sheet::DEFAULT) sheet and
/// without limits, by [domain 0](crate::Domain::ZERO). They are creates, borrows, reads, writes and drops
/// of one name, without a written name, a kind, a mark or other holders, as those that have
/// [columns](crate::Columns). Each client counts names for itself: what its first create or borrow makes is
/// its 1, whatever the others make. Addresses are the same for all, so clients that share no memory are
/// recorded at addresses of their own.
///
/// ```
/// use kelzoud::{sizes, ClientRefusal, Refusal};
///
/// let reader = "(create 0 8 rw)\n(read 1 0 8)\n(drop 1)\n";
/// let writer = "(create 64 8 rw)\n(borrow 1 64 8 rw)\n(write 1 64 8)\n";
/// let text = [reader, writer].concat();
/// let lengths = [reader.len() as u32, writer.len() as u32];
/// assert_eq!(sizes(text.as_bytes(), &lengths), Ok(3));
///
/// // The write has ended the borrow.
/// let faulty = [writer, "(read 2 64 8)\n"].concat();
/// let text = [reader, &faulty].concat();
/// let lengths = [reader.len() as u32, faulty.len() as u32];
/// let refused = ClientRefusal { refusal: Refusal::Ended, client: 2, line: 4 };
/// assert_eq!(sizes(text.as_bytes(), &lengths), Err(refused));
/// ```
///
/// # Errors
///
/// The first refusal on [`MAX_ROWS`](crate::MAX_ROWS) rows, with its client and line. It is
/// [`Refusal::Misspelt`] for a line with other words, or a last one without its newline;
/// [`Refusal::Unissued`] for a name that this client was not yet given, whatever names others have; and
/// [`Refusal::TableFull`] where so many rows are too few. [`Refusal::Misspelt`] with client 0 and line 0 for
/// more than [`MAX_CLIENTS`](crate::MAX_CLIENTS) lengths, or such as are not together the length of the
/// text.
pub fn sizes(text: &[u8], lengths: &[u32]) -> Result<usize, ClientRefusal> {
    let mut words = [0; 4];
    unsafe {
        ffi::kz_abi_sizes(
            text.as_ptr(),
            text.len(),
            lengths.as_ptr(),
            lengths.len(),
            &mut words,
        )
    };
    match words {
        [0, rows, ..] => Ok(rows as usize),
        [number, _, client, line] => Err(ClientRefusal {
            refusal: numbered(number),
            client: client as usize,
            line,
        }),
    }
}
