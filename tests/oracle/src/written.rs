//! Card 9: the addresses that are written, and the bytes that are lent for them.
//!
//! The addresses are a set. As they may be many it is kept by its stretches, and the tests below compare
//! that with a set of single addresses. Bits and bytes are told of only where the bytes are read and
//! given back.

use std::ops::Range;

use crate::span::Span;

/// How many addresses can be written: those below this number.
pub const WRITABLE: u32 = 65_536;

/// How many bytes are lent to say which of them are.
pub const WRITTEN_BYTES: usize = 8_192;

/// A set of addresses: rising stretches, none of them empty, with addresses between them that are not in
/// the set. So equal sets have equal stretches.
#[derive(Clone, Debug, Default, PartialEq, Eq)]
pub struct Written(Vec<Range<u32>>);

/// The addresses of a span that can be written, if there are some.
fn stretch_of(span: Span) -> Option<Range<u32>> {
    let end = span.end().min(WRITABLE.into()) as u32;
    (span.start < end).then_some(span.start..end)
}

impl Written {
    /// Adds the addresses of a span, those that can be written.
    pub fn add(&mut self, span: Span) {
        self.remove(span);
        self.0.extend(stretch_of(span));
        self.0.sort_by_key(|stretch| stretch.start);
        self.0.dedup_by(|next, last| {
            let is_joined = last.end == next.start;
            if is_joined {
                last.end = next.end;
            }
            is_joined
        });
    }

    /// Takes the addresses of a span out.
    pub fn remove(&mut self, span: Span) {
        let Some(Range { start, end }) = stretch_of(span) else {
            return;
        };
        let beside = |stretch: &Range<u32>| {
            let before = stretch.start..stretch.end.min(start);
            let behind = stretch.start.max(end)..stretch.end;
            [before, behind]
        };
        let left = self.0.iter().flat_map(beside);
        self.0 = left.filter(|stretch| !stretch.is_empty()).collect();
    }

    /// Whether each address of a span is in the set. One of length 0 has none.
    pub fn has_all(&self, span: Span) -> bool {
        let has_it = |stretch: &Range<u32>| {
            stretch.start <= span.start && span.end() <= u64::from(stretch.end)
        };
        span.length == 0 || self.0.iter().any(has_it)
    }

    /// The lent bytes: 'address A below 65,536 has the bit worth 2^(A mod 8) in byte A div 8'.
    pub fn bytes(&self) -> Vec<u8> {
        let mut bytes = vec![0; WRITTEN_BYTES];
        for address in self.0.iter().cloned().flatten() {
            bytes[address as usize / 8] += 2_u8.pow(address % 8);
        }
        bytes
    }

    /// The set of lent bytes, if they are as many as there have to be.
    pub fn lent(bytes: &[u8]) -> Option<Written> {
        let mut written = Written::default();
        // No address of a byte 0 is written; that is asked first because most are 0.
        let places = (0..WRITABLE).step_by(8).zip(bytes);
        for (first, byte) in places.filter(|(_, byte)| **byte != 0) {
            for bit in 0..8 {
                if byte / 2_u8.pow(bit) % 2 == 1 {
                    written.add_behind(first + bit);
                }
            }
        }
        (bytes.len() == WRITTEN_BYTES).then_some(written)
    }

    /// Adds an address above all that are in the set.
    fn add_behind(&mut self, address: u32) {
        match self.0.last_mut() {
            Some(last) if last.end == address => last.end += 1,
            _ => self.0.push(address..address + 1),
        }
    }
}

#[cfg(test)]
mod tests {
    use std::collections::BTreeSet;

    use super::*;

    fn span(start: u32, length: u32) -> Span {
        Span { start, length }
    }

    /// The addresses of a span that can be written, one by one.
    fn writable(span: Span) -> impl Iterator<Item = u32> {
        (span.start..span.start + span.length).filter(|address| *address < WRITABLE)
    }

    /// A set by its stretches and by its single addresses.
    #[derive(Default)]
    struct Both {
        written: Written,
        single: BTreeSet<u32>,
    }

    impl Both {
        fn change(&mut self, span: Span, adds: bool) {
            match adds {
                true => {
                    self.written.add(span);
                    self.single.extend(writable(span));
                }
                false => {
                    self.written.remove(span);
                    self.single.retain(|address| !span.has((*address).into()));
                }
            }
        }

        fn check(&self, spans: &[Span]) {
            let addresses: BTreeSet<u32> = self.written.0.iter().cloned().flatten().collect();
            assert_eq!(addresses, self.single);
            for span in spans {
                let mut in_span = span.addresses();
                let all = in_span.all(|address| self.single.contains(&(address as u32)));
                assert_eq!(
                    self.written.has_all(*span),
                    all,
                    "{span:?} of {addresses:?}"
                );
            }
        }
    }

    /// Spans over a few places, some of which have no address that can be written.
    fn spans(first: u32) -> Vec<Span> {
        let from = |start| (0..=4).map(move |length| span(start, length));
        (first..first + 6).flat_map(from).collect()
    }

    /// Every two changes after each other.
    fn same_by_addresses(first: u32) {
        let spans = spans(first);
        for one in &spans {
            let mut both = Both::default();
            for other in &spans {
                for adds in [[true, true], [false, true], [true, false], [false, false]] {
                    both.change(span(first, 6), true);
                    both.change(*one, adds[0]);
                    both.change(*other, adds[1]);
                    both.check(&spans);
                }
            }
            assert_eq!(Written::lent(&both.written.bytes()), Some(both.written));
        }
    }

    #[test]
    fn stretches_are_as_single_addresses() {
        same_by_addresses(0);
        same_by_addresses(5);
        same_by_addresses(WRITABLE - 4);
    }

    #[test]
    fn bits_of_addresses() {
        let mut written = Written::default();
        assert_eq!(written.bytes(), [0; WRITTEN_BYTES]);
        for (address, at, byte) in [(0, 0, 1), (7, 0, 128 + 1), (8, 1, 1), (65_535, 8_191, 128)] {
            written.add(span(address, 1));
            assert_eq!(written.bytes()[at], byte);
        }
        written.add(span(0, u32::MAX));
        assert_eq!(written.bytes(), [255; WRITTEN_BYTES]);
        assert_eq!(Written::lent(&[255; WRITTEN_BYTES]), Some(written.clone()));
        assert!(written.has_all(span(0, WRITABLE)) && !written.has_all(span(1, WRITABLE)));
        written.remove(span(9, u32::MAX));
        assert_eq!(written.bytes()[..3], [255, 1, 0]);
    }

    #[test]
    fn any_other_number_of_bytes_is_no_set() {
        for length in [0, 1, WRITTEN_BYTES - 1, WRITTEN_BYTES + 1, 65_536] {
            for byte in [0, 1, 255] {
                assert_eq!(Written::lent(&vec![byte; length]), None);
            }
        }
    }
}
