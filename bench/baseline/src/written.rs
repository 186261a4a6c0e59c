//! Written bits: one for each address below 65,536, eight in a byte.

use crate::order::Span;

/// How many bytes are lent for them.
pub const WRITTEN_BYTES: usize = 8_192;

/// One past the last address that has a bit.
pub(crate) const WRITABLE: u64 = 8 * WRITTEN_BYTES as u64;

/// The mark of what has to be written before it is read.
pub const FRESH: u32 = 1;

/// The bytes that a span has bits in: the first and the last with those of their bits that are the span's,
/// and between them all bits of each. Where the first is the last too, the bits are in the first alone.
struct Place {
    first: usize,
    last: usize,
    first_bits: u8,
    last_bits: u8,
}

impl Place {
    /// Nothing where no address of the span has a bit.
    #[inline]
    fn of(span: Span) -> Option<Place> {
        let end = span.end.min(WRITABLE);
        if span.start >= end {
            return None;
        }
        let (start, last_address) = (span.start as usize, end as usize - 1);
        let (first, last) = (start / 8, last_address / 8);
        let from_start = 0xff << (start % 8);
        let up_to_end = 0xff >> (7 - last_address % 8);
        let (first_bits, last_bits) = match first == last {
            true => (from_start & up_to_end, 0),
            false => (from_start, up_to_end),
        };
        Some(Place {
            first,
            last,
            first_bits,
            last_bits,
        })
    }
}

/// The lent bytes of written bits.
pub(crate) struct Written<'a>(&'a mut [u8; WRITTEN_BYTES]);

impl<'a> Written<'a> {
    /// Nothing where they are not as many as there have to be.
    pub(crate) fn lent(bytes: &'a mut [u8]) -> Option<Written<'a>> {
        bytes.try_into().ok().map(Written)
    }

    pub(crate) fn of(bytes: &'a mut [u8; WRITTEN_BYTES]) -> Written<'a> {
        Written(bytes)
    }

    /// The bytes.
    pub(crate) fn bytes(&self) -> &[u8; WRITTEN_BYTES] {
        self.0
    }

    /// Gives all bits those of as many bytes.
    pub(crate) fn copy_from(&mut self, bytes: &[u8]) {
        self.0.copy_from_slice(bytes);
    }

    /// Sets the bits of a span.
    pub(crate) fn set(&mut self, span: Span) {
        self.put(span, 0xff);
    }

    /// Clears the bits of a span.
    pub(crate) fn clear(&mut self, span: Span) {
        self.put(span, 0);
    }

    /// Gives the bits of a span those of a byte.
    #[inline]
    fn put(&mut self, span: Span, byte: u8) {
        let Some(place) = Place::of(span) else {
            return;
        };
        let put_in = |at: &mut u8, bits: u8| *at = (*at & !bits) | (byte & bits);
        put_in(&mut self.0[place.first], place.first_bits);
        if place.first < place.last {
            self.0[place.first + 1..place.last].fill(byte);
            put_in(&mut self.0[place.last], place.last_bits);
        }
    }

    /// Whether every bit of a span is set. Whoever asks has a span within the addresses that have one.
    #[inline]
    pub(crate) fn are_set(&self, span: Span) -> bool {
        let Some(place) = Place::of(span) else {
            return true;
        };
        let has = |at: usize, bits: u8| self.0[at] & bits == bits;
        has(place.first, place.first_bits)
            && has(place.last, place.last_bits)
            && (place.first == place.last || are_full(&self.0[place.first + 1..place.last]))
    }
}

/// Whether all bytes have all bits. Many are looked at for each branch.
fn are_full(bytes: &[u8]) -> bool {
    let all = |bytes: &[u8]| bytes.iter().fold(0xff, |all, byte| all & byte) == 0xff;
    bytes.chunks(128).all(all)
}

#[cfg(test)]
mod tests {
    use super::*;

    const FIRST: u32 = 65_536 - 40;

    fn is_in(address: u32, start: u32, length: u32) -> bool {
        start <= address && address < start + length
    }

    /// Whether the bit of an address is set.
    fn bit(bytes: &[u8], address: u32) -> bool {
        bytes[address as usize / 8] & (1 << (address % 8)) != 0
    }

    /// Every span at the first bytes and at the last, beside its single addresses.
    #[test]
    fn spans_are_as_single_addresses() {
        for first in [0, FIRST] {
            for start in first..first + 40 {
                for length in 0..=40 {
                    one_span(first, start, length);
                }
            }
        }
    }

    fn one_span(first: u32, start: u32, length: u32) {
        let span = Span::new(start, length);
        let addresses = first..first + 40;
        let mut bytes = [0; WRITTEN_BYTES];
        Written(&mut bytes).set(span);
        for address in addresses.clone() {
            assert_eq!(bit(&bytes, address), is_in(address, start, length));
        }
        assert!(Written(&mut bytes).are_set(span));
        bytes.fill(0xff);
        Written(&mut bytes).clear(span);
        for address in addresses.clone() {
            assert_eq!(bit(&bytes, address), !is_in(address, start, length));
        }
        for missing in addresses {
            bytes.fill(0xff);
            bytes[missing as usize / 8] &= !(1 << (missing % 8));
            let expected = !is_in(missing, start, length);
            assert_eq!(Written(&mut bytes).are_set(span), expected);
        }
    }

    #[test]
    fn long_spans_and_those_above() {
        let mut bytes = [0; WRITTEN_BYTES];
        Written(&mut bytes).set(Span::new(3, u32::MAX));
        assert_eq!((bytes[0], bytes[1..].iter().min()), (0xf8, Some(&0xff)));
        assert!(Written(&mut bytes).are_set(Span::new(3, 65_533)));
        bytes[5_000] = 0x7f;
        assert!(!Written(&mut bytes).are_set(Span::new(3, 65_533)));
        Written(&mut bytes).clear(Span::new(65_536, 100));
        Written(&mut bytes).clear(Span::new(u32::MAX, 1));
        assert_eq!(bytes[8_191], 0xff);
        Written(&mut bytes).clear(Span::new(0, u32::MAX));
        assert_eq!(bytes, [0; WRITTEN_BYTES]);
    }

    #[test]
    fn no_other_number_of_bytes() {
        for length in [0, 1, WRITTEN_BYTES - 1, WRITTEN_BYTES + 1] {
            assert!(Written::lent(&mut vec![0; length]).is_none());
        }
        assert!(Written::lent(&mut [0; WRITTEN_BYTES]).is_some());
    }
}
