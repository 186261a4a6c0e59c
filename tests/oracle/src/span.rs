//! Spans of addresses: document 01, 'Values', and card 2.
//!
//! Short spans are judged on their addresses, one by one, as the papers say it. For the others there is
//! a rule; the tests below compare the two wherever both can be had.

/// The number of addresses, and the highest end of a legal span.
pub const ADDRESSES: u64 = 1 << 32;

/// The most addresses of a span that are gone through one by one.
const FEW: u32 = 64;

#[derive(Clone, Copy, Debug, PartialEq, Eq)]
pub struct Span {
    pub start: u32,
    pub length: u32,
}

impl Span {
    pub fn end(self) -> u64 {
        u64::from(self.start) + u64::from(self.length)
    }

    /// Card 2: a length of 0 is legal.
    pub fn is_legal(self) -> bool {
        self.end() <= ADDRESSES
    }

    /// The span's addresses, one by one.
    pub fn addresses(self) -> impl Iterator<Item = u64> {
        addresses(self)
    }

    /// Whether its addresses are so few that they are gone through one by one.
    pub fn is_short(self) -> bool {
        is_short(self)
    }

    /// Whether an address is one of the span's.
    pub fn has(self, address: u64) -> bool {
        has(self, address)
    }

    /// 'Two spans touch when they share an address.' Card 2: one of length 0 shares none.
    pub fn touches(self, other: Span) -> bool {
        match is_short(self) && is_short(other) {
            true => share_an_address(self, other),
            false => touch_by_starts(self, other),
        }
    }

    /// Card 2: one of length 0 'lies inside another when its start is at or between the other's start
    /// and end'.
    pub fn is_inside(self, outer: Span) -> bool {
        match is_short(self) && is_short(outer) {
            true => has_every_address(outer, self),
            false => has_first_and_last(outer, self),
        }
    }
}

fn is_short(span: Span) -> bool {
    span.length <= FEW
}

fn addresses(span: Span) -> impl Iterator<Item = u64> {
    (0..span.length).map(move |offset| u64::from(span.start) + u64::from(offset))
}

fn share_an_address(one: Span, other: Span) -> bool {
    addresses(one).any(|mine| addresses(other).any(|its| its == mine))
}

fn has_every_address(outer: Span, inner: Span) -> bool {
    if inner.length == 0 {
        let mut from_start_to_end = addresses(outer).chain([outer.end()]);
        return from_start_to_end.any(|place| place == u64::from(inner.start));
    }
    addresses(inner).all(|wanted| addresses(outer).any(|its| its == wanted))
}

/// Whether an address is one of the span's, by its distance from the start.
fn has(span: Span, address: u64) -> bool {
    let distance = address.checked_sub(span.start.into());
    distance.is_some_and(|distance| distance < span.length.into())
}

/// Of two spans that share addresses, the first shared one is the start of one of them.
fn touch_by_starts(one: Span, other: Span) -> bool {
    let any_is_empty = one.length == 0 || other.length == 0;
    !any_is_empty && (has(one, other.start.into()) || has(other, one.start.into()))
}

fn has_first_and_last(outer: Span, inner: Span) -> bool {
    let first = u64::from(inner.start);
    match inner.length {
        0 => has(outer, first) || first == outer.end(),
        _ => has(outer, first) && has(outer, inner.end() - 1),
    }
}

#[cfg(test)]
mod tests {
    use super::*;

    fn span(start: u32, length: u32) -> Span {
        Span { start, length }
    }

    /// Every span of up to so many addresses that starts from the first to the last place; near the
    /// last address some end above it.
    fn spans(starts: impl Iterator<Item = u32>, longest: u32) -> Vec<Span> {
        let from = |start| (0..=longest).map(move |length| span(start, length));
        starts.flat_map(from).collect()
    }

    fn same_by_both(spans: &[Span]) {
        for one in spans {
            for other in spans {
                let (one, other) = (*one, *other);
                let shared = share_an_address(one, other);
                assert_eq!(shared, touch_by_starts(one, other), "{one:?} {other:?}");
                let within = has_every_address(other, one);
                assert_eq!(within, has_first_and_last(other, one), "{one:?} {other:?}");
                assert_eq!(one.touches(other), shared);
                assert_eq!(one.is_inside(other), within);
            }
        }
    }

    #[test]
    fn the_rules_say_what_the_addresses_say() {
        same_by_both(&spans(0..=9, 9));
        same_by_both(&spans((1 << 31) - 5..=(1 << 31) + 4, 9));
        same_by_both(&spans(u32::MAX - 9..=u32::MAX, 11));
    }

    #[test]
    fn so_they_do_where_one_is_long() {
        let starts = [0, 1, 63, 64, 65, 128, 129, 130];
        let lengths = [0, 1, 2, 63, 64, 65, 129];
        let from = |base: u32| {
            let at = move |start: u32| lengths.map(|length| span(base + start, length));
            starts.into_iter().flat_map(at).collect::<Vec<Span>>()
        };
        same_by_both(&from(0));
        same_by_both(&from(u32::MAX - 130));
    }

    /// Spans too long to be listed, up to the last address, beside what the sentences say of them.
    #[test]
    fn the_longest_spans() {
        let all_but_last = span(0, u32::MAX);
        let all_but_first = span(1, u32::MAX);
        let (first, last) = (span(0, 1), span(u32::MAX, 1));
        assert_eq!(all_but_first.end(), ADDRESSES);
        assert!(all_but_first.is_legal() && last.is_legal());
        assert!(!span(u32::MAX, 2).is_legal() && !span(2, u32::MAX).is_legal());
        assert!(all_but_last.touches(all_but_first) && all_but_first.touches(all_but_last));
        assert!(all_but_last.touches(first) && !first.touches(all_but_first));
        assert!(last.touches(all_but_first) && !all_but_last.touches(last));
        assert!(!all_but_first.touches(span(7, 0)) && !span(7, 0).touches(all_but_first));
        assert!(first.is_inside(all_but_last) && !first.is_inside(all_but_first));
        assert!(last.is_inside(all_but_first) && !last.is_inside(all_but_last));
        assert!(!all_but_last.is_inside(all_but_first) && !all_but_first.is_inside(all_but_last));
        assert!(all_but_last.is_inside(all_but_last) && !all_but_last.is_inside(first));
        // At the start, at the end, and on the other side of either.
        assert!(span(1, 0).is_inside(all_but_first) && !span(0, 0).is_inside(all_but_first));
        assert!(span(u32::MAX, 0).is_inside(all_but_last));
        assert!(!span(u32::MAX, 0).is_inside(span(0, u32::MAX - 1)));
        assert!(!span(5, 1).is_inside(span(5, 0)) && span(5, 0).is_inside(span(5, 0)));
    }
}
