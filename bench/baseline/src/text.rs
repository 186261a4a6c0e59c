//! Text in pieces: a cursor that reads and a cursor that writes.

use crate::order::{CELL, RAW, REFERENCE};
use crate::written::FRESH;

#[derive(Clone, Copy)]
pub(crate) struct Reader<'a> {
    text: &'a [u8],
    at: usize,
}

impl<'a> Reader<'a> {
    pub(crate) const fn new(text: &'a [u8]) -> Reader<'a> {
        Reader { text, at: 0 }
    }

    pub(crate) fn is_at_end(&self) -> bool {
        self.at >= self.text.len()
    }

    #[inline]
    pub(crate) fn peek(&self, at: usize) -> Option<u8> {
        self.text.get(self.at + at).copied()
    }

    #[inline]
    pub(crate) fn skip(&mut self, piece: &[u8]) -> Option<()> {
        let end = self.at + piece.len();
        if self.text.get(self.at..end)? != piece {
            return None;
        }
        self.at = end;
        Some(())
    }

    #[inline]
    pub(crate) fn skip_byte(&mut self, byte: u8) -> Option<()> {
        if *self.text.get(self.at)? != byte {
            return None;
        }
        self.at += 1;
        Some(())
    }

    /// A number without leading zeros. It ends behind a first 0 or ten digits, where whoever reads
    /// on takes no digit.
    #[inline]
    pub(crate) fn number(&mut self) -> Option<u32> {
        let first = self.text.get(self.at)?.wrapping_sub(b'0');
        self.at += 1;
        if first > 9 {
            return None;
        }
        if first == 0 {
            return Some(0);
        }
        let mut value = u64::from(first);
        for _ in 0..9 {
            let Some(byte) = self.text.get(self.at) else {
                break;
            };
            let digit = byte.wrapping_sub(b'0');
            if digit > 9 {
                return Some(value as u32);
            }
            value = value * 10 + u64::from(digit);
            self.at += 1;
        }
        u32::try_from(value).ok()
    }

    /// A space and a number.
    #[inline]
    pub(crate) fn next_number(&mut self) -> Option<u32> {
        self.skip_byte(b' ')?;
        self.number()
    }

    /// A space and a right.
    #[inline]
    pub(crate) fn next_right(&mut self) -> Option<u8> {
        let word = self.text.get(self.at..self.at + 3)?;
        self.at += 3;
        match word {
            b" ro" => Some(1),
            b" rw" => Some(2),
            _ => None,
        }
    }

    /// A space and a kind, or nothing for a reference. The letter after the space tells the kinds apart,
    /// and from the bracket of a form.
    #[inline]
    pub(crate) fn next_kind(&mut self) -> Option<u32> {
        // A mask of holders may begin with the first letters of a cell's word.
        let kind = match (self.peek(0), self.peek(1), self.peek(3)) {
            (Some(b' '), Some(b'r'), _) => RAW,
            (Some(b' '), Some(b'c'), Some(b'l')) => CELL,
            _ => return Some(REFERENCE),
        };
        self.skip(kind_word(kind))?;
        Some(kind)
    }

    /// A space and the word of the mark, or nothing where there is none.
    #[inline]
    pub(crate) fn next_mark(&mut self) -> Option<u32> {
        // A mask of holders may begin with the first letter of the word.
        if (self.peek(0), self.peek(1), self.peek(2)) != (Some(b' '), Some(b'f'), Some(b'r')) {
            return Some(0);
        }
        self.skip(mark_word(FRESH))?;
        Some(FRESH)
    }

    /// A space and a mask of holders.
    #[inline]
    pub(crate) fn next_holders(&mut self) -> Option<u64> {
        self.skip_byte(b' ')?;
        let digits = self.text.get(self.at..)?.first_chunk()?;
        self.at += MASK_DIGITS;
        let holders = mask_of(digits);
        (mask_digits(holders) == *digits).then_some(holders)
    }
}

/// The digits of a mask of holders.
const MASK_DIGITS: usize = 16;

/// A 1 in each byte.
const ONES: u64 = u64::from_ne_bytes([1; 8]);

/// The digits of a mask, the highest first.
#[inline]
fn mask_digits(holders: u64) -> [u8; MASK_DIGITS] {
    let mut digits = [0; MASK_DIGITS];
    digits[..8].copy_from_slice(&half_digits((holders >> 32) as u32));
    digits[8..].copy_from_slice(&half_digits(holders as u32));
    digits
}

/// Eight digits at once: each gets a byte of its own, and from 10 on it is a letter.
#[inline]
fn half_digits(half: u32) -> [u8; 8] {
    let spread = u64::from(half);
    let spread = (spread | spread << 16) & 0x0000_ffff_0000_ffff;
    let spread = (spread | spread << 8) & 0x00ff_00ff_00ff_00ff;
    let spread = (spread | spread << 4) & 0x0f0f_0f0f_0f0f_0f0f;
    let letters = (spread + 6 * ONES) >> 4 & ONES;
    (spread + 0x30 * ONES + u64::from(b'a' - b'9' - 1) * letters).to_be_bytes()
}

/// The mask of these digits. Of other bytes it is any: whoever asks writes it back.
#[inline]
fn mask_of(digits: &[u8; MASK_DIGITS]) -> u64 {
    let half = |from: usize| digits[from..].first_chunk().map_or(0, half_of);
    u64::from(half(0)) << 32 | u64::from(half(8))
}

#[inline]
fn half_of(digits: &[u8; 8]) -> u32 {
    let bytes = u64::from_be_bytes(*digits);
    // The bit worth 64 tells letters from digits.
    let values = (bytes & (0x0f * ONES)) + 9 * (bytes >> 6 & ONES);
    let packed = values & (0x0f * ONES);
    let packed = (packed | packed >> 4) & 0x00ff_00ff_00ff_00ff;
    let packed = (packed | packed >> 8) & 0x0000_ffff_0000_ffff;
    (packed | packed >> 16) as u32
}

/// The word of a kind, with the space before it. A reference has none.
#[inline]
pub(crate) fn kind_word(kind: u32) -> &'static [u8] {
    match kind {
        RAW => b" raw",
        CELL => b" cell",
        _ => b"",
    }
}

/// The word of a mark, with the space before it. Without one there is none.
#[inline]
pub(crate) fn mark_word(fresh: u32) -> &'static [u8] {
    match fresh {
        FRESH => b" fresh",
        _ => b"",
    }
}

/// The digits of the numbers below 100: a number is written two digits at a time.
static PAIRS: [[u8; 2]; 100] = {
    let mut pairs = [[0; 2]; 100];
    let mut number = 0;
    while number < 100 {
        pairs[number] = [b'0' + (number / 10) as u8, b'0' + (number % 10) as u8];
        number += 1;
    }
    pairs
};

/// Writes into a buffer that is known to be long enough.
pub(crate) struct Writer<'a> {
    out: &'a mut [u8],
    length: usize,
}

impl<'a> Writer<'a> {
    pub(crate) fn new(out: &'a mut [u8]) -> Writer<'a> {
        Writer { out, length: 0 }
    }

    pub(crate) fn length(&self) -> usize {
        self.length
    }

    #[inline]
    pub(crate) fn put(&mut self, piece: &[u8]) {
        let end = self.length + piece.len();
        self.out[self.length..end].copy_from_slice(piece);
        self.length = end;
    }

    #[inline]
    pub(crate) fn number(&mut self, number: u32) {
        let end = self.length + digits(number);
        let out = &mut self.out[self.length..end];
        self.length = end;
        let mut rest = number as usize;
        let mut at = out.len();
        while rest >= 100 {
            at -= 2;
            out[at..at + 2].copy_from_slice(&PAIRS[rest % 100]);
            rest /= 100;
        }
        if at == 2 {
            out[..2].copy_from_slice(&PAIRS[rest]);
        } else {
            out[0] = b'0' + rest as u8;
        }
    }

    /// A space and a number.
    #[inline]
    pub(crate) fn next_number(&mut self, number: u32) {
        self.out[self.length] = b' ';
        self.length += 1;
        self.number(number);
    }

    /// A space and a right.
    #[inline]
    pub(crate) fn next_right(&mut self, right: u32) {
        self.put(if right == 2 { b" rw" } else { b" ro" });
    }

    /// A space and a kind, or nothing for a reference.
    #[inline]
    pub(crate) fn next_kind(&mut self, kind: u32) {
        self.put(kind_word(kind));
    }

    /// A space and the word of the mark, or nothing where there is none.
    #[inline]
    pub(crate) fn next_mark(&mut self, fresh: u32) {
        self.put(mark_word(fresh));
    }

    /// A space and a mask of holders.
    #[inline]
    pub(crate) fn next_holders(&mut self, holders: u64) {
        let mut word = [b' '; 1 + MASK_DIGITS];
        word[1..].copy_from_slice(&mask_digits(holders));
        self.put(&word);
    }
}

/// The least number of each count of digits, from one on.
const LEAST: [u32; 10] = [
    0,
    10,
    100,
    1_000,
    10_000,
    100_000,
    1_000_000,
    10_000_000,
    100_000_000,
    1_000_000_000,
];

/// How many digits a number is written with.
#[inline]
pub(crate) fn digits(number: u32) -> usize {
    // A bit is 1,233 / 4,096 of a digit, so the bits give the digits or one less.
    let bits = u32::BITS - number.leading_zeros();
    let guess = ((bits * 1_233) >> 12) as usize;
    guess + usize::from(number >= LEAST[guess])
}

#[cfg(test)]
mod tests {
    use super::*;

    #[test]
    fn masks_are_written_and_read() {
        let masks = (0..64).flat_map(|bit| [1 << bit, (1 << bit) - 1, !(1 << bit)]);
        for mask in masks.chain([0x0123_4567_89ab_cdef, 0xfedc_ba98_7654_3210]) {
            let text = format!(" {mask:016x}");
            let mut out = [0; 1 + MASK_DIGITS];
            Writer::new(&mut out).next_holders(mask);
            assert_eq!(out, text.as_bytes());
            assert_eq!(Reader::new(text.as_bytes()).next_holders(), Some(mask));
        }
    }

    #[test]
    fn no_other_byte_is_a_digit_of_a_mask() {
        for at in 0..MASK_DIGITS {
            for byte in 0..=u8::MAX {
                let mut text = *b" 0123456789abcdef";
                text[1 + at] = byte;
                let is_digit = byte.is_ascii_digit() || (b'a'..=b'f').contains(&byte);
                assert_eq!(Reader::new(&text).next_holders().is_some(), is_digit);
            }
        }
        assert_eq!(Reader::new(b" 0123456789abcde").next_holders(), None);
        assert_eq!(Reader::new(b"0123456789abcdef").next_holders(), None);
    }
}
