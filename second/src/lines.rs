//! Lines of text: reading them, taking them apart, and putting numbers and bytes into them.

use std::io::{self, BufRead, BufReader, Read};

/// A line as it was read.
pub enum Line<'a> {
    /// With its newline, which is left out here.
    Whole(&'a [u8]),
    /// The last one, without a newline: it may have been cut short.
    Cut,
}

/// Reads lines, and knows whether another whole one is there already.
pub struct LineReader<R> {
    input: BufReader<R>,
    line: Vec<u8>,
}

impl<R: Read> LineReader<R> {
    pub fn new(input: R) -> LineReader<R> {
        LineReader { input: BufReader::with_capacity(1 << 18, input), line: Vec::new() }
    }

    pub fn next_line(&mut self) -> io::Result<Option<Line<'_>>> {
        self.line.clear();
        if self.input.read_until(b'\n', &mut self.line)? == 0 {
            return Ok(None);
        }
        if self.line.last() != Some(&b'\n') {
            return Ok(Some(Line::Cut));
        }
        Ok(Some(Line::Whole(&self.line[..self.line.len() - 1])))
    }

    /// Whether the next line can be read without waiting for it. Where it can't, whatever was
    /// printed so far must leave now: somebody may be waiting for it.
    pub fn has_whole_line(&self) -> bool {
        self.input.buffer().contains(&b'\n')
    }
}

/// The words of a line, which are separated by exactly one space: two spaces in a row, or one
/// at an end, give an empty word, and that is in no form.
#[derive(Clone)]
pub struct Words<'a> {
    rest: Option<&'a [u8]>,
}

impl<'a> Words<'a> {
    pub fn new(line: &'a [u8]) -> Words<'a> {
        Words { rest: Some(line) }
    }

    /// The next word read as a number up to `greatest`.
    pub fn number(&mut self, greatest: u64) -> Option<u64> {
        number(self.next()?).filter(|&n| n <= greatest)
    }

    pub fn at_end(&self) -> bool {
        self.rest.is_none()
    }
}

impl<'a> Iterator for Words<'a> {
    type Item = &'a [u8];

    fn next(&mut self) -> Option<&'a [u8]> {
        let rest = self.rest?;
        match rest.iter().position(|&byte| byte == b' ') {
            Some(space) => {
                self.rest = Some(&rest[space + 1..]);
                Some(&rest[..space])
            }
            None => self.rest.take(),
        }
    }
}

/// A number of decimal digits that fits in 64 bits; zeros in front are allowed.
pub fn number(word: &[u8]) -> Option<u64> {
    if word.is_empty() {
        return None;
    }
    word.iter().try_fold(0u64, |sum, &byte| {
        let digit = byte.wrapping_sub(b'0');
        if digit > 9 {
            return None;
        }
        sum.checked_mul(10)?.checked_add(digit.into())
    })
}

const NO_DIGIT: u8 = 0xFF;

/// The value of each hexadecimal digit, in either case.
const DIGIT_VALUE: [u8; 256] = {
    let mut table = [NO_DIGIT; 256];
    let mut value = 0;
    while value < 16 {
        table[b"0123456789abcdef"[value] as usize] = value as u8;
        table[b"0123456789ABCDEF"[value] as usize] = value as u8;
        value += 1;
    }
    table
};

/// The two digits of each byte.
const BYTE_DIGITS: [[u8; 2]; 256] = {
    let digits = b"0123456789abcdef";
    let mut table = [[0; 2]; 256];
    let mut byte = 0;
    while byte < 256 {
        table[byte] = [digits[byte >> 4], digits[byte & 15]];
        byte += 1;
    }
    table
};

/// Reads a word of hexadecimal, at least one byte, into `out`, which is cleared before.
/// Where the word is none, false, and `out` has nothing to rely on.
pub fn hex_decode(word: &[u8], out: &mut Vec<u8>) -> bool {
    out.clear();
    if word.is_empty() || word.len() % 2 != 0 {
        return false;
    }
    let mut seen = 0;
    out.extend(word.chunks_exact(2).map(|pair| {
        let (high, low) = (DIGIT_VALUE[pair[0] as usize], DIGIT_VALUE[pair[1] as usize]);
        seen |= high | low;
        high << 4 | low & 15
    }));
    // a value is below 16, so the high bit was only seen where a byte was no digit
    seen & 0x80 == 0
}

/// Appends the bytes in hexadecimal.
pub fn push_hex(out: &mut Vec<u8>, bytes: &[u8]) {
    let start = out.len();
    out.resize(start + 2 * bytes.len(), 0);
    for (pair, &byte) in out[start..].chunks_exact_mut(2).zip(bytes) {
        pair.copy_from_slice(&BYTE_DIGITS[byte as usize]);
    }
}

/// Appends a space and the number.
pub fn push_number(out: &mut Vec<u8>, number: impl Into<u64>) {
    let mut left = number.into();
    let mut digits = [0; 20];
    let mut start = digits.len();
    loop {
        start -= 1;
        digits[start] = b'0' + (left % 10) as u8;
        left /= 10;
        if left == 0 {
            break;
        }
    }
    out.push(b' ');
    out.extend_from_slice(&digits[start..]);
}

#[cfg(test)]
mod tests {
    use super::*;

    #[test]
    fn numbers() {
        assert_eq!(number(b"0"), Some(0));
        assert_eq!(number(b"0018446744073709551615"), Some(u64::MAX));
        assert_eq!(number(b"18446744073709551616"), None);
        for bad in [&b""[..], b"-1", b"+1", b"1_0", b" 1", b"1a", b"\xb2"] {
            assert_eq!(number(bad), None);
        }
    }

    #[test]
    fn words_keep_empty_ones() {
        let words: Vec<_> = Words::new(b"a  b ").collect();
        assert_eq!(words, [&b"a"[..], b"", b"b", b""]);
        assert_eq!(Words::new(b"").collect::<Vec<_>>(), [b""]);
    }

    #[test]
    fn hexadecimal_there_and_back() {
        let mut bytes = Vec::new();
        assert!(hex_decode(b"00fFA9", &mut bytes));
        assert_eq!(bytes, [0, 255, 0xA9]);
        let mut text = Vec::new();
        push_hex(&mut text, &bytes);
        assert_eq!(text, b"00ffa9");
        for bad in [&b""[..], b"0", b"0g", b"g0", b"00 0", b"\x80\x80", b"0\xff"] {
            assert!(!hex_decode(bad, &mut bytes));
        }
        for byte in 0..=255u8 {
            let is_digit = byte.is_ascii_hexdigit();
            assert_eq!(hex_decode(&[b'0', byte], &mut bytes), is_digit);
            assert_eq!(hex_decode(&[byte, b'0'], &mut bytes), is_digit);
        }
    }

    #[test]
    fn lines_and_a_cut_one() {
        let mut reader = LineReader::new(&b"a\n\nb"[..]);
        assert!(matches!(reader.next_line(), Ok(Some(Line::Whole(b"a")))));
        assert!(reader.has_whole_line());
        assert!(matches!(reader.next_line(), Ok(Some(Line::Whole(b"")))));
        assert!(!reader.has_whole_line());
        assert!(matches!(reader.next_line(), Ok(Some(Line::Cut))));
        assert!(matches!(reader.next_line(), Ok(None)));
    }

    #[test]
    fn numbers_printed() {
        let mut out = Vec::new();
        push_number(&mut out, 0u8);
        push_number(&mut out, u64::MAX);
        assert_eq!(out, b" 0 18446744073709551615");
    }
}
