//! Lines, hex digits and numbers.
use std::ffi::{c_int, c_void};

unsafe extern "C" {
    fn memchr(bytes: *const c_void, byte: c_int, count: usize) -> *const c_void;
}

/// Where a byte stands first.
pub fn find(byte: u8, bytes: &[u8]) -> Option<usize> {
    // SAFETY: the C library looks at no byte past the count.
    let at = unsafe { memchr(bytes.as_ptr().cast(), c_int::from(byte), bytes.len()) };
    if at.is_null() {
        None
    } else {
        Some(at as usize - bytes.as_ptr() as usize)
    }
}

/// The first line without its end, and what is after it.
pub fn next_line<'a>(rest: &mut &'a [u8]) -> Option<&'a [u8]> {
    if rest.is_empty() {
        return None;
    }
    match find(b'\n', rest) {
        None => Some(std::mem::take(rest)),
        Some(end) => {
            let line = &rest[..end];
            *rest = &rest[end + 1..];
            Some(line.strip_suffix(b"\r").unwrap_or(line))
        }
    }
}

/// The value of each digit, and 255 for each byte that is none.
static VALUES: [u8; 256] = {
    let mut values = [255; 256];
    let mut digit = 0;
    while digit < 16 {
        values[b"0123456789abcdef"[digit] as usize] = digit as u8;
        values[b"0123456789ABCDEF"[digit] as usize] = digit as u8;
        digit += 1;
    }
    values
};

/// The two digits of each byte.
static DIGITS: [[u8; 2]; 256] = {
    let mut digits = [[0; 2]; 256];
    let mut byte = 0;
    while byte < 256 {
        digits[byte] = [b"0123456789abcdef"[byte >> 4], b"0123456789abcdef"[byte & 15]];
        byte += 1;
    }
    digits
};

/// The two digits of each number below 100.
static PAIRS: [[u8; 2]; 100] = {
    let mut pairs = [[0; 2]; 100];
    let mut number = 0;
    while number < 100 {
        pairs[number] = [b'0' + (number / 10) as u8, b'0' + (number % 10) as u8];
        number += 1;
    }
    pairs
};

/// Puts the bytes of an even number of hex digits, at least two, after those that are there.
pub fn decode(digits: &[u8], bytes: &mut Vec<u8>) -> Option<()> {
    if digits.is_empty() || digits.len() % 2 == 1 {
        return None;
    }
    bytes.reserve(digits.len() / 2);
    let mut seen = 0;
    bytes.extend(digits.as_chunks::<2>().0.iter().map(|[high, low]| {
        let (high, low) = (VALUES[usize::from(*high)], VALUES[usize::from(*low)]);
        seen |= high | low;
        high << 4 | low & 15
    }));
    if seen < 16 { Some(()) } else { None }
}

/// A text.
#[derive(Default)]
pub struct Text(pub Vec<u8>);

impl Text {
    pub fn word(&mut self, word: &str) {
        self.0.extend_from_slice(word.as_bytes());
    }

    pub fn byte(&mut self, byte: u8) {
        self.0.push(byte);
    }

    pub fn hex(&mut self, bytes: &[u8]) {
        self.0.reserve(2 * bytes.len());
        self.0.extend(bytes.iter().flat_map(|byte| DIGITS[usize::from(*byte)]));
    }

    /// An image: hex digits, or `-` where it is empty.
    pub fn image(&mut self, bytes: &[u8]) {
        if bytes.is_empty() {
            self.byte(b'-');
        } else {
            self.hex(bytes);
        }
    }

    pub fn four_digits(&mut self, number: u16) {
        self.hex(&number.to_be_bytes());
    }

    pub fn number(&mut self, number: impl Into<u128>) {
        let number = number.into();
        let Ok(mut number) = u64::try_from(number) else {
            return self.word(&number.to_string());
        };
        let mut digits = [0; 20];
        let mut at = digits.len();
        while number >= 10 {
            at -= 2;
            digits[at..at + 2].copy_from_slice(&PAIRS[(number % 100) as usize]);
            number /= 100;
        }
        if number > 0 || at == digits.len() {
            at -= 1;
            digits[at] = b'0' + number as u8;
        }
        let start = if digits[at] == b'0' && at + 1 < digits.len() { at + 1 } else { at };
        self.0.extend_from_slice(&digits[start..]);
    }
}
