//! Text that is written, and the words of a script's lines.

const DIGITS: &[u8; 16] = b"0123456789ABCDEF";

/// A value as eight digits, on a line of its own.
#[inline]
pub fn put_value(out: &mut Vec<u8>, value: u32) {
    let mut text = [b'\n'; 9];
    for (i, digit) in text[..8].iter_mut().enumerate() {
        *digit = DIGITS[(value >> (28 - 4 * i)) as usize & 15];
    }
    out.extend_from_slice(&text);
}

/// A word and decimal numbers, on a line of their own.
#[inline]
pub fn put_numbers(out: &mut Vec<u8>, word: &str, numbers: &[usize]) {
    out.extend_from_slice(word.as_bytes());
    for &number in numbers {
        out.push(b' ');
        put_decimal(out, number);
    }
    out.push(b'\n');
}

#[inline]
fn put_decimal(out: &mut Vec<u8>, mut value: usize) {
    let mut text = [0; 20];
    let mut from = text.len();
    loop {
        from -= 1;
        text[from] = b'0' + (value % 10) as u8;
        value /= 10;
        if value == 0 {
            break;
        }
    }
    out.extend_from_slice(&text[from..]);
}

#[inline]
fn digit(half: u8) -> u8 {
    half + b'0' + if half > 9 { 7 } else { 0 }
}

/// Octets as digits, on a line of their own.
pub fn put_octets(out: &mut Vec<u8>, octets: &[u8]) {
    out.reserve(2 * octets.len() + 1);
    let chunks = octets.chunks_exact(16);
    let rest = chunks.remainder();
    for chunk in chunks {
        let mut text = [0u8; 32];
        for i in 0..16 {
            text[2 * i] = digit(chunk[i] >> 4);
            text[2 * i + 1] = digit(chunk[i] & 15);
        }
        out.extend_from_slice(&text);
    }
    for &octet in rest {
        out.extend_from_slice(&[digit(octet >> 4), digit(octet & 15)]);
    }
    out.push(b'\n');
}

const NO_DIGIT: u8 = 0xFF;

const fn digit_values() -> [u8; 256] {
    let mut values = [NO_DIGIT; 256];
    let mut i = 0;
    while i < 16 {
        values[DIGITS[i] as usize] = i as u8;
        values[DIGITS[i].to_ascii_lowercase() as usize] = i as u8;
        i += 1;
    }
    values
}

static DIGIT_VALUES: [u8; 256] = digit_values();

/// Decodes N digits into N / 2 octets; whether all were digits.
#[inline]
fn decode<const N: usize, const H: usize>(text: &[u8; N], out: &mut [u8; H]) -> bool {
    let (mut halves, mut is_good) = ([0u8; N], true);
    for i in 0..N {
        let (sign, lower) = (text[i], text[i] | 0x20);
        let is_number = sign.wrapping_sub(b'0') < 10;
        let is_letter = lower.wrapping_sub(b'a') < 6;
        is_good &= is_number | is_letter;
        halves[i] = (sign & 15) + if is_letter { 9 } else { 0 };
    }
    for i in 0..H {
        out[i] = halves[2 * i] << 4 | halves[2 * i + 1];
    }
    is_good
}

/// The words of a script, line by line. The script ends with a newline, so no test of its end is needed: nothing here
/// steps over a newline.
pub struct Words<'a> {
    pub text: &'a [u8],
    pub at: usize,
}

impl<'a> Words<'a> {
    /// Steps over what separates words; the octet that follows.
    #[inline]
    pub fn next(&mut self) -> u8 {
        loop {
            match self.text[self.at] {
                b' ' | b'\t' | b'\r' => self.at += 1,
                octet => return octet,
            }
        }
    }

    #[inline]
    fn closed(&self) -> Option<()> {
        matches!(self.text[self.at], b' ' | b'\t' | b'\r' | b'\n').then_some(())
    }

    /// The line has no further word.
    #[inline]
    pub fn end(&mut self) -> Option<()> {
        (self.next() == b'\n').then_some(())
    }

    #[inline]
    pub fn word(&mut self) -> &'a [u8] {
        self.next();
        let from = self.at;
        while self.closed().is_none() {
            self.at += 1;
        }
        &self.text[from..self.at]
    }

    /// A hexadecimal number of so many digits at most.
    #[inline]
    pub fn hexadecimal(&mut self, digits: usize) -> Option<u64> {
        self.next();
        let (from, mut value) = (self.at, 0u64);
        loop {
            let digit = DIGIT_VALUES[self.text[self.at] as usize];
            if digit == NO_DIGIT {
                break;
            }
            value = value << 4 | u64::from(digit);
            self.at += 1;
        }
        self.closed()?;
        (1..=digits).contains(&(self.at - from)).then_some(value)
    }

    /// A decimal number of 1 to 7 digits, between two bounds.
    #[inline]
    pub fn decimal(&mut self, least: usize, most: usize) -> Option<usize> {
        self.next();
        let (from, mut value) = (self.at, 0usize);
        loop {
            let digit = self.text[self.at].wrapping_sub(b'0');
            if digit > 9 {
                break;
            }
            value = value.wrapping_mul(10).wrapping_add(digit as usize);
            self.at += 1;
        }
        self.closed()?;
        let has_digits = (1..=7).contains(&(self.at - from));
        (has_digits && (least..=most).contains(&value)).then_some(value)
    }

    /// DATA: an even number of digits, whose octets go to `out` in place of what it had.
    #[inline]
    pub fn data(&mut self, out: &mut Vec<u8>) -> Option<()> {
        out.clear();
        self.next();
        self.octets(out)?;
        self.closed()
    }

    #[inline]
    fn octets(&mut self, out: &mut Vec<u8>) -> Option<()> {
        let from = self.at;
        while let Some(text) = self.text[self.at..].first_chunk::<32>() {
            let mut octets = [0; 16];
            if !decode(text, &mut octets) {
                break;
            }
            out.extend_from_slice(&octets);
            self.at += 32;
        }
        while let Some(text) = self.text[self.at..].first_chunk::<8>() {
            let mut octets = [0; 4];
            if !decode(text, &mut octets) {
                break;
            }
            out.extend_from_slice(&octets);
            self.at += 8;
        }
        loop {
            let high = DIGIT_VALUES[self.text[self.at] as usize];
            if high == NO_DIGIT {
                return (self.at > from).then_some(());
            }
            let low = DIGIT_VALUES[self.text[self.at + 1] as usize];
            if low == NO_DIGIT {
                return None;
            }
            self.at += 2;
            out.push(high << 4 | low);
        }
    }

    /// The end of the line, or LEN before it: how many octets the DATA before has with the zero octets behind it.
    #[inline]
    pub fn len(&mut self, octets: usize) -> Option<usize> {
        if self.next() == b'\n' {
            return Some(octets);
        }
        let len = self.decimal(octets, 32_768)?;
        self.end()?;
        Some(len)
    }
}
