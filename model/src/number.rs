//! Texts of numbers: times, floats, differences, periods, identifiers.

/// "Times are whole milliseconds 0 to 9,999,999,999,999".
pub const LAST_TIME: u64 = 9_999_999_999_999;

/// "Times are whole milliseconds [...], written as seconds, point, three digits."
pub fn time_text(ms: u64) -> String {
    format!("{}.{:03}", ms / 1000, ms % 1000)
}

/// "It is written exactly: no trailing zeros, one fraction digit at least
/// (`0.0`, `-0.5`, `0.0009765625`)." The number counts 1024ths; one of them is
/// 9,765,625 of the tenth fraction digit.
pub fn float_text(parts: i64) -> String {
    let sign = if parts < 0 { "-" } else { "" };
    let size = parts.unsigned_abs();
    let digits = format!("{:010}", size % 1024 * 9_765_625);
    format!("{}{}.{}", sign, size / 1024, without_trailing_zeros(&digits))
}

/// "float to 2,097,152 with at most 6 fraction digits, written like a float";
/// "The echo keeps its written form." (document 02, (b)). The difference counts
/// millionths.
pub fn float_difference_text(millionths: u64) -> String {
    let digits = format!("{:06}", millionths % 1_000_000);
    format!("{}.{}", millionths / 1_000_000, without_trailing_zeros(&digits))
}

/// "no trailing zeros, one fraction digit at least".
fn without_trailing_zeros(digits: &str) -> &str {
    let kept = digits.trim_end_matches('0');
    if kept.is_empty() {
        "0"
    } else {
        kept
    }
}

/// The text of a period or an integer difference, taken apart at its point.
pub struct Decimal<'a> {
    whole: &'a [u8],
    fraction: Option<&'a [u8]>,
}

impl<'a> Decimal<'a> {
    /// "Parameters are plain decimals: digits, then optionally a point and one
    /// or more digits; no sign, exponent or leading zeros (`0` and `0.5` are
    /// fine)."; "Integer differences and periods are read as today." (document
    /// 02, (b)).
    pub fn read(text: &'a [u8]) -> Option<Decimal<'a>> {
        let (whole, fraction) = parted(text, |byte| byte == b'.');
        if !is_digits(whole) || whole.len() > 1 && whole[0] == b'0' {
            return None;
        }
        if fraction.is_some_and(|digits| !is_digits(digits)) {
            return None;
        }
        Some(Decimal { whole, fraction })
    }

    /// "integer (no point)", "at most 3 fraction digits": the number in units
    /// of the last digit allowed, or nothing when there are more digits or the
    /// number is beyond all bounds of document 01.
    pub fn scaled(&self, places: usize) -> Option<u64> {
        let fraction = self.fraction.unwrap_or(b"");
        if fraction.len() > places || self.whole.len() > 10 {
            return None;
        }
        let padding = std::iter::repeat_n(&b'0', places - fraction.len());
        Some(number(self.whole.iter().chain(fraction).chain(padding)))
    }
}

/// The text of a float difference, "read as C99 does, in decimal form"
/// (document 02, (b)), and kept as the exact number that it is: its digits from
/// the first that is not 0 to the last that is not 0, and the power of ten that
/// this last one counts. Zero has no digits.
pub struct ExactDecimal {
    minus: bool,
    digits: Vec<u8>,
    power: i64,
}

impl ExactDecimal {
    /// "a leading `+`, a missing whole or fraction part (`.5`, `5.`, never
    /// both), leading zeros and an exponent".
    pub fn read(text: &[u8]) -> Option<ExactDecimal> {
        let (minus, size) = signed(text);
        let (decimal, exponent) = parted(size, |byte| matches!(byte, b'e' | b'E'));
        let (whole, fraction) = parted(decimal, |byte| byte == b'.');
        let fraction = fraction.unwrap_or(b"");
        let digits = [whole, fraction].concat();
        if !is_digits(&digits) {
            return None;
        }
        let exponent = exponent.map_or(Some(0), read_exponent)?;
        Some(ExactDecimal::trimmed(minus, &digits, exponent - fraction.len() as i64))
    }

    /// The number of these digits, the last of which counts this power of ten.
    fn trimmed(minus: bool, digits: &[u8], power: i64) -> ExactDecimal {
        let zeros_behind = digits.iter().rev().take_while(|&&digit| digit == b'0').count();
        let digits = &digits[..digits.len() - zeros_behind];
        let zeros_before = digits.iter().take_while(|&&digit| digit == b'0').count();
        let digits = digits[zeros_before..].to_vec();
        ExactDecimal { minus, digits, power: power + zeros_behind as i64 }
    }

    /// "The exact decimal must still be at most 2,097,152 and a whole number of
    /// millionths. Minus is taken only for zero." The number in millionths; the
    /// most is given in them too.
    pub fn millionths(&self, most: u64) -> Option<u64> {
        if self.digits.is_empty() {
            return Some(0);
        }
        let padding = usize::try_from(self.power + 6).ok()?;
        if self.minus || self.digits.len() + padding > most.to_string().len() {
            return None;
        }
        let millionths = number(self.digits.iter().chain(std::iter::repeat_n(&b'0', padding)));
        if millionths > most {
            return None;
        }
        Some(millionths)
    }
}

/// "an exponent (`e` or `E`, a sign if any, one to three digits)": what stands
/// behind its letter.
fn read_exponent(text: &[u8]) -> Option<i64> {
    let (minus, digits) = signed(text);
    if !is_digits(digits) || digits.len() > 3 {
        return None;
    }
    let size = number(digits) as i64;
    Some(if minus { -size } else { size })
}

/// "a sign if any": whether it is minus, and what follows it.
fn signed(text: &[u8]) -> (bool, &[u8]) {
    match text {
        [b'-', size @ ..] => (true, size),
        [b'+', size @ ..] => (false, size),
        _ => (false, text),
    }
}

/// A text before and behind the first byte of a kind, which belongs to neither.
fn parted(text: &[u8], ends: impl Fn(u8) -> bool) -> (&[u8], Option<&[u8]>) {
    match text.iter().position(|&byte| ends(byte)) {
        Some(place) => (&text[..place], Some(&text[place + 1..])),
        None => (text, None),
    }
}

/// The number of some digits, 19 at most.
fn number<'a>(digits: impl IntoIterator<Item = &'a u8>) -> u64 {
    digits.into_iter().fold(0, |sum, &digit| sum * 10 + u64::from(digit - b'0'))
}

/// "digits", "one or more digits".
fn is_digits(text: &[u8]) -> bool {
    !text.is_empty() && text.iter().all(u8::is_ascii_digit)
}

/// "id 1 to 2,147,483,647 without leading zero".
pub fn identifier(text: &[u8]) -> Option<u32> {
    if !is_digits(text) || text[0] == b'0' || text.len() > 10 {
        return None;
    }
    let id = number(text);
    if id > 2_147_483_647 {
        return None;
    }
    Some(id as u32)
}
