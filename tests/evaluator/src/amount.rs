//! Numerals and their amounts: request (f) of document 02.

/// The amount of a numeral, exactly, as a whole number of ten-thousandths; of
/// another text there is none. "A numeral is an optional minus, 1 to 9 digits,
/// and optionally a point with 1 to 4 digits; leading zeros are allowed and -0
/// equals 0." Blanks at the ends are cut before (02, b).
pub fn amount(text: &[u8]) -> Option<i64> {
    let text = std::str::from_utf8(text).ok()?;
    let (sign, unsigned) = match text.strip_prefix('-') {
        Some(behind) => (-1, behind),
        None => (1, text),
    };
    let (whole, part) = match unsigned.split_once('.') {
        Some((whole, decimals)) => (whole, ten_thousandths(decimals)?),
        None => (unsigned, 0),
    };
    Some(sign * (10_000 * digits(whole, 9)? + part))
}

/// What stands behind the point: 1 to 4 digits, filled up with zeros to four.
fn ten_thousandths(decimals: &str) -> Option<i64> {
    let number = digits(decimals, 4)?;
    Some(match decimals.len() {
        1 => 1_000 * number,
        2 => 100 * number,
        3 => 10 * number,
        _ => number,
    })
}

/// The number that 1 to so many digits spell.
fn digits(text: &str, most: usize) -> Option<i64> {
    let spelled = (1..=most).contains(&text.len()) && text.bytes().all(|b| b.is_ascii_digit());
    spelled.then(|| text.parse().expect("few digits"))
}
