//! Numerals, and what is nearly one.

use super::Random;

/// A numeral: mostly a small one, so that amounts are often equal, also in other
/// spellings, and sometimes of up to the most digits.
pub fn numeral(random: &mut Random) -> Vec<u8> {
    let minus = if random.percent(25) { "-" } else { "" };
    let whole = match random.below(8) {
        0 => drawn_digits(random, 9),
        1 => zeros(random, 8) + &random.below(10).to_string(),
        _ => random.below(12).to_string(),
    };
    let decimals = match random.below(8) {
        0 => format!(".{}", drawn_digits(random, 4)),
        1 | 2 => [".5", ".50", ".0", ".0000"][random.below(4)].to_string(),
        _ => String::new(),
    };
    format!("{minus}{whole}{decimals}").into_bytes()
}

/// 1 to so many digits.
fn drawn_digits(random: &mut Random, most: usize) -> String {
    let count = 1 + random.below(most);
    let digit = |_| char::from(b'0' + random.below(10) as u8);
    (0..count).map(digit).collect()
}

/// Up to so many zeros.
fn zeros(random: &mut Random, most: usize) -> String {
    "0".repeat(random.below(most + 1))
}

/// Texts that look like a numeral and are none. Some of them make one where texts
/// are joined.
pub(super) const OTHERS: [&str; 12] = [
    ".5",
    "1.",
    "+1",
    "--1",
    "-",
    ".",
    "1.00000",
    "1234567890",
    "0000000001",
    "1 0",
    "1e1",
    "1.5.0",
];

/// A numeral, or in one of six cases another text that looks like one.
pub fn numeral_or_nearly(random: &mut Random) -> Vec<u8> {
    match random.below(6) {
        0 => random.pick(&OTHERS).as_bytes().to_vec(),
        _ => numeral(random),
    }
}

/// Another spelling of a numeral's amount, or a numeral close to it.
pub fn nearly_numeral(random: &mut Random, numeral: &[u8]) -> Vec<u8> {
    let (minus, digits) = match numeral.strip_prefix(b"-") {
        Some(digits) => (&b"-"[..], digits),
        None => (&b""[..], numeral),
    };
    match random.below(5) {
        0 => [minus, b"0", digits].concat(),
        1 if digits.contains(&b'.') => [numeral, b"0"].concat(),
        1 => [numeral, b".0"].concat(),
        2 if minus.is_empty() => [b"-", digits].concat(),
        2 => digits.to_vec(),
        _ => {
            let mut close = numeral.to_vec();
            if let Some(last) = close.last_mut() {
                *last = b'0' + random.below(10) as u8;
            }
            close
        }
    }
}
