//! Damage to documents and rules.

use super::Random;

/// A document with one or two things wrong, or by chance none.
pub fn damage_document(random: &mut Random, document: &[u8]) -> Vec<u8> {
    let mut damaged = document.to_vec();
    for _ in 0..=random.below(2) {
        damaged = match random.below(4) {
            0 => damage_lines(random, &damaged),
            1 => damage_number(random, &damaged),
            _ => damage_bytes(random, &damaged, b"\n\r=0123456789aetdknlv-A~\x7f\x1f\xff "),
        };
    }
    damaged
}

/// A rule with one to three things wrong, or by chance none.
pub fn damage_rule(random: &mut Random, rule: &[u8]) -> Vec<u8> {
    let mut damaged = rule.to_vec();
    for _ in 0..=random.below(3) {
        damaged = match random.percent(20) {
            true => damage_count(random, &damaged),
            false => damage_bytes(
                random,
                &damaged,
                b":!&|(=<>\"elrLR[].+*)az09-xX~\n\x7f\xff #4",
            ),
        };
    }
    damaged
}

/// Puts another number behind some `#`, or a digit before or behind the number
/// there. In a constant a `#` has no number, and gets one. What has no `#` stays
/// as it is.
fn damage_count(random: &mut Random, rule: &[u8]) -> Vec<u8> {
    let places: Vec<usize> = (0..rule.len()).filter(|at| rule[*at] == b'#').collect();
    if places.is_empty() {
        return rule.to_vec();
    }
    let (before, behind) = rule.split_at(random.pick(&places) + 1);
    let digits = behind.iter().take_while(|byte| byte.is_ascii_digit());
    let (number, rest) = behind.split_at(digits.count());
    let numbers = [
        "", "0", "00", "01", "9", "999", "4095", "4096", "4097", "4100", "5000", "9999", "40960",
    ];
    let digit = [b'0' + random.below(10) as u8];
    let other = match random.below(4) {
        0 => [b"0", number].concat(),
        1 => [&digit, number].concat(),
        2 => [number, &digit].concat(),
        _ => random.pick(&numbers).as_bytes().to_vec(),
    };
    [before, &other, rest].concat()
}

/// Drops, repeats or exchanges lines, or puts one line for another.
fn damage_lines(random: &mut Random, document: &[u8]) -> Vec<u8> {
    let mut lines: Vec<&[u8]> = document.split_inclusive(|byte| *byte == b'\n').collect();
    if lines.is_empty() {
        return Vec::new();
    }
    let (i, j) = (random.below(lines.len()), random.below(lines.len()));
    match random.below(4) {
        0 => {
            lines.remove(i);
        }
        1 => lines.insert(i, lines[j]),
        2 => lines.swap(i, j),
        _ => lines[i] = lines[j],
    }
    lines.concat()
}

/// Puts another number behind the `=` of some line; the first line is taken
/// as often as all others.
fn damage_number(random: &mut Random, document: &[u8]) -> Vec<u8> {
    let mut lines: Vec<Vec<u8>> = document
        .split_inclusive(|byte| *byte == b'\n')
        .map(<[u8]>::to_vec)
        .collect();
    let numbered: Vec<usize> = (0..lines.len())
        .filter(|i| lines[*i].starts_with(b"depth="))
        .collect();
    let line = match numbered.is_empty() || random.percent(50) {
        true => 0,
        false => *random.pick(&numbered),
    };
    let numbers = [
        "0", "1", "2", "3", "4", "9999", "4097", "99999", "10000", "01", "",
    ];
    let number = random.pick(&numbers);
    if let Some(text) = lines.get_mut(line) {
        let length = text.iter().take_while(|byte| **byte != b'=').count();
        text.truncate(length);
        text.extend(format!("={number}\n").bytes());
    }
    lines.concat()
}

/// Cuts, removes, puts in or changes bytes, or repeats a stretch.
fn damage_bytes(random: &mut Random, bytes: &[u8], alphabet: &[u8]) -> Vec<u8> {
    let mut damaged = bytes.to_vec();
    let at = random.below(bytes.len() + 1);
    let byte = *random.pick(alphabet);
    match random.below(8) {
        0 => damaged.truncate(at),
        1 | 2 => damaged.insert(at, byte),
        3 => {
            let end = bytes.len().min(at + 1 + random.below(40));
            damaged.splice(at..at, bytes[at..end].iter().copied());
        }
        4 => damaged.insert(at, random.below(256) as u8),
        _ if at == bytes.len() => damaged.push(byte),
        5 => {
            damaged.remove(at);
        }
        _ => damaged[at] = byte,
    }
    damaged
}
