//! All short byte strings of the bytes that mean something in a rule.

use crate::rule_agreement::assert_agreement;
use evaluator::grammar::COUNT_LIMIT;

/// Every byte that the grammar names, a letter more for names, two digits, and a
/// byte that stands nowhere but in constants.
const BYTES: &[u8] = b":!&|(=<>\")elrLR[].+*#04a ";
/// Those of them that may begin a name, may stand in one, and in a constant.
const LETTERS: usize = 4;
const NAME_BYTES: usize = 6;
const CONSTANT_BYTES: usize = BYTES.len() - 1;

/// How many strings were compared, and how many of them are rules.
#[derive(Default)]
struct Count {
    compared: usize,
    accepted: usize,
}

impl Count {
    /// Compares a string and all longer ones that begin with it. Behind bytes
    /// that begin no rule nothing more is put if only begun ones are wanted:
    /// all that comes there is refused at the same place.
    fn compare(&mut self, string: &mut Vec<u8>, longest: usize, only_begun: bool) {
        let refusal = assert_agreement("a short rule", string);
        self.compared += 1;
        self.accepted += usize::from(refusal.number == 0);
        let begun = refusal.number == 0 || refusal.place == string.len();
        if string.len() == longest || (only_begun && !begun) {
            return;
        }
        for byte in BYTES {
            string.push(*byte);
            self.compare(string, longest, only_begun);
            string.pop();
        }
    }
}

/// How many rules there are of so many of these bytes, counted along the
/// grammar: a name, `!T`, `&TT` and `|TT`, a comparison, or `#nP`.
fn tests(bytes: u32) -> usize {
    if bytes < 2 {
        return 0;
    }
    let inside = bytes - 1;
    let names = LETTERS * NAME_BYTES.pow(inside - 1);
    let joined = 2 * pairs(inside, tests, tests);
    names + tests(inside) + joined + comparisons(bytes) + pairs(inside, numbers, paths)
}

/// Those of so many bytes that a count may have, none of another digit.
fn numbers(bytes: u32) -> usize {
    let all = (0..=COUNT_LIMIT).map(|number| number.to_string());
    let of_bytes = all.filter(|text| text.len() == bytes as usize);
    let known = |text: &String| text.bytes().all(|digit| BYTES.contains(&digit));
    of_bytes.filter(known).count()
}

/// Five of one byte, `*P`, `.PP` and `+PP`, or `[T]`.
fn paths(bytes: u32) -> usize {
    match bytes {
        0 => 0,
        1 => 5,
        _ => paths(bytes - 1) + 2 * pairs(bytes - 1, paths, paths) + tests(bytes - 2),
    }
}

/// Three signs have one byte and three have two.
fn comparisons(bytes: u32) -> usize {
    let with_sign = |sign: u32| match bytes.checked_sub(2 + sign) {
        Some(rest) => 3 * pairs(rest, paths, operands),
        None => 0,
    };
    with_sign(1) + with_sign(2)
}

fn operands(bytes: u32) -> usize {
    let constants = match bytes.checked_sub(2) {
        Some(inside) => CONSTANT_BYTES.pow(inside),
        None => 0,
    };
    paths(bytes) + constants
}

/// So many bytes cut in two places where the one and the other stand.
fn pairs(bytes: u32, first: fn(u32) -> usize, second: fn(u32) -> usize) -> usize {
    (0..=bytes)
        .map(|cut| first(cut) * second(bytes - cut))
        .sum()
}

#[test]
fn every_string_of_up_to_four_bytes() {
    let mut count = Count::default();
    count.compare(&mut Vec::new(), 4, false);
    let all = (0..=4).map(|length| BYTES.len().pow(length)).sum();
    assert_eq!(count.compared, all);
    assert_eq!(count.accepted, (0..=4).map(tests).sum());
}

#[test]
fn every_rule_of_up_to_six_bytes() {
    let mut count = Count::default();
    count.compare(&mut Vec::new(), 6, true);
    assert!(count.compared > 150_000, "{}", count.compared);
    assert_eq!(count.accepted, (0..=6).map(tests).sum());
}
