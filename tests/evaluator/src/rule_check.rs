//! The rule check, numbers 5 to 9.

use crate::grammar::{longest_prefix, Due};
use crate::rule::{parts, Operand, Piece, Test};
use crate::{reader, refuse, Refusal};

/// "A rule has at most 64 tests and 1,024 bytes."
pub const BYTE_LIMIT: usize = 1_024;
pub const TEST_LIMIT: usize = 64;
/// "32 is the most"
pub const NESTING_LIMIT: usize = 32;
/// "A comparison has at most 14 steps in its paths together." and of a count
/// "its path has its own 14 steps" (02, h).
pub const STEP_LIMIT: usize = 14;

/// The rule check: number and place, 0 and 0 when accepted.
pub fn check(rule: &[u8]) -> Refusal {
    let accepted = Refusal {
        number: 0,
        place: 0,
    };
    read(rule).err().unwrap_or(accepted)
}

/// The rule that the bytes spell, or the refusal that comes first: "5; then 6
/// or 7 with the lower offset; 8; 9".
pub fn read(rule: &[u8]) -> Result<Test, Refusal> {
    if rule.len() > BYTE_LIMIT {
        return refuse(5, 0);
    }
    let (length, due) = longest_prefix(rule);
    if length < rule.len() || !due.is_whole() {
        return refuse_unreadable(&rule[..length], &due);
    }
    let test = reader::read(rule);
    if let Some(place) = too_deep(&test) {
        return refuse(7, place);
    }
    if let Some(place) = too_many_tests(&test) {
        return refuse(8, place);
    }
    if let Some(place) = too_many_steps(&test) {
        return refuse(9, place);
    }
    Ok(test)
}

/// A rule that does not read: 6 at the length of its longest prefix, unless
/// "a part begun inside that prefix" is at nesting 33, whose offset is lower.
/// The parts begun inside it are those of any rule that it begins; that all
/// the completions at hand agree on them is asserted. A part at nesting 33 has
/// 32 others around it, each with a byte before it, so that a short prefix
/// need not be completed.
fn refuse_unreadable(prefix: &[u8], due: &Due) -> Result<Test, Refusal> {
    if prefix.len() <= NESTING_LIMIT {
        return refuse(6, prefix.len());
    }
    let places: Vec<Option<usize>> = due
        .completions()
        .iter()
        .map(|rest| too_deep(&reader::read(&[prefix, rest].concat())))
        .map(|place| place.filter(|offset| *offset < prefix.len()))
        .collect();
    assert!(places.iter().all(|place| *place == places[0]));
    match places[0] {
        Some(place) => refuse(7, place),
        None => refuse(6, prefix.len()),
    }
}

/// "first byte of the first part at nesting 33"
fn too_deep(rule: &Test) -> Option<usize> {
    let all = parts(rule);
    let part = all.iter().find(|part| part.nesting == NESTING_LIMIT + 1)?;
    Some(part.offset)
}

/// "first byte of the 65th test"
fn too_many_tests(rule: &Test) -> Option<usize> {
    let all = parts(rule);
    let mut tests = all.iter().filter(|p| matches!(p.piece, Piece::Test(_)));
    Some(tests.nth(TEST_LIMIT)?.offset)
}

/// "opening bracket of the first comparison above 14 steps"; "9 has its `#` as
/// place; of comparisons and counts above 14 the first is named" (02, h).
fn too_many_steps(rule: &Test) -> Option<usize> {
    let all = parts(rule);
    let part = all.iter().find(|part| match part.piece {
        Piece::Test(test) => steps_of(test) > Some(STEP_LIMIT),
        Piece::Path(_) => false,
    })?;
    Some(part.offset)
}

/// The steps of a comparison's paths together, and of a count's path; other
/// tests have none that are limited.
pub fn steps_of(test: &Test) -> Option<usize> {
    match test {
        Test::Compare(p, _, Operand::Path(r)) => Some(p.steps().len() + r.steps().len()),
        Test::Compare(p, _, Operand::Constant(_)) => Some(p.steps().len()),
        Test::AtLeast(_, p) => Some(p.steps().len()),
        _ => None,
    }
}
