//! Random rules: one half legal, the other damaged; and rules beyond the
//! limits.

use std::collections::BTreeMap;

use crate::rule_agreement::{assert_agreement, assert_judged};
use crate::rules_seen::Seen;
use evaluator::grammar::COUNT_LIMIT;
use evaluator::random::{any_rule, damage_rule, deep_rule, large_rule, Random};
use evaluator::reader;
use evaluator::rule::counts;
use evaluator::rule_check::{BYTE_LIMIT, NESTING_LIMIT};

/// So many legal rules, and as many damaged ones.
const CASES: u64 = 110_000;
/// So many beyond the limits.
const LARGE: u64 = 5_000;

/// A rule just as deep as asked for.
fn draw_deep(random: &mut Random, nesting: usize) -> Vec<u8> {
    let (heads, tail) = deep_rule(random, nesting);
    [heads.concat().into_bytes(), tail].concat()
}

/// Mostly few parts, so that many rules are tried, seldom very many or deep.
fn draw_legal(random: &mut Random) -> Vec<u8> {
    let most = match random.below(100) {
        0..=3 => {
            let nesting = 1 + random.below(NESTING_LIMIT);
            return draw_deep(random, nesting);
        }
        4 | 5 => 280,
        6..=14 => 60,
        _ => 12,
    };
    let size = 1 + random.below(most);
    any_rule(random, size).spell()
}

/// A rule that reads but may break every limit.
fn draw_large(random: &mut Random) -> Vec<u8> {
    match random.percent(30) {
        true => {
            let nesting = 25 + random.below(20);
            draw_deep(random, nesting)
        }
        false => {
            let size = 1 + random.below(600);
            large_rule(random, size).spell()
        }
    }
}

/// Damage at random places; sometimes of a large rule, or to a length around the
/// limit.
fn draw_damaged(random: &mut Random) -> Vec<u8> {
    match random.below(100) {
        0 => {
            let mut long = draw_legal(random);
            let byte = *random.pick(b"!&*a\0");
            long.resize(BYTE_LIMIT - 1 + random.below(4), byte);
            long
        }
        1..=10 => {
            let large = draw_large(random);
            damage_rule(random, &large)
        }
        _ => {
            let legal = draw_legal(random);
            damage_rule(random, &legal)
        }
    }
}

/// Asserts that each number for rules occurred so often, and no other.
fn assert_covered(numbers: &BTreeMap<u32, usize>, due: &[u32], at_least: usize) {
    println!("{numbers:?}");
    assert!(numbers.keys().eq(due), "{numbers:?}");
    assert!(
        numbers.values().all(|count| *count >= at_least),
        "{numbers:?}"
    );
}

/// Whether a rule that does not read goes wrong in the number of a count, or at
/// the byte behind it.
fn ends_in_number(rule: &[u8], place: usize) -> bool {
    let digits = rule[..place].iter().rev();
    let digits = digits.take_while(|byte| byte.is_ascii_digit()).count();
    rule[..place - digits].ends_with(b"#")
}

#[test]
fn damaged_rules_are_judged_alike() {
    let mut numbers = BTreeMap::new();
    let (mut in_number, mut whole_counts) = (0, 0);
    for seed in 0..CASES {
        let rule = draw_damaged(&mut Random::new(seed));
        let refusal = assert_agreement(format_args!("seed {seed}"), &rule);
        *numbers.entry(refusal.number).or_default() += 1;
        in_number += usize::from(refusal.number == 6 && ends_in_number(&rule, refusal.place));
        let counts = refusal.number == 0 && !counts(&reader::read(&rule)).is_empty();
        whole_counts += usize::from(counts);
    }
    assert_covered(&numbers, &[0, 5, 6, 7, 8, 9], 50);
    assert!(numbers.values().sum::<usize>() >= 100_000);
    println!("{in_number} go wrong at the number of a count, {whole_counts} have good counts");
    assert!(in_number >= 3_000 && whole_counts >= 1_000);
}

#[test]
fn rules_beyond_the_limits_are_judged_alike() {
    let mut numbers = BTreeMap::new();
    // By a comparison, and by a count.
    let mut above = [0, 0];
    // Other seeds than those of the other two.
    for seed in 2 * CASES..2 * CASES + LARGE {
        let rule = draw_large(&mut Random::new(seed));
        let refusal = assert_agreement(format_args!("seed {seed}"), &rule);
        *numbers.entry(refusal.number).or_default() += 1;
        if refusal.number == 9 {
            above[usize::from(rule[refusal.place] == b'#')] += 1;
        }
    }
    // They all read.
    assert_covered(&numbers, &[0, 5, 7, 8, 9], 200);
    println!("{above:?} by a comparison and by a count");
    assert!(above.iter().all(|cases| *cases >= 50), "{above:?}");
}

/// Asserts that all of it occurred: 7 kinds of tests and 14 of paths, 6 signs
/// before paths and before constants, 26 letters at first and 37 bytes behind,
/// 16 lengths of names, 94 bytes in constants of 33 lengths, nesting 1 to 32,
/// 1 to 64 tests, 0 to 14 steps of comparisons and of counts, most numbers that
/// a count may have, the least and the greatest among them, and some rule of many
/// bytes.
fn assert_all(seen: &Seen) {
    assert_eq!(seen.constructs.len(), 21, "{:?}", seen.constructs);
    assert_eq!(seen.signs.len(), 12);
    assert_eq!(seen.first_bytes.len(), 26);
    assert_eq!(seen.name_bytes.len(), 37);
    assert_eq!(seen.name_lengths.len(), 16);
    assert_eq!(seen.constant_bytes.len(), 94);
    assert_eq!(seen.constant_lengths.len(), 33);
    assert_eq!(seen.nestings.len(), 32);
    assert_eq!(seen.tests.len(), 64, "{:?}", seen.tests);
    assert_eq!(seen.steps.len(), 15, "{:?}", seen.steps);
    assert_eq!(seen.counted_steps.len(), 15, "{:?}", seen.counted_steps);
    assert!(seen.numbers.len() > COUNT_LIMIT / 2, "{:?}", seen.numbers);
    let ends = (seen.numbers.first(), seen.numbers.last());
    assert_eq!(ends, (Some(&0), Some(&COUNT_LIMIT)));
    assert!(seen.longest > BYTE_LIMIT / 2, "{}", seen.longest);
}

#[test]
fn legal_rules_are_accepted() {
    let mut seen = Seen::default();
    let mut accepted = 0;
    // Other seeds than those of the damaged rules.
    for seed in CASES..2 * CASES {
        let rule = draw_legal(&mut Random::new(seed));
        assert_judged(format_args!("seed {seed}"), &rule, (0, 0));
        accepted += 1;
        seen.add(&rule);
    }
    assert!(accepted >= 100_000);
    assert_all(&seen);
}
