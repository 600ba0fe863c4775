//! Damaged documents and rules mixed with whole ones, lent buffers of any
//! length.

use std::collections::BTreeMap;

use crate::evaluation_agreement::{assert_agreement, Buffers, Length};
use evaluator::document::{spell, BYTE_LIMIT};
use evaluator::evaluate::needed_words;
use evaluator::random::{
    any_library, damage_document, damage_one_line, damage_rule, deep_rule, large_rule, library,
    repeating_library, rule, Random,
};
use evaluator::rule_check;

/// So many calls.
const CASES: u64 = 20_000;

/// Half of the documents are whole, but seldom one has an attribute twice;
/// seldom one is too long.
pub fn draw_document(random: &mut Random, nodes: usize) -> Vec<u8> {
    let whole = spell(&match random.below(20) {
        0..=11 => library(random, nodes),
        12..=18 => any_library(random, nodes),
        _ => repeating_library(random, nodes),
    });
    match random.below(400) {
        0 => {
            let mut long = whole;
            long.resize(BYTE_LIMIT + random.below(3), b'\n');
            long
        }
        1..=80 => damage_document(random, &whole),
        81..=160 => damage_one_line(random, &whole),
        _ => whole,
    }
}

/// Half of the rules are whole; some are too long, too deep or too large.
pub fn draw_rule(random: &mut Random) -> Vec<u8> {
    let size = 2 + random.below(20);
    let whole = rule(random, size).spell();
    match random.below(20) {
        0 => {
            let nesting = 30 + random.below(6);
            let (heads, tail) = deep_rule(random, nesting);
            [heads.concat().into_bytes(), tail].concat()
        }
        1 => {
            let size = 20 + random.below(400);
            large_rule(random, size).spell()
        }
        2 => {
            let mut long = whole;
            let length = rule_check::BYTE_LIMIT + random.below(3);
            long.resize(length, b'!');
            long
        }
        3..=9 => damage_rule(random, &whole),
        _ => whole,
    }
}

/// Lengths by what the document needed when it was whole. It may need less or
/// more now, or be refused.
pub fn draw_buffers(random: &mut Random, nodes: usize) -> Buffers {
    let mut length = |needed: usize| match random.below(8) {
        0 => Length::Just(random.below(needed)),
        1 => Length::Just(needed - 1),
        2 | 3 => Length::Just(needed),
        4 => Length::Just(needed + random.below(needed)),
        _ => Length::Longer(random.below(40)),
    };
    Buffers {
        words: length(needed_words(nodes)),
        marks: length(nodes),
        seed: random.below(usize::MAX) as u64,
    }
}

#[test]
fn damaged_calls_are_refused_or_evaluated_alike() {
    let mut numbers = BTreeMap::new();
    // Other seeds than those of the random pairs.
    for seed in 1_000_000..1_000_000 + CASES {
        let random = &mut Random::new(seed);
        let nodes = 1 + random.below(12);
        let document = draw_document(random, nodes);
        let rule = draw_rule(random);
        let buffers = draw_buffers(random, nodes);
        let origin = format_args!("seed {seed}");
        let outcome = assert_agreement(origin, &document, &rule, buffers);
        *numbers.entry(outcome.number).or_insert(0) += 1;
    }
    println!("{numbers:?}");
    // Accepted, every number of the table, and 14.
    assert!(numbers.keys().copied().eq((0..=11).chain([14])));
    assert!(numbers.values().all(|cases| *cases >= 20), "{numbers:?}");
    assert!(numbers[&0] >= 1_000, "{numbers:?}");
}
