//! Calls by lists of values with damaged documents and rules mixed with whole ones,
//! lists with numbers of no node, and buffers of any length.

use std::collections::BTreeMap;

use crate::damaged_evaluations::{draw_buffers, draw_document, draw_rule};
use crate::evaluation_agreement::assert_by_values;
use evaluator::random::{damage_rule, equality, Random};
use evaluator::samples::steps;

/// So many calls.
const CASES: u64 = 15_000;
/// Other seeds than those of the other tests.
const FIRST_SEED: u64 = 6_400_000;

/// Most are equalities, whole or damaged; some have too many steps.
fn draw_equality(random: &mut Random) -> Vec<u8> {
    let size = 2 + random.below(20);
    let values = [b"a".to_vec(), b"heparin".to_vec()];
    let whole = equality(random, size, &values).spell();
    match random.below(20) {
        0..=2 => damage_rule(random, &whole),
        3 => format!("({}=e)", steps(13 + random.below(4))).into_bytes(),
        4..=8 => draw_rule(random),
        _ => whole,
    }
}

/// Nodes of a document that had so many when it was whole. It may have less or
/// more now, or be refused; seldom there is a number of no node.
fn draw_list(random: &mut Random, nodes: usize) -> Vec<u16> {
    let length = *random.pick(&[0, 1, 2, 5, 30]);
    let mut list: Vec<u16> = (0..length).map(|_| random.below(nodes) as u16).collect();
    if random.percent(15) {
        let behind = nodes as u16;
        let bad = *random.pick(&[behind, behind + 1, 4_096, u16::MAX]);
        list.insert(random.below(list.len() + 1), bad);
    }
    list
}

#[test]
fn damaged_calls_are_refused_or_evaluated_alike() {
    let mut numbers = BTreeMap::new();
    let mut counted = 0;
    for seed in FIRST_SEED..FIRST_SEED + CASES {
        let random = &mut Random::new(seed);
        let nodes = 1 + random.below(12);
        let document = draw_document(random, nodes);
        let rule = draw_equality(random);
        let list = draw_list(random, nodes);
        let buffers = draw_buffers(random, nodes);
        let origin = format_args!("seed {seed}");
        let (outcome, _) = assert_by_values(origin, &document, &rule, &list, buffers);
        *numbers.entry(outcome.number).or_insert(0) += 1;
        counted += usize::from(outcome.snippets > 0);
    }
    println!("{numbers:?}, {counted} with snippets");
    // Accepted, every number of the table, and 13, 14 and 23.
    assert!(numbers.keys().copied().eq((0..=11).chain([13, 14, 23])));
    assert!(numbers.values().all(|cases| *cases >= 20), "{numbers:?}");
    assert!(numbers[&0] >= 1_000 && counted >= 500, "{numbers:?}");
}
