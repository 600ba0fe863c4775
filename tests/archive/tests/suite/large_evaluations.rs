//! Documents around each power of two and of 4,096 nodes: deep, wide and
//! random. Small ones the evaluator marks and counts by the definitions; on
//! large ones it follows paths backwards, and counts only keep their bound.

use crate::evaluation_agreement::{assert_agreement, needed, Buffers, Length};
use evaluator::document::{spell, Library, NODE_LIMIT};
use evaluator::evaluate::Outcome;
use evaluator::random::{library, rule_about, Random};
use evaluator::samples::libraries::{catalogue, chain, ladder, level};
use evaluator::tree::Tree;

type Shape = (&'static str, fn(usize) -> Library, &'static [&'static str]);

const SHAPES: [Shape; 4] = [
    (
        "chain",
        chain,
        &[
            "(.*.l.ll[:text]=\"60\")",
            "(.*L[:drug]=.l.l*l)",
            "&:name(.l.l.ll>=.*L[(.L[:lib]<\"100\")])",
            "#12.*l[:drug]",
        ],
    ),
    (
        "ladder",
        ladder,
        &[
            "(.l[:text]=..lr.*.lrl)",
            "(e<.L*+LR)",
            "|(e=.r.*.lrl)(.R[:text]>\"9\")",
            "#7..*.lrl[(e<\"100\")]",
        ],
    ),
    (
        "level",
        level,
        &[
            "(e=.r*r)",
            "(.R.*R[:name]<e)",
            "&(.r.rr!=e)(l<=.*R[(e=\"5000\")])",
            "&#2..r*r[#1l](.r*r=e)",
        ],
    ),
    (
        "catalogue",
        catalogue,
        &[
            "(e<r)",
            "(.r.rr>.R.R.RR)",
            "&(e>=\"1024\")|(e=.r+re)(e<=.*R[(e>\"4000\")])",
            "#20..R*R[(e<\"400\")]",
        ],
    ),
];

fn assert_accepted(origin: &str, library: &Library, rule: &[u8], buffers: Buffers) -> Outcome {
    let outcome = assert_agreement(origin, &spell(library), rule, buffers);
    assert_eq!((outcome.number, outcome.place), (0, 0), "{origin}");
    outcome
}

/// Sizes just below a power of two, at it and just above.
fn around_powers(largest: u32) -> impl Iterator<Item = usize> {
    let around = |power: usize| power.max(2) - 1..=power + 1;
    (0..=largest).flat_map(move |exponent| around(1 << exponent))
}

/// A long chain takes the plain evaluation long, since a walk from each node goes along it. So chains have
/// up to so many nodes, and one has the most.
const LONG_CHAIN: usize = 1_100;

#[test]
fn around_each_power_of_two() {
    let mut some = 0;
    for (name, shape, rules) in SHAPES {
        for nodes in around_powers(11) {
            if name == "chain" && nodes > LONG_CHAIN {
                continue;
            }
            let rules = if nodes > 600 { &rules[..1] } else { rules };
            let library = shape(nodes);
            for rule in rules {
                let origin = format!("{name} of {nodes}, {rule}");
                let buffers = needed(nodes as u64);
                let outcome = assert_accepted(&origin, &library, rule.as_bytes(), buffers);
                some += usize::from(outcome.selected > 0 && outcome.selected < nodes);
            }
        }
    }
    assert!(some > 200, "{some} marked some nodes and not all");
}

#[test]
fn random_trees_around_each_power_of_two() {
    for (seed, nodes) in around_powers(11).enumerate() {
        let random = &mut Random::new(seed as u64);
        let library = library(random, nodes);
        let tree = Tree::of(&library);
        for _ in 0..4 {
            let rule = rule_about(random, 8, &tree.values).spell();
            let origin = format!("seed {seed}, {nodes} nodes");
            assert_accepted(&origin, &library, &rule, needed(seed as u64));
        }
    }
}

#[test]
fn most_nodes_deep_and_wide() {
    for nodes in [NODE_LIMIT - 1, NODE_LIMIT] {
        for (name, shape, rules) in SHAPES {
            // The last one has a count.
            let rules = match (name, nodes) {
                ("chain", NODE_LIMIT) => vec![rules[0], rules[3]],
                ("chain", _) => Vec::new(),
                (_, NODE_LIMIT) => rules.to_vec(),
                _ => rules[..3].to_vec(),
            };
            let library = shape(nodes);
            for rule in rules {
                let origin = format!("{name} of {nodes}, {rule}");
                let buffers = Buffers {
                    words: Length::Longer(100),
                    marks: Length::Longer(100),
                    seed: nodes as u64,
                };
                let outcome = assert_accepted(&origin, &library, rule.as_bytes(), buffers);
                assert!(outcome.selected > 0 && outcome.selected < nodes, "{origin}");
            }
        }
    }
}

#[test]
fn most_nodes_in_random_trees() {
    let mut some = 0;
    for seed in 0..24 {
        let random = &mut Random::new(seed);
        let library = library(random, NODE_LIMIT);
        let tree = Tree::of(&library);
        let rule = rule_about(random, 8, &tree.values).spell();
        let origin = format!("seed {seed}");
        let outcome = assert_accepted(&origin, &library, &rule, needed(seed));
        some += usize::from(outcome.selected > 0 && outcome.selected < NODE_LIMIT);
    }
    assert!(some >= 12, "{some} marked some nodes and not all");
}

#[test]
fn a_rule_that_wanders_over_a_large_tree() {
    let random = &mut Random::new(0);
    let library = library(random, NODE_LIMIT / 2);
    let rule = b"(.*+l+r+LR[:name]=.*+rRl)";
    let outcome = assert_accepted("wandering", &library, rule, needed(0));
    assert!(outcome.selected > 0 && outcome.selected < NODE_LIMIT / 2);
}
