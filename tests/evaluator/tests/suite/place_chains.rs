//! What a position at a node comes to, against the closure of single links.

use evaluator::chains::Chains;
use evaluator::meaning::reaches;
use evaluator::positions::Positions;
use evaluator::random::{library, rule, Random};
use evaluator::relation::Relation;
use evaluator::rule::{equalities, Path};
use evaluator::tree::Tree;

/// Compares at every two places, and returns how many of them are joined by a
/// chain of at least one link.
fn compare_chains(seed: u64, tree: &Tree, p: &Path, r: &Path) -> usize {
    let positions = Positions::of(p, r);
    let (count, nodes) = (positions.count(), tree.size());
    let steps: Vec<Option<Relation>> = (0..count)
        .map(|j| positions.step(j).map(|step| reaches(tree, step)))
        .collect();
    // Place i * nodes + v is position i at node v. A link leads to a position
    // that follows, and to a node to which its step leads.
    let link = |from: usize, to: usize| {
        let ((i, v), (j, w)) = ((from / nodes, from % nodes), (to / nodes, to % nodes));
        positions.follows[i][j] && steps[j].as_ref().is_some_and(|step| step.has(v, w))
    };
    let closure = Relation::where_holds(count * nodes, link).repeated();
    let chains = Chains::of(tree, Positions::of(p, r));
    let spelled = [p.spell(), r.spell()].map(|path| path.escape_ascii().to_string());
    let mut joined = 0;
    for from in 0..count * nodes {
        for to in 0..count * nodes {
            let (at, then) = ((from / nodes, from % nodes), (to / nodes, to % nodes));
            let comes = chains.comes_to(at, then);
            assert_eq!(comes, closure.has(from, to), "seed {seed}: {spelled:?}");
            joined += usize::from(comes && from != to);
        }
    }
    joined
}

#[test]
fn a_place_comes_to_what_links_lead_to() {
    let (mut compared, mut joined) = (0, 0);
    for seed in 0..500 {
        let random = &mut Random::new(seed);
        let nodes = 1 + random.below(12);
        let tree = Tree::of(&library(random, nodes));
        let rule = rule(random, 16);
        for (p, r) in equalities(&rule) {
            compared += 1;
            joined += compare_chains(seed, &tree, p, r);
        }
    }
    assert!(compared > 300 && joined > 10_000, "{compared}, {joined}");
}
