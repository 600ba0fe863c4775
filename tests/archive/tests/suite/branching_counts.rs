//! Counts of snippets, marks and scratch on branching trees of 40 to 120 nodes,
//! compared with what the evaluator counts and marks by the definitions.

use std::collections::{BTreeMap, BTreeSet};

use crate::evaluation_agreement::{assert_agreement, Buffers, Length, BY_DEFINITION};
use evaluator::document::{spell, Library};
use evaluator::evaluate::Outcome;
use evaluator::random::{branching_library, rule, rule_about, wandering_rule, Random};
use evaluator::rule::{equalities, Path, Test};
use evaluator::snippets::skeleton;
use evaluator::tree::Tree;
use evaluator::uncut::marks_differ;

const SMALLEST: usize = 40;
const LARGEST: usize = 120;
/// Above, the evaluator would not count.
const _: () = assert!(LARGEST <= BY_DEFINITION);
/// So many pairs of a tree and a rule for each size.
const CASES_OF_A_SIZE: usize = 16;
/// Other seeds than those of the other tests.
const FIRST_SEED: u64 = 4_000_000;
/// More equalities in one rule would take long.
const MOST_EQUALITIES: usize = 4;

/// How a tree branches. Levels and families are those of the document, all else
/// is meant in the binary tree, where the skeletons are.
struct Branching {
    levels: usize,
    /// How many nodes have several nodes directly inside.
    families: usize,
    /// How many nodes have a left child and a right child.
    forks: usize,
    /// The number of nodes on the longest way from the root down.
    height: usize,
    /// How many values are shared by three nodes or more.
    shared_values: usize,
    /// The most edges between two nodes next to each other in a skeleton.
    longest_stretch: usize,
}

impl Branching {
    fn of(library: &Library, tree: &Tree) -> Branching {
        let all = || 0..tree.size();
        let is_fork = |v: &usize| tree.left[*v].is_some() && tree.right[*v].is_some();
        let has_family = |v: &usize| tree.left[*v].is_some_and(|child| tree.right[child].is_some());
        let alike = nodes_by_value(tree);
        Branching {
            levels: 1 + library.nodes.iter().map(|n| n.depth).max().unwrap_or(0),
            families: all().filter(has_family).count(),
            forks: all().filter(is_fork).count(),
            height: all().map(|v| tree.upward(v).count()).max().unwrap_or(0),
            shared_values: alike.iter().filter(|nodes| nodes.len() >= 3).count(),
            longest_stretch: alike
                .iter()
                .map(|d| longest_stretch(tree, d))
                .max()
                .unwrap_or(0),
        }
    }

    /// Neither a chain nor flat, with several values shared by several nodes.
    fn is_enough(&self, nodes: usize) -> bool {
        self.levels >= 4
            && self.families * 6 >= nodes
            && self.forks * 6 >= nodes
            && self.height * 2 <= nodes
            && self.shared_values >= 3
    }
}

fn nodes_by_value(tree: &Tree) -> Vec<BTreeSet<usize>> {
    let mut nodes: BTreeMap<&[u8], BTreeSet<usize>> = BTreeMap::new();
    for node in 0..tree.size() {
        nodes.entry(tree.compared(node)).or_default().insert(node);
    }
    nodes.into_values().collect()
}

/// Over the skeleton of these nodes.
fn longest_stretch(tree: &Tree, d: &BTreeSet<usize>) -> usize {
    let skeleton = skeleton(tree, d);
    let stretch = |y: &usize| {
        let mut above = tree.upward(*y).skip(1);
        above
            .position(|u| skeleton.contains(&u))
            .map(|between| between + 1)
    };
    skeleton.iter().filter_map(stretch).max().unwrap_or(0)
}

/// Draws until the tree branches enough; about two of three do.
fn draw_tree(random: &mut Random, nodes: usize) -> (Library, Tree, Branching) {
    for _ in 0..100 {
        let library = branching_library(random, nodes);
        let tree = Tree::of(&library);
        let branching = Branching::of(&library, &tree);
        if branching.is_enough(nodes) {
            return (library, tree, branching);
        }
    }
    panic!("no tree of {nodes} nodes branches enough");
}

/// Draws until there is an equality between two paths, and not too many; most
/// rules have one.
fn draw_rule(random: &mut Random, tree: &Tree) -> Test {
    for _ in 0..100 {
        let size = 6 + random.below(24);
        let rule = match random.below(3) {
            0 => rule(random, size),
            1 => rule_about(random, size, &tree.values),
            _ => wandering_rule(random, size, &tree.values),
        };
        if (1..=MOST_EQUALITIES).contains(&equalities(&rule).len()) {
            return rule;
        }
    }
    panic!("no rule has an equality");
}

/// Just long enough or longer.
fn draw_buffers(random: &mut Random) -> Buffers {
    let mut length = || match random.percent(50) {
        true => Length::Needed,
        false => Length::Longer(1 + random.below(50)),
    };
    Buffers {
        words: length(),
        marks: length(),
        seed: random.below(usize::MAX) as u64,
    }
}

/// How much the calls exercised; those without snippets are only counted.
#[derive(Default)]
struct Exercise {
    calls: BTreeMap<&'static str, usize>,
    /// The calls with snippets, for each number of nodes.
    sizes: BTreeMap<usize, usize>,
    counts: BTreeSet<usize>,
}

impl Exercise {
    fn count(&mut self, name: &'static str, condition: bool) {
        *self.calls.entry(name).or_default() += usize::from(condition);
    }

    fn add(&mut self, nodes: usize, branching: &Branching, rule: &Test, outcome: &Outcome) {
        self.count("no snippets", outcome.snippets == 0);
        if outcome.snippets == 0 {
            return;
        }
        *self.sizes.entry(nodes).or_default() += 1;
        self.counts.insert(outcome.snippets);
        self.count("one a node", outcome.snippets > nodes);
        self.count("16 a node", outcome.snippets > 16 * nodes);
        let some = outcome.selected > 0 && outcome.selected < nodes;
        self.count("some marked", some);
        self.count("many levels", branching.levels >= 12);
        self.count("few levels", branching.levels <= 8);
        self.count("stretch of 4", branching.longest_stretch >= 4);
        self.count("stretch of 8", branching.longest_stretch >= 8);
        self.count("stretch of 16", branching.longest_stretch >= 16);
        self.add_rule(rule);
    }

    fn add_rule(&mut self, rule: &Test) {
        let equalities = equalities(rule);
        let in_some =
            |condition: fn(&Path, &Path) -> bool| equalities.iter().any(|(p, r)| condition(p, r));
        self.count("several equalities", equalities.len() >= 2);
        self.count(
            "stars in both paths",
            in_some(|p, r| has_star(p) && has_star(r)),
        );
        self.count("both ways", in_some(goes_both_ways));
        self.count("brackets", in_some(|p, r| has_bracket(p, r, |_| true)));
        self.count(
            "equality in brackets",
            in_some(|p, r| has_bracket(p, r, |test| !self::equalities(test).is_empty())),
        );
    }

    fn assert_not_idle(&self) {
        let with_snippets: usize = self.sizes.values().sum();
        println!("seeds from {FIRST_SEED} on: {with_snippets} calls with snippets");
        println!("{} distinct counts, {:?}", self.counts.len(), self.calls);
        assert!(with_snippets >= 1_200, "{:?}", self.calls);
        let sizes: Vec<usize> = self.sizes.keys().copied().collect();
        assert!(sizes.iter().copied().eq(SMALLEST..=LARGEST), "{sizes:?}");
        assert!(
            self.sizes.values().all(|calls| *calls >= 12),
            "{:?}",
            self.sizes
        );
        assert!(self.counts.len() >= 500, "{} counts", self.counts.len());
        let often = |(name, calls): (&&str, &usize)| *name == "no snippets" || *calls >= 100;
        assert!(self.calls.iter().all(often), "{:?}", self.calls);
    }
}

fn has_star(path: &Path) -> bool {
    match path {
        Path::Repeat(_) => true,
        Path::Then(a, b) | Path::Either(a, b) => has_star(a) || has_star(b),
        _ => false,
    }
}

/// Whether the two paths together go up and down.
fn goes_both_ways(p: &Path, r: &Path) -> bool {
    let steps = [p.steps(), r.steps()].concat();
    let down = |step: &&Path| matches!(step, Path::Left | Path::Right);
    let up = |step: &&Path| matches!(step, Path::FromLeft | Path::FromRight);
    steps.iter().any(down) && steps.iter().any(up)
}

/// Whether some bracket of the two paths has such a test.
fn has_bracket(p: &Path, r: &Path, such: fn(&Test) -> bool) -> bool {
    let steps = [p.steps(), r.steps()].concat();
    steps.iter().any(|step| match step {
        Path::Stay(test) => such(test),
        _ => false,
    })
}

#[test]
fn branching_trees_are_counted_as_by_the_definition() {
    let mut exercise = Exercise::default();
    let sizes = (SMALLEST..=LARGEST).flat_map(|nodes| [nodes; CASES_OF_A_SIZE]);
    for (seed, nodes) in (FIRST_SEED..).zip(sizes) {
        let random = &mut Random::new(seed);
        let (library, tree, branching) = draw_tree(random, nodes);
        let rule = draw_rule(random, &tree);
        let buffers = draw_buffers(random);
        let origin = format_args!("seed {seed}, {nodes} nodes");
        let (document, spelled) = (spell(&library), rule.spell());
        let outcome = assert_agreement(origin, &document, &spelled, buffers);
        assert_eq!(outcome.number, 0, "seed {seed}");
        exercise.add(nodes, &branching, &rule, &outcome);
        exercise.count("marks differ by cutting", marks_differ(&library, &rule));
    }
    exercise.assert_not_idle();
}
