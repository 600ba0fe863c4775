//! The same meaning for large libraries, in a quicker way than its definition.
//!
//! From each of 4,096 nodes a path may lead to all others, and then every two
//! values that two paths lead to would be compared. So sets of nodes are kept in
//! the place of relations, and a comparison is settled for all nodes at once: its
//! paths are followed backwards from the nodes of one text after the other, or
//! for an order sign of one amount after the other. The proved crate `backward`
//! goes backwards from the ends too. A count asks how many nodes there are, and
//! is settled by the relation here too. That this is the meaning is tried against
//! `meaning` on random libraries of up to 300 nodes, in the tests
//! `backward_is_the_same_meaning_on_small_trees` and
//! `backward_is_the_same_meaning_on_larger_trees`.

use std::collections::BTreeMap;

use crate::amount::amount;
use crate::meaning::{compare, reaches_where, related};
use crate::rule::{Operand, Path, Sign, Test};
use crate::tree::{trimmed, Tree};

/// Nodes, rising and each once.
type Nodes = Vec<usize>;

/// For each node whether the test holds there.
pub fn holds(tree: &Tree, test: &Test) -> Vec<bool> {
    Groups::of(tree).holds(test)
}

/// The nodes in groups of equal keys, the groups in the order of their keys; so
/// keys compare as the numbers of their groups do.
struct Grouping {
    groups: Vec<Nodes>,
    /// For each node the number of its group, if it has a key.
    numbers: Vec<Option<usize>>,
}

impl Grouping {
    fn by<K: Ord>(size: usize, key: impl Fn(usize) -> Option<K>) -> Grouping {
        let mut nodes_of: BTreeMap<K, Nodes> = BTreeMap::new();
        for node in 0..size {
            if let Some(key) = key(node) {
                nodes_of.entry(key).or_default().push(node);
            }
        }
        let groups: Vec<Nodes> = nodes_of.into_values().collect();
        let mut numbers = vec![None; size];
        for (number, group) in groups.iter().enumerate() {
            group.iter().for_each(|node| numbers[*node] = Some(number));
        }
        Grouping { groups, numbers }
    }
}

/// The nodes by what is compared of them. Values are cut (02, b).
struct Groups<'a> {
    tree: &'a Tree,
    /// By their text, for `=` and `!=`.
    texts: Grouping,
    /// By their amount, for the order signs; what is no numeral is in no group
    /// (02, f).
    amounts: Grouping,
}

impl Groups<'_> {
    fn of(tree: &Tree) -> Groups<'_> {
        Groups {
            tree,
            texts: Grouping::by(tree.size(), |v| Some(tree.compared(v))),
            amounts: Grouping::by(tree.size(), |v| amount(tree.compared(v))),
        }
    }

    fn grouping(&self, sign: Sign) -> &Grouping {
        match sign {
            Sign::Equal | Sign::Unequal => &self.texts,
            _ => &self.amounts,
        }
    }

    /// All nodes for which a condition holds.
    fn nodes(&self, condition: impl Fn(usize) -> bool) -> Nodes {
        (0..self.tree.size()).filter(|v| condition(*v)).collect()
    }

    fn holds(&self, test: &Test) -> Vec<bool> {
        let both = |a: &Test, b: &Test, joined: fn(bool, bool) -> bool| -> Vec<bool> {
            let (a, b) = (self.holds(a), self.holds(b));
            a.into_iter().zip(b).map(|(a, b)| joined(a, b)).collect()
        };
        match test {
            Test::Name(name) => self.tree.labels.iter().map(|l| l == name).collect(),
            Test::Not(inner) => self.holds(inner).into_iter().map(|holds| !holds).collect(),
            Test::And(a, b) => both(a, b, |a, b| a && b),
            Test::Or(a, b) => both(a, b, |a, b| a || b),
            Test::Compare(p, sign, Operand::Constant(c)) => {
                let ends = self.nodes(|w| compare(*sign, self.tree.compared(w), trimmed(c)));
                self.marked(self.track(p).sources(self.tree, &ends))
            }
            Test::Compare(p, sign, Operand::Path(r)) => self.between_paths(p, *sign, r),
            Test::AtLeast(n, p) => {
                let reached = reaches_where(self.tree, p, &|test| self.holds(test));
                let nodes = 0..self.tree.size();
                nodes.map(|v| reached.from(v).len() >= *n).collect()
            }
        }
    }

    /// A node is selected if for some text or amount the first path leads from
    /// it to a node that has it, and the second to a node whose own is in the
    /// relation to it.
    fn between_paths(&self, p: &Path, sign: Sign, r: &Path) -> Vec<bool> {
        let (p, r) = (self.track(p), self.track(r));
        let Grouping { groups, numbers } = self.grouping(sign);
        let mut selected = vec![false; self.tree.size()];
        for (number, group) in groups.iter().enumerate() {
            let mut first = p.sources(self.tree, group);
            first.retain(|v| !selected[*v]);
            if first.is_empty() {
                continue;
            }
            let is_related = |other: usize| related(sign, &number, &other);
            let ends = self.nodes(|w| numbers[w].is_some_and(is_related));
            let second = self.marked(r.sources(self.tree, &ends));
            for v in first {
                selected[v] = second[v];
            }
        }
        selected
    }

    fn marked(&self, nodes: Nodes) -> Vec<bool> {
        let mut marked = vec![false; self.tree.size()];
        nodes.into_iter().for_each(|node| marked[node] = true);
        marked
    }

    fn track(&self, path: &Path) -> Track {
        let boxed = |path: &Path| Box::new(self.track(path));
        match path {
            Path::Empty => Track::Empty,
            Path::Left => Track::Left,
            Path::Right => Track::Right,
            Path::FromLeft => Track::FromLeft,
            Path::FromRight => Track::FromRight,
            Path::Stay(test) => Track::Stay(self.holds(test)),
            Path::Then(a, b) => Track::Then(boxed(a), boxed(b)),
            Path::Either(a, b) => Track::Either(boxed(a), boxed(b)),
            Path::Repeat(inner) => Track::Repeat(boxed(inner)),
        }
    }
}

/// A path whose brackets hold in place of a test the nodes where it holds.
enum Track {
    Empty,
    Left,
    Right,
    FromLeft,
    FromRight,
    Stay(Vec<bool>),
    Then(Box<Track>, Box<Track>),
    Either(Box<Track>, Box<Track>),
    Repeat(Box<Track>),
}

impl Track {
    /// The nodes from which the path leads to one of the given nodes.
    fn sources(&self, tree: &Tree, ends: &[usize]) -> Nodes {
        let stepped = |back: &dyn Fn(usize) -> Option<usize>| {
            rising(ends.iter().filter_map(|w| back(*w)).collect())
        };
        match self {
            Track::Empty => ends.to_vec(),
            Track::Left => stepped(&|w| tree.parent_of_left(w)),
            Track::Right => stepped(&|w| tree.parent_of_right(w)),
            Track::FromLeft => stepped(&|w| tree.left[w]),
            Track::FromRight => stepped(&|w| tree.right[w]),
            Track::Stay(holds) => stepped(&|w| holds[w].then_some(w)),
            Track::Then(a, b) => a.sources(tree, &b.sources(tree, ends)),
            Track::Either(a, b) => rising([a.sources(tree, ends), b.sources(tree, ends)].concat()),
            Track::Repeat(inner) => inner.repeated_sources(tree, ends),
        }
    }

    /// The same for the path repeated: what is newly found is followed again,
    /// until nothing is new.
    fn repeated_sources(&self, tree: &Tree, ends: &[usize]) -> Nodes {
        let mut found = vec![false; tree.size()];
        let mut all = ends.to_vec();
        let mut new = ends.to_vec();
        ends.iter().for_each(|node| found[*node] = true);
        while !new.is_empty() {
            new = self.sources(tree, &new);
            new.retain(|node| !found[*node]);
            new.iter().for_each(|node| found[*node] = true);
            all.extend(&new);
        }
        rising(all)
    }
}

fn rising(mut nodes: Nodes) -> Nodes {
    nodes.sort_unstable();
    nodes.dedup();
    nodes
}
