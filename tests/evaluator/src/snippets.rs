//! The snippets of one comparison `(P=R)` and the rule by which they settle it.

use std::collections::BTreeSet;

use crate::chains::Chains;
use crate::positions::Positions;
use crate::rule::Path;
use crate::tree::Tree;

/// A snippet (x, y, p, q) with its power. A first snippet has a length
/// instead, so it is kept as a `First`.
#[derive(Clone, Copy, Debug, PartialEq, Eq, PartialOrd, Ord)]
pub struct Snippet {
    pub power: usize,
    pub x: usize,
    pub y: usize,
    pub p: usize,
    pub q: usize,
}

/// A first snippet; it is not counted itself.
#[derive(Clone, Copy)]
struct First {
    x: usize,
    y: usize,
    p: usize,
    q: usize,
}

/// What the snippets of one comparison say.
pub struct Settlement {
    /// The distinct snippets yielded, over all the values at once.
    pub snippets: BTreeSet<Snippet>,
    /// For each node whether the comparison holds there by the settling rule.
    pub holds: Vec<bool>,
}

/// By all values.
pub fn settle(tree: &Tree, p: &Path, r: &Path) -> Settlement {
    settle_by(tree, p, r, 0..tree.size())
}

/// By the values of these nodes alone: "Given only some of one comparison's
/// values, it counts for it just the distinct snippets that these yield." (02, k)
pub fn settle_by(
    tree: &Tree,
    p: &Path,
    r: &Path,
    nodes: impl IntoIterator<Item = usize>,
) -> Settlement {
    let chains = Chains::of(tree, Positions::of(p, r));
    let stretches = Stretches { tree, chains };
    let mut snippets = BTreeSet::new();
    // "Skeletons group by the shortened value" (02, b).
    let values: BTreeSet<&[u8]> = nodes.into_iter().map(|v| tree.compared(v)).collect();
    for value in values {
        for first in stretches.first_snippets(value) {
            for snippet in stretches.yielded_by_first(first) {
                stretches.add_with_halves(snippet, &mut snippets);
            }
        }
    }
    let holds = (0..tree.size())
        .map(|v| stretches.settled(&snippets, v))
        .collect();
    Settlement { snippets, holds }
}

/// "The skeleton is D with the closest common ancestor of every two nodes of
/// D." Of two nodes on one way to the root it is the upper one.
pub fn skeleton(tree: &Tree, d: &BTreeSet<usize>) -> BTreeSet<usize> {
    let mut skeleton = d.clone();
    let ways: Vec<Vec<usize>> = d.iter().map(|v| tree.upward(*v).collect()).collect();
    for above_v in &ways {
        for above_w in &ways {
            skeleton.extend(above_w.iter().find(|u| above_v.contains(u)));
        }
    }
    skeleton
}

/// "the exponent of the largest power of two not above the length"
pub fn exponent(length: usize) -> usize {
    assert!(length >= 1);
    let mut k = 0;
    while 1 << (k + 1) <= length {
        k += 1;
    }
    k
}

struct Stretches<'a> {
    tree: &'a Tree,
    chains: Chains<'a>,
}

impl Stretches<'_> {
    /// The first snippets of one value.
    fn first_snippets(&self, value: &[u8]) -> Vec<First> {
        let d: BTreeSet<usize> = (0..self.tree.size())
            .filter(|v| self.tree.compared(*v) == value)
            .collect();
        let skeleton = skeleton(self.tree, &d);
        let mut found = Vec::new();
        for &y in &skeleton {
            // "where x is y's nearest proper ancestor in the skeleton"
            let mut above = self.tree.upward(y).skip(1);
            if let Some(x) = above.find(|u| skeleton.contains(u)) {
                found.extend(self.first_snippets_between(&d, x, y));
            }
        }
        found
    }

    /// "(x, y, p, q) is a first snippet if p and q belong to different paths,
    /// p at x ends at a node of D that is neither y nor below y, and q at y
    /// ends at a node of D that is y or below it."
    fn first_snippets_between(&self, d: &BTreeSet<usize>, x: usize, y: usize) -> Vec<First> {
        let from_y_down = |node: usize| self.tree.upward(node).any(|u| u == y);
        let (inner, outer): (Vec<usize>, Vec<usize>) = d.iter().partition(|w| from_y_down(**w));
        let ends_in = |position: usize, node: usize, among: &[usize]| {
            among
                .iter()
                .any(|w| self.chains.ends_at((position, node), *w))
        };
        let all = 0..self.chains.positions.count();
        let ps: Vec<usize> = all.clone().filter(|p| ends_in(*p, x, &outer)).collect();
        let qs: Vec<usize> = all.filter(|q| ends_in(*q, y, &inner)).collect();
        let start = |position| self.chains.positions.start(position);
        ps.iter()
            .flat_map(|&p| qs.iter().map(move |&q| First { x, y, p, q }))
            .filter(|first| start(first.p) != start(first.q))
            .collect()
    }

    /// "The first snippet yields snippets of power k": one from x down, one
    /// from y up, each 2^k edges long.
    fn yielded_by_first(&self, first: First) -> Vec<Snippet> {
        let First { x, y, p, q } = first;
        let way = self.way(x, y);
        let length = way.len() - 1;
        let power = exponent(length);
        let u = way[1 << power];
        let w = way[length - (1 << power)];
        let mut yielded = self.lowered(power, (x, u), p, (q, y));
        yielded.extend(self.raised(power, (w, y), (p, x), q));
        yielded
    }

    /// "A snippet of power k ≥ 1 yields, with the node h in its middle, ... of
    /// power k-1."
    fn halves(&self, snippet: Snippet) -> Vec<Snippet> {
        let Snippet { power, x, y, p, q } = snippet;
        let way = self.way(x, y);
        assert_eq!(way.len() - 1, 1 << power);
        let h = way[1 << (power - 1)];
        let mut yielded = self.lowered(power - 1, (x, h), p, (q, y));
        yielded.extend(self.raised(power - 1, (h, y), (p, x), q));
        yielded
    }

    /// "(x, u, p, q') ... for every q' that at u comes to q at y"
    fn lowered(
        &self,
        power: usize,
        (x, u): (usize, usize),
        p: usize,
        q_at_y: (usize, usize),
    ) -> Vec<Snippet> {
        (0..self.chains.positions.count())
            .filter(|q| self.chains.comes_to((*q, u), q_at_y))
            .map(|q| Snippet {
                power,
                x,
                y: u,
                p,
                q,
            })
            .collect()
    }

    /// "(w, y, p', q) ... for every p' that at w comes to p at x"
    fn raised(
        &self,
        power: usize,
        (w, y): (usize, usize),
        p_at_x: (usize, usize),
        q: usize,
    ) -> Vec<Snippet> {
        (0..self.chains.positions.count())
            .filter(|p| self.chains.comes_to((*p, w), p_at_x))
            .map(|p| Snippet {
                power,
                x: w,
                y,
                p,
                q,
            })
            .collect()
    }

    /// Adds a snippet and everything that comes from halving it.
    fn add_with_halves(&self, snippet: Snippet, all: &mut BTreeSet<Snippet>) {
        if all.insert(snippet) && snippet.power >= 1 {
            for half in self.halves(snippet) {
                self.add_with_halves(half, all);
            }
        }
    }

    /// The nodes from x down to y, both included.
    fn way(&self, x: usize, y: usize) -> Vec<usize> {
        let up: Vec<usize> = self.tree.upward(y).collect();
        let length = up.iter().position(|u| *u == x).expect("x above y");
        up[..=length].iter().rev().copied().collect()
    }

    /// "it holds at v exactly if 0 and m+1 at v end at one and the same node,
    /// or there is a yielded (x, y, p, q) of power 0 such that at v the start
    /// of p's path comes to p at x and the start of q's path comes to q at y."
    fn settled(&self, snippets: &BTreeSet<Snippet>, v: usize) -> bool {
        let second_start = self.chains.positions.count() - 1;
        let meet = (0..self.tree.size())
            .any(|w| self.chains.ends_at((0, v), w) && self.chains.ends_at((second_start, v), w));
        let arrives = |position: usize, node: usize| {
            let start = self.chains.positions.start(position);
            self.chains.comes_to((start, v), (position, node))
        };
        meet || snippets
            .iter()
            .any(|s| s.power == 0 && arrives(s.p, s.x) && arrives(s.q, s.y))
    }
}
