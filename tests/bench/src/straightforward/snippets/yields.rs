//! The snippets that are yielded, and what they settle.

use super::matrix::{add, before, behind, both_before, members, Matrix};
use super::skeletons::{Firsts, Skeleton};
use super::stretches::Stretches;

pub struct Yields<'a> {
    stretches: &'a Stretches<'a>,
    /// For each power and each lower end y the pairs (p, q).
    pairs: Vec<Vec<Matrix>>,
}

impl Yields<'_> {
    /// What the first snippets of all values yield.
    pub fn of_skeletons<'a>(stretches: &'a Stretches) -> Yields<'a> {
        let nodes = stretches.library.size();
        let mut yields = Yields {
            stretches,
            pairs: vec![vec![[0; 16]; nodes]; stretches.powers.len()],
        };
        let mut groups = vec![Vec::new(); nodes];
        for (node, rank) in stretches.library.ranks.iter().enumerate() {
            groups[usize::from(*rank)].push(node);
        }
        for group in groups.iter().filter(|group| group.len() > 1) {
            let skeleton = Skeleton::of(stretches, group);
            skeleton
                .firsts()
                .for_each(|firsts| yields.add_firsts(&firsts));
        }
        yields
    }

    /// From the upper end so far down as a power of two reaches, and from the
    /// lower end so far up.
    fn add_firsts(&mut self, firsts: &Firsts) {
        let Firsts {
            y,
            length,
            outer,
            inner,
        } = *firsts;
        let power = length.ilog2() as usize;
        let rest = length - (1 << power);
        let (u, inner_at_u) = self.stretches.lifted(y, rest, inner);
        let w = usize::from(self.stretches.powers[power].above[y]);
        let outer_at_w = self.stretches.lowered(w, rest, outer);
        self.add_pairs(power, u, outer, inner_at_u);
        self.add_pairs(power, y, outer_at_w, inner);
    }

    /// All pairs of positions of different paths.
    fn add_pairs(&mut self, power: usize, y: usize, outer: u16, inner: u16) {
        let [first, second] = self.stretches.automaton.paths;
        for p in members(outer) {
            let other = if first >> p & 1 == 1 { second } else { first };
            self.pairs[power][y][p] |= inner & other;
        }
    }

    /// The halves of all snippets, the longest first.
    pub fn halve(&mut self) {
        for power in (1..self.pairs.len()).rev() {
            let half = &self.stretches.powers[power - 1];
            let (shorter, longer) = self.pairs.split_at_mut(power);
            let shorter = &mut shorter[power - 1];
            for (y, pairs) in longer[0].iter().enumerate() {
                if *pairs == [0; 16] {
                    continue;
                }
                let h = usize::from(half.above[y]);
                add(&mut shorter[h], &pairs.map(|qs| before(&half.down[y], qs)));
                add(&mut shorter[y], &half.up[h].map(|ps| behind(pairs, ps)));
            }
        }
    }

    pub fn count(&self) -> usize {
        let rows = self.pairs.iter().flatten().flatten();
        rows.map(|row| row.count_ones() as usize).sum()
    }

    /// For each node whether the comparison holds there.
    pub fn settled(&self) -> Vec<bool> {
        let second = self.stretches.automaton.second;
        let holds = |pairs: &Matrix| pairs[0] >> second & 1 == 1;
        self.settled_pairs().iter().map(holds).collect()
    }

    /// For each node the pairs, a position of the first path with one of the
    /// second, that from there end at one node or at nodes of one value. They
    /// are found where they meet, then below each node, then above.
    fn settled_pairs(&self) -> Vec<Matrix> {
        let edges = &self.stretches.powers[0];
        let mut pairs = self.meeting();
        for v in (1..pairs.len()).rev() {
            let from_above = both_before(&edges.down[v], &pairs[v]);
            add(&mut pairs[self.stretches.parent(v)], &from_above);
        }
        for v in 1..pairs.len() {
            let from_below = both_before(&edges.up[v], &pairs[self.stretches.parent(v)]);
            add(&mut pairs[v], &from_below);
        }
        pairs
    }

    /// The pairs that end at one node, and those of which one comes to the
    /// upper end of a snippet of power 0 and the other to its lower end.
    fn meeting(&self) -> Vec<Matrix> {
        let Stretches {
            loops,
            powers,
            automaton,
            ..
        } = self.stretches;
        let ending = |a: &Matrix| {
            let ends = before(a, automaton.last);
            std::array::from_fn(|p| if ends >> p & 1 == 1 { ends } else { 0 })
        };
        let mut pairs: Vec<Matrix> = loops.iter().map(ending).collect();
        for y in 1..pairs.len() {
            let snippets = &self.pairs[0][y];
            if *snippets == [0; 16] {
                continue;
            }
            let x = self.stretches.parent(y);
            let from_x = joined(&loops[x], snippets, &powers[0].down[y]);
            let from_y = joined(&powers[0].up[y], snippets, &loops[y]);
            add(&mut pairs[x], &from_x);
            add(&mut pairs[y], &from_y);
        }
        pairs
    }
}

/// The pairs, in both orders, of which one comes to p and the other to q.
fn joined(to_p: &Matrix, snippets: &Matrix, to_q: &Matrix) -> Matrix {
    let one_order = to_p.map(|ps| before(to_q, behind(snippets, ps)));
    let mut both = one_order;
    for (i, row) in one_order.iter().enumerate() {
        members(*row).for_each(|j| both[j] |= 1 << i);
    }
    both
}
