//! Which position comes to which along the ways of the tree: from a node back
//! to it, and between a node and the one that lies a power of two above it.

use super::matrix::{add, before, close, product, Matrix};
use crate::straightforward::automaton::Automaton;
use crate::straightforward::library::{Library, NONE};

pub struct Stretches<'a> {
    pub library: &'a Library<'a>,
    pub automaton: &'a Automaton,
    /// From a node to itself.
    pub loops: Vec<Matrix>,
    pub powers: Vec<Power>,
    /// The number of edges from the root.
    pub depths: Vec<usize>,
    /// The node behind all that are below a node.
    pub ends: Vec<usize>,
}

/// For each node y the node so many edges above it, if there is one, and which
/// position comes to which from that one down to y, and from y up to it.
pub struct Power {
    pub above: Vec<u16>,
    pub down: Vec<Matrix>,
    pub up: Vec<Matrix>,
}

impl Power {
    fn empty(nodes: usize) -> Power {
        Power {
            above: vec![NONE; nodes],
            down: vec![[0; 16]; nodes],
            up: vec![[0; 16]; nodes],
        }
    }
}

impl Stretches<'_> {
    pub fn of<'a>(library: &'a Library, automaton: &'a Automaton) -> Stretches<'a> {
        let nodes = library.size();
        let mut stretches = Stretches {
            library,
            automaton,
            loops: Vec::new(),
            powers: Vec::new(),
            depths: vec![0; nodes],
            ends: (1..=nodes).collect(),
        };
        for v in 1..nodes {
            stretches.depths[v] = stretches.depths[stretches.parent(v)] + 1;
        }
        for v in (1..nodes).rev() {
            let parent = stretches.parent(v);
            stretches.ends[parent] = stretches.ends[parent].max(stretches.ends[v]);
        }
        stretches.find_loops();
        stretches.find_powers();
        stretches
    }

    pub fn parent(&self, node: usize) -> usize {
        usize::from(self.library.parent[node])
    }

    /// The follow relation to these positions alone.
    fn follow(&self, positions: u16) -> Matrix {
        self.automaton.follow.map(|row| row & positions)
    }

    /// One step from a node's parent down to it.
    fn step_down(&self, node: usize) -> Matrix {
        match self.library.is_left(node) {
            true => self.follow(self.automaton.left),
            false => self.follow(self.automaton.right),
        }
    }

    /// One step from a node up to its parent.
    fn step_up(&self, node: usize) -> Matrix {
        match self.library.is_left(node) {
            true => self.follow(self.automaton.from_left),
            false => self.follow(self.automaton.from_right),
        }
    }

    /// First the loops that stay at a node and below it, then those that leave
    /// it upward.
    fn find_loops(&mut self) {
        let nodes = self.library.size();
        let stays = self.automaton.stays(nodes);
        self.loops = stays.iter().map(|stays| self.follow(*stays)).collect();
        for v in (0..nodes).rev() {
            close(&mut self.loops[v]);
            if v > 0 {
                let down = product(&self.step_down(v), &self.loops[v]);
                let around = product(&down, &self.step_up(v));
                let parent = self.parent(v);
                add(&mut self.loops[parent], &around);
            }
        }
        for v in 1..nodes {
            let up = product(&self.step_up(v), &self.loops[self.parent(v)]);
            let around = product(&up, &self.step_down(v));
            add(&mut self.loops[v], &around);
            close(&mut self.loops[v]);
        }
    }

    fn find_powers(&mut self) {
        let nodes = self.library.size();
        let mut edges = Power::empty(nodes);
        for y in 1..nodes {
            let x = self.parent(y);
            let (at_x, at_y) = (&self.loops[x], &self.loops[y]);
            edges.above[y] = x as u16;
            edges.down[y] = product(&product(at_x, &self.step_down(y)), at_y);
            edges.up[y] = product(&product(at_y, &self.step_up(y)), at_x);
        }
        let digits = usize::BITS - nodes.leading_zeros();
        self.powers.push(edges);
        for _ in 1..digits {
            let half = self.powers.last().expect("the edges");
            self.powers.push(doubled(half));
        }
    }

    /// The node so many edges above y, and the positions that come from it to
    /// one of the set at y.
    pub fn lifted(&self, mut y: usize, length: usize, mut set: u16) -> (usize, u16) {
        for (k, power) in self.powers.iter().enumerate() {
            if length >> k & 1 == 1 {
                set = before(&power.down[y], set);
                y = usize::from(power.above[y]);
            }
        }
        (y, set)
    }

    /// The positions that come from y to one of the set at the node so many
    /// edges above.
    pub fn lowered(&self, y: usize, length: usize, set: u16) -> u16 {
        let Some(power) = (0..self.powers.len()).find(|k| length >> k & 1 == 1) else {
            return set;
        };
        let Power { above, up, .. } = &self.powers[power];
        let middle = usize::from(above[y]);
        before(&up[y], self.lowered(middle, length - (1 << power), set))
    }

    /// The closest common ancestor of two nodes, the first before the second.
    pub fn common_ancestor(&self, mut v: usize, w: usize) -> usize {
        if self.ends[v] > w {
            return v;
        }
        for power in self.powers.iter().rev() {
            let above = power.above[v];
            if above != NONE && self.ends[usize::from(above)] <= w {
                v = usize::from(above);
            }
        }
        self.parent(v)
    }
}

/// Twice as many edges.
fn doubled(half: &Power) -> Power {
    let nodes = half.above.len();
    let mut power = Power::empty(nodes);
    for y in 0..nodes {
        let middle = half.above[y];
        if middle == NONE || half.above[usize::from(middle)] == NONE {
            continue;
        }
        let h = usize::from(middle);
        power.above[y] = half.above[h];
        power.down[y] = product(&half.down[h], &half.down[y]);
        power.up[y] = product(&half.up[y], &half.up[h]);
    }
    power
}
