//! The work list: from one node, the positions reached at every node.

use super::automaton::Automaton;
use super::library::{Library, NONE};

pub struct Walk<'a> {
    library: &'a Library<'a>,
    automaton: &'a Automaton,
    /// For each node the positions of brackets whose test holds there.
    stays: Vec<u16>,
    /// For each node the positions reached there.
    seen: Vec<u16>,
    /// The nodes where some position was reached.
    touched: Vec<u16>,
    /// Positions at a node that were not followed yet.
    open: Vec<(u16, u16)>,
    /// So many nodes have a last position among those reached there.
    found: usize,
}

impl Walk<'_> {
    pub fn new<'a>(library: &'a Library, automaton: &'a Automaton) -> Walk<'a> {
        Walk {
            library,
            automaton,
            stays: automaton.stays(library.size()),
            seen: vec![0; library.size()],
            touched: Vec::new(),
            open: Vec::new(),
            found: 0,
        }
    }

    /// Hands over each node where the path with this start ends, from v.
    pub fn ends(&mut self, start: usize, v: usize, mut end: impl FnMut(usize)) {
        self.reach(v as u16, 1 << start);
        while let Some((node, positions)) = self.open.pop() {
            self.follow(node, positions);
        }
        for node in self.touched.drain(..) {
            let node = usize::from(node);
            if self.seen[node] & self.automaton.last != 0 {
                end(node);
            }
            self.seen[node] = 0;
        }
        self.found = 0;
    }

    /// Whether the path with this start ends at so many nodes, from v. What is near
    /// comes first, and the walk goes no further than it takes to tell.
    pub fn finds(&mut self, start: usize, v: usize, number: usize) -> bool {
        self.reach(v as u16, 1 << start);
        let mut next = 0;
        while self.found < number && next < self.open.len() {
            let (node, positions) = self.open[next];
            self.follow(node, positions);
            next += 1;
        }
        let enough = self.found >= number;
        self.open.clear();
        for node in self.touched.drain(..) {
            self.seen[usize::from(node)] = 0;
        }
        self.found = 0;
        enough
    }

    /// One step on from these positions at a node.
    fn follow(&mut self, node: u16, mut positions: u16) {
        let mut next = 0;
        while positions != 0 {
            next |= self.automaton.follow[positions.trailing_zeros() as usize];
            positions &= positions - 1;
        }
        let (library, automaton, at) = (self.library, self.automaton, usize::from(node));
        self.reach(node, next & self.stays[at]);
        self.reach(library.left[at], next & automaton.left);
        self.reach(library.right[at], next & automaton.right);
        let parent = library.parent[at];
        if parent != NONE {
            let is_left = library.left[usize::from(parent)] == node;
            let up = match is_left {
                true => automaton.from_left,
                false => automaton.from_right,
            };
            self.reach(parent, next & up);
        }
    }

    /// Notes positions at a node, and opens those that are new there.
    fn reach(&mut self, node: u16, positions: u16) {
        if node == NONE || positions == 0 {
            return;
        }
        let seen = &mut self.seen[usize::from(node)];
        let new = positions & !*seen;
        if new == 0 {
            return;
        }
        if *seen == 0 {
            self.touched.push(node);
        }
        let last = self.automaton.last;
        self.found += usize::from(*seen & last == 0 && new & last != 0);
        *seen |= new;
        self.open.push((node, new));
    }
}
