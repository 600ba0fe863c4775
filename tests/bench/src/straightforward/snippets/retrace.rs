//! The work list backwards: from nodes where a path ends to all positions and
//! nodes that come to it.

use super::matrix::{behind, Matrix};
use crate::straightforward::automaton::Automaton;
use crate::straightforward::library::{Library, NONE};

pub struct Retrace<'a> {
    library: &'a Library<'a>,
    automaton: &'a Automaton,
    /// For each position those that it follows.
    before: Matrix,
    stays: Vec<u16>,
    /// For each node the positions that come to an end.
    pub seen: Vec<u16>,
    /// Positions at a node that were not retraced yet.
    open: Vec<(u16, u16)>,
}

impl Retrace<'_> {
    pub fn new<'a>(library: &'a Library, automaton: &'a Automaton) -> Retrace<'a> {
        let followed_by = |position: u16| {
            let follows = |i: &usize| automaton.follow[*i] >> position & 1 == 1;
            (0..16).filter(follows).fold(0, |set, i| set | 1 << i)
        };
        Retrace {
            library,
            automaton,
            before: std::array::from_fn(|position| followed_by(position as u16)),
            stays: automaton.stays(library.size()),
            seen: vec![0; library.size()],
            open: Vec::new(),
        }
    }

    /// Retraces from the end of both paths at a node, and hands over what is
    /// newly seen.
    pub fn end(&mut self, w: usize, mut new: impl FnMut(usize, u16)) {
        self.reach(w as u16, self.automaton.last, &mut new);
        while let Some((node, positions)) = self.open.pop() {
            self.back(node, positions, &mut new);
        }
    }

    /// One step back from these positions at a node.
    fn back(&mut self, node: u16, positions: u16, new: &mut impl FnMut(usize, u16)) {
        let (library, automaton, at) = (self.library, self.automaton, usize::from(node));
        let stays = positions & self.stays[at];
        self.arrived(node, stays, new);
        self.arrived(library.left[at], positions & automaton.from_left, new);
        self.arrived(library.right[at], positions & automaton.from_right, new);
        let parent = library.parent[at];
        if parent != NONE {
            let down = match library.is_left(at) {
                true => automaton.left,
                false => automaton.right,
            };
            self.arrived(parent, positions & down, new);
        }
    }

    /// The steps of these positions led away from the node.
    fn arrived(&mut self, node: u16, positions: u16, new: &mut impl FnMut(usize, u16)) {
        if node != NONE && positions != 0 {
            self.reach(node, behind(&self.before, positions), new);
        }
    }

    fn reach(&mut self, node: u16, positions: u16, new: &mut impl FnMut(usize, u16)) {
        let seen = &mut self.seen[usize::from(node)];
        let unseen = positions & !*seen;
        if unseen != 0 {
            *seen |= unseen;
            self.open.push((node, unseen));
            new(usize::from(node), unseen);
        }
    }
}
