//! The skeleton of the nodes that have one value, and the positions that end
//! among them.

use super::matrix::before;
use super::stretches::Stretches;

/// A skeleton's nodes, rising.
pub struct Skeleton<'a> {
    stretches: &'a Stretches<'a>,
    joints: Vec<Joint>,
}

struct Joint {
    node: usize,
    /// The number of the joint above, which is smaller; the first has none.
    parent: usize,
    /// The number of edges to it.
    length: usize,
    is_left: bool,
    /// The positions that end here if the node has the value, and those that
    /// end from the left child on and from the right child on.
    own: u16,
    sides: [u16; 2],
    /// The positions at the node that end outside, not here and not below.
    outside: u16,
}

/// A stretch of the skeleton: the positions that from its upper end come to a
/// node of the value outside, and from its lower end to one inside.
pub struct Firsts {
    pub y: usize,
    pub length: usize,
    pub outer: u16,
    pub inner: u16,
}

impl Skeleton<'_> {
    /// Of nodes that have one value, rising.
    pub fn of<'a>(stretches: &'a Stretches, nodes: &[usize]) -> Skeleton<'a> {
        let common = |pair: &[usize]| stretches.common_ancestor(pair[0], pair[1]);
        let mut all: Vec<usize> = nodes.windows(2).map(common).collect();
        all.extend(nodes);
        all.sort_unstable();
        all.dedup();
        let mut skeleton = Skeleton {
            stretches,
            joints: Vec::new(),
        };
        // The joints from the first down to the last one.
        let mut way: Vec<usize> = Vec::new();
        for (number, node) in all.into_iter().enumerate() {
            while way.last().is_some_and(|up| !skeleton.is_below(node, *up)) {
                way.pop();
            }
            skeleton.push(
                node,
                way.last().copied(),
                nodes.binary_search(&node).is_ok(),
            );
            way.push(number);
        }
        skeleton.rise();
        skeleton.fall();
        skeleton
    }

    fn is_below(&self, node: usize, joint: usize) -> bool {
        node < self.stretches.ends[self.joints[joint].node]
    }

    fn push(&mut self, node: usize, parent: Option<usize>, has_value: bool) {
        let stretches = self.stretches;
        let x = parent.map_or(node, |parent| self.joints[parent].node);
        let ending = before(&stretches.loops[node], stretches.automaton.last);
        let left = usize::from(stretches.library.left[x]);
        self.joints.push(Joint {
            node,
            parent: parent.unwrap_or(0),
            length: stretches.depths[node] - stretches.depths[x],
            is_left: left <= node && node < stretches.ends[left],
            own: if has_value { ending } else { 0 },
            sides: [0; 2],
            outside: 0,
        });
    }

    fn rise(&mut self) {
        for number in (1..self.joints.len()).rev() {
            let joint = &self.joints[number];
            let (node, length, inside) = (joint.node, joint.length, joint.inside());
            let (_, lifted) = self.stretches.lifted(node, length, inside);
            let (parent, side) = (joint.parent, usize::from(joint.is_left));
            self.joints[parent].sides[side] |= lifted;
        }
    }

    fn fall(&mut self) {
        for number in 1..self.joints.len() {
            let Joint { node, length, .. } = self.joints[number];
            let outer = self.outer(number);
            self.joints[number].outside = self.stretches.lowered(node, length, outer);
        }
    }

    /// The positions that from the joint above end neither here nor below.
    fn outer(&self, number: usize) -> u16 {
        let joint = &self.joints[number];
        let above = &self.joints[joint.parent];
        above.outside | above.own | above.sides[usize::from(!joint.is_left)]
    }

    /// All stretches.
    pub fn firsts(&self) -> impl Iterator<Item = Firsts> + '_ {
        (1..self.joints.len()).map(|number| Firsts {
            y: self.joints[number].node,
            length: self.joints[number].length,
            outer: self.outer(number),
            inner: self.joints[number].inside(),
        })
    }
}

impl Joint {
    /// The positions that end at the node or below it.
    fn inside(&self) -> u16 {
        self.own | self.sides[0] | self.sides[1]
    }
}
