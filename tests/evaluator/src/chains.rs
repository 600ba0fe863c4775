//! "i at v comes to j at w" and "i at v ends at w", for one comparison.

use crate::meaning::reaches;
use crate::positions::Positions;
use crate::relation::Relation;
use crate::tree::Tree;

/// A position at a node.
pub type Place = (usize, usize);

pub struct Chains<'a> {
    pub positions: Positions<'a>,
    nodes: usize,
    /// For each place, by number, whether it comes to each place.
    reached: Vec<Vec<bool>>,
}

impl<'a> Chains<'a> {
    pub fn of(tree: &Tree, positions: Positions<'a>) -> Chains<'a> {
        let moves: Vec<Option<Relation>> = (0..positions.count())
            .map(|position| positions.step(position).map(|step| reaches(tree, step)))
            .collect();
        let mut chains = Chains {
            nodes: tree.size(),
            reached: Vec::new(),
            positions,
        };
        let next: Vec<Vec<Place>> = chains
            .places()
            .map(|place| chains.next(&moves, place))
            .collect();
        chains.reached = chains.places().map(|p| chains.search(&next, p)).collect();
        chains
    }

    /// All places, in the order of their numbers.
    fn places(&self) -> impl Iterator<Item = Place> {
        let nodes = self.nodes;
        (0..self.positions.count()).flat_map(move |i| (0..nodes).map(move |v| (i, v)))
    }

    fn number(&self, (position, node): Place) -> usize {
        position * self.nodes + node
    }

    /// The places one link of a chain further on: a following position, at a
    /// node to which its step leads. A bracket leads on only where its test
    /// holds, so every test on the way holds. The test of i itself is not
    /// asked at v: the chain begins behind it.
    fn next(&self, moves: &[Option<Relation>], (i, v): Place) -> Vec<Place> {
        let following = (0..self.positions.count()).filter(|j| self.positions.follows[i][*j]);
        let led_to = |j: usize| moves[j].iter().flat_map(move |step| step.from(v));
        following
            .flat_map(|j| led_to(j).map(move |w| (j, w)))
            .collect()
    }

    /// Everything that a place comes to, itself first: "possibly none (then
    /// i=j and v=w)".
    fn search(&self, next: &[Vec<Place>], place: Place) -> Vec<bool> {
        let mut reached = vec![false; next.len()];
        reached[self.number(place)] = true;
        let mut open = vec![place];
        while let Some(place) = open.pop() {
            for further in &next[self.number(place)] {
                if !reached[self.number(*further)] {
                    reached[self.number(*further)] = true;
                    open.push(*further);
                }
            }
        }
        reached
    }

    pub fn comes_to(&self, from: Place, to: Place) -> bool {
        self.reached[self.number(from)][self.number(to)]
    }

    /// "it comes to a last position at w"
    pub fn ends_at(&self, from: Place, node: usize) -> bool {
        (0..self.positions.count())
            .any(|j| self.positions.last[j] && self.comes_to(from, (j, node)))
    }
}
