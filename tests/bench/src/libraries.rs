//! The libraries on which evaluations are timed.

use crate::straightforward::cut;
use evaluator::document::{Library, Node};
use evaluator::random::{self, Random};
use evaluator::samples::libraries::{element, formulary, text};

pub struct LibraryShape {
    pub name: &'static str,
    /// The library of just so many nodes.
    pub library: fn(usize) -> Library,
}

pub const LIBRARY_SHAPES: [LibraryShape; 3] = [
    LibraryShape {
        name: "formulary",
        library: formulary,
    },
    LibraryShape {
        name: "random tree",
        library: random_tree,
    },
    LibraryShape {
        name: "one long chain",
        library: chain,
    },
];

/// Not deep, with many values. The same seed draws the same nodes first, so
/// that a larger tree begins as a smaller one does. No value has blanks at its
/// ends: what they cost is timed by itself.
fn random_tree(nodes: usize) -> Library {
    let mut library = random::library(&mut Random::new(30), nodes);
    for node in &mut library.nodes {
        node.value = cut(&node.value).to_vec();
    }
    library
}

/// Each node inside the one before it, the last a text.
fn chain(nodes: usize) -> Library {
    let labels = ["drug", "name"];
    let elements = (0..nodes - 1).map(|depth| element(depth, labels[depth % 2]));
    let mut all: Vec<Node> = elements.collect();
    all.push(text(nodes - 1, "60"));
    Library { nodes: all }
}
