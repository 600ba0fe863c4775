//! The legal documents that are timed.

use evaluator::document::{spell, Kind, Library, Node};

pub struct Shape {
    pub name: &'static str,
    pub nodes: usize,
    node: fn(usize) -> Node,
}

/// A document has at most 4,096 nodes and a value at most 255 bytes, so that
/// about 1,000,000 bytes need long values and at least some 3,500 nodes. A
/// document of short lines alone is much smaller.
pub const SHAPES: [Shape; 4] = [
    Shape {
        name: "longest values",
        nodes: 3_484,
        node: |_| text(255),
    },
    Shape {
        name: "most nodes",
        nodes: 4_096,
        node: |_| text(212),
    },
    Shape {
        name: "short lines, wide",
        nodes: 4_096,
        node: |number| match number % 3 {
            1 => element(1),
            2 => attribute(2),
            _ => text(5),
        },
    },
    Shape {
        name: "short lines, deep",
        nodes: 4_096,
        node: element,
    },
];

impl Shape {
    /// The root and so many nodes behind it that there are as many as asked for.
    pub fn document(&self, nodes: usize) -> Vec<u8> {
        let behind = (1..nodes).map(self.node);
        spell(&Library {
            nodes: [element(0)].into_iter().chain(behind).collect(),
        })
    }
}

fn element(depth: usize) -> Node {
    node(Kind::Element, depth, "drug", 0)
}

fn attribute(depth: usize) -> Node {
    node(Kind::Attribute, depth, "max-dose-rate", 7)
}

fn text(value: usize) -> Node {
    node(Kind::Text, 1, "text", value)
}

/// A node with a value of so many bytes.
pub fn node(kind: Kind, depth: usize, label: &str, value: usize) -> Node {
    Node {
        depth,
        kind,
        label: label.as_bytes().to_vec(),
        value: (0..value).map(|at| b' ' + (at % 95) as u8).collect(),
    }
}
