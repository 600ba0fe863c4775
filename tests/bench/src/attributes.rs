//! The legal documents with attributes that are timed. What their labels are,
//! and on how many elements they stand, is what the check of a label given
//! twice goes by.

use crate::shapes::node;
use evaluator::document::{spell, Kind, Library, NODE_LIMIT};

/// The labels of all nodes of a document.
pub struct Labels {
    pub name: &'static str,
    /// The label of the node of this number.
    label: fn(usize) -> String,
}

/// An element and its eight attributes, where they are spread.
const SPREAD: usize = 9;

/// Labels that come again with every element, for eight attributes on each.
pub const FOR_EIGHT: [Labels; 2] = [
    Labels {
        name: "short words",
        label: |number| WORDS[number % SPREAD].to_string(),
    },
    Labels {
        name: "five bytes, told apart by a digit",
        label: |number| format!("dose{}", number % SPREAD),
    },
];

/// That of the element, and those of its attributes.
const WORDS: [&str; SPREAD] = [
    "drug", "name", "area", "unit", "dose", "limit", "rate", "route", "brand",
];

/// Labels that never come again, for any number of attributes on an element.
pub const FOR_ANY: [Labels; 4] = [
    Labels {
        name: "in order",
        label: |number| format!("a{number:04}"),
    },
    Labels {
        name: "shuffled",
        label: |number| format!("a{:04}", shuffled(number)),
    },
    Labels {
        name: "16 bytes that begin alike",
        label: |number| format!("max-dose-of-{:04}", shuffled(number)),
    },
    Labels {
        name: "16 bytes that differ in the middle",
        label: |number| format!("limit-{:04}-mg-ml", shuffled(number)),
    },
];

/// Another number for each below the most nodes, which is a power of two: an
/// odd factor makes no two of them alike.
fn shuffled(number: usize) -> usize {
    number * 1_877 % NODE_LIMIT
}

impl Labels {
    /// So many nodes, the first of them an element and all others its attributes.
    pub fn gathered(&self, nodes: usize) -> Vec<u8> {
        self.document(nodes, |number| match number {
            0 => (Kind::Element, 0),
            _ => (Kind::Attribute, 1),
        })
    }

    /// The same labels in the same order, each element with eight attributes.
    pub fn spread(&self, nodes: usize) -> Vec<u8> {
        self.document(nodes, |number| match number % SPREAD {
            0 => (Kind::Element, depth(number)),
            _ => (Kind::Attribute, depth(number)),
        })
    }

    /// The same again, each attribute an element: just as many bytes, and no
    /// label to be compared with others.
    pub fn without_attributes(&self, nodes: usize) -> Vec<u8> {
        self.document(nodes, |number| (Kind::Element, depth(number)))
    }

    /// All values are empty, so that little but the labels is read, and an
    /// element can stand in an attribute's place.
    fn document(&self, nodes: usize, place: fn(usize) -> (Kind, usize)) -> Vec<u8> {
        let placed = |number| {
            let (kind, depth) = place(number);
            node(kind, depth, &(self.label)(number), 0)
        };
        spell(&Library {
            nodes: (0..nodes).map(placed).collect(),
        })
    }
}

/// Where they are spread: the first element has all others inside it, beside
/// its own attributes.
fn depth(number: usize) -> usize {
    match (number / SPREAD, number % SPREAD) {
        (0, 0) => 0,
        (0, _) | (_, 0) => 1,
        _ => 2,
    }
}

#[cfg(test)]
mod tests {
    use super::{FOR_ANY, FOR_EIGHT, NODE_LIMIT};
    use crate::shapes::SHAPES;
    use evaluator::document::{read, Kind, Node};
    use std::collections::HashSet;

    /// The attributes of each element, which stand one behind the other.
    fn runs(nodes: &[Node]) -> impl Iterator<Item = &[Node]> {
        nodes.split(|node| node.kind != Kind::Attribute)
    }

    /// The document is legal, and no element has two attributes of one label.
    /// Returns the most attributes that an element has.
    fn assert_told_apart(name: &str, document: &[u8], nodes: usize) -> usize {
        let library = read(document).expect(name);
        assert_eq!(library.nodes.len(), nodes, "{name}");
        for run in runs(&library.nodes) {
            let different: HashSet<&[u8]> = run.iter().map(|node| &node.label[..]).collect();
            assert_eq!(different.len(), run.len(), "{name}");
        }
        runs(&library.nodes).map(<[Node]>::len).max().unwrap_or(0)
    }

    #[test]
    fn no_element_has_two_attributes_of_one_label() {
        for shape in SHAPES {
            let most = assert_told_apart(shape.name, &shape.document(shape.nodes), shape.nodes);
            assert!(most < 2, "{}", shape.name);
        }
        for labels in FOR_EIGHT.iter().chain(&FOR_ANY) {
            let name = labels.name;
            for nodes in [1, 2, 9, 10, 11, 20, 513, NODE_LIMIT] {
                let most = assert_told_apart(name, &labels.spread(nodes), nodes);
                assert_eq!(most, 8.min(nodes - 1), "{name}");
                let most = assert_told_apart(name, &labels.without_attributes(nodes), nodes);
                assert_eq!(most, 0, "{name}");
            }
        }
        for labels in &FOR_ANY {
            for nodes in [1, 2, NODE_LIMIT / 2, NODE_LIMIT] {
                let most = assert_told_apart(labels.name, &labels.gathered(nodes), nodes);
                assert_eq!(most, nodes - 1, "{}", labels.name);
            }
        }
    }

    /// What stands beside each other in a comparison reads as many bytes.
    #[test]
    fn what_is_compared_has_as_many_bytes() {
        for labels in FOR_EIGHT.iter().chain(&FOR_ANY) {
            let bytes = labels.spread(NODE_LIMIT).len();
            assert_eq!(labels.without_attributes(NODE_LIMIT).len(), bytes);
            assert_eq!(labels.gathered(NODE_LIMIT).len(), bytes);
        }
    }
}
