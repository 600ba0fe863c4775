//! What numerals cost beside words: libraries of as many nodes and bytes, whose
//! texts are ordered in the same way.

use evaluator::document::{Library, NODE_LIMIT};
use evaluator::samples::libraries::{attribute, element};
use evaluator::samples::name;

/// In which order the values stand in the document.
pub struct Standing {
    pub name: &'static str,
    place: fn(usize) -> usize,
}

pub const STANDINGS: [Standing; 2] = [
    Standing {
        name: "in no order",
        place: |number| number * 1_877 % NODE_LIMIT,
    },
    Standing {
        name: "rising",
        place: |number| number,
    },
];

/// What the values are, and the byte in the place of the point.
pub const KINDS: [(&str, char); 2] = [("numerals", '.'), ("words", 'x')];

/// Hardly more than ranks, since no amount is less than what is no numeral; then
/// order with a constant and of two paths, near and far.
pub const RULES: [&str; 4] = ["(e<\"x\")", "(e<\"4000.5\")", "(e<r)", "(.*R[(e>\"9000\")]>=*r)"];

impl Standing {
    /// A root with attributes of 11 bytes, up to so many nodes; no two have the
    /// same value.
    pub fn library(&self, nodes: usize, point: char) -> Library {
        let value = |number: usize| {
            let place = (self.place)(number);
            format!("{:06}{point}{:04}", 3 * place, 9_973 * place % 10_000)
        };
        let entry = |number: usize| attribute(1, &name(number), value(number));
        let mut all = vec![element(0, "lib")];
        all.extend((0..nodes - 1).map(entry));
        Library { nodes: all }
    }
}

#[cfg(test)]
mod tests {
    use super::{KINDS, RULES, STANDINGS};
    use crate::evaluations::assert_same_answers;
    use evaluator::amount::amount;
    use evaluator::document::{read, spell, NODE_LIMIT};

    /// What is held against each other has as many nodes and bytes, and just the
    /// numerals have amounts.
    #[test]
    fn libraries_are_legal_and_of_one_size() {
        for standing in STANDINGS {
            for nodes in [1, 2, 40, NODE_LIMIT] {
                let documents = KINDS.map(|(_, point)| spell(&standing.library(nodes, point)));
                assert_eq!(documents[0].len(), documents[1].len());
                for (document, (_, point)) in documents.iter().zip(KINDS) {
                    let library = read(document).expect(standing.name);
                    assert_eq!(library.nodes.len(), nodes);
                    let mut values = library.nodes[1..].iter().map(|node| &node.value);
                    assert!(values.all(|value| amount(value).is_some() == (point == '.')));
                }
            }
        }
    }

    /// Only numerals are selected, by every rule that compares.
    #[test]
    fn numerals_and_words_are_answered_alike_by_both_versions() {
        for standing in STANDINGS {
            for (kind, point) in KINDS {
                let document = spell(&standing.library(NODE_LIMIT, point));
                for rule in RULES {
                    let answer = assert_same_answers(&document, rule.as_bytes(), NODE_LIMIT);
                    let due = kind == "numerals" && rule != RULES[0];
                    assert_eq!(answer.selected > 0, due, "{kind}: {rule}");
                }
            }
        }
    }
}
