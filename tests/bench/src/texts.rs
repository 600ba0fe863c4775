//! The libraries that are hard to rank: elements inside each other, each with a
//! text in front of the next. The value of an element is its own text and all
//! texts further inside, so that where texts are alike whole values are, and
//! each comparison of two of them goes on to the end of the shorter one.

use evaluator::document::{Library, Node, NODE_LIMIT, VALUE_LIMIT};
use evaluator::samples::libraries::{element, text};

/// So many elements have the libraries that are timed.
pub const ELEMENTS: usize = 1_500;

pub struct Texts {
    pub name: &'static str,
    /// The text in the element of this number, of four bytes at least.
    text: fn(usize) -> String,
}

/// What a shortcut for one of them would miss in the next: in the second, equal
/// stretches do not begin where texts do, and in the third, texts that stand
/// beside each other differ, and only in their last byte.
pub const ALIKE: [Texts; 3] = [
    Texts {
        name: "one text again and again",
        text: |_| letters(VALUE_LIMIT),
    },
    Texts {
        name: "one letter, texts of different lengths",
        text: |number| "a".repeat(128 + shuffled(number) % 128),
    },
    Texts {
        name: "two texts by turns",
        text: |number| letters(VALUE_LIMIT - 1) + ["a", "b"][number % 2],
    },
];

/// So many letters, not all the same and no blank.
fn letters(count: usize) -> String {
    ('a'..='z').cycle().take(count).collect()
}

/// Another number for each below the most nodes, in no simple order.
fn shuffled(number: usize) -> usize {
    number * 1_877 % NODE_LIMIT
}

impl Texts {
    /// So many elements with their texts.
    pub fn library(&self, elements: usize) -> Library {
        nested(elements, self.text)
    }

    /// The same, but each text begins with a number that no other has: just as
    /// many nodes and bytes, and values that differ early.
    pub fn told_apart(&self, elements: usize) -> Library {
        nested(elements, |number| {
            let alike = (self.text)(number);
            format!("{:04}{}", shuffled(number), &alike[4..])
        })
    }
}

/// An element, its text, the next element beside the text, and so on inwards.
fn nested(elements: usize, value: impl Fn(usize) -> String) -> Library {
    let pair = |number| [element(number, "drug"), text(number + 1, value(number))];
    let nodes: Vec<Node> = (0..elements).flat_map(pair).collect();
    Library { nodes }
}

#[cfg(test)]
mod tests {
    use super::{ALIKE, ELEMENTS};
    use evaluator::document::{read, spell};

    /// What is held against each other has as many nodes and bytes.
    #[test]
    fn libraries_are_legal_and_of_one_size() {
        for texts in ALIKE {
            for elements in [1, 2, 40, ELEMENTS] {
                let alike = spell(&texts.library(elements));
                let apart = spell(&texts.told_apart(elements));
                assert_eq!(alike.len(), apart.len(), "{}", texts.name);
                for document in [alike, apart] {
                    let library = read(&document).expect(texts.name);
                    assert_eq!(library.nodes.len(), 2 * elements, "{}", texts.name);
                }
            }
        }
    }
}
