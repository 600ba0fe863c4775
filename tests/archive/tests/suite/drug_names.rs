//! A library of the most nodes with plain names, and the same with names masked.

use evaluator::document::{Library, Node, NODE_LIMIT};
use evaluator::samples::libraries::{attribute, element, text};

/// A drug has seven nodes, so there are so many beside the root.
pub const DRUGS: usize = (NODE_LIMIT - 1) / 7;

/// The drug that has the one name that is kept, and so has the next one.
pub const HEPARIN: usize = 10;

/// How the drugs of a library are called, and their amounts spelled.
#[derive(Clone, Copy)]
pub enum Names {
    Plain,
    Masked,
}

impl Names {
    /// Another word for each kind and number.
    fn word(self, kind: &str, number: usize) -> String {
        match self {
            _ if (kind, number) == ("drug", HEPARIN) => "heparin".to_string(),
            Names::Plain => format!("{kind} {number}"),
            Names::Masked => format!(" {}{kind}", number * 613 % 1_000),
        }
    }

    /// Masked amounts are twice as far from 100, which stays.
    fn amount(self, amount: usize) -> String {
        match self {
            Names::Plain => amount.to_string(),
            Names::Masked => (2 * amount as i64 - 100).to_string(),
        }
    }
}

/// The number of a drug's node.
pub fn drug_node(number: usize) -> usize {
    1 + 7 * number
}

/// Every third drug has the name and the dose of the one before it.
fn first(number: usize) -> usize {
    number - number % 3 / 2
}

pub fn dose(number: usize) -> usize {
    5 + first(number) * 37 % 190
}

/// Whether the limit of a drug is below its dose.
pub fn is_above_limit(number: usize) -> bool {
    number % 7 == 3
}

/// Drugs with a name, an area, a dose, a limit and a note, the root before them.
/// The notes are words, so that joined they are one too.
pub fn library_of_drugs(names: Names) -> Library {
    let drug = |number: usize| -> Vec<Node> {
        let limit = match is_above_limit(number) {
            true => number % 4,
            false => 10 * dose(number) + number % 4,
        };
        vec![
            element(1, "drug"),
            attribute(2, "name", names.word("drug", first(number))),
            attribute(2, "area", names.word("area", number % 4)),
            attribute(2, "dose", names.amount(dose(number))),
            attribute(2, "limit", names.amount(limit)),
            element(2, "note"),
            text(3, names.word("note", number % 5)),
        ]
    };
    let mut nodes = vec![element(0, "lib")];
    nodes.extend((0..DRUGS).flat_map(drug));
    Library { nodes }
}
