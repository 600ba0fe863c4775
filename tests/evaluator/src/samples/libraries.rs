//! Libraries of any number of nodes, deep and wide, and one as hospitals have.

use super::name;
use crate::document::{Kind, Library, Node, NODE_LIMIT};

/// The shapes by name; each takes a number of nodes.
pub const SHAPES: [(&str, fn(usize) -> Library); 5] = [
    ("chain", chain),
    ("ladder", ladder),
    ("level", level),
    ("catalogue", catalogue),
    ("formulary", formulary),
];

pub fn node(kind: Kind, depth: usize, label: &str, value: impl Into<String>) -> Node {
    Node {
        depth,
        kind,
        label: label.as_bytes().to_vec(),
        value: value.into().into_bytes(),
    }
}

pub fn element(depth: usize, label: &str) -> Node {
    node(Kind::Element, depth, label, "")
}

pub fn attribute(depth: usize, label: &str, value: impl Into<String>) -> Node {
    node(Kind::Attribute, depth, label, value)
}

pub fn text(depth: usize, value: impl Into<String>) -> Node {
    node(Kind::Text, depth, "text", value)
}

const VALUES: [&str; 7] = ["", "70", "ab", "-0.5", "heparin", "5000", "~"];

/// The first so many nodes of a list, the root before all of them.
fn grown(nodes: usize, behind: impl Iterator<Item = Node>) -> Library {
    let root = std::iter::once(element(0, "lib"));
    Library {
        nodes: root.chain(behind).take(nodes).collect(),
    }
}

/// Each node inside the one before it, the last a text: one long way down.
pub fn chain(nodes: usize) -> Library {
    let labels = ["lib", "drug", "name"];
    let mut library = grown(nodes, (1..).map(|depth| element(depth, labels[depth % 3])));
    if nodes > 1 {
        library.nodes[nodes - 1] = text(nodes - 1, "60");
    }
    library
}

/// An element inside the other, each with a text before it: half as deep, with
/// string values of many bytes.
pub fn ladder(nodes: usize) -> Library {
    let rung = |number: usize| {
        let depth = 1 + number / 2;
        match number % 2 {
            0 => text(depth, VALUES[mixed(number) % 7]),
            _ => element(depth, "drug"),
        }
    };
    grown(nodes, (0..).map(rung))
}

/// Attributes of the root, then its elements, drugs and names by turns and most
/// of them with a text inside.
pub fn level(nodes: usize) -> Library {
    let value = |number: usize| VALUES[mixed(number) % 7];
    let member = move |number: usize| match (number < nodes / 2, number % 3) {
        (true, _) => attribute(1, &name(number), value(number)),
        (false, 1) if number > nodes / 2 + 2 => text(2, value(number)),
        (false, 2) => text(1, value(number)),
        (false, _) => element(1, ["drug", "name"][number / 3 % 2]),
    };
    grown(nodes, (0..).map(member))
}

/// Attributes of the root, no two with the same value.
pub fn catalogue(nodes: usize) -> Library {
    let entry = |number: usize| attribute(1, &name(number), format!("{:04}", mixed(number)));
    grown(nodes, (0..).map(entry))
}

/// Another number below 4,096 for each of them, in no simple order.
fn mixed(number: usize) -> usize {
    number * 2_531 % NODE_LIMIT
}

/// Drugs with a name, a care area, two concentrations and a limit: 11 nodes
/// each, and as many of the last one as there is room for. Every third drug is
/// the one before it for another care area, every sixth with another limit.
pub fn formulary(nodes: usize) -> Library {
    let mut library = grown(nodes, (0..).flat_map(drug));
    library.nodes[0].label = b"library".to_vec();
    library
}

fn drug(number: usize) -> Vec<Node> {
    let areas = ["adult", "icu", "neonatal", "oncology"];
    let again = number % 3 / 2;
    let first = number - again;
    let strength = 5 + first * 37 % 95;
    let limit = strength * 10 * (1 + again * (number / 3 % 2));
    vec![
        element(1, "drug"),
        attribute(2, "name", format!("drug-{:03}", first * 613 % 1_000)),
        attribute(2, "area", areas[number % 4]),
        element(2, "concentration"),
        attribute(3, "unit", "mg/ml"),
        text(3, strength.to_string()),
        element(2, "concentration"),
        attribute(3, "unit", "mg/l"),
        text(3, (1_000 * strength).to_string()),
        element(2, "limit"),
        text(3, limit.to_string()),
    ]
}
