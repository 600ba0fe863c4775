//! Documents and shorthands for rules that the tests share, also those of
//! other packages.

pub mod amounts;
pub mod at_least;
pub mod attributes;
pub mod blanks;
pub mod counts;
pub mod documents;
pub mod libraries;
pub mod masks;
pub mod rules;
pub mod selections;
pub mod value_lists;

use crate::document::{spell, Kind, Library, Node};

/// Document X, letter by letter as the session in document 01 gives it.
pub const X: &str = "nodes=5
depth=0
kind=e
label=lib
value=
depth=1
kind=e
label=drug
value=
depth=2
kind=a
label=name
value=heparin
depth=1
kind=e
label=drug
value=
depth=2
kind=a
label=name
value=heparin
";

/// The document of the given rows: kind, depth, label, value.
pub fn document(rows: &[(char, usize, &str, &str)]) -> Vec<u8> {
    let node = |&(kind, depth, label, value): &(char, usize, &str, &str)| Node {
        depth,
        kind: match kind {
            'e' => Kind::Element,
            'a' => Kind::Attribute,
            _ => Kind::Text,
        },
        label: label.as_bytes().to_vec(),
        value: value.as_bytes().to_vec(),
    };
    spell(&Library {
        nodes: rows.iter().map(node).collect(),
    })
}

/// Another label for each number, the first of them `name`: no two attributes
/// of one element have the same.
pub fn name(number: usize) -> String {
    match number {
        0 => "name".to_string(),
        _ => format!("name-{number}"),
    }
}

/// A root with so many nodes in all, the others text directly inside it.
pub fn flat(nodes: usize) -> Vec<u8> {
    let mut rows = vec![('t', 1, "text", ""); nodes];
    rows[0] = ('e', 0, "lib", "");
    document(&rows)
}

/// So many equal leaves joined by one sign two and two: not deep.
pub fn joined(sign: &str, leaf: &str, leaves: usize) -> String {
    if leaves == 1 {
        return leaf.to_string();
    }
    let half = leaves / 2;
    let (first, second) = (joined(sign, leaf, half), joined(sign, leaf, leaves - half));
    format!("{sign}{first}{second}")
}

/// So many names joined by `|` two and two: 2 * names - 1 tests.
pub fn balanced(names: usize) -> String {
    joined("|", ":a", names)
}

/// A path of so many steps with `.` before each but the last.
pub fn steps(count: usize) -> String {
    ".l".repeat(count - 1) + "l"
}
