//! The binary tree of a library, with labels and string values.

use crate::document::{Kind, Library};

/// "The tree is binary: the left child is the first child in the document,
/// attributes included; the right child is the next sibling."
pub struct Tree {
    pub left: Vec<Option<usize>>,
    pub right: Vec<Option<usize>>,
    pub labels: Vec<Vec<u8>>,
    /// The string value of each node, as the document has it.
    pub values: Vec<Vec<u8>>,
    /// The parent of each node; the first node alone has none.
    parents: Vec<Option<usize>>,
}

impl Tree {
    pub fn of(library: &Library) -> Tree {
        let nodes = 0..library.nodes.len();
        let mut tree = Tree {
            left: nodes.clone().map(|v| first_child(library, v)).collect(),
            right: nodes.clone().map(|v| next_sibling(library, v)).collect(),
            labels: library.nodes.iter().map(|n| n.label.clone()).collect(),
            values: nodes.clone().map(|v| string_value(library, v)).collect(),
            parents: vec![None; library.nodes.len()],
        };
        for parent in nodes {
            let children = [tree.left[parent], tree.right[parent]];
            for child in children.into_iter().flatten() {
                tree.parents[child] = Some(parent);
            }
        }
        tree
    }

    /// The number of nodes, N.
    pub fn size(&self) -> usize {
        self.labels.len()
    }

    /// What is compared of a node: its string value, cut. An element's text is
    /// joined already.
    pub fn compared(&self, node: usize) -> &[u8] {
        trimmed(&self.values[node])
    }

    /// The node itself, its parent, that one's parent, and so on to the root.
    /// "Parent, ancestor and below are meant in this binary tree".
    pub fn upward(&self, node: usize) -> impl Iterator<Item = usize> + '_ {
        std::iter::successors(Some(node), |child| self.parents[*child])
    }

    /// The node whose left child this one is.
    pub fn parent_of_left(&self, node: usize) -> Option<usize> {
        self.parents[node].filter(|parent| self.left[*parent] == Some(node))
    }

    /// The node whose right child this one is.
    pub fn parent_of_right(&self, node: usize) -> Option<usize> {
        self.parents[node].filter(|parent| self.right[*parent] == Some(node))
    }
}

/// The one byte that counts as a blank.
pub const BLANK: u8 = 0x20;

/// What is compared of a string value or of a constant: "Comparisons of values
/// and constants now ignore 0x20 bytes at both ends, after an element's text has
/// been joined. Blanks alone make the empty value." (02, b)
pub fn trimmed(text: &[u8]) -> &[u8] {
    let blanks = text.iter().take_while(|byte| **byte == BLANK);
    let behind = &text[blanks.count()..];
    let blanks = behind.iter().rev().take_while(|byte| **byte == BLANK);
    &behind[..behind.len() - blanks.count()]
}

/// The nodes inside an element in the document: those directly behind it as
/// long as they are deeper.
fn inside(library: &Library, node: usize) -> impl Iterator<Item = usize> + '_ {
    let depth = library.nodes[node].depth;
    (node + 1..library.nodes.len()).take_while(move |w| library.nodes[*w].depth > depth)
}

fn first_child(library: &Library, node: usize) -> Option<usize> {
    inside(library, node).next()
}

/// The node behind everything inside this one, if it has the same depth.
fn next_sibling(library: &Library, node: usize) -> Option<usize> {
    let next = node + inside(library, node).count() + 1;
    let same = library.nodes.get(next)?.depth == library.nodes[node].depth;
    same.then_some(next)
}

/// "The string value of text or an attribute is its V. An element's is all
/// text V inside it in the document, joined in order, without attributes".
fn string_value(library: &Library, node: usize) -> Vec<u8> {
    if library.nodes[node].kind != Kind::Element {
        return library.nodes[node].value.clone();
    }
    let texts: Vec<&[u8]> = inside(library, node)
        .map(|w| &library.nodes[w])
        .filter(|inner| inner.kind == Kind::Text)
        .map(|text| text.value.as_slice())
        .collect();
    texts.concat()
}
