//! What would hold if nothing were cut: so the tests see whether it matters on
//! their inputs that values and constants are.

use crate::document::Library;
use crate::rule::{equalities, Test};
use crate::snippets::settle;
use crate::tree::{Tree, BLANK};
use crate::{meaning, reader};

/// Below all bytes that a value may have, as the blank is, and no blank.
const OTHER: u8 = BLANK - 1;

/// The tree and the rule with another byte in the place of each blank. Nothing
/// of them is cut, and they are equal and ordered as the whole values are.
pub fn uncut(library: &Library, rule: &Test) -> (Tree, Test) {
    let exchanged = |bytes: &[u8]| -> Vec<u8> {
        let other = |byte: &u8| if *byte == BLANK { OTHER } else { *byte };
        bytes.iter().map(other).collect()
    };
    let mut library = library.clone();
    for node in &mut library.nodes {
        node.value = exchanged(&node.value);
    }
    // A rule has blanks in its constants alone.
    let rule = reader::read(&exchanged(&rule.spell()));
    (Tree::of(&library), rule)
}

/// Whether a rule marks other nodes than it would if nothing were cut.
pub fn marks_differ(library: &Library, rule: &Test) -> bool {
    let (tree, whole) = uncut(library, rule);
    meaning::holds(&Tree::of(library), rule) != meaning::holds(&tree, &whole)
}

/// Whether it has another number of snippets.
pub fn counts_differ(library: &Library, rule: &Test) -> bool {
    let count = |tree: &Tree, rule: &Test| -> usize {
        let snippets = |(p, r)| settle(tree, p, r).snippets.len();
        equalities(rule).into_iter().map(snippets).sum()
    };
    let (tree, whole) = uncut(library, rule);
    count(&Tree::of(library), rule) != count(&tree, &whole)
}
