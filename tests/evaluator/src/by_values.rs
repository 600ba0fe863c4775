//! One equality by a list of its values, request (k) of document 02: "Given only
//! some of one comparison's values, it counts for it just the distinct snippets
//! that these yield." A node of the list stands for its value.

use std::collections::{BTreeMap, BTreeSet};

use crate::evaluate::{check_lengths, count_equality, write, Outcome};
use crate::rule::{equalities, Operand, Sign, Test};
use crate::snippets::settle_by;
use crate::tree::Tree;
use crate::{document, refuse, rule_check, Refusal};

/// A whole call, with the very buffers. The marks are what the settling rule of
/// document 01 says of the snippets that the values of the list yield.
pub fn evaluate_values(
    document: &[u8],
    rule: &[u8],
    values: &[u16],
    scratch: &mut [u16],
    marks: &mut [u8],
) -> Outcome {
    match accept(document, rule, values, scratch.len(), marks.len()) {
        Ok((tree, test)) => write(scratch, marks, evaluated(&tree, &test, values)),
        // "all buffers unchanged"
        Err(refusal) => Outcome::refused(refusal),
    }
}

/// The checks in their order: the document's, the rule's, 23, 10, 11, 13.
fn accept(
    document: &[u8],
    rule: &[u8],
    values: &[u16],
    words: usize,
    marks: usize,
) -> Result<(Tree, Test), Refusal> {
    let library = document::read(document)?;
    let test = rule_check::read(rule)?;
    let nodes = library.nodes.len();
    // "23, the rule is no such comparison, place 0, after 9" (02, m)
    if !is_equality(&test) {
        return refuse(23, 0);
    }
    check_lengths(nodes, words, marks)?;
    // "13, a given node is not below N, place 0, after 10" (02, c), and after 11
    // where marks are lent
    if values.iter().any(|node| usize::from(*node) >= nodes) {
        return refuse(13, 0);
    }
    Ok((Tree::of(&library), test))
}

/// Whether a rule is one equality between two paths.
pub fn is_equality(rule: &Test) -> bool {
    matches!(rule, Test::Compare(_, Sign::Equal, Operand::Path(_)))
}

/// Where the snippets of the list settle the equality, and how many they are,
/// with all snippets of the equalities inside its brackets.
fn evaluated(tree: &Tree, rule: &Test, values: &[u16]) -> (Vec<bool>, usize) {
    let all = equalities(rule);
    let ((p, r), nested) = all.split_first().expect("the rule is an equality");
    let settlement = settle_by(tree, p, r, nodes_of(values));
    let nested = nested.iter().map(|(p, r)| count_equality(tree, p, r));
    let count = settlement.snippets.len() + nested.sum::<usize>();
    (settlement.holds, count)
}

/// The nodes of a list, as the evaluator numbers them.
pub fn nodes_of(values: &[u16]) -> impl Iterator<Item = usize> + '_ {
    values.iter().map(|node| usize::from(*node))
}

/// The nodes of each value, rising; the values by their first nodes.
pub fn groups(tree: &Tree) -> Vec<Vec<usize>> {
    let mut nodes: BTreeMap<&[u8], Vec<usize>> = BTreeMap::new();
    for v in 0..tree.size() {
        nodes.entry(tree.compared(v)).or_default().push(v);
    }
    let mut groups: Vec<Vec<usize>> = nodes.into_values().collect();
    groups.sort();
    groups
}

/// Each value by its first node, "by falling size, and equal sizes by rising
/// first node".
pub fn largest_first(tree: &Tree) -> Vec<u16> {
    let mut groups = groups(tree);
    groups.sort_by_key(|nodes| (usize::MAX - nodes.len(), nodes[0]));
    groups.iter().map(|nodes| nodes[0] as u16).collect()
}

/// Whether the list has each value of the tree, and nothing else.
pub fn has_every_value(tree: &Tree, values: &[u16]) -> bool {
    let inside = nodes_of(values).all(|node| node < tree.size());
    let of = |nodes: &mut dyn Iterator<Item = usize>| -> BTreeSet<Vec<u8>> {
        nodes.map(|v| tree.compared(v).to_vec()).collect()
    };
    inside && of(&mut nodes_of(values)) == of(&mut (0..tree.size()))
}
