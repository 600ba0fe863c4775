//! Masked names: what request (n) of document 02 supposes of two documents and a
//! rule. "Take two accepted documents alike in depths, kinds and labels, and a
//! rule accepted with both. Suppose that all six signs come out the same on the
//! values of each two nodes, a node with itself included, and on each node's
//! value against each constant of the rule. Then two accepted evaluations of one
//! kind mark the same nodes and report equal snippet counts."
//!
//! Two values are compared inside one document, and what comes out is held
//! against what comes out in the other. Nothing is evaluated here.

use std::collections::BTreeSet;

use crate::document::Library;
use crate::meaning::compare;
use crate::rule::{parts, Operand, Piece, Sign, Test};
use crate::tree::{trimmed, Tree};

/// What a node's value stands before.
#[derive(Clone, Copy, Debug, PartialEq, Eq)]
pub enum Right<'a> {
    /// The value of a node, which may be the same one.
    Node(usize),
    /// A constant as the rule has it.
    Constant(&'a [u8]),
}

/// A sign that holds in one of the two documents and fails in the other, behind
/// the value of the node on the left.
#[derive(Clone, Copy, Debug, PartialEq, Eq)]
pub struct Difference<'a> {
    pub left: usize,
    pub sign: Sign,
    pub right: Right<'a>,
}

/// "two accepted documents alike in depths, kinds and labels": node by node, so
/// that there are as many.
pub fn alike(one: &Library, other: &Library) -> bool {
    let mut nodes = one.nodes.iter().zip(&other.nodes);
    one.nodes.len() == other.nodes.len()
        && nodes.all(|(a, b)| (a.depth, a.kind, &a.label) == (b.depth, b.kind, &b.label))
}

/// "each constant of the rule", wherever it stands: in a bracket, in the path of
/// a count, behind `!`. One that stands twice is given twice.
pub fn constants(rule: &Test) -> Vec<&[u8]> {
    parts(rule)
        .into_iter()
        .filter_map(|part| match part.piece {
            Piece::Test(Test::Compare(_, _, Operand::Constant(text))) => Some(text.as_slice()),
            _ => None,
        })
        .collect()
}

/// All signs that do not come out the same, by the sentence: on each two nodes in
/// both orders, on a node and itself, and on each node and each constant. Of the
/// documents only the values are looked at.
pub fn differences<'a>(one: &Tree, other: &Tree, rule: &'a Test) -> Vec<Difference<'a>> {
    assert_eq!(one.size(), other.size(), "documents that are not alike");
    let nodes = || 0..one.size();
    let constants = constants(rule);
    let rights: Vec<Right> = nodes()
        .map(Right::Node)
        .chain(constants.into_iter().map(Right::Constant))
        .collect();
    let mut found = Vec::new();
    for left in nodes() {
        for right in &rights {
            for sign in Sign::ALL {
                if comes_out(one, left, sign, *right) != comes_out(other, left, sign, *right) {
                    let right = *right;
                    found.push(Difference { left, sign, right });
                }
            }
        }
    }
    found
}

/// Whether a sign holds in this document. What is compared is cut (02, b).
fn comes_out(tree: &Tree, left: usize, sign: Sign, right: Right) -> bool {
    let behind = match right {
        Right::Node(node) => tree.compared(node),
        Right::Constant(text) => trimmed(text),
    };
    compare(sign, tree.compared(left), behind)
}

/// What one thing is in the one document and in the other. For a constant it is
/// the same.
type Held<'a> = (&'a [u8], &'a [u8]);

/// Whether all of it is so: the documents are alike, and no sign differs. What a
/// sign says depends on the values alone, so two nodes that share their value in
/// both documents are looked at once; the test `masked_is_what_the_sentence_says`
/// holds this against the sentence.
pub fn masked(one: &Library, other: &Library, rule: &Test) -> bool {
    alike(one, other) && same_signs(&Tree::of(one), &Tree::of(other), rule)
}

/// The same of two documents that are known to be alike, and have these trees.
pub fn same_signs(one: &Tree, other: &Tree, rule: &Test) -> bool {
    let values = |v: usize| (one.compared(v), other.compared(v));
    let held: BTreeSet<Held> = (0..one.size()).map(values).collect();
    let constants = constants(rule).into_iter().map(trimmed);
    let constants: BTreeSet<Held> = constants.map(|text| (text, text)).collect();
    let rights = || held.iter().chain(&constants);
    held.iter()
        .all(|left| rights().all(|right| signs_agree(*left, *right)))
}

/// Whether all six signs come out the same between two things.
pub(crate) fn signs_agree(left: Held, right: Held) -> bool {
    Sign::ALL
        .iter()
        .all(|sign| compare(*sign, left.0, right.0) == compare(*sign, left.1, right.1))
}
