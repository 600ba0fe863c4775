//! What would hold if the order signs compared texts and not amounts: so the
//! tests see whether it matters on their inputs that they do not.

use std::collections::BTreeSet;

use crate::document::Library;
use crate::meaning::holds;
use crate::reader;
use crate::rule::{parts, Piece, Sign, Test};
use crate::tree::{trimmed, Tree};

/// The tree and the rule with a numeral in the place of each value and each
/// constant. The numerals are equal and ordered as the texts are, by unsigned
/// bytes, a proper prefix being smaller.
pub fn by_text(library: &Library, rule: &Test) -> (Tree, Test) {
    let mut tree = Tree::of(library);
    // A rule has double quotes around its constants alone, so that each second
    // piece between them is one.
    let spelled = rule.spell();
    let pieces: Vec<&[u8]> = spelled.split(|byte| *byte == b'"').collect();
    let constants = pieces.iter().skip(1).step_by(2).map(|text| trimmed(text));
    let values = (0..tree.size()).map(|v| tree.compared(v));
    let rising: BTreeSet<Vec<u8>> = values.chain(constants).map(<[u8]>::to_vec).collect();
    let numeral = |text: &[u8]| {
        let smaller = rising.iter().take_while(|other| other.as_slice() < text);
        smaller.count().to_string().into_bytes()
    };
    tree.values = (0..tree.size())
        .map(|v| numeral(tree.compared(v)))
        .collect();
    let exchanged: Vec<Vec<u8>> = pieces
        .iter()
        .enumerate()
        .map(|(at, piece)| match at % 2 {
            0 => piece.to_vec(),
            _ => numeral(trimmed(piece)),
        })
        .collect();
    (tree, reader::read(&exchanged.join(&b'"')))
}

/// Whether a rule marks other nodes than it would by the order of texts.
pub fn marks_differ(library: &Library, rule: &Test) -> bool {
    let (tree, by_text) = by_text(library, rule);
    holds(&Tree::of(library), rule) != holds(&tree, &by_text)
}

/// Whether some comparison of the rule with an order sign holds at some node.
pub fn some_order_holds(tree: &Tree, rule: &Test) -> bool {
    parts(rule).iter().any(|part| match part.piece {
        Piece::Test(Test::Compare(_, Sign::Equal | Sign::Unequal, _)) => false,
        Piece::Test(test @ Test::Compare(..)) => holds(tree, test).contains(&true),
        _ => false,
    })
}
