//! The two evaluations: the order of checks, the record, the marks.

use crate::rule::{equalities, Operand, Path, Sign, Test};
use crate::snippets::settle;
use crate::tree::Tree;
use crate::{document, meaning, refuse, rule_check, Refusal};

#[derive(Clone, Copy, Debug, PartialEq, Eq)]
pub enum Evaluation {
    Plain,
    Snippets,
}

/// "An evaluation returns number, place, selected, snippets".
#[derive(Clone, Copy, Debug, PartialEq, Eq)]
pub struct Outcome {
    pub number: u32,
    pub place: usize,
    pub selected: usize,
    pub snippets: usize,
}

impl Outcome {
    /// "Refused: every count and N 0".
    pub(crate) fn refused(Refusal { number, place }: Refusal) -> Outcome {
        Outcome {
            number,
            place,
            selected: 0,
            snippets: 0,
        }
    }

    /// "Accepted: number 0, place 0."
    fn accepted(holds: &[bool], snippets: usize) -> Outcome {
        Outcome {
            number: 0,
            place: 0,
            selected: holds.iter().filter(|holds| **holds).count(),
            snippets,
        }
    }
}

/// "B is the number of binary digits of N."
pub fn binary_digits(nodes: usize) -> usize {
    let mut digits = 0;
    while nodes >> digits > 0 {
        digits += 1;
    }
    digits
}

/// "at least N × (64 × B + 128) of them"
pub fn needed_words(nodes: usize) -> usize {
    nodes * (64 * binary_digits(nodes) + 128)
}

/// "The plain evaluation reports 0."
const NO_SNIPPETS: usize = 0;

/// Evaluates, given how many scratch words and marks are lent. The first N
/// marks are handed back if the call is accepted; otherwise "all buffers
/// unchanged".
pub fn evaluate(
    document: &[u8],
    rule: &[u8],
    words: usize,
    marks: usize,
    evaluation: Evaluation,
) -> (Outcome, Option<Vec<u8>>) {
    let (tree, test) = match accept(document, rule, words, marks) {
        Ok(accepted) => accepted,
        Err(refusal) => return (Outcome::refused(refusal), None),
    };
    let holds = meaning::holds(&tree, &test);
    let count = count_snippets(&tree, &test);
    let snippets = match evaluation {
        Evaluation::Plain => NO_SNIPPETS,
        Evaluation::Snippets => count,
    };
    let outcome = Outcome::accepted(&holds, snippets);
    (outcome, Some(holds.into_iter().map(u8::from).collect()))
}

/// For each node whether a test holds there: `meaning::holds`, or
/// `backward::holds` for a large library.
pub type Meaning = fn(&Tree, &Test) -> Vec<bool>;

/// A whole call of the plain evaluation, with the very buffers.
pub fn evaluate_plain(
    document: &[u8],
    rule: &[u8],
    scratch: &mut [u16],
    marks: &mut [u8],
    meaning: Meaning,
) -> Outcome {
    call(document, rule, scratch, marks, |tree, test| {
        (meaning(tree, test), NO_SNIPPETS)
    })
}

/// A whole call of the snippet evaluation, with the very buffers. That the
/// snippets settle each comparison as its meaning does is asserted by the
/// count.
pub fn evaluate_snippets(
    document: &[u8],
    rule: &[u8],
    scratch: &mut [u16],
    marks: &mut [u8],
) -> Outcome {
    call(document, rule, scratch, marks, |tree, test| {
        (meaning::holds(tree, test), count_snippets(tree, test))
    })
}

/// The call that was accepted with these, or its refusal.
fn call(
    document: &[u8],
    rule: &[u8],
    scratch: &mut [u16],
    marks: &mut [u8],
    evaluated: impl Fn(&Tree, &Test) -> (Vec<bool>, usize),
) -> Outcome {
    match accept(document, rule, scratch.len(), marks.len()) {
        Ok((tree, test)) => write(scratch, marks, evaluated(&tree, &test)),
        // "all buffers unchanged"
        Err(refusal) => Outcome::refused(refusal),
    }
}

/// "After an accepted evaluation those first words are 0 and later ones
/// unchanged; marks are bytes, the first N of them 0 or 1 and later ones
/// unchanged."
pub(crate) fn write(
    scratch: &mut [u16],
    marks: &mut [u8],
    (holds, snippets): (Vec<bool>, usize),
) -> Outcome {
    scratch[..needed_words(holds.len())].fill(0);
    for (mark, holds) in marks.iter_mut().zip(&holds) {
        *mark = u8::from(*holds);
    }
    Outcome::accepted(&holds, snippets)
}

/// The checks in their order: the document's, the rule's, 10, 11.
fn accept(
    document: &[u8],
    rule: &[u8],
    words: usize,
    marks: usize,
) -> Result<(Tree, Test), Refusal> {
    let library = document::read(document)?;
    let test = rule_check::read(rule)?;
    check_lengths(library.nodes.len(), words, marks)?;
    Ok((Tree::of(&library), test))
}

/// 10, then 11.
pub(crate) fn check_lengths(nodes: usize, words: usize, marks: usize) -> Result<(), Refusal> {
    if words < needed_words(nodes) {
        return refuse(10, 0);
    }
    if marks < nodes {
        return refuse(11, 0);
    }
    Ok(())
}

/// "The count is at most 128 × N × B × E, where E is the number of these
/// comparisons, each place in the rule counted."
pub fn most_snippets(nodes: usize, test: &Test) -> usize {
    most_snippets_of_one(nodes) * equalities(test).len()
}

/// The same of one comparison.
fn most_snippets_of_one(nodes: usize) -> usize {
    128 * nodes * binary_digits(nodes)
}

/// "The count that an evaluation reports is the size of these sets, added over
/// all such comparisons."
///
/// What document 01 promises of every accepted document and rule is asserted
/// here, so whenever snippets are counted: at every node the settling rule and
/// the definition agree, and the counts keep their bound. `evaluate` counts for
/// the plain evaluation too; `evaluate_plain` does not.
fn count_snippets(tree: &Tree, test: &Test) -> usize {
    let count = |(p, r)| count_equality(tree, p, r);
    let total = equalities(test).into_iter().map(count).sum();
    assert!(total <= most_snippets(tree.size(), test));
    total
}

/// The snippets of one equality between two paths, with the same assertions.
pub(crate) fn count_equality(tree: &Tree, p: &Path, r: &Path) -> usize {
    let settlement = settle(tree, p, r);
    let equality = Test::Compare(p.clone(), Sign::Equal, Operand::Path(r.clone()));
    assert_eq!(
        settlement.holds,
        meaning::holds(tree, &equality),
        "the settling rule and the definition differ on {}",
        String::from_utf8_lossy(&equality.spell())
    );
    let (count, bound) = (settlement.snippets.len(), most_snippets_of_one(tree.size()));
    assert!(count <= bound, "{count} snippets, at most {bound} promised");
    count
}
