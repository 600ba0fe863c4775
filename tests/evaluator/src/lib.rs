//! An evaluator of document 01 with the requests (b), (d), (f), (h) and (k) of
//! document 02, written from their sentences and not from the proved code. No
//! code is shared. The archive is compared with it. Request (n) asks for no other
//! evaluation: what it supposes of two documents and a rule is said by `masking`,
//! and what it promises of them is tried on the archive and on this evaluator.
//!
//! By the definitions, over plain sets and tables, are
//! - the checks: `document`, and `grammar` with `rule_check`;
//! - the marks: `meaning`, where a path is the relation of the nodes that it
//!   joins (`relation`), and a count asks how many nodes one is related to;
//! - the snippets: `positions`, `chains` and `snippets`, where each skeleton is
//!   made from every two nodes of a value, and all first snippets and halves
//!   are written out and kept in one set;
//! - an equality by some of its values: `by_values`, where this set is made from
//!   the first snippets of these values alone, each value looked at once, and the
//!   marks are what the settling rule says of this very set. In `value_lists` they
//!   are also compared with where the two paths lead. The grounds 13 and 23 are
//!   tested here too, and the order by size is the sorted list of the groups.
//!
//! What is compared is cut by `tree::trimmed` and nowhere else, values by
//! `Tree::compared` and constants where they stand. What is a numeral, and its
//! amount, is said by `amount` and nowhere else, and how values compare by
//! `meaning::compare`.
//!
//! The checks have no bound; marks and snippets are meant for libraries of up to
//! a few hundred nodes. In six places something is found in a quicker way than
//! the sentence says, and the tests in `tests/suite` hold it against the
//! sentence:
//! - `document` keeps the labels of the attributes of the element at hand; in
//!   `repeated_labels` every two attributes of one element are compared.
//! - `relation` joins relations row by row and closes them by rows that grow
//!   until none does; in `relations` both are done pair by pair.
//! - `positions` keeps what two steps see of a word and not the words; in
//!   `word_positions` the words are written out.
//! - `chains` searches from place to place; in `place_chains` it is the closure
//!   of the single links. A search by a list of what is open is also how the
//!   proved plain evaluation walks (crate `reach`, over sets of positions).
//! - `masking` compares each two values once; in its tests, each two nodes.
//! - `backward` has the marks a second time, and no snippets, for libraries of
//!   up to 4,096 nodes. That it goes backwards from the nodes where paths end is
//!   also the way of the proved crate `backward` (for constants and order, over
//!   positions), so it is no way of its own; in `meanings` it is compared with
//!   `meaning` at every node, on random libraries of up to 300 nodes. Counts it
//!   settles as `meaning` does; in `at_least` they are settled node by node.

pub mod amount;
pub mod backward;
pub mod by_values;
pub mod chains;
pub mod document;
pub mod evaluate;
pub mod grammar;
pub mod masking;
pub mod meaning;
pub mod positions;
pub mod program;
pub mod random;
pub mod reader;
pub mod relation;
pub mod rule;
pub mod rule_check;
pub mod samples;
pub mod shrink;
pub mod snippets;
pub mod text_order;
pub mod tree;
pub mod uncut;

/// What a refused check hands back: a number and a place of document 01's table,
/// or of a request of document 02.
#[derive(Clone, Copy, Debug, PartialEq, Eq)]
pub struct Refusal {
    pub number: u32,
    pub place: usize,
}

/// Shortens the refusals in the checks.
pub(crate) fn refuse<T>(number: u32, place: usize) -> Result<T, Refusal> {
    Err(Refusal { number, place })
}
