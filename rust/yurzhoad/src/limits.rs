//! The limits of documents and rules, as the proved code has them.
//!
//! They are written down here a second time, since the archive exports
//! functions alone. A test holds them against the file of the proved code.

/// The most bytes of a document.
pub const MAX_DOCUMENT_BYTES: usize = 1_048_576;

/// The most nodes of a document.
pub const MAX_NODES: usize = 4_096;

/// The most digits of the number of nodes.
pub const MAX_COUNT_DIGITS: usize = 5;

/// The most digits of a depth.
pub const MAX_DEPTH_DIGITS: usize = 4;

/// The most bytes of a label, and of a name in a rule.
pub const MAX_LABEL: usize = 16;

/// The most bytes of a value.
pub const MAX_VALUE: usize = 255;

/// The most bytes of a rule.
pub const MAX_RULE_BYTES: usize = 1_024;

/// The most tests of a rule.
pub const MAX_TESTS: usize = 64;

/// The deepest nesting of a part of a rule; the whole rule has nesting 1.
pub const MAX_NESTING: usize = 32;

/// The most steps of a comparison, both paths together, and of a count.
pub const MAX_STEPS: usize = 14;

/// The most bytes of a constant in a rule.
pub const MAX_CONSTANT: usize = 32;

/// The greatest number that a count may ask for: `#nP` holds where the path P
/// reaches at least n different nodes.
pub const MAX_COUNT: usize = 4_096;

/// The most digits of a numeral, those behind its point not counted. What has
/// more is not refused: it is no numeral, and no order sign holds with it.
pub const MAX_NUMERAL_DIGITS: usize = 9;

/// The most digits of a numeral behind its point.
pub const MAX_NUMERAL_DECIMALS: usize = 4;

/// The words of scratch for each node and each binary digit of the number of
/// nodes.
const WORDS_PER_DIGIT: usize = 64;

/// The words of scratch for each node beside them.
const WORDS_PER_NODE: usize = 128;

/// The words of scratch that an evaluation needs for a document of so many
/// nodes: N × (64 × B + 128), B being the number of binary digits of N.
///
/// ```
/// use yurzhoad::limits::{needed_words, MAX_NODES};
///
/// assert_eq!(needed_words(5), 1_600);
/// assert_eq!(needed_words(MAX_NODES), 3_932_160);
/// ```
///
/// # Panics
///
/// Where the product does not fit into a `usize`, which is far above
/// [`MAX_NODES`].
pub const fn needed_words(nodes: usize) -> usize {
    let digits = (usize::BITS - nodes.leading_zeros()) as usize;
    match nodes.checked_mul(WORDS_PER_DIGIT * digits + WORDS_PER_NODE) {
        Some(words) => words,
        None => panic!("so many nodes are in no document"),
    }
}
