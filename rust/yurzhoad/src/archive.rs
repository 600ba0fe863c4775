//! The five proved functions as the archive has them, callable from safe Rust.
//!
//! This is the floor below [`Library`](crate::Library), [`Rule`](crate::Rule)
//! and [`Selector`](crate::Selector). Any bytes and buffers of any length may
//! be handed in: each call accepts or refuses them, and nothing need be checked
//! before. It is the only module with `unsafe` code.
//!
//! The declarations are those of `crates/exports/src/lib.rt`, written down by
//! hand, and the linker compares nothing but the names. A test compares the
//! fields of the records and the signatures with the text of the proved code.
//! The layout of the records is checked when this module is compiled.

use core::mem::{offset_of, size_of};

/// What the document check returns. The fields and their order are those of
/// the exported record.
#[repr(C)]
#[derive(Clone, Copy, Debug, PartialEq, Eq)]
pub struct DocumentAnswer {
    /// 0 if the document is accepted, or the number of the refusal, 1 to 4 or
    /// 14.
    pub number: u16,
    /// 0 if the document is accepted, or the place of the refusal: a line.
    pub place: usize,
    /// The number of nodes of an accepted document, else 0.
    pub nodes: usize,
}

/// What the rule check returns. The fields and their order are those of the
/// exported record.
#[repr(C)]
#[derive(Clone, Copy, Debug, PartialEq, Eq)]
pub struct RuleAnswer {
    /// 0 if the rule is accepted, or the number of the refusal, 5 to 9.
    pub number: u16,
    /// 0 if the rule is accepted, or the place of the refusal: an offset.
    pub place: usize,
}

/// What an evaluation returns. The fields and their order are those of the
/// exported record.
#[repr(C)]
#[derive(Clone, Copy, Debug, PartialEq, Eq)]
pub struct Evaluation {
    /// 0 if the call is accepted, or the number of the refusal: 1 to 11 or 14, and
    /// 13 or 23 where a list of values is lent.
    pub number: u16,
    /// 0 if the call is accepted, or the place of the refusal.
    pub place: usize,
    /// How many nodes are marked.
    pub selected: usize,
    /// How many snippets were counted; the plain evaluation counts none.
    pub snippets: usize,
}

/// The size of a length, and of all fields but the number.
const LENGTH: usize = size_of::<usize>();

// The number takes the room of a length: the next field is aligned like one.
const _: () = {
    assert!(size_of::<DocumentAnswer>() == 3 * LENGTH);
    assert!(offset_of!(DocumentAnswer, number) == 0);
    assert!(offset_of!(DocumentAnswer, place) == LENGTH);
    assert!(offset_of!(DocumentAnswer, nodes) == 2 * LENGTH);
    assert!(size_of::<RuleAnswer>() == 2 * LENGTH);
    assert!(offset_of!(RuleAnswer, number) == 0);
    assert!(offset_of!(RuleAnswer, place) == LENGTH);
    assert!(size_of::<Evaluation>() == 4 * LENGTH);
    assert!(offset_of!(Evaluation, number) == 0);
    assert!(offset_of!(Evaluation, place) == LENGTH);
    assert!(offset_of!(Evaluation, selected) == 2 * LENGTH);
    assert!(offset_of!(Evaluation, snippets) == 3 * LENGTH);
};

extern "C" {
    // A slice passes as a pointer and then a length.
    fn yurzhoad_check_document(document: *const u8, length: usize) -> DocumentAnswer;
    fn yurzhoad_check_rule(rule: *const u8, length: usize) -> RuleAnswer;
    fn yurzhoad_evaluate_plain(
        document: *const u8,
        document_length: usize,
        rule: *const u8,
        rule_length: usize,
        scratch: *mut u16,
        scratch_length: usize,
        marks: *mut u8,
        marks_length: usize,
    ) -> Evaluation;
    fn yurzhoad_evaluate_snippets(
        document: *const u8,
        document_length: usize,
        rule: *const u8,
        rule_length: usize,
        scratch: *mut u16,
        scratch_length: usize,
        marks: *mut u8,
        marks_length: usize,
    ) -> Evaluation;
    fn yurzhoad_evaluate_values(
        document: *const u8,
        document_length: usize,
        rule: *const u8,
        rule_length: usize,
        values: *const u16,
        values_length: usize,
        scratch: *mut u16,
        scratch_length: usize,
        marks: *mut u8,
        marks_length: usize,
    ) -> Evaluation;
}

/// Judges a document by numbers 1 to 4 and 14.
///
/// ```
/// use yurzhoad::archive::check_document;
///
/// let answer = check_document(b"nodes=1\ndepth=0\nkind=e\nlabel=lib\nvalue=\n");
/// assert_eq!((answer.number, answer.place, answer.nodes), (0, 0, 1));
/// ```
pub fn check_document(document: &[u8]) -> DocumentAnswer {
    // SAFETY: pointer and length are those of one slice that outlives the
    // call; the function only reads inside it and keeps no reference to it.
    unsafe { yurzhoad_check_document(document.as_ptr(), document.len()) }
}

/// Judges a rule by numbers 5 to 9.
///
/// ```
/// use yurzhoad::archive::check_rule;
///
/// let answer = check_rule(b":a!");
/// assert_eq!((answer.number, answer.place), (6, 2));
/// ```
pub fn check_rule(rule: &[u8]) -> RuleAnswer {
    // SAFETY: as above.
    unsafe { yurzhoad_check_rule(rule.as_ptr(), rule.len()) }
}

/// Evaluates a rule on a document by following its paths, and marks the nodes
/// that it selects. Judges by numbers 1 to 11 and 14; a refused call leaves both
/// buffers as they were.
///
/// A buffer that is too short is refused by number 10 or 11:
///
/// ```
/// use yurzhoad::archive::evaluate_plain;
/// use yurzhoad::limits::needed_words;
///
/// let document = b"nodes=1\ndepth=0\nkind=e\nlabel=lib\nvalue=\n";
/// let mut scratch = vec![7; needed_words(1)];
/// let mut marks = [7];
///
/// let answer = evaluate_plain(document, b":lib", &mut scratch[1..], &mut marks);
/// assert_eq!((answer.number, answer.place), (10, 0));
/// let answer = evaluate_plain(document, b":lib", &mut scratch, &mut []);
/// assert_eq!((answer.number, answer.place), (11, 0));
/// assert_eq!((scratch[0], marks), (7, [7]));
///
/// let answer = evaluate_plain(document, b":lib", &mut scratch, &mut marks);
/// assert_eq!((answer.number, answer.selected), (0, 1));
/// assert_eq!((scratch[0], marks), (0, [1]));
/// ```
pub fn evaluate_plain(
    document: &[u8],
    rule: &[u8],
    scratch: &mut [u16],
    marks: &mut [u8],
) -> Evaluation {
    // SAFETY: this is what the exported function asks and grants.
    unsafe { lend(yurzhoad_evaluate_plain, document, rule, scratch, marks) }
}

/// Evaluates a rule on a document by snippets, and counts them. Marks, refuses
/// and leaves the buffers as the plain evaluation does.
///
/// ```
/// use yurzhoad::archive::evaluate_snippets;
/// use yurzhoad::limits::needed_words;
///
/// let document = b"nodes=2\ndepth=0\nkind=e\nlabel=lib\nvalue=\n\
///                  depth=1\nkind=e\nlabel=drug\nvalue=\n";
/// let (mut scratch, mut marks) = (vec![0; needed_words(2)], [0; 2]);
/// let answer = evaluate_snippets(document, b"(e=e)", &mut scratch, &mut marks);
/// assert_eq!((answer.selected, answer.snippets), (2, 2));
/// ```
pub fn evaluate_snippets(
    document: &[u8],
    rule: &[u8],
    scratch: &mut [u16],
    marks: &mut [u8],
) -> Evaluation {
    // SAFETY: as above.
    unsafe { lend(yurzhoad_evaluate_snippets, document, rule, scratch, marks) }
}

/// Evaluates a rule that is one equality between two paths by some of its values:
/// those of the nodes in a list, in any order and each any number of times.
///
/// The count is that of the distinct snippets which these values yield, with all
/// snippets of the equalities in the rule's brackets. A node is marked if these
/// snippets settle it, or if both paths lead from it to one and the same node. By
/// a list that has every value, record, marks and scratch are those of
/// [`evaluate_snippets`].
///
/// It leaves the buffers as the other evaluations do, and refuses what they
/// refuse. Behind 9 it refuses by 23 a rule that is no such equality, and behind 11
/// by 13 a list with a node that the document does not have.
///
/// Of three equal values and two others, beside each other:
///
/// ```
/// use yurzhoad::archive::{evaluate_snippets, evaluate_values};
/// use yurzhoad::limits::needed_words;
///
/// let values = ["a", "a", "b", "a", "b"];
/// let texts = values.map(|value| format!("depth=1\nkind=t\nlabel=text\nvalue={value}\n"));
/// let document = ["nodes=6\ndepth=0\nkind=e\nlabel=lib\nvalue=\n", &texts.concat()].concat();
/// let (mut scratch, mut marks) = (vec![0; needed_words(6)], [0; 6]);
///
/// // Where the value of the next node but one is the same.
/// let mut evaluate = |values: &[u16]| {
///     let (document, rule) = (document.as_bytes(), b"(e=.rr)");
///     evaluate_values(document, rule, values, &mut scratch, &mut marks)
/// };
/// assert_eq!(evaluate(&[1]).selected, 1); // the values `a`: node 2
/// assert_eq!(evaluate(&[5]).selected, 1); // the values `b`: node 3
/// assert_eq!(evaluate(&[3, 1, 4]).selected, 2);
/// assert_eq!(evaluate(&[]).selected, 0);
/// assert_eq!(evaluate(&[6]).number, 13);
///
/// let all = evaluate(&[0, 1, 2, 3, 4, 5]);
/// let (document, rule) = (document.as_bytes(), b"(e=.rr)");
/// assert_eq!(evaluate_snippets(document, rule, &mut scratch, &mut marks), all);
/// ```
pub fn evaluate_values(
    document: &[u8],
    rule: &[u8],
    values: &[u16],
    scratch: &mut [u16],
    marks: &mut [u8],
) -> Evaluation {
    // SAFETY: each pointer and length are those of one slice that outlives the
    // call; the function reads inside all of them, writes to the two that are
    // borrowed mutably and so overlap nothing, and keeps no reference to any.
    unsafe {
        yurzhoad_evaluate_values(
            document.as_ptr(),
            document.len(),
            rule.as_ptr(),
            rule.len(),
            values.as_ptr(),
            values.len(),
            scratch.as_mut_ptr(),
            scratch.len(),
            marks.as_mut_ptr(),
            marks.len(),
        )
    }
}

/// An exported evaluation of a whole rule: a pointer and a length for each slice.
type Exported = unsafe extern "C" fn(
    *const u8,
    usize,
    *const u8,
    usize,
    *mut u16,
    usize,
    *mut u8,
    usize,
) -> Evaluation;

/// Lends the four slices to an exported evaluation.
///
/// # Safety
///
/// The function must read and write only inside the slices, write only to the
/// two that are borrowed for it alone, and keep no reference to any.
unsafe fn lend(
    evaluate: Exported,
    document: &[u8],
    rule: &[u8],
    scratch: &mut [u16],
    marks: &mut [u8],
) -> Evaluation {
    // SAFETY: each pointer and length are those of one slice that outlives the
    // call. The two to be written overlap nothing, since they are borrowed
    // mutably; what the function does inside is the caller's word.
    unsafe {
        evaluate(
            document.as_ptr(),
            document.len(),
            rule.as_ptr(),
            rule.len(),
            scratch.as_mut_ptr(),
            scratch.len(),
            marks.as_mut_ptr(),
            marks.len(),
        )
    }
}
