//! Blanks around values and constants.

use super::Random;
use crate::document::{Kind, Library, Node, VALUE_LIMIT};
use crate::tree::BLANK;

/// A text with blanks at its ends, no longer than it may be. One in six becomes
/// blanks alone.
pub fn padded(random: &mut Random, text: &[u8], longest: usize) -> Vec<u8> {
    let kept = match random.below(6) {
        0 => &[],
        _ => text,
    };
    let room = longest - kept.len();
    let front = blanks(random).min(room);
    let behind = blanks(random).min(room - front);
    [&vec![BLANK; front], kept, &vec![BLANK; behind]].concat()
}

/// The whole text with blanks at its ends, which are cut again.
pub(super) fn surrounded(random: &mut Random, text: &[u8]) -> Vec<u8> {
    let room = VALUE_LIMIT - text.len();
    let front = blanks(random).min(room);
    let behind = blanks(random).min(room - front);
    [&vec![BLANK; front], text, &vec![BLANK; behind]].concat()
}

/// How many blanks stand at one end: mostly few or none, seldom very many.
fn blanks(random: &mut Random) -> usize {
    match random.below(20) {
        0 => random.below(VALUE_LIMIT + 1),
        _ => random.below(4),
    }
}

/// The library with blanks where they are cut again: around the attributes,
/// before the first text and behind the last. Each element that has one of these
/// texts begins or ends with it. So every rule marks the same nodes.
pub fn padded_ends(random: &mut Random, library: &Library) -> Library {
    let mut nodes = library.nodes.clone();
    let attributes = nodes.iter_mut();
    for node in attributes.filter(|node| node.kind == Kind::Attribute) {
        put_before(random, node);
        put_behind(random, node);
    }
    let is_text = |node: &&mut Node| node.kind == Kind::Text;
    if let Some(first) = nodes.iter_mut().find(is_text) {
        put_before(random, first);
    }
    if let Some(last) = nodes.iter_mut().rfind(is_text) {
        put_behind(random, last);
    }
    Library { nodes }
}

fn put_before(random: &mut Random, node: &mut Node) {
    let count = blanks(random).min(VALUE_LIMIT - node.value.len());
    node.value.splice(0..0, vec![BLANK; count]);
}

fn put_behind(random: &mut Random, node: &mut Node) {
    let count = blanks(random).min(VALUE_LIMIT - node.value.len());
    node.value.resize(node.value.len() + count, BLANK);
}
