//! Damage to one line of a document that knows what the line means: another
//! content of the due form, which may break a tree rule or the count, or a
//! content that no line may have, or both at once.

use std::ops::Range;

use super::{printable_of, Random};
use crate::document::{LABEL_LIMIT, VALUE_LIMIT};

/// A document with one line changed, or by chance with none. The first line
/// and the last are taken more often than their share.
pub fn damage_one_line(random: &mut Random, document: &[u8]) -> Vec<u8> {
    let Some(range) = pick_line(random, document) else {
        return Vec::new();
    };
    let line = &document[range.clone()];
    let (key, content) = match line.iter().position(|byte| *byte == b'=') {
        Some(at) => line.split_at(at + 1),
        None => (line, &b""[..]),
    };
    let content = content.strip_suffix(b"\n").unwrap_or(content);
    let before = &document[..range.start];
    let mut changed = match random.below(8) {
        0..=2 => [key, &same_form(random, key, content, before)].concat(),
        3 | 4 => [key, &no_form(random, key, content)].concat(),
        // Two errors on one line: 01 asks for the lowest number then.
        5 | 6 => {
            let content = same_form(random, key, content, before);
            [key, &no_form(random, key, &content)].concat()
        }
        _ => [key, content].concat(),
    };
    // Seven of eight keep their LF; the unchanged line always loses it.
    let unchanged = changed == [key, content].concat();
    if !unchanged && !random.percent(12) {
        changed.push(b'\n');
    }
    [&document[..range.start], &changed, &document[range.end..]].concat()
}

fn pick_line(random: &mut Random, document: &[u8]) -> Option<Range<usize>> {
    let ends = (0..document.len()).filter(|at| document[*at] == b'\n');
    let mut starts: Vec<usize> = ends.map(|at| at + 1).collect();
    starts.insert(0, 0);
    starts.pop_if(|start| *start == document.len());
    let line = match random.below(8) {
        _ if starts.is_empty() => return None,
        0 => 0,
        1 => starts.len() - 1,
        _ => random.below(starts.len()),
    };
    let end = starts.get(line + 1).copied().unwrap_or(document.len());
    Some(starts[line]..end)
}

/// Another content of the form that the key asks for. Before the line stands
/// this much of the document.
fn same_form(random: &mut Random, key: &[u8], content: &[u8], before: &[u8]) -> Vec<u8> {
    match key {
        b"nodes=" | b"depth=" => near(random, content).into_bytes(),
        b"kind=" => vec![*random.pick(b"eat")],
        // Of two attributes of one element the second would be a repeat.
        b"label=" if random.percent(30) => last_label(before),
        b"label=" => random
            .pick(&["text", "tex", "texts", "a", "t-9", "abcdefghijklmn-9"])
            .as_bytes()
            .to_vec(),
        _ => {
            let length = *random.pick(&[0, 1, 3, VALUE_LIMIT]);
            printable_of(random, length)
        }
    }
}

/// The label of the node before, if there is one.
fn last_label(before: &[u8]) -> Vec<u8> {
    let lines = before.rsplit(|byte| *byte == b'\n');
    let mut labels = lines.filter_map(|line| line.strip_prefix(b"label="));
    labels.next().unwrap_or(b"a").to_vec()
}

/// A number a little above or below the given one, or one at a limit.
fn near(random: &mut Random, numeral: &[u8]) -> String {
    let number: usize = String::from_utf8_lossy(numeral).parse().unwrap_or(0);
    let step = 1 + random.below(3);
    let number = match random.below(5) {
        0 | 1 => number + step,
        2 | 3 => number.saturating_sub(step),
        _ => *random.pick(&[0, 1, 4_095, 4_096, 4_097, 9_999, 10_000, 99_999]),
    };
    number.to_string()
}

/// A content that is too long, empty, begun wrongly, or has a byte inside that
/// is not allowed there; for some keys one or the other is still of the form.
fn no_form(random: &mut Random, key: &[u8], content: &[u8]) -> Vec<u8> {
    let mut content = content.to_vec();
    match random.below(6) {
        0 => content.clear(),
        1 => content.insert(0, *random.pick(b"0 +-=9A")),
        2 => content.push(*random.pick(b"\r\0 0\x7f\x1f")),
        3 => too_long(random, key, &mut content),
        _ => {
            let at = random.below(content.len() + 1);
            let byte = match random.percent(70) {
                true => *random.pick(b"\0\r\n\t\x1f\x7f\x80\xa0\xffAZ_~/:"),
                false => random.below(256) as u8,
            };
            content.insert(at, byte);
        }
    }
    content
}

/// Lengthens the content to the first length that the key does not allow, and
/// sometimes only to the last that it does.
fn too_long(random: &mut Random, key: &[u8], content: &mut Vec<u8>) {
    let most = match key {
        b"nodes=" => 5,
        b"depth=" => 4,
        b"kind=" => 1,
        b"label=" => LABEL_LIMIT,
        _ => VALUE_LIMIT,
    };
    let length = most + usize::from(random.percent(70));
    let last = content.last().copied().unwrap_or(b'a');
    content.resize(length, last);
}
