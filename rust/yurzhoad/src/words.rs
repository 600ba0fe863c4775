//! What is wrong, in words for those who write documents and rules.

use crate::limits::{
    needed_words, MAX_COUNT_DIGITS, MAX_DEPTH_DIGITS, MAX_DOCUMENT_BYTES, MAX_LABEL, MAX_NESTING,
    MAX_NODES, MAX_RULE_BYTES, MAX_STEPS, MAX_TESTS, MAX_VALUE,
};
use crate::refusal::Ground;

/// What is wrong at this place.
pub fn of(ground: Ground, place: usize, document: &[u8], rule: &[u8]) -> String {
    match ground {
        Ground::DocumentLength => {
            let bytes = document.len();
            format!("it has {bytes} bytes, and at most {MAX_DOCUMENT_BYTES} are allowed")
        }
        Ground::LineForm => due(place, document),
        Ground::NodeCount => format!("the number of nodes is 1 to {MAX_NODES}"),
        Ground::TreeRule => tree_rule(place).to_string(),
        Ground::RuleLength => {
            let bytes = rule.len();
            format!("it has {bytes} bytes, and at most {MAX_RULE_BYTES} are allowed")
        }
        Ground::Unreadable if place >= rule.len() => "it ends here and is not whole".to_string(),
        Ground::Unreadable => "it does not read on from here".to_string(),
        Ground::Nesting => format!("the part that begins here is nested deeper than {MAX_NESTING}"),
        Ground::Tests => format!("a test begins here, and {MAX_TESTS} tests are before it already"),
        Ground::Steps if rule.get(place) == Some(&b'#') => {
            format!("the count that begins here has more than {MAX_STEPS} steps")
        }
        Ground::Steps => format!("the comparison that opens here has more than {MAX_STEPS} steps"),
        Ground::ScratchLength => {
            let nodes = count(document).unwrap_or(0);
            let (words, nodes) = (needed_words(nodes), counted(nodes));
            format!("the scratch is too short: {words} words are needed for {nodes}")
        }
        Ground::MarksLength => {
            let nodes = counted(count(document).unwrap_or(0));
            format!("there are too few marks: the document has {nodes}")
        }
        Ground::NoSuchNode => {
            let nodes = counted(count(document).unwrap_or(0));
            format!("a node of the list is not in the document, which has {nodes}")
        }
        Ground::DuplicateAttribute => duplicate(place, document),
        Ground::OtherComparison => "it is not one equality between two paths".to_string(),
    }
}

/// So many nodes, in words.
fn counted(nodes: usize) -> String {
    match nodes {
        1 => "1 node".to_string(),
        _ => format!("{nodes} nodes"),
    }
}

/// The four lines of a node.
enum Field {
    Depth,
    Kind,
    Label,
    Value,
}

/// The field that line 2 or a later one has.
fn field(line: usize) -> Field {
    match line.wrapping_sub(2) % 4 {
        0 => Field::Depth,
        1 => Field::Kind,
        2 => Field::Label,
        _ => Field::Value,
    }
}

/// What is due at a line that is not of its form.
fn due(line: usize, document: &[u8]) -> String {
    let form = match (line, count(document)) {
        (1, _) => numeral("nodes", MAX_COUNT_DIGITS),
        (_, Some(nodes)) if line > 4 * nodes + 1 => {
            let nodes = counted(nodes);
            return format!("nothing is due here: the lines of its {nodes} are above");
        }
        _ => match field(line) {
            Field::Depth => numeral("depth", MAX_DEPTH_DIGITS),
            Field::Kind => "`kind=` and one of `e`, `a` and `t`".to_string(),
            Field::Label => {
                format!("`label=` and 1 to {MAX_LABEL} of a-z, 0-9 and hyphen, the first a letter")
            }
            Field::Value => format!("`value=` and 0 to {MAX_VALUE} printable ASCII characters"),
        },
    };
    format!("due here is {form}")
}

/// The form of a line with a number.
fn numeral(key: &str, most: usize) -> String {
    format!("`{key}=` and a number of 1 to {most} digits without leading zeros")
}

/// What the tree rules ask of this line.
fn tree_rule(line: usize) -> &'static str {
    match (line, field(line)) {
        (2, _) => "the first node has depth 0",
        (3, _) => "the first node is an element",
        (_, Field::Depth) => {
            "depth 0 is for the first node alone; a node is at most one deeper than the node \
             before it, and deeper only if that is an element"
        }
        (_, Field::Kind) => {
            "an attribute stands directly behind its element, one deeper, \
             or behind another attribute of the same depth"
        }
        (_, Field::Label) => "a text has the label `text`",
        (_, Field::Value) => "an element has no value of its own",
    }
}

/// Which attribute has the label of this line already.
fn duplicate(line: usize, document: &[u8]) -> String {
    let words = "the element has an attribute with this label already";
    match same_label(line, document) {
        Some(first) => format!("{words}, on line {first}"),
        None => words.to_string(),
    }
}

/// The line before this one that gives the same label to an attribute of the
/// same element. The attributes of an element stand one behind the other, so
/// that they are looked for upwards, as far as there is nothing else.
fn same_label(line: usize, document: &[u8]) -> Option<usize> {
    let lines: Vec<&[u8]> = document.split(|byte| *byte == b'\n').take(line).collect();
    let label = lines.get(line.checked_sub(1)?)?;
    // Each node has four lines, and its kind stands on the line above its label.
    let above = (2..line).rev().skip(3).step_by(4);
    above
        .take_while(|other| lines[other - 2] == b"kind=a")
        .find(|other| lines[other - 1] == *label)
}

/// The number of nodes that the first line says, if it has the form.
fn count(document: &[u8]) -> Option<usize> {
    let end = document.iter().position(|byte| *byte == b'\n')?;
    let numeral = document[..end].strip_prefix(b"nodes=")?;
    if !numeral.iter().all(u8::is_ascii_digit) || numeral.len() > MAX_COUNT_DIGITS {
        return None;
    }
    std::str::from_utf8(numeral).ok()?.parse().ok()
}
