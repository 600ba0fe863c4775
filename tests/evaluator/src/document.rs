//! The library document: what it spells, and its check (numbers 1 to 4, and 14
//! of document 02).

use std::collections::BTreeSet;

use crate::{refuse, Refusal};

/// "document above 1,048,576 bytes"
pub const BYTE_LIMIT: usize = 1_048_576;
/// "N is 1 to 4,096"
pub const NODE_LIMIT: usize = 4_096;
/// "N has 1 to 5 digits and D 1 to 4"
const COUNT_DIGITS: usize = 5;
const DEPTH_DIGITS: usize = 4;
/// "S is 1 to 16 bytes"
pub const LABEL_LIMIT: usize = 16;
/// "V is 0 to 255 bytes"
pub const VALUE_LIMIT: usize = 255;
/// "Then four lines for each node"
const LINES_PER_NODE: usize = 4;

#[derive(Clone, Copy, Debug, PartialEq, Eq)]
pub enum Kind {
    Element,
    Attribute,
    Text,
}

#[derive(Clone, Debug, PartialEq, Eq)]
pub struct Node {
    pub depth: usize,
    pub kind: Kind,
    pub label: Vec<u8>,
    pub value: Vec<u8>,
}

/// The nodes in document order.
#[derive(Clone, Debug, PartialEq, Eq)]
pub struct Library {
    pub nodes: Vec<Node>,
}

/// What the document check hands back: "the checks return number and place,
/// and the document check also N".
#[derive(Clone, Copy, Debug, PartialEq, Eq)]
pub struct DocumentRecord {
    pub number: u32,
    pub place: usize,
    pub nodes: usize,
}

/// The document check. "Accepted: number 0, place 0. Refused: every count and N 0".
pub fn check(document: &[u8]) -> DocumentRecord {
    match read(document) {
        Ok(library) => DocumentRecord {
            number: 0,
            place: 0,
            nodes: library.nodes.len(),
        },
        Err(Refusal { number, place }) => DocumentRecord {
            number,
            place,
            nodes: 0,
        },
    }
}

/// The library that a document spells, or the refusal that comes first:
/// "Order: 1; then the first bad line of 2 to 4, lowest number if one line has
/// two", and 14 is "taken in line order with 2 to 4" (02, d). The lines are
/// taken in order, and on each line form before tree rule before repeat.
pub fn read(document: &[u8]) -> Result<Library, Refusal> {
    if document.len() > BYTE_LIMIT {
        return refuse(1, 0);
    }
    let lines: Vec<&[u8]> = document.split_inclusive(|byte| *byte == b'\n').collect();
    let count = read_count(&lines)?;
    let mut nodes = Vec::new();
    // The labels of the attributes so far of the element at hand. They stand
    // right behind its lines, so that any other node ends them.
    let mut given = BTreeSet::new();
    while nodes.len() < count {
        let node = read_node(&lines, &nodes, &given)?;
        match node.kind {
            Kind::Attribute => {
                given.insert(node.label.clone());
            }
            Kind::Element | Kind::Text => given.clear(),
        }
        nodes.push(node);
    }
    let due = LINES_PER_NODE * count + 1;
    if lines.len() > due {
        return refuse(2, due + 1);
    }
    Ok(Library { nodes })
}

/// The spelling of a library, whether legal or not.
pub fn spell(library: &Library) -> Vec<u8> {
    let mut bytes = format!("nodes={}\n", library.nodes.len()).into_bytes();
    for node in &library.nodes {
        let kind = match node.kind {
            Kind::Element => 'e',
            Kind::Attribute => 'a',
            Kind::Text => 't',
        };
        bytes.extend(format!("depth={}\nkind={kind}\nlabel=", node.depth).bytes());
        bytes.extend(&node.label);
        bytes.extend(b"\nvalue=");
        bytes.extend(&node.value);
        bytes.push(b'\n');
    }
    bytes
}

/// What stands behind the key on a line, or number 2 if the line is missing,
/// without LF or begins otherwise. Lines count from 1.
fn field<'a>(lines: &[&'a [u8]], place: usize, key: &[u8]) -> Result<&'a [u8], Refusal> {
    let text = lines
        .get(place - 1)
        .and_then(|line| line.strip_suffix(b"\n"))
        .and_then(|line| line.strip_prefix(key));
    match text {
        Some(text) => Ok(text),
        None => refuse(2, place),
    }
}

/// Line 1: the form first (2), then the size of N (3).
fn read_count(lines: &[&[u8]]) -> Result<usize, Refusal> {
    match numeral(field(lines, 1, b"nodes=")?, COUNT_DIGITS) {
        None => refuse(2, 1),
        Some(count) if count == 0 || count > NODE_LIMIT => refuse(3, 1),
        Some(count) => Ok(count),
    }
}

/// The four lines of the node behind those before it. If it is an attribute,
/// its element has attributes of the given labels already.
fn read_node(lines: &[&[u8]], before: &[Node], given: &BTreeSet<Vec<u8>>) -> Result<Node, Refusal> {
    let place = LINES_PER_NODE * before.len() + 2;
    let previous = before.last();

    let Some(depth) = numeral(field(lines, place, b"depth=")?, DEPTH_DIGITS) else {
        return refuse(2, place);
    };
    if !depth_allowed(previous, depth) {
        return refuse(4, place);
    }
    let Some(kind) = kind(field(lines, place + 1, b"kind=")?) else {
        return refuse(2, place + 1);
    };
    if !kind_allowed(previous, depth, kind) {
        return refuse(4, place + 1);
    }
    let label = field(lines, place + 2, b"label=")?;
    if !is_label(label) {
        return refuse(2, place + 2);
    }
    // "Text has the label `text`; other kinds may have it too."
    if kind == Kind::Text && label != b"text" {
        return refuse(4, place + 2);
    }
    // 02, (d): "14, at the label line of the second such attribute".
    if kind == Kind::Attribute && given.contains(label) {
        return refuse(14, place + 2);
    }
    let value = field(lines, place + 3, b"value=")?;
    if !is_value(value) {
        return refuse(2, place + 3);
    }
    // "An element's V is empty."
    if kind == Kind::Element && !value.is_empty() {
        return refuse(4, place + 3);
    }
    Ok(Node {
        depth,
        kind,
        label: label.to_vec(),
        value: value.to_vec(),
    })
}

/// "base ten, no leading zero except in `0` itself"
fn numeral(text: &[u8], most_digits: usize) -> Option<usize> {
    let digits = !text.is_empty() && text.iter().all(u8::is_ascii_digit);
    let leading_zero = text.len() > 1 && text[0] == b'0';
    if !digits || leading_zero || text.len() > most_digits {
        return None;
    }
    let value = text
        .iter()
        .fold(0, |value, digit| 10 * value + usize::from(digit - b'0'));
    Some(value)
}

/// "K is `e` element, `a` attribute, `t` text."
fn kind(text: &[u8]) -> Option<Kind> {
    match text {
        b"e" => Some(Kind::Element),
        b"a" => Some(Kind::Attribute),
        b"t" => Some(Kind::Text),
        _ => None,
    }
}

/// "S is 1 to 16 bytes of a-z, 0-9 and hyphen, the first a letter."
fn is_label(text: &[u8]) -> bool {
    (1..=LABEL_LIMIT).contains(&text.len())
        && text[0].is_ascii_lowercase()
        && text.iter().all(|byte| is_name_byte(*byte))
}

/// "a-z, 0-9 and hyphen"; rules spell names the same way.
pub fn is_name_byte(byte: u8) -> bool {
    byte.is_ascii_lowercase() || byte.is_ascii_digit() || byte == b'-'
}

/// "V is 0 to 255 bytes from 0x20 to 0x7E."
fn is_value(text: &[u8]) -> bool {
    text.len() <= VALUE_LIMIT && text.iter().all(|byte| (0x20..=0x7E).contains(byte))
}

/// "The first node is an element at depth 0, and only it has depth 0. A depth
/// is at most one more than the depth before it, and one more only behind an
/// element."
fn depth_allowed(previous: Option<&Node>, depth: usize) -> bool {
    match previous {
        None => depth == 0,
        Some(node) if node.kind == Kind::Element => (1..=node.depth + 1).contains(&depth),
        Some(node) => (1..=node.depth).contains(&depth),
    }
}

/// "The first node is an element" and "An attribute directly follows its own
/// element's lines or another attribute of the same depth."
fn kind_allowed(previous: Option<&Node>, depth: usize, kind: Kind) -> bool {
    match (kind, previous) {
        (_, None) => kind == Kind::Element,
        (Kind::Attribute, Some(node)) => match node.kind {
            Kind::Element => node.depth + 1 == depth,
            Kind::Attribute => node.depth == depth,
            Kind::Text => false,
        },
        _ => true,
    }
}
