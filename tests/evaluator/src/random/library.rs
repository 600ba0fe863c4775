//! Random legal libraries of many shapes.

use super::{numeral_or_nearly, padded, printable, printable_of, shared_value};
use super::{Random, NAMES, NUMERALS, WORDS};
use crate::document::{Kind, Library, Node, LABEL_LIMIT, VALUE_LIMIT};

/// How the nodes of a library are drawn.
struct Shape {
    /// How often a node goes as deep as it may, in cases of a hundred.
    deep: usize,
    attributes: usize,
    texts: usize,
    /// The labels of elements and attributes, and the values, to draw from.
    labels: Vec<Vec<u8>>,
    values: Vec<Vec<u8>>,
    /// How often a value is padded, in cases of a hundred. So nodes of one value
    /// have it in several spellings.
    padded: usize,
    /// Whether an element may have two attributes of one label.
    repeats: bool,
}

/// About every third value is padded, in some libraries none and in others most.
const PADDED: [usize; 3] = [0, 30, 70];

/// A legal library of so many nodes, deep or wide, with many or few
/// attributes, its values repeated often or seldom.
pub fn library(random: &mut Random, nodes: usize) -> Library {
    let shape = Shape {
        deep: *random.pick(&[5, 40, 75, 97]),
        attributes: *random.pick(&[5, 30, 70]),
        texts: *random.pick(&[5, 30, 60]),
        labels: NAMES.map(|name| name.as_bytes().to_vec()).into(),
        values: draw_values(random),
        padded: *random.pick(&PADDED),
        repeats: false,
    };
    grow(random, &shape, nodes)
}

/// A legal library of so many nodes, for the document check alone: any labels
/// and values, up to the longest, and shapes up to a bare chain, to one level
/// and to nothing but attributes. Few labels and values are drawn for each
/// library, so that large ones are cheap.
pub fn any_library(random: &mut Random, nodes: usize) -> Library {
    let pool = 1 + random.below(6);
    let shape = Shape {
        deep: *random.pick(&[0, 40, 75, 97, 100]),
        attributes: *random.pick(&[0, 5, 30, 97]),
        texts: *random.pick(&[0, 5, 30, 97]),
        labels: (0..pool).map(|_| any_label(random)).collect(),
        values: (0..pool).map(|_| any_value(random)).collect(),
        padded: *random.pick(&PADDED),
        repeats: false,
    };
    grow(random, &shape, nodes)
}

/// A library of so many nodes that is legal but for attributes given twice.
/// There are few labels or some hundred, many of them nearly the same.
pub fn repeating_library(random: &mut Random, nodes: usize) -> Library {
    let pool = *random.pick(&[3, 6, 12, 40, 300]);
    let shape = Shape {
        deep: *random.pick(&[5, 40, 75]),
        attributes: *random.pick(&[20, 50, 80, 95, 99]),
        texts: *random.pick(&[5, 30]),
        labels: alike_labels(random, pool),
        values: [WORDS, NUMERALS]
            .concat()
            .into_iter()
            .map(Vec::from)
            .collect(),
        padded: *random.pick(&PADDED),
        repeats: true,
    };
    grow(random, &shape, nodes)
}

fn grow(random: &mut Random, shape: &Shape, nodes: usize) -> Library {
    let mut library = Library { nodes: Vec::new() };
    while library.nodes.len() < nodes {
        let node = draw_node(random, shape, &library.nodes);
        library.nodes.push(node);
    }
    library
}

fn draw_node(random: &mut Random, shape: &Shape, before: &[Node]) -> Node {
    let (depth, kind) = match before.last() {
        None => (0, Kind::Element),
        Some(previous) => draw_place(random, shape, previous),
    };
    let attributes = before.iter().rev();
    let attributes = attributes.take_while(|node| node.kind == Kind::Attribute);
    let taken: Vec<&[u8]> = attributes.map(|node| node.label.as_slice()).collect();
    fill_node(random, shape, (depth, kind), &taken)
}

/// A node of this depth and kind, with a label and a value from the shape's; an
/// attribute gets none of the taken labels, which its element's others have.
fn fill_node(
    random: &mut Random,
    shape: &Shape,
    (depth, kind): (usize, Kind),
    taken: &[&[u8]],
) -> Node {
    let label = match kind {
        Kind::Text => b"text".to_vec(),
        Kind::Attribute if !shape.repeats => {
            let drawn = random.below(shape.labels.len());
            free_label(&shape.labels, drawn, taken)
        }
        Kind::Element | Kind::Attribute => random.pick(&shape.labels).clone(),
    };
    let value = match kind {
        Kind::Element => Vec::new(),
        _ => draw_value(random, shape),
    };
    Node {
        depth,
        kind,
        label,
        value,
    }
}

fn draw_value(random: &mut Random, shape: &Shape) -> Vec<u8> {
    let value = random.pick(&shape.values);
    match random.percent(shape.padded) {
        true => padded(random, value, VALUE_LIMIT),
        false => value.clone(),
    }
}

/// The drawn label, or the next that is not taken, or if all are the drawn one
/// with a number for its last bytes.
fn free_label(labels: &[Vec<u8>], drawn: usize, taken: &[&[u8]]) -> Vec<u8> {
    let from_drawn = labels[drawn..].iter().chain(&labels[..drawn]).cloned();
    let numbered = (1..).map(|number| numbered(&labels[drawn], number));
    from_drawn
        .chain(numbered)
        .find(|label| !taken.contains(&label.as_slice()))
        .expect("there are more numbers than nodes")
}

/// A label that ends in this number, cut to the length that labels may have.
fn numbered(label: &[u8], number: usize) -> Vec<u8> {
    let digits = number.to_string().into_bytes();
    let kept = label.len().min(LABEL_LIMIT - digits.len());
    [&label[..kept], &digits].concat()
}

/// A library that branches: each node is put into some element so far that has
/// room, so that there are several levels, and several nodes inside most
/// elements.
struct Branching {
    nodes: Vec<Node>,
    /// For each node the numbers of those directly inside it.
    inside: Vec<Vec<usize>>,
    /// An element has room for so many.
    room: usize,
    /// A node is put into one of so many that got their place last.
    near: usize,
}

/// A legal library of so many nodes that branches, deep or bushy, with few
/// values, so that several nodes share each.
pub fn branching_library(random: &mut Random, nodes: usize) -> Library {
    let count = *random.pick(&[3, 5, 8, 14]);
    let shape = Shape {
        deep: 0,
        attributes: *random.pick(&[10, 20, 30]),
        texts: *random.pick(&[20, 30, 40]),
        labels: NAMES.map(|name| name.as_bytes().to_vec()).into(),
        values: (0..count).map(few_value).collect(),
        padded: *random.pick(&PADDED),
        repeats: false,
    };
    let mut branching = Branching {
        nodes: vec![fill_node(random, &shape, (0, Kind::Element), &[])],
        inside: vec![Vec::new()],
        room: *random.pick(&[2, 3, 5]),
        near: *random.pick(&[4, 12, nodes]),
    };
    while branching.nodes.len() < nodes {
        branching.grow(random, &shape);
    }
    Library {
        nodes: branching.in_order(0),
    }
}

impl Branching {
    fn grow(&mut self, random: &mut Random, shape: &Shape) {
        let open: Vec<usize> = (0..self.nodes.len())
            .filter(|v| self.nodes[*v].kind == Kind::Element && self.inside[*v].len() < self.room)
            .collect();
        let parent = *random.pick(&open[open.len().saturating_sub(self.near)..]);
        let kind = match random.below(100) {
            // Some element must have room left.
            _ if open.len() == 1 => Kind::Element,
            drawn if drawn < shape.attributes => Kind::Attribute,
            drawn if drawn < shape.attributes + shape.texts => Kind::Text,
            _ => Kind::Element,
        };
        let inside = self.inside[parent].iter().map(|v| &self.nodes[*v]);
        let attributes = inside.filter(|node| node.kind == Kind::Attribute);
        let taken: Vec<&[u8]> = attributes.map(|node| node.label.as_slice()).collect();
        let depth = self.nodes[parent].depth + 1;
        let node = fill_node(random, shape, (depth, kind), &taken);
        self.inside[parent].push(self.nodes.len());
        self.nodes.push(node);
        self.inside.push(Vec::new());
    }

    /// A node and all inside it in document order, attributes first.
    fn in_order(&self, node: usize) -> Vec<Node> {
        let is_attribute = |v: &usize| self.nodes[*v].kind == Kind::Attribute;
        let (mut inside, others): (Vec<usize>, Vec<usize>) =
            self.inside[node].iter().partition(|v| is_attribute(v));
        inside.extend(others);
        let mut all = vec![self.nodes[node].clone()];
        all.extend(inside.into_iter().flat_map(|v| self.in_order(v)));
        all
    }
}

/// Such as rules name too, each of them once, words and numerals by turns.
fn few_value(number: usize) -> Vec<u8> {
    let shared = [WORDS, NUMERALS][number % 2];
    Vec::from(shared[number / 2])
}

/// A depth and a kind that the tree rules allow behind the previous node.
fn draw_place(random: &mut Random, shape: &Shape, previous: &Node) -> (usize, Kind) {
    let deepest = match previous.kind {
        Kind::Element => previous.depth + 1,
        Kind::Attribute | Kind::Text => previous.depth,
    };
    if previous.kind != Kind::Text && random.percent(shape.attributes) {
        return (deepest, Kind::Attribute);
    }
    let depth = match random.percent(shape.deep) {
        true => deepest,
        false => 1 + random.below(deepest),
    };
    match random.percent(shape.texts) {
        true => (depth, Kind::Text),
        false => (depth, Kind::Element),
    }
}

/// Few values, so that they repeat often, or many, so that they repeat seldom;
/// either such as rules name too, or any; and few numerals among them, or many.
fn draw_values(random: &mut Random) -> Vec<Vec<u8>> {
    let count = *random.pick(&[1, 2, 3, 200]);
    let known = random.percent(60);
    let numerals = *random.pick(&[40, 70, 95]);
    let mut values = Vec::new();
    while values.len() < count {
        values.push(match known {
            true => shared_value(random, numerals),
            false if random.percent(numerals) => numeral_or_nearly(random),
            false if random.percent(4) => printable(random, VALUE_LIMIT),
            false => printable(random, 3),
        });
    }
    values
}

/// What a label may have: letters at first, and any of these behind.
const LABEL_BYTES: &[u8] = b"abcdefghijklmnopqrstuvwxyz0123456789-";
const LETTERS: usize = 26;

/// A letter, then any bytes that a label may have.
pub(super) fn any_label(random: &mut Random) -> Vec<u8> {
    let length = 1 + random.below(LABEL_LIMIT);
    let mut label = vec![*random.pick(&LABEL_BYTES[..LETTERS])];
    label.extend((1..length).map(|_| *random.pick(LABEL_BYTES)));
    label
}

/// So many labels, most of them another one with a byte changed, more or less;
/// some may be the same.
fn alike_labels(random: &mut Random, count: usize) -> Vec<Vec<u8>> {
    let mut labels = vec![any_label(random)];
    while labels.len() < count {
        let mut label = random.pick(&labels).clone();
        let at = random.below(label.len());
        match random.below(4) {
            0 => label = any_label(random),
            1 if label.len() < LABEL_LIMIT => label.push(*random.pick(LABEL_BYTES)),
            2 if label.len() > 1 => {
                label.pop();
            }
            _ if at == 0 => label[0] = *random.pick(&LABEL_BYTES[..LETTERS]),
            _ => label[at] = *random.pick(LABEL_BYTES),
        }
        labels.push(label);
    }
    labels
}

/// What looks like a numeral, short values, values of any length, and the
/// longest.
fn any_value(random: &mut Random) -> Vec<u8> {
    if random.percent(40) {
        return numeral_or_nearly(random);
    }
    let length = match random.below(8) {
        0 => VALUE_LIMIT,
        1 | 2 => random.below(VALUE_LIMIT + 1),
        _ => random.below(12),
    };
    printable_of(random, length)
}
