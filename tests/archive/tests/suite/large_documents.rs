//! Documents at the limits of 1,048,576 bytes and 4,096 nodes.

use crate::agreement::assert_agreement;
use evaluator::document::{spell, Kind, Library, Node, BYTE_LIMIT, NODE_LIMIT};
use evaluator::samples::name;

fn node(kind: Kind, depth: usize, value: usize) -> Node {
    let label = if kind == Kind::Text { "text" } else { "a" };
    Node {
        depth,
        kind,
        label: label.as_bytes().to_vec(),
        value: vec![b'~'; value],
    }
}

/// 4,096 nodes, each inside the one before it, to depth 4,095.
fn chain() -> Library {
    let nodes = (0..NODE_LIMIT).map(|depth| node(Kind::Element, depth, 0));
    Library {
        nodes: nodes.collect(),
    }
}

/// A root with 4,095 nodes of one kind directly inside it, their values of so
/// many bytes. Attributes have different labels.
fn level(kind: Kind, value: usize) -> Library {
    let mut nodes = vec![node(kind, 1, value); NODE_LIMIT];
    nodes[0] = node(Kind::Element, 0, 0);
    if kind == Kind::Attribute {
        for (number, attribute) in nodes[1..].iter_mut().enumerate() {
            attribute.label = name(number).into_bytes();
        }
    }
    Library { nodes }
}

/// A legal document of just so many bytes: the values of a level of text are
/// cut one after the other.
fn of_length(bytes: usize) -> Vec<u8> {
    let mut library = level(Kind::Text, 255);
    let mut over = spell(&library).len() - bytes;
    for node in &mut library.nodes {
        let cut = over.min(node.value.len());
        node.value.truncate(node.value.len() - cut);
        over -= cut;
    }
    spell(&library)
}

fn assert_judged(name: &str, document: &[u8], due: (u32, usize, usize)) {
    let record = assert_agreement(name, document);
    let found = (record.number, record.place, record.nodes);
    assert_eq!(found, due, "{name}");
}

#[test]
fn documents_of_4_096_nodes() {
    let accepted = (0, 0, NODE_LIMIT);
    assert_judged("chain", &spell(&chain()), accepted);
    assert_judged("elements", &spell(&level(Kind::Element, 0)), accepted);
    assert_judged("attributes", &spell(&level(Kind::Attribute, 9)), accepted);
    assert_judged("texts", &spell(&level(Kind::Text, 200)), accepted);
    assert_judged("too long", &spell(&level(Kind::Text, 255)), (1, 0, 0));
}

#[test]
fn a_repeat_in_a_document_of_4_096_nodes() {
    let mut library = level(Kind::Attribute, 9);
    library.nodes[NODE_LIMIT - 1].label = name(0).into_bytes();
    let last = 4 * NODE_LIMIT;
    assert_judged("last repeats the first", &spell(&library), (14, last, 0));
    // Too long, and with the repeat in a node too many.
    let mut long = library.clone();
    for node in &mut long.nodes[1..] {
        node.value = vec![b'~'; 255];
    }
    assert_judged("too long", &spell(&long), (1, 0, 0));
    library.nodes.push(node(Kind::Attribute, 1, 0));
    assert_judged("4,097 nodes", &spell(&library), (3, 1, 0));
}

#[test]
fn documents_of_4_097_nodes_are_3() {
    for mut library in [chain(), level(Kind::Attribute, 0)] {
        library.nodes.push(node(Kind::Element, 1, 0));
        assert_judged("4,097 nodes", &spell(&library), (3, 1, 0));
    }
}

#[test]
fn the_last_node_of_4_096_is_judged_like_the_others() {
    let last = 4 * NODE_LIMIT - 2;
    let mut library = chain();
    let mut broken = |depth, kind, value, place| {
        *library.nodes.last_mut().expect("a chain has nodes") = node(kind, depth, value);
        assert_judged("last node", &spell(&library), (4, place, 0));
    };
    broken(0, Kind::Element, 0, last);
    broken(4_096, Kind::Element, 0, last);
    broken(4_094, Kind::Attribute, 0, last + 1);
    broken(4_095, Kind::Element, 1, last + 3);
}

#[test]
fn documents_around_1_048_576_bytes() {
    for length in [BYTE_LIMIT - 1, BYTE_LIMIT] {
        let whole = of_length(length);
        assert_eq!(whole.len(), length);
        assert_judged("longest", &whole, (0, 0, NODE_LIMIT));
        // An LF missing at the end and one too many.
        let last_line = 4 * NODE_LIMIT + 1;
        assert_judged("no LF", &whole[..length - 1], (2, last_line, 0));
        let extra = [&whole[..], b"\n"].concat();
        match length {
            BYTE_LIMIT => assert_judged("one byte more", &extra, (1, 0, 0)),
            _ => assert_judged("extra line", &extra, (2, last_line + 1, 0)),
        }
    }
    assert_judged("legal but long", &of_length(BYTE_LIMIT + 1), (1, 0, 0));
}

#[test]
fn length_is_judged_before_all_else() {
    for byte in [0, b'\n', b'0', b'x', 255] {
        assert_judged("too long", &vec![byte; BYTE_LIMIT + 1], (1, 0, 0));
        assert_judged("longest", &vec![byte; BYTE_LIMIT], (2, 1, 0));
    }
    assert_judged("4 MiB", &vec![b'x'; 4 * BYTE_LIMIT], (1, 0, 0));
}
