//! Fixed documents with what their check must hand back: every row of the
//! table for numbers 1 to 4, number 14, and which of two comes first.

use super::{attributes, blanks, document, flat, X};
use crate::document::DocumentRecord;

pub struct DocumentCase {
    pub document: Vec<u8>,
    pub due: DocumentRecord,
}

/// A name that says what holds of the cases, and the function that makes them.
pub type Group = (&'static str, fn() -> Vec<DocumentCase>);

/// All fixed cases.
pub const GROUPS: [Group; 21] = [
    ("accepted documents give their number of nodes", accepted),
    ("depth may rise to its last digit", deepest),
    ("a document above 1,048,576 bytes is 1", byte_limit),
    ("a first line not of the form is 2", first_lines),
    ("N of 0 or above 4,096 is 3", counts),
    ("node lines not of the form are 2", node_lines),
    ("missing lines are 2 at the first absent one", missing_lines),
    ("anything behind the last line is 2 there", extra_lines),
    ("broken tree rules are 4 on their line", tree_rules),
    ("children of leaves break their depth line", leaf_children),
    ("an attribute follows its element", attribute_places),
    ("the first bad line comes first", first_of_several),
    ("the second attribute of a label is 14", attributes::repeats),
    ("an element's labels are its own", attributes::elements),
    ("labels are compared whole", attributes::spellings),
    (
        "of a repeat and a bad line the first",
        attributes::bad_lines,
    ),
    ("a document cut at a repeat", attributes::cuts),
    ("around 25 attributes", attributes::around_25),
    ("an element of 4,095 attributes", attributes::most),
    ("behind many attributes", attributes::behind_many),
    ("blanks are part of a document", blanks::documents),
];

/// A case: the document, and what its check hands back.
pub(super) fn case(
    document: impl Into<Vec<u8>>,
    number: u32,
    place: usize,
    nodes: usize,
) -> DocumentCase {
    DocumentCase {
        document: document.into(),
        due: DocumentRecord {
            number,
            place,
            nodes,
        },
    }
}

pub(super) fn refused(document: impl Into<Vec<u8>>, number: u32, place: usize) -> DocumentCase {
    case(document, number, place, 0)
}

/// Document X with one line replaced; lines count from 1.
pub fn with_line(line: usize, text: &str) -> String {
    with_lines(X, &[(line, text)])
}

/// A document with some lines replaced.
pub fn with_lines(document: &str, changes: &[(usize, &str)]) -> String {
    let mut lines: Vec<&str> = document.lines().collect();
    for (line, text) in changes {
        lines[line - 1] = text;
    }
    lines.join("\n") + "\n"
}

fn accepted() -> Vec<DocumentCase> {
    let longest = "~".repeat(255);
    let rows = [
        ('e', 0, "a", ""),
        ('a', 1, "abcdefghijklmn-9", &longest),
        ('t', 1, "text", " "),
    ];
    let mut cases = vec![case(X, 0, 0, 5), case(document(&rows), 0, 0, 3)];
    for nodes in [1, 2, 9, 10, 99, 100, 4_096] {
        cases.push(case(flat(nodes), 0, 0, nodes));
    }
    cases
}

fn deepest() -> Vec<DocumentCase> {
    let rows: Vec<_> = (0..4_096).map(|depth| ('e', depth, "a", "")).collect();
    vec![case(document(&rows), 0, 0, 4_096)]
}

fn byte_limit() -> Vec<DocumentCase> {
    let mut above = X.as_bytes().to_vec();
    above.resize(1_048_577, b'\n');
    let at = above[..1_048_576].to_vec();
    vec![
        refused(above, 1, 0),
        refused(at, 2, 22),
        refused(vec![b'x'; 1_048_577], 1, 0),
        refused(vec![b'x'; 1_048_576], 2, 1),
    ]
}

fn first_lines() -> Vec<DocumentCase> {
    let lines = [
        "",
        "\n",
        "nodes=\n",
        "nodes=1",
        "nodes=x\n",
        "nodes=05\n",
        "nodes=00\n",
        "nodes=100000\n",
        "nodes=00000\n",
        "Nodes=1\n",
        "nodes =1\n",
        "nodes= 1\n",
        "nodes=1 \n",
        "nodes=1\r\n",
        "nodes=+1\n",
        "nodes=-1\n",
        " nodes=1\n",
        "node=1\n",
        "nodes:1\n",
        "nodes=0",
        "nodes=99999",
        "\u{0}",
    ];
    lines.map(|line| refused(line, 2, 1)).into()
}

fn counts() -> Vec<DocumentCase> {
    let mut cases = vec![refused("nodes=4096\n", 2, 2)];
    for first in ["nodes=0\n", "nodes=4097\n", "nodes=9999\n", "nodes=99999\n"] {
        cases.push(refused(first, 3, 1));
        cases.push(refused(format!("{first}and anything"), 3, 1));
    }
    cases
}

fn node_lines() -> Vec<DocumentCase> {
    let too_long = format!("value={}", "v".repeat(256));
    let lines = [
        (6, "depth="),
        (6, "depth=01"),
        (6, "depth=00"),
        (6, "depth=10000"),
        (6, "depth=x"),
        (6, "depth=1 "),
        (6, "Depth=1"),
        (6, "depth=1\r"),
        (6, "kind=e"),
        (6, ""),
        (7, "kind="),
        (7, "kind=E"),
        (7, "kind=x"),
        (7, "kind=ee"),
        (7, "depth=1"),
        (8, "label="),
        (8, "label=1a"),
        (8, "label=-a"),
        (8, "label=Drug"),
        (8, "label=a_b"),
        (8, "label=a b"),
        (8, "label=abcdefghijklmn-90"),
        (8, "label=\u{e9}"),
        (13, "value=\t"),
        (13, "value=\u{7f}"),
        (13, "value=\u{e9}"),
        (13, "value"),
        (13, "Value=x"),
        (13, &too_long),
        (21, "value=\r"),
    ];
    let bad = |(line, text)| refused(with_line(line, text), 2, line);
    lines.map(bad).into()
}

fn missing_lines() -> Vec<DocumentCase> {
    let lines: Vec<&str> = X.split_inclusive('\n').collect();
    let mut cases = Vec::new();
    for kept in 0..lines.len() {
        cases.push(refused(lines[..kept].concat(), 2, kept + 1));
        // The same line begun but without LF, or whole but without LF.
        let begun = lines[..kept].concat() + lines[kept].trim_end();
        cases.push(refused(begun, 2, kept + 1));
    }
    cases
}

fn extra_lines() -> Vec<DocumentCase> {
    let one_node = "nodes=1\ndepth=0\nkind=e\nlabel=a\nvalue=\n\n";
    let mut cases = vec![refused(one_node, 2, 6)];
    for extra in ["\n", "x", " ", "\u{0}", "depth=1\n", "\n\n", "\r"] {
        cases.push(refused(format!("{X}{extra}"), 2, 22));
    }
    cases
}

fn tree_rules() -> Vec<DocumentCase> {
    let lines = [
        // The first node: its depth line, its kind line.
        (2, "depth=1", 2),
        (2, "depth=9999", 2),
        (3, "kind=a", 3),
        (3, "kind=t", 3),
        // Only the first node has depth 0; a depth rises by one at most.
        (6, "depth=0", 6),
        (6, "depth=2", 6),
        (6, "depth=9999", 6),
        (10, "depth=3", 10),
        // An attribute not behind its own element breaks its kind line.
        (10, "depth=1", 11),
        (15, "kind=a", 15),
        // Text has the label `text`, an element no value.
        (11, "kind=t", 12),
        (5, "value=x", 5),
        (17, "value= ", 17),
    ];
    let broken = |(line, text, place)| refused(with_line(line, text), 4, place);
    let mut cases: Vec<DocumentCase> = lines.map(broken).into();
    for label in ["tex", "texts", "t"] {
        let rows = [('e', 0, "a", ""), ('t', 1, label, "")];
        cases.push(refused(document(&rows), 4, 8));
    }
    cases
}

fn leaf_children() -> Vec<DocumentCase> {
    let below = |kind, label| {
        let rows = [('e', 0, "a", ""), (kind, 1, label, ""), ('e', 2, "a", "")];
        refused(document(&rows), 4, 10)
    };
    vec![below('t', "text"), below('a', "name")]
}

fn attribute_places() -> Vec<DocumentCase> {
    let root = ('e', 0, "a", "");
    let inner = ('e', 1, "a", "");
    let text = ('t', 1, "text", "");
    let attribute = |depth| ('a', depth, "n", "v");
    let (first, second) = (attribute(1), attribute(2));
    let other = ('a', 1, "m", "v");
    vec![
        case(document(&[root, first, other]), 0, 0, 3),
        case(document(&[root, first, text, inner, second]), 0, 0, 5),
        refused(document(&[root, text, first]), 4, 11),
        refused(document(&[root, inner, first]), 4, 11),
        refused(document(&[root, inner, second, first]), 4, 15),
    ]
}

fn first_of_several() -> Vec<DocumentCase> {
    let early = with_line(6, "depth=0").replace("kind=a", "kind=x");
    let late = with_line(7, "kind=x").replace("depth=2", "depth=9");
    let label = [('e', 0, "a", ""), ('t', 1, "Text", "")];
    vec![
        // A tree rule broken early goes before a bad form later, and the reverse.
        refused(early, 4, 6),
        refused(late, 2, 7),
        // One line of a bad form that would break a tree rule as well.
        refused(with_line(5, "value=\u{7f}"), 2, 5),
        refused(with_line(6, "depth=00"), 2, 6),
        refused(document(&label), 2, 8),
        // A broken tree rule goes before a missing or an extra line.
        refused("nodes=2\ndepth=1\n", 4, 2),
        refused(format!("{}x", with_line(21, "value=\u{1}")), 2, 21),
        // A tree rule on a line without LF: the form decides.
        refused("nodes=1\ndepth=7", 2, 2),
    ]
}
