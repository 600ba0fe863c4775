//! Parents, paths and string values against the evaluator's tree.

use std::borrow::Cow;

use evaluator::document::{spell, Kind, Library as Read};
use evaluator::random::{any_library, branching_library, library, Random};
use evaluator::samples::document;
use evaluator::samples::libraries::{catalogue, chain, formulary, ladder, level};
use evaluator::tree::Tree;
use yurzhoad::{Library, Table};

/// The children of a node in the document: in the binary tree its left child,
/// and then to the right.
fn children(tree: &Tree, node: usize) -> Vec<usize> {
    std::iter::successors(tree.left[node], |child| tree.right[*child]).collect()
}

/// Whether a node is meant by a step without its number.
fn is_meant(read: &Read, node: usize, step: &str) -> bool {
    let label = String::from_utf8_lossy(&read.nodes[node].label);
    match read.nodes[node].kind {
        Kind::Element => step == label,
        Kind::Attribute => step.strip_prefix('@') == Some(&*label),
        Kind::Text => step == "text()",
    }
}

/// The node to which a path leads, read step by step. A step without a number
/// must mean one node alone, and one with a number must choose among several.
fn follow(read: &Read, tree: &Tree, path: &str) -> usize {
    let mut found = None;
    for step in path
        .strip_prefix('/')
        .expect("a path from the root")
        .split('/')
    {
        let (name, number) = match step.split_once('[') {
            Some((name, number)) => (name, Some(number.trim_end_matches(']'))),
            None => (step, None),
        };
        let among = match found {
            None => vec![0],
            Some(node) => children(tree, node),
        };
        let meant = |node: &usize| is_meant(read, *node, name);
        let meant: Vec<usize> = among.into_iter().filter(meant).collect();
        found = match number {
            None => {
                assert_eq!(meant.len(), 1, "{path}: {name}");
                Some(meant[0])
            }
            Some(number) => {
                assert!(meant.len() > 1, "{path}: {name}");
                Some(meant[number.parse::<usize>().expect("a number") - 1])
            }
        };
    }
    found.expect("a step")
}

/// What was met, so that the tests are not idle.
#[derive(Default)]
struct Met {
    numbered: usize,
    joined: usize,
}

impl Met {
    fn add(&mut self, table: &Table, node: usize) {
        self.numbered += usize::from(table.path(node).contains('['));
        self.joined += usize::from(matches!(table.value(node), Cow::Owned(_)));
    }
}

fn assert_table(origin: &str, read: &Read, met: &mut Met) {
    let (bytes, tree) = (spell(read), Tree::of(read));
    let library = Library::check(&bytes).expect("an accepted document");
    let table = library.table();
    assert_eq!(table.parent(0), None, "{origin}");
    for node in 0..tree.size() {
        for child in children(&tree, node) {
            assert_eq!(table.parent(child), Some(node), "{origin}: {child}");
        }
        let value = table.value(node);
        assert_eq!(value.as_bytes(), tree.values[node], "{origin}: {node}");
        let path = table.path(node);
        assert_eq!(follow(read, &tree, &path), node, "{origin}: {path}");
        met.add(&table, node);
    }
}

#[test]
fn paths_and_values_of_random_libraries_are_right() {
    let mut met = Met::default();
    for seed in 4_200_000..4_204_000 {
        let random = &mut Random::new(seed);
        let most = *random.pick(&[5, 30, 80]);
        let nodes = 1 + random.below(most);
        let read = match random.below(3) {
            0 => library(random, nodes),
            1 => branching_library(random, nodes),
            _ => any_library(random, nodes),
        };
        assert_table(&format!("seed {seed}"), &read, &mut met);
    }
    assert!(met.numbered > 10_000, "{} numbered", met.numbered);
    assert!(met.joined > 1_000, "{} joined", met.joined);
}

#[test]
fn paths_and_values_of_every_shape_are_right() {
    let mut met = Met::default();
    for shape in [chain, ladder, level, catalogue, formulary] {
        for nodes in [1, 2, 13, 250] {
            assert_table("a shape", &shape(nodes), &mut met);
        }
    }
    assert!(met.numbered > 100 && met.joined > 100);
}

/// A node, and its path as it must be spelled.
type Spelled = ((char, usize, &'static str, &'static str), &'static str);

const SPELLED: [Spelled; 13] = [
    (('e', 0, "lib", ""), "/lib"),
    (('e', 1, "drug", ""), "/lib/drug[1]"),
    (('a', 2, "name", "heparin"), "/lib/drug[1]/@name"),
    (('a', 2, "area", "icu"), "/lib/drug[1]/@area"),
    (('a', 2, "unit", "again"), "/lib/drug[1]/@unit"),
    (('t', 2, "text", "a"), "/lib/drug[1]/text()[1]"),
    (('e', 2, "unit", ""), "/lib/drug[1]/unit"),
    (('t', 3, "text", "b"), "/lib/drug[1]/unit/text()"),
    (('t', 2, "text", "c"), "/lib/drug[1]/text()[2]"),
    (('e', 1, "text", ""), "/lib/text"),
    (('e', 1, "drug", ""), "/lib/drug[2]"),
    (('e', 2, "drug", ""), "/lib/drug[2]/drug"),
    (('e', 1, "name", ""), "/lib/name"),
];

#[test]
fn paths_are_spelled_as_written() {
    let bytes = document(&SPELLED.map(|(node, _)| node));
    let library = Library::check(&bytes).expect("an accepted document");
    let table = library.table();
    for (node, (_, due)) in SPELLED.iter().enumerate() {
        assert_eq!(table.path(node), *due);
    }
    assert_eq!(table.value(0), "abc");
    assert_eq!(table.value(1), "abc");
    assert_eq!(table.value(6), "b");
    assert_eq!(table.value(9), "");
}

#[test]
fn a_value_of_one_text_is_not_copied() {
    let bytes = document(&[('e', 0, "lib", ""), ('t', 1, "text", "5 mg")]);
    let library = Library::check(&bytes).expect("an accepted document");
    let table = library.table();
    assert!(matches!(table.value(0), Cow::Borrowed("5 mg")));
    assert!(matches!(table.value(1), Cow::Borrowed("5 mg")));
}

#[test]
#[should_panic(expected = "index out of bounds")]
fn a_node_that_is_not_there_has_no_entry() {
    let bytes = document(&[('e', 0, "lib", "")]);
    Library::check(&bytes).expect("accepted").table().entry(1);
}
