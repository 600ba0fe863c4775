//! Random pairs of a library and a rule: the nodes, counts, labels and values
//! that are printed, against those of the evaluator.

use evaluator::document::{spell, Kind, Library};
use evaluator::evaluate::{evaluate, needed_words, Evaluation};
use evaluator::random::{any_library, library, rule_about, Random};
use evaluator::tree::Tree;

use crate::desk::{accepted, run_inside, Desk, Ran};
use crate::json::Json;

/// So many pairs, most of them run inside this process.
const CASES: u64 = 1_500;
/// Every so many by the program.
const BY_PROGRAM: u64 = 25;

/// The node whose lines are around those of this one: the last one before it
/// that is less deep.
fn around(library: &Library, node: usize) -> Option<usize> {
    let depth = library.nodes[node].depth;
    (0..node).rev().find(|v| library.nodes[*v].depth < depth)
}

/// As `/lib/drug[2]/@name`, from the definition.
fn path(library: &Library, node: usize) -> String {
    let own = &library.nodes[node];
    let outer = around(library, node);
    let before = outer.map_or(String::new(), |outer| path(library, outer));
    let label = String::from_utf8_lossy(&own.label);
    let name = match own.kind {
        Kind::Element => label.into_owned(),
        Kind::Attribute => format!("@{label}"),
        Kind::Text => "text()".to_string(),
    };
    let alike = |v: &usize| {
        let other = &library.nodes[*v];
        other.kind == own.kind && other.label == own.label && around(library, *v) == outer
    };
    let all: Vec<usize> = (0..library.nodes.len()).filter(alike).collect();
    match all.iter().position(|v| *v == node) {
        Some(index) if all.len() > 1 => format!("{before}/{name}[{}]", index + 1),
        _ => format!("{before}/{name}"),
    }
}

/// What must be printed for a pair.
struct Due {
    nodes: Vec<usize>,
    size: usize,
    snippets: usize,
    lines: String,
}

fn due(library: &Library, document: &[u8], rule: &[u8]) -> Due {
    let tree = Tree::of(library);
    let size = tree.size();
    let words = needed_words(size);
    let (outcome, marks) = evaluate(document, rule, words, size, Evaluation::Snippets);
    assert_eq!(outcome.number, 0);
    let marks = marks.expect("an accepted pair");
    let nodes: Vec<usize> = (0..size).filter(|node| marks[*node] == 1).collect();
    let line = |node: &usize| {
        let label = String::from_utf8_lossy(&tree.labels[*node]);
        let value = String::from_utf8_lossy(&tree.values[*node]);
        format!("{node}\t{}\t{label}\t{value}\n", path(library, *node))
    };
    Due {
        lines: nodes.iter().map(line).collect(),
        snippets: outcome.snippets,
        size,
        nodes,
    }
}

/// The object says the same as the lines.
fn assert_object(ran: &Ran, due: &Due) {
    assert_eq!((ran.status, ran.err.as_str()), (0, ""));
    let object = Json::read(&ran.out);
    assert_eq!(object.member("accepted"), &Json::Bool(true));
    assert_eq!(object.member("selected"), &Json::Number(due.nodes.len()));
    assert_eq!(object.member("snippets"), &Json::Number(due.snippets));
    let Json::List(nodes) = object.member("nodes") else {
        panic!("a list of nodes");
    };
    let text = |node: &Json, name: &str| match node.member(name) {
        Json::String(text) => text.clone(),
        Json::Number(number) => number.to_string(),
        other => panic!("{other:?}"),
    };
    let line = |node: &Json| {
        let fields = ["node", "path", "label", "value"].map(|name| text(node, name));
        fields.join("\t") + "\n"
    };
    assert_eq!(nodes.iter().map(line).collect::<String>(), due.lines);
}

/// By the program or inside this process, with the library on standard input.
fn run(desk: Option<&Desk>, document: &[u8], options: &[&str], rule: &str) -> Ran {
    let mut arguments = vec!["select"];
    arguments.extend(options);
    arguments.extend(["--", rule, "-"]);
    match desk {
        Some(desk) => desk.run_on(document, arguments),
        None => run_inside(document, arguments),
    }
}

#[test]
fn random_pairs_print_what_the_evaluator_selects() {
    let desk = Desk::new();
    let (mut some, mut snippets) = (0, 0);
    for seed in 0..CASES {
        let random = &mut Random::new(seed);
        let nodes = 1 + random.below(30);
        let library = match random.percent(80) {
            true => library(random, nodes),
            false => any_library(random, nodes),
        };
        let size = 2 + random.below(20);
        let rule = rule_about(random, size, &Tree::of(&library).values).spell();
        let (document, text) = (spell(&library), String::from_utf8_lossy(&rule));
        let due = due(&library, &document, &rule);
        let desk = (seed % BY_PROGRAM == 0).then_some(&desk);
        let run = |options: &[&str]| run(desk, &document, options, &text);
        println!("seed {seed}: {text}");

        assert_eq!(run(&[]), accepted(&due.lines));
        assert_eq!(run(&["--plain"]), accepted(&due.lines));
        let count = accepted(&format!("{}\n", due.nodes.len()));
        assert_eq!(run(&["--count"]), count);
        assert_object(&run(&["--json"]), &due);
        let both = run(&["--both"]);
        let (selected, size) = (due.nodes.len(), due.size);
        let plural = if size == 1 { "" } else { "s" };
        assert_eq!(
            both.err,
            format!(
                "yurzhoad: both evaluations agree: {selected} of {size} node{plural} selected\n"
            )
        );
        assert_eq!((both.status, both.out), (0, due.lines));
        some += usize::from(selected > 0 && selected < size);
        snippets += usize::from(due.snippets > 0);
    }
    assert!(some > CASES as usize / 4, "{some}");
    assert!(snippets > CASES as usize / 20, "{snippets}");
}
