//! The two evaluations of the archive beside each other, mostly on libraries
//! that are too large for the evaluator's definitions: they mark the same nodes.
//! Their counts are not compared here; they only keep the bound.

use crate::evaluation_agreement::called;
use evaluator::document::{spell, Library, NODE_LIMIT};
use evaluator::evaluate::{most_snippets, Evaluation, Outcome};
use evaluator::random::{library, rule_about, Random};
use evaluator::reader;
use evaluator::samples::libraries::SHAPES;
use evaluator::samples::selections::SESSION;
use evaluator::tree::Tree;
use yurzhoad::limits::needed_words;

/// The outcome of an accepted call, with the marks; its buffers held something
/// else before, and the words are 0 afterwards.
fn accepted(
    evaluation: Evaluation,
    document: &[u8],
    rule: &[u8],
    nodes: usize,
) -> (Outcome, Vec<u8>) {
    let mut scratch = vec![0xA5A5; needed_words(nodes) + 2];
    let mut marks = vec![0xA5; nodes + 2];
    let outcome = called(evaluation, document, rule, &mut scratch, &mut marks);
    let (words, later) = scratch.split_at(needed_words(nodes));
    assert!(words.iter().all(|word| *word == 0));
    assert_eq!(later, [0xA5A5; 2]);
    assert_eq!(marks[nodes..], [0xA5; 2]);
    marks.truncate(nodes);
    (outcome, marks)
}

/// Asserts that both do the same, and returns what the snippet evaluation does.
fn assert_beside(origin: &str, library: &Library, rule: &[u8]) -> Outcome {
    let (document, nodes) = (spell(library), library.nodes.len());
    let (plain, plain_marks) = accepted(Evaluation::Plain, &document, rule, nodes);
    let (snippets, marks) = accepted(Evaluation::Snippets, &document, rule, nodes);
    let shown = rule.escape_ascii();
    let differing = (0..nodes).find(|v| plain_marks[*v] != marks[*v]);
    assert_eq!(differing, None, "{origin}: {shown}");
    let most = most_snippets(nodes, &reader::read(rule));
    assert!(snippets.snippets <= most, "{origin}: {shown}");
    let due = Outcome {
        snippets: snippets.snippets,
        ..plain
    };
    assert_eq!(snippets, due, "{origin}: {shown}");
    assert_eq!((plain.number, plain.snippets), (0, 0), "{origin}: {shown}");
    snippets
}

/// Near and far, nested, denied, every sign, and counts.
const RULES: [&str; 9] = [
    SESSION,
    "(.l.lr=.r.rl)",
    "!(.+lr+lr=.+LR+LR)",
    "([(r=+l+RL)]=+r+lL)",
    "&(+lr!=+rL)(.lr<=+Re)",
    "|(+e+lr>\"50\")(.L[(e=r)]<.rr)",
    "(..ll[!:name]>=.L[(.*re=l)])",
    "#2..l*r[(e=.+rl+re)]",
    "(.+lr[#3.l*r]=+L.R[!#2+lr])",
];

#[test]
fn both_mark_the_same_on_every_shape() {
    let (mut some, mut counted) = (0, 0);
    for (name, shape) in SHAPES {
        for nodes in [100, 511, 512, 513, 1_500, NODE_LIMIT] {
            let library = shape(nodes);
            for rule in RULES {
                let origin = format!("{name} of {nodes}");
                let outcome = assert_beside(&origin, &library, rule.as_bytes());
                some += usize::from(outcome.selected > 0 && outcome.selected < nodes);
                counted += usize::from(outcome.snippets > 0);
            }
        }
    }
    println!("{some} marked some nodes and not all, {counted} had snippets");
    assert!(some > 50 && counted > 100, "{some}, {counted}");
}

#[test]
fn both_mark_the_same_on_random_trees() {
    let (mut some, mut counted) = (0, 0);
    // Other seeds than those of the pairs that the evaluator evaluates.
    for seed in 2_000_000..2_000_300 {
        let random = &mut Random::new(seed);
        let most = *random.pick(&[200, 600, 1_200, NODE_LIMIT]);
        let nodes = 1 + random.below(most);
        let library = library(random, nodes);
        let tree = Tree::of(&library);
        let rule = rule_about(random, 10, &tree.values).spell();
        let outcome = assert_beside(&format!("seed {seed}"), &library, &rule);
        some += usize::from(outcome.selected > 0 && outcome.selected < nodes);
        counted += usize::from(outcome.snippets > 0);
    }
    println!("{some} marked some nodes and not all, {counted} had snippets");
    assert!(some > 100 && counted > 50, "{some}, {counted}");
}

#[test]
fn both_mark_the_same_where_paths_lead_everywhere() {
    let rules = ["(.*+l+r+LR[:name]=.*+rRl)", "(.*+lr[(e=*+LR)]=.*+LRr)"];
    for (name, shape) in SHAPES {
        let nodes = if name == "chain" { 600 } else { 1_000 };
        for rule in rules {
            assert_beside(
                &format!("{name} of {nodes}"),
                &shape(nodes),
                rule.as_bytes(),
            );
        }
    }
}
