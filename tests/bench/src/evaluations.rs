//! Both evaluations beside each other, and each beside the same algorithm in
//! straightforward Rust.

use std::cell::RefCell;
use std::hint::black_box;
use std::time::Duration;

use crate::libraries::LIBRARY_SHAPES;
use crate::straightforward::{plain, snippets, Answer};
use crate::timing::{ratio, time_for, Subject, Times};
use evaluator::document::spell;
use evaluator::samples::selections::SESSION;
use yurzhoad::archive::{check_document, evaluate_plain, evaluate_snippets, Evaluation};
use yurzhoad::limits::needed_words;

/// So many nodes have the documents.
const SIZES: [usize; 3] = [256, 1_024, 4_096];

/// The rule starred both ways: from everywhere to every name, and along all siblings.
pub const BOTH_WAYS: &str = "(.*+l+r+LR[:name]=.*+rRl)";

/// What a rule does, and the rule.
const RULES: [(&str, &str); 5] = [
    ("the session's", SESSION),
    ("wandering both ways", BOTH_WAYS),
    (
        "nested equalities",
        "(.*+LR[(.l[:name]=..+lr*+lrl)]=.*+lr[(.l[:name]=..+LR*+LRl)])",
    ),
    ("order of two paths", "(.*+lr[:text]<.*+LR[(e>\"50\")])"),
    ("order with a constant", "(.*+lr[:text]>\"50\")"),
];

/// So long one rule is timed on one shape, all sizes together; longer if calls
/// are slow, which are made three times in any case.
const BUDGET: Duration = Duration::from_secs(6);

/// Document, rule, scratch, marks.
type Proved = fn(&[u8], &[u8], &mut [u16], &mut [u8]) -> Evaluation;
/// Document, rule, marks.
type Rust = fn(&[u8], &[u8], &mut [u8]) -> Answer;

/// An evaluation in the archive, and in straightforward Rust.
pub struct Versions {
    name: &'static str,
    proved: Proved,
    rust: Rust,
}

const PLAIN: Versions = Versions {
    name: "plain",
    proved: evaluate_plain,
    rust: plain::evaluate,
};

pub const BY_SNIPPETS: Versions = Versions {
    name: "snippets",
    proved: evaluate_snippets,
    rust: snippets::evaluate,
};

const EVALUATIONS: [Versions; 2] = [PLAIN, BY_SNIPPETS];

pub fn print() {
    for shape in LIBRARY_SHAPES {
        let documents = SIZES.map(|nodes| spell(&(shape.library)(nodes)));
        for (name, rule) in RULES {
            let cases = documents
                .each_ref()
                .map(|document| Case::of(document, rule));
            println!("\n{}, {name}: {rule}", shape.name);
            compare(&cases, BUDGET);
        }
    }
}

/// A document with the rule that is evaluated on it.
pub struct Case<'a> {
    pub document: &'a [u8],
    pub rule: &'a [u8],
    pub nodes: usize,
}

impl Case<'_> {
    pub fn of<'a>(document: &'a [u8], rule: &'a str) -> Case<'a> {
        Case {
            document,
            rule: rule.as_bytes(),
            nodes: check_document(document).nodes,
        }
    }
}

/// The times of one case: proved and Rust, for each evaluation.
type Row<'a> = &'a [Times];

/// Prints both evaluations in both versions on each of some cases, and how they
/// grow from one to the next.
pub fn compare(cases: &[Case], budget: Duration) {
    let mut subjects = Vec::new();
    let mut answers = Vec::new();
    for case in cases {
        answers.push(assert_same_answers(case.document, case.rule, case.nodes));
        for versions in &EVALUATIONS {
            subjects.push(proved(versions, case.document, case.rule, case.nodes));
            subjects.push(straightforward(versions, case));
        }
    }
    let times = time_for(&subjects, budget);
    let rows: Vec<Row> = times.chunks(2 * EVALUATIONS.len()).collect();
    println!("  {} runs", times[0].runs);
    for ((case, answer), row) in cases.iter().zip(&answers).zip(&rows) {
        let Answer { selected, snippets } = answer;
        println!(
            "  {} nodes, {selected} marked, {snippets} snippets",
            case.nodes
        );
        print_row(row);
    }
    for (pair, times) in cases.windows(2).zip(rows.windows(2)) {
        print_growth([pair[0].nodes, pair[1].nodes], [times[0], times[1]]);
    }
}

/// Both evaluations mark the same nodes; returns how many, and the snippets.
pub fn assert_same_answers(document: &[u8], rule: &[u8], nodes: usize) -> Answer {
    let evaluated = |versions| assert_same_versions(versions, document, rule, nodes);
    let [(_, plain), (answer, marks)] = EVALUATIONS.each_ref().map(evaluated);
    let differing = (0..nodes).find(|v| plain[*v] != marks[*v]);
    assert_eq!(differing, None, "{}", rule.escape_ascii());
    answer
}

/// Both versions of an evaluation mark the same nodes and count the same.
fn assert_same_versions(
    versions: &Versions,
    document: &[u8],
    rule: &[u8],
    nodes: usize,
) -> (Answer, Vec<u8>) {
    let mut scratch = vec![u16::MAX; needed_words(nodes)];
    let (mut marks, mut other) = (vec![2; nodes], vec![2; nodes]);
    let proved = (versions.proved)(document, rule, &mut scratch, &mut marks);
    assert_eq!(proved.number, 0, "only an accepted call is evaluated");
    let answer = (versions.rust)(document, rule, &mut other);
    let shown = rule.escape_ascii();
    let differing = (0..nodes).find(|v| marks[*v] != other[*v]);
    assert_eq!(differing, None, "{}: {shown}", versions.name);
    assert_eq!(
        proved.selected, answer.selected,
        "{}: {shown}",
        versions.name
    );
    assert_eq!(
        proved.snippets, answer.snippets,
        "{}: {shown}",
        versions.name
    );
    (answer, marks)
}

/// A call of the proved function, with buffers that were lent before.
pub fn proved<'a>(
    versions: &'a Versions,
    document: &'a [u8],
    rule: &'a [u8],
    nodes: usize,
) -> Subject<'a> {
    let buffers = RefCell::new((vec![0; needed_words(nodes)], vec![0; nodes]));
    let call = move || {
        let (scratch, marks) = &mut *buffers.borrow_mut();
        (versions.proved)(black_box(document), black_box(rule), scratch, marks).selected
    };
    Subject {
        name: versions.name,
        bytes: document.len(),
        call: Box::new(call),
    }
}

fn straightforward<'a>(versions: &'a Versions, case: &Case<'a>) -> Subject<'a> {
    let (document, rule) = (case.document, case.rule);
    let marks = RefCell::new(vec![0; case.nodes]);
    let call = move || {
        let marks = &mut marks.borrow_mut();
        (versions.rust)(black_box(document), black_box(rule), marks).selected
    };
    Subject {
        name: versions.name,
        bytes: document.len(),
        call: Box::new(call),
    }
}

/// A line for each evaluation, and one for how they stand to each other.
fn print_row(row: Row) {
    for (versions, pair) in EVALUATIONS.iter().zip(row.chunks(2)) {
        println!(
            "    {:10}proved{:11.3} ({:.3}) ms, Rust{:11.3} ({:.3}) ms, proved takes {} times as long",
            versions.name,
            pair[0].median * 1e3,
            pair[0].fastest * 1e3,
            pair[1].median * 1e3,
            pair[1].fastest * 1e3,
            ratio(&pair[0], &pair[1], 2),
        );
    }
    println!(
        "    plain takes {} times as long as snippets, in Rust {}",
        ratio(&row[0], &row[2], 2),
        ratio(&row[1], &row[3], 2),
    );
}

/// How many times as long each takes on the larger document.
fn print_growth([small, large]: [usize; 2], [before, after]: [Row; 2]) {
    print!("  from {small} to {large} nodes:");
    for (versions, at) in EVALUATIONS.iter().zip([0, 2]) {
        print!(
            " {} proved {}, Rust {} times;",
            versions.name,
            ratio(&after[at], &before[at], 2),
            ratio(&after[at + 1], &before[at + 1], 2),
        );
    }
    println!();
}

#[cfg(test)]
mod tests {
    use super::{assert_same_answers, spell, LIBRARY_SHAPES, RULES};
    use evaluator::random::{library, rule_about, Random};
    use evaluator::tree::Tree;

    #[test]
    fn what_is_timed_answers_alike() {
        for shape in LIBRARY_SHAPES {
            for nodes in [64, 300, 1_000] {
                let document = spell(&(shape.library)(nodes));
                for (_, rule) in RULES {
                    assert_same_answers(&document, rule.as_bytes(), nodes);
                }
            }
        }
    }

    /// Counts of snippets too, also on trees that are too large for the
    /// evaluator to count. The version in Rust has the algorithm of the proved
    /// one, so a mistake in what they share would not show here; on smaller
    /// trees both are compared with the evaluator.
    #[test]
    fn random_trees_are_answered_alike() {
        let mut counted = 0;
        for seed in 3_000_000..3_001_000 {
            let random = &mut Random::new(seed);
            let most = *random.pick(&[40, 100, 300, 1_500]);
            let nodes = 1 + random.below(most);
            let library = library(random, nodes);
            let tree = Tree::of(&library);
            let rule = rule_about(random, 12, &tree.values).spell();
            let answer = assert_same_answers(&spell(&library), &rule, nodes);
            counted += usize::from(answer.snippets > 0);
        }
        assert!(counted > 300, "{counted} had snippets");
    }
}
