//! What values cost: those that are hard to rank beside others of the same
//! size, those with blanks at their ends beside the same without, and numerals
//! beside words.

use std::time::Duration;

use crate::amounts::{Standing, KINDS, RULES, STANDINGS};
use crate::evaluations::{assert_same_answers, proved, BY_SNIPPETS};
use crate::straightforward::Answer;
use crate::texts::{Texts, ALIKE, ELEMENTS};
use crate::timing::{ratio, time_for, Subject, Times};
use evaluator::document::{spell, Kind, Node, NODE_LIMIT};
use evaluator::samples::libraries::formulary;
use evaluator::samples::selections::SESSION;

/// So long one comparison is timed; longer if calls are slow, which are made
/// three times in any case.
const BUDGET: Duration = Duration::from_secs(6);

/// Selects nothing. All values are ranked for it, since it compares texts, and
/// hardly anything else is done.
const CHEAP: &str = "(e=\"~\")";

/// So many blanks stand at both ends of a value. The first is held against.
const BLANKS: [usize; 3] = [0, 2, 20];

/// Which values are padded, and of which nodes they are.
type Padded = (&'static str, fn(&Node) -> bool);

const PADDED: [Padded; 2] = [
    ("names", |node| node.label == b"name"),
    ("all values", |node| node.kind != Kind::Element),
];

pub fn print() {
    for texts in ALIKE {
        print_ranking(&texts);
    }
    for padded in PADDED {
        let documents = BLANKS.map(|blanks| document(NODE_LIMIT, padded, blanks));
        for rule in [CHEAP, SESSION] {
            print_padded(padded.0, &documents, rule.as_bytes());
        }
    }
    for standing in STANDINGS {
        let documents = KINDS.map(|(_, point)| spell(&standing.library(NODE_LIMIT, point)));
        for rule in RULES {
            print_kinds(&standing, &documents, rule.as_bytes());
        }
    }
}

/// Values that agree over long stretches, beside values that do not.
fn print_ranking(texts: &Texts) {
    let alike = spell(&texts.library(ELEMENTS));
    let apart = spell(&texts.told_apart(ELEMENTS));
    let rule = CHEAP.as_bytes();
    let call = |document| proved(&BY_SNIPPETS, document, rule, 2 * ELEMENTS);
    let subjects = [call(&alike), call(&apart)];
    let times = time_for(&subjects, BUDGET);
    let (nodes, runs) = (2 * ELEMENTS, times[0].runs);
    println!("\n{}: {CHEAP}, {nodes} nodes, {runs} runs", texts.name);
    let names = ["alike", "differ early"];
    for ((name, subject), its) in names.into_iter().zip(&subjects).zip(&times) {
        print_line(name, subject, its);
        println!(", the first takes {} times this", ratio(&times[0], its, 1));
    }
}

/// The same library with more and more blanks.
fn print_padded(name: &str, documents: &[Vec<u8>; 3], rule: &[u8]) {
    let mut subjects = Vec::new();
    let mut answers = Vec::new();
    for document in documents {
        answers.push(assert_same_answers(document, rule, NODE_LIMIT));
        subjects.push(proved(&BY_SNIPPETS, document, rule, NODE_LIMIT));
    }
    let times = time_for(&subjects, BUDGET);
    let (shown, runs) = (rule.escape_ascii(), times[0].runs);
    println!("\npadded {name}: {shown}, {NODE_LIMIT} nodes, {runs} runs");
    for (at, (subject, its)) in subjects.iter().zip(&times).enumerate() {
        let Answer { selected, snippets } = answers[at];
        print_line(&format!("{} at both ends", BLANKS[at]), subject, its);
        print!(", {} times the first", ratio(its, &times[0], 3));
        println!(", {selected} marked, {snippets} snippets");
    }
}

/// Numerals beside words.
fn print_kinds(standing: &Standing, documents: &[Vec<u8>; 2], rule: &[u8]) {
    let answer = |document: &Vec<u8>| assert_same_answers(document, rule, NODE_LIMIT);
    let answers = documents.each_ref().map(answer);
    let call = |document| proved(&BY_SNIPPETS, document, rule, NODE_LIMIT);
    let subjects = [call(&documents[0]), call(&documents[1])];
    let times = time_for(&subjects, BUDGET);
    let (shown, runs) = (rule.escape_ascii(), times[0].runs);
    println!(
        "\nvalues {}: {shown}, {NODE_LIMIT} nodes, {runs} runs",
        standing.name
    );
    for (at, (subject, its)) in subjects.iter().zip(&times).enumerate() {
        print_line(KINDS[at].0, subject, its);
        print!(", the first takes {} times this", ratio(&times[0], its, 3));
        println!(", {} marked", answers[at].selected);
    }
}

fn print_line(name: &str, subject: &Subject, its: &Times) {
    print!(
        "  {name:18}{:8} bytes{:11.3} ({:.3}) ms",
        subject.bytes,
        its.median * 1e3,
        its.fastest * 1e3,
    );
}

/// A formulary of so many nodes with so many blanks at both ends of its values.
fn document(nodes: usize, (_, is_padded): Padded, blanks: usize) -> Vec<u8> {
    let mut library = formulary(nodes);
    let blanks = vec![b' '; blanks];
    for node in library.nodes.iter_mut().filter(|node| is_padded(node)) {
        node.value = [&blanks[..], &node.value, &blanks].concat();
    }
    spell(&library)
}

#[cfg(test)]
mod tests {
    use super::{assert_same_answers, document, spell, ALIKE, BLANKS, CHEAP, PADDED, SESSION};

    /// Small ones: in plain Rust all values are there at once.
    #[test]
    fn values_that_are_hard_to_rank_are_ranked_alike() {
        for texts in ALIKE {
            for library in [texts.library(40), texts.told_apart(40)] {
                let document = spell(&library);
                for rule in [CHEAP, "(e=.*+lrl)", "(e!=.*+lr[:text])", "(.ll!=r)"] {
                    assert_same_answers(&document, rule.as_bytes(), 80);
                }
            }
        }
    }

    /// The same nodes, also by a constant that has its own blanks.
    #[test]
    fn padded_names_are_selected_as_bare_ones_are() {
        for padded in PADDED {
            let documents = BLANKS.map(|blanks| document(300, padded, blanks));
            for rule in [CHEAP, SESSION, "(e=\"drug-839\")", "(e<\" 100  \")"] {
                let answer = |document| assert_same_answers(document, rule.as_bytes(), 300);
                let [bare, two, twenty] = documents.each_ref().map(|d| answer(d));
                assert_eq!(
                    [two.selected, twenty.selected],
                    [bare.selected; 2],
                    "{rule}"
                );
                assert_eq!(bare.selected > 0, rule != CHEAP, "{rule}");
            }
        }
    }
}
