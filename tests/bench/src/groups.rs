//! What the groups of equal values cost an equality: few and many of them on the
//! most nodes, by the snippet evaluation, which puts them into a list by their
//! sizes; and beside it by lists of values that are lent.

use std::cell::RefCell;
use std::hint::black_box;
use std::time::Duration;

use crate::evaluations::{assert_same_answers, proved, BY_SNIPPETS};
use crate::straightforward::Answer;
use crate::timing::{ratio, time_for, Subject, Times};
use evaluator::by_values::largest_first;
use evaluator::document::{read, NODE_LIMIT};
use evaluator::samples::counts::row;
use evaluator::tree::Tree;
use yurzhoad::archive::{evaluate_values, Evaluation};
use yurzhoad::limits::needed_words;

/// So many different values, the root's among them.
const VALUES: [usize; 4] = [5, 100, 1_000, NODE_LIMIT];

/// Of the first hardly anything else is done than to group nodes and to make the
/// list; the second looks along all of them.
const RULES: [&str; 2] = ["(e=e)", "(e=.r*r)"];

/// So long one comparison is timed.
const BUDGET: Duration = Duration::from_secs(6);

/// A root with attributes in a row, by turns of all the values but the root's.
fn document(nodes: usize, values: usize) -> Vec<u8> {
    let value = |number: usize| format!("v{}", number % (values - 1));
    let values: Vec<String> = (1..nodes).map(value).collect();
    row(&values)
}

/// The snippet evaluation, with more and more values.
pub fn print() {
    let documents = VALUES.map(|values| document(NODE_LIMIT, values));
    for rule in RULES {
        let rule = rule.as_bytes();
        let answer = |document: &Vec<u8>| assert_same_answers(document, rule, NODE_LIMIT);
        let answers = documents.each_ref().map(answer);
        let call = |document| proved(&BY_SNIPPETS, document, rule, NODE_LIMIT);
        let subjects = documents.each_ref().map(|document| call(document));
        let times = time_for(&subjects, BUDGET);
        print_heading(rule, &times);
        for (at, its) in times.iter().enumerate() {
            let Answer { selected, snippets } = answers[at];
            print_line(
                &format!("{} values", VALUES[at]),
                its,
                &times[0],
                "the first",
            );
            println!(", {selected} marked, {snippets} snippets");
        }
    }
}

/// Lists of all values, of five and of one, beside the snippet evaluation.
pub fn print_lists() {
    for values in VALUES {
        let document = document(NODE_LIMIT, values);
        let all = all_values(&document);
        for rule in RULES {
            let rule = rule.as_bytes();
            let lists = [&all[..], &all[..5], &all[..1]];
            let mut subjects = vec![proved(&BY_SNIPPETS, &document, rule, NODE_LIMIT)];
            subjects.extend(lists.map(|list| by_list(&document, rule, list, NODE_LIMIT)));
            let times = time_for(&subjects, BUDGET);
            print_heading(rule, &times);
            let names = ["by snippets", "all lent", "five lent", "one lent"];
            for (name, its) in names.into_iter().zip(&times) {
                let name = format!("{values} values, {name}");
                print_line(&name, its, &times[0], "the snippet evaluation");
                println!();
            }
        }
    }
}

/// Each value by its first node, the largest groups first.
fn all_values(document: &[u8]) -> Vec<u16> {
    let library = read(document).expect("a legal document");
    largest_first(&Tree::of(&library))
}

/// A call by a list, with buffers that were lent before.
fn by_list<'a>(document: &'a [u8], rule: &'a [u8], list: &'a [u16], nodes: usize) -> Subject<'a> {
    let buffers = RefCell::new((vec![0; needed_words(nodes)], vec![0; nodes]));
    let call = move || {
        let (scratch, marks) = &mut *buffers.borrow_mut();
        let list = black_box(list);
        let Evaluation { selected, .. } =
            evaluate_values(black_box(document), black_box(rule), list, scratch, marks);
        selected
    };
    Subject {
        name: "values",
        bytes: document.len(),
        call: Box::new(call),
    }
}

fn print_heading(rule: &[u8], times: &[Times]) {
    let (shown, runs) = (rule.escape_ascii(), times[0].runs);
    println!("\n{shown}, {NODE_LIMIT} nodes, {runs} runs");
}

fn print_line(name: &str, its: &Times, other: &Times, named: &str) {
    print!(
        "  {name:26}{:11.3} ({:.3}) ms, {} times {named}",
        its.median * 1e3,
        its.fastest * 1e3,
        ratio(its, other, 3),
    );
}

#[cfg(test)]
mod tests {
    use super::{all_values, assert_same_answers, document, RULES};
    use yurzhoad::archive::evaluate_values;
    use yurzhoad::limits::needed_words;

    /// What is timed beside each other answers alike, on fewer nodes.
    #[test]
    fn lists_of_all_values_answer_as_the_snippet_evaluation() {
        const NODES: usize = 200;
        for values in [5, 100, NODES] {
            let document = document(NODES, values);
            let all = all_values(&document);
            assert_eq!(all.len(), values);
            for rule in RULES {
                let rule = rule.as_bytes();
                let due = assert_same_answers(&document, rule, NODES);
                let (mut scratch, mut marks) = (vec![9; needed_words(NODES)], vec![9; NODES]);
                let found = evaluate_values(&document, rule, &all, &mut scratch, &mut marks);
                assert_eq!(found.selected, due.selected, "{values}");
                assert_eq!(found.snippets, due.snippets, "{values}");
            }
        }
    }
}
