//! Counts of nodes: few or many, of the nodes directly inside or of all inside, by
//! both evaluations and beside XPath's `count()`.

use std::time::Duration;

use crate::evaluations::{assert_same_answers, compare, proved, Case, BY_SNIPPETS};
use crate::libraries::{LibraryShape, LIBRARY_SHAPES};
use crate::timing::{time_for, Subject, Times};
use crate::xpath::Xpath;
use evaluator::document::{spell, NODE_LIMIT};

/// So many nodes have the documents.
const SIZES: [usize; 2] = [1_024, 4_096];

/// So long one rule is timed on one shape; longer if calls are slow, which are
/// made three times in any case.
const BUDGET: Duration = Duration::from_secs(6);

/// What is counted, the path, and the number that is asked for on so many nodes.
struct Count {
    name: &'static str,
    path: &'static str,
    number: fn(usize) -> usize,
}

impl Count {
    fn rule(&self, nodes: usize) -> String {
        format!("#{}{}", (self.number)(nodes), self.path)
    }
}

/// A walk ends as soon as enough nodes are found, and one node is found backwards
/// for all nodes at once. With as many as there are, every walk goes to its end.
const COUNTS: [Count; 5] = [
    Count {
        name: "three directly inside",
        path: ".l*r",
        number: |_| 3,
    },
    Count {
        name: "three inside",
        path: ".l*+lr",
        number: |_| 3,
    },
    Count {
        name: "one inside",
        path: ".l*+lr",
        number: |_| 1,
    },
    Count {
        name: "all inside",
        path: ".l*+lr",
        number: |nodes| nodes,
    },
    Count {
        name: "all from everywhere",
        path: "*+l+r+LR",
        number: |nodes| nodes,
    },
];

/// The same by XPath, for the first two: the attributes are inside too.
const IN_XPATH: [&str; 2] = [
    "count(//*[count(@*) + count(node()) >= 3])",
    "count(//*[count(.//@*) + count(.//node()) >= 3])",
];

pub fn print() {
    for shape in LIBRARY_SHAPES {
        let documents = SIZES.map(|nodes| spell(&(shape.library)(nodes)));
        for count in COUNTS {
            let rules = SIZES.map(|nodes| count.rule(nodes));
            println!("\n{}, {}: {}", shape.name, count.name, rules[1]);
            let cases = [0, 1].map(|at| Case::of(&documents[at], &rules[at]));
            compare(&cases, BUDGET);
        }
    }
    for shape in LIBRARY_SHAPES {
        print_beside_xpath(&shape);
    }
}

/// Selects nothing and counts nothing.
const NOTHING: &[u8] = b":x";

/// The snippet evaluation beside XPath: the call and the process, each also with
/// nothing to count, when it reads the same bytes.
fn print_beside_xpath(shape: &LibraryShape) {
    let library = (shape.library)(NODE_LIMIT);
    let document = spell(&library);
    println!(
        "\n{}, {NODE_LIMIT} nodes, beside XPath's count()",
        shape.name
    );
    let xpath = match Xpath::of(&library) {
        Ok(xpath) => xpath,
        Err(words) => return println!("  left out: {words}"),
    };
    for (count, expression) in COUNTS.iter().zip(IN_XPATH) {
        let rule = count.rule(NODE_LIMIT);
        let answer = assert_same_answers(&document, rule.as_bytes(), NODE_LIMIT);
        assert_eq!(xpath.number(expression), answer.selected, "{expression}");
        let call = |rule| proved(&BY_SNIPPETS, &document, rule, NODE_LIMIT);
        let subjects = [
            call(rule.as_bytes()),
            call(NOTHING),
            process(&xpath, expression),
            process(&xpath, "0"),
        ];
        let times = time_for(&subjects, BUDGET);
        let (selected, runs) = (answer.selected, times[0].runs);
        println!("  {rule} and {expression}, {selected} marked, {runs} runs");
        for (subject, pair) in subjects.iter().step_by(2).zip(times.chunks(2)) {
            print_pair(subject.name, pair);
        }
    }
}

fn process<'a>(xpath: &'a Xpath, expression: &'a str) -> Subject<'a> {
    Subject {
        name: "process",
        bytes: xpath.bytes(),
        call: Box::new(move || xpath.number(expression)),
    }
}

fn print_pair(name: &str, pair: &[Times]) {
    let [counted, nothing] = [0, 1].map(|at| (pair[at].median * 1e3, pair[at].fastest * 1e3));
    println!(
        "    {name:10}{:11.3} ({:.3}) ms, with nothing to count{:11.3} ({:.3}) ms",
        counted.0, counted.1, nothing.0, nothing.1,
    );
}

#[cfg(test)]
mod tests {
    use super::{assert_same_answers, spell, Xpath, COUNTS, IN_XPATH, LIBRARY_SHAPES};

    #[test]
    fn what_is_counted_is_counted_alike() {
        let mut some = 0;
        for shape in LIBRARY_SHAPES {
            for nodes in [64, 300] {
                let library = (shape.library)(nodes);
                let document = spell(&library);
                let xpath = Xpath::of(&library);
                for (at, count) in COUNTS.iter().enumerate() {
                    let rule = count.rule(nodes);
                    let answer = assert_same_answers(&document, rule.as_bytes(), nodes);
                    some += usize::from(answer.selected > 0 && answer.selected < nodes);
                    if let (Ok(xpath), Some(expression)) = (&xpath, IN_XPATH.get(at)) {
                        assert_eq!(xpath.number(expression), answer.selected, "{expression}");
                    }
                }
            }
        }
        assert!(some > 8, "{some} marked some nodes and not all");
    }
}
