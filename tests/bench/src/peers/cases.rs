//! What is asked of all, in both languages, and of which libraries.

use std::collections::BTreeSet;

use crate::evaluations::BOTH_WAYS;
use crate::libraries::LibraryShape;
use evaluator::document::{Kind, Library, Node};
use evaluator::samples::libraries::{attribute, element, formulary};
use evaluator::samples::selections::SESSION;

/// So many nodes have the libraries.
pub const SIZES: [usize; 2] = [1_024, 4_096];

/// Drugs with few and with many different names, and the library of other parts.
pub const NAMED: [LibraryShape; 4] = [
    LibraryShape {
        name: "5 names",
        library: |nodes| named(nodes, 5),
    },
    LibraryShape {
        name: "100 names",
        library: |nodes| named(nodes, 100),
    },
    LibraryShape {
        name: "1,000 names",
        library: |nodes| named(nodes, 1_000),
    },
    LibraryShape {
        name: "formulary",
        library: formulary,
    },
];

/// The library of 000, 1.3.
const FLAT: [LibraryShape; 1] = [LibraryShape {
    name: "flat",
    library: flat,
}];

/// A rule of one label.
pub const LABEL: &str = ":drug";

/// One question as a rule and as an XPath expression, and the libraries.
pub struct Question {
    pub name: String,
    pub rule: String,
    pub expression: String,
    shapes: &'static [LibraryShape],
}

/// A library of just so many nodes.
pub struct Case {
    pub name: &'static str,
    /// How many different names its drugs have.
    pub names: usize,
    pub library: Library,
}

impl Question {
    pub fn cases(&self) -> impl Iterator<Item = Case> + '_ {
        let of = |nodes| self.shapes.iter().map(move |shape| Case::of(shape, nodes));
        SIZES.into_iter().flat_map(of)
    }
}

impl Case {
    fn of(shape: &LibraryShape, nodes: usize) -> Case {
        let library = (shape.library)(nodes);
        let is_name = |node: &&Node| node.kind == Kind::Attribute && node.label == b"name";
        let named = library.nodes.iter().filter(is_name);
        let names: BTreeSet<&[u8]> = named.map(|node| &node.value[..]).collect();
        Case {
            name: shape.name,
            names: names.len(),
            library,
        }
    }
}

/// The rule starred both ways in XPath, which has no star over a path: here each star
/// leads to what an axis leads to, to every node and to every sibling. The first node
/// inside a drug is its name. `@*[1]` would not say so: XPath leaves the order of
/// attributes open, and Java's own sorts them by their labels.
const BOTH_WAYS_BY_HAND: &str = "(//node() | //@*)[../*/@name = (//@name | //name)]";

pub fn questions() -> Vec<Question> {
    let mut questions = vec![
        about_drugs("a label", LABEL, "//drug"),
        about_drugs(
            "a drug's name is a later drug's name",
            SESSION,
            "//drug[@name = following-sibling::drug/@name]",
        ),
        about_drugs(
            "starred both ways; in XPath with the stars worked out by hand",
            BOTH_WAYS,
            BOTH_WAYS_BY_HAND,
        ),
    ];
    questions.extend([3, 4, 5].map(nested));
    questions.extend([2, 3].map(there_and_back));
    questions
}

fn about_drugs(name: &str, rule: &str, expression: &str) -> Question {
    Question {
        name: name.to_string(),
        rule: rule.to_string(),
        expression: expression.to_string(),
        shapes: &NAMED,
    }
}

/// To the parent, if it is an `a`.
const PARENT: &str = "..*RL[:a]";
/// To what is directly inside.
const CHILDREN: &str = ".l*r";

/// The tests of 000, 1.3, so many inside each other: `//*[parent::a/child::*[..]]`.
fn nested(tests: usize) -> Question {
    let innermost = (
        format!("#1.{PARENT}{CHILDREN}"),
        "parent::a/child::*".to_string(),
    );
    let (rule, expression) = (1..tests).fold(innermost, |(rule, expression), _| {
        (
            format!("#1.{PARENT}.{CHILDREN}[{rule}]"),
            format!("parent::a/child::*[{expression}]"),
        )
    });
    Question {
        name: format!("{tests} nested tests"),
        rule,
        expression: format!("//*[{expression}]"),
        shapes: &FLAT,
    }
}

/// The paths of 000, 1.3, so many down: `//a/b/parent::a/b` is down twice. A rule is
/// a test, so that it begins where the path ends.
fn there_and_back(downs: usize) -> Question {
    let last = format!("#1{PARENT}");
    let rule = (1..downs).fold(last, |rule, _| format!("#1.{PARENT}.{CHILDREN}[&:b{rule}]"));
    Question {
        name: format!("a path down {downs} times"),
        rule: format!("&:b{rule}"),
        expression: format!("//a/b{}", "/parent::a/b".repeat(downs - 1)),
        shapes: &FLAT,
    }
}

/// A root with drugs that have a name and nothing else, so that there is room for
/// 1,000 names: the names by turns, in no simple order.
fn named(nodes: usize, names: usize) -> Library {
    let drug = |number: usize| {
        let name = format!("drug-{:03}", number * 613 % names);
        [element(1, "drug"), attribute(2, "name", name)]
    };
    grown(element(0, "lib"), nodes, (0..).flat_map(drug))
}

/// An `a` with a `b` beside the other in it.
fn flat(nodes: usize) -> Library {
    grown(element(0, "a"), nodes, (0..).map(|_| element(1, "b")))
}

/// A root, and so many nodes behind it that there are as many as asked for.
fn grown(root: Node, nodes: usize, behind: impl Iterator<Item = Node>) -> Library {
    Library {
        nodes: [root].into_iter().chain(behind).take(nodes).collect(),
    }
}

#[cfg(test)]
mod tests {
    use super::{nested, questions, there_and_back, Case, FLAT, NAMED};
    use crate::evaluations::assert_same_answers;
    use crate::xpath::Xpath;
    use evaluator::document::spell;

    #[test]
    fn libraries_have_so_many_nodes_and_names() {
        let names = |shape, nodes| {
            let case = Case::of(shape, nodes);
            assert_eq!(case.library.nodes.len(), nodes);
            case.names
        };
        let small = NAMED.each_ref().map(|shape| names(shape, 1_024));
        // With 1,024 nodes each drug has another name, if there are 1,000.
        assert_eq!(small[..3], [5, 100, 511]);
        let large = NAMED.each_ref().map(|shape| names(shape, 4_096));
        assert_eq!(large[..3], [5, 100, 1_000]);
        assert!(large[3] > 200, "{}", large[3]);
        assert_eq!(names(&FLAT[0], 1_024), 0);
    }

    #[test]
    fn questions_of_000_are_spelled_as_there() {
        let third = nested(3).expression;
        let due = "//*[parent::a/child::*[parent::a/child::*[parent::a/child::*]]]";
        assert_eq!(third, due);
        let third = there_and_back(3).expression;
        assert_eq!(third, "//a/b/parent::a/b/parent::a/b");
    }

    /// On small libraries, where it is installed, `xmllint` counts as many nodes as are
    /// marked.
    #[test]
    fn both_languages_ask_the_same() {
        const NODES: [usize; 2] = [12, 16];
        for question in questions() {
            let mut selected = 0;
            for shape in question.shapes {
                for nodes in NODES {
                    let library = (shape.library)(nodes);
                    let (document, rule) = (spell(&library), question.rule.as_bytes());
                    let answer = assert_same_answers(&document, rule, nodes);
                    selected += answer.selected;
                    if let Ok(xpath) = Xpath::of(&library) {
                        let found = xpath.number(&format!("count({})", question.expression));
                        assert_eq!(found, answer.selected, "{}", question.expression);
                    }
                }
            }
            assert!(selected > 0, "{}", question.rule);
        }
    }
}
