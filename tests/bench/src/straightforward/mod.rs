//! The two evaluations in straightforward Rust, to hold the proved ones
//! against: the same algorithms without a proof.
//!
//! A set of positions at a node is one word of 16 bits, and values are compared
//! by the ranks of their texts or of their amounts. Both evaluations count nodes
//! in the same way. Document and rule are taken as accepted and not checked, and
//! memory is allocated as needed, where the proved functions have their scratch.

mod automaton;
mod count;
mod library;
pub mod plain;
pub mod snippets;
mod walk;

use automaton::Automaton;
use evaluator::amount::amount;
use evaluator::meaning::related;
use evaluator::reader;
use evaluator::rule::{Operand, Path, Sign, Test};
pub use library::cut;
use library::Library;

/// The counts that an evaluation returns.
#[derive(Clone, Copy, Debug, PartialEq, Eq)]
pub struct Answer {
    pub selected: usize,
    pub snippets: usize,
}

/// How comparisons are evaluated, at all nodes at once.
trait Comparing {
    /// Between the two paths of an automaton.
    fn paths(&self, library: &Library, automaton: &Automaton, sign: Sign) -> Vec<bool>;
    /// Whether the first path leads to a node that is a hit.
    fn hits(&self, library: &Library, automaton: &Automaton, hits: &[bool]) -> Vec<bool>;
}

/// Marks the nodes that the rule selects, and returns how many they are.
fn mark(document: &[u8], rule: &[u8], marks: &mut [u8], comparing: &dyn Comparing) -> usize {
    let library = Library::read(document);
    let column = holds(&library, &reader::read(rule), comparing);
    for (mark, holds) in marks.iter_mut().zip(&column) {
        *mark = u8::from(*holds);
    }
    column.iter().filter(|holds| **holds).count()
}

/// For each node whether the test holds there.
fn holds(library: &Library, test: &Test, comparing: &dyn Comparing) -> Vec<bool> {
    let inner = |test: &Test| holds(library, test, comparing);
    let two = |a: &Test, b: &Test| inner(a).into_iter().zip(inner(b));
    // The tests in the brackets of the paths are settled first.
    let automaton = |p: &Path, r: &Path| Automaton::of(p, r, &inner);
    match test {
        Test::Name(name) => library.labels.iter().map(|label| label == name).collect(),
        Test::Not(a) => inner(a).iter().map(|holds| !holds).collect(),
        Test::And(a, b) => two(a, b).map(|(a, b)| a && b).collect(),
        Test::Or(a, b) => two(a, b).map(|(a, b)| a || b).collect(),
        Test::Compare(p, sign, Operand::Path(r)) => {
            comparing.paths(library, &automaton(p, r), *sign)
        }
        Test::Compare(p, sign, Operand::Constant(c)) => {
            let hits = hits(library, *sign, cut(c));
            comparing.hits(library, &automaton(p, &Path::Empty), &hits)
        }
        Test::AtLeast(n, p) => count::at_least(library, &automaton(p, &Path::Empty), *n),
    }
}

/// For each node whether its value is in the relation to a constant.
fn hits(library: &Library, sign: Sign, constant: &[u8]) -> Vec<bool> {
    if let Sign::Equal | Sign::Unequal = sign {
        let hit = |value: &Vec<u8>| related(sign, value.as_slice(), constant);
        return library.values.iter().map(hit).collect();
    }
    let limit = amount(constant);
    let hit = |own: &Option<i64>| own.zip(limit).is_some_and(|(a, b)| related(sign, &a, &b));
    library.amounts.iter().map(hit).collect()
}

/// The least and the greatest of some ranks.
type Range = (u16, u16);

/// Whether some rank of the one and some of the other are in the relation.
fn in_relation(sign: Sign, first: Option<Range>, second: Option<Range>) -> bool {
    let (Some((low, high)), Some((other_low, other_high))) = (first, second) else {
        return false;
    };
    match sign {
        Sign::Less | Sign::LessOrEqual => related(sign, &low, &other_high),
        Sign::Greater | Sign::GreaterOrEqual => related(sign, &high, &other_low),
        Sign::Unequal => low != other_high || high != other_low,
        Sign::Equal => unreachable!("their range does not tell"),
    }
}

#[cfg(test)]
mod tests {
    use super::{plain, snippets, Answer};
    use evaluator::document::{spell, Kind, Library, Node};
    use evaluator::evaluate::{evaluate, needed_words, Evaluation};
    use evaluator::random::{branching_library, library, rule_about, Random};
    use evaluator::samples::selections::GROUPS;
    use evaluator::tree::Tree;
    use evaluator::{document, meaning, rule_check, samples};

    /// Both versions, with the numbers of the marked nodes.
    fn both(document: &[u8], rule: &[u8]) -> [(Answer, Vec<usize>); 2] {
        [plain::evaluate, snippets::evaluate].map(|evaluate| {
            let nodes = document::check(document).nodes;
            let mut marks = vec![2; nodes];
            let answer = evaluate(document, rule, &mut marks);
            let marked: Vec<usize> = (0..nodes).filter(|v| marks[*v] == 1).collect();
            assert_eq!(marked.len(), answer.selected);
            (answer, marked)
        })
    }

    #[test]
    fn every_fixed_selection_is_marked() {
        for (name, cases) in GROUPS {
            for case in cases() {
                for (_, marked) in both(&case.document, case.rule.as_bytes()) {
                    assert_eq!(marked, case.marked, "{name}: {}", case.rule);
                }
            }
        }
    }

    /// The values of all attributes with blanks at both ends, where three more
    /// bytes fit. No element's text is joined from them.
    fn with_padded_attributes(document: &[u8]) -> Vec<u8> {
        let mut library = document::read(document).expect("a legal document");
        let has_room = |node: &&mut Node| {
            node.kind == Kind::Attribute && node.value.len() + 3 <= document::VALUE_LIMIT
        };
        for node in library.nodes.iter_mut().filter(has_room) {
            node.value = [&b"  "[..], &node.value, b" "].concat();
        }
        spell(&library)
    }

    /// A rule with blanks at both ends of its constants, or as it is where they
    /// would be too long.
    fn with_padded_constants(rule: &str) -> String {
        let padded = rule.replace("=\"", "=\" ").replace("\")", "  \")");
        match rule_check::read(padded.as_bytes()) {
            Ok(_) => padded,
            Err(_) => rule.to_string(),
        }
    }

    /// Constants and values alike: blanks at the ends change no mark and no
    /// count.
    #[test]
    fn blanks_at_the_ends_do_not_count() {
        for (name, cases) in GROUPS {
            for case in cases() {
                let padded = with_padded_attributes(&case.document);
                let rule = with_padded_constants(&case.rule);
                let due = both(&case.document, case.rule.as_bytes());
                assert_eq!(both(&padded, rule.as_bytes()), due, "{name}: {rule}");
            }
        }
    }

    #[test]
    fn values_are_cut_after_they_are_joined() {
        let document = samples::document(&[
            ('e', 0, "lib", ""),
            ('a', 1, "note", "   "),
            ('t', 1, "text", " 5 "),
            ('t', 1, "text", "mg "),
        ]);
        let marked: [(&str, &[usize]); 5] = [
            ("(e=\"5 mg\")", &[0]),
            ("(e=\" 5 mg  \")", &[0]),
            ("(e=\"5mg\")", &[]),
            ("(e=\"mg\")", &[3]),
            ("(e=\" \")", &[1]),
        ];
        for (rule, due) in marked {
            for (_, marked) in both(&document, rule.as_bytes()) {
                assert_eq!(marked, due, "{rule}");
            }
        }
    }

    #[test]
    fn random_pairs_are_marked_as_the_evaluator_marks_them() {
        for seed in 0..2_000 {
            let random = &mut Random::new(seed);
            let nodes = 1 + random.below(20);
            let library = library(random, nodes);
            let tree = Tree::of(&library);
            let size = 2 + random.below(20);
            let rule = rule_about(random, size, &tree.values);
            let holds = meaning::holds(&tree, &rule);
            let due: Vec<usize> = (0..nodes).filter(|v| holds[*v]).collect();
            for (_, marked) in both(&spell(&library), &rule.spell()) {
                assert_eq!(marked, due, "seed {seed}: {}", rule.spell().escape_ascii());
            }
        }
    }

    /// Whether the evaluator counts snippets by a random rule; both count the
    /// same.
    fn has_snippets(seed: u64, random: &mut Random, library: &Library) -> bool {
        let (nodes, document) = (library.nodes.len(), spell(library));
        let rule = evaluator::random::rule(random, 12).spell();
        let words = needed_words(nodes);
        let (due, _) = evaluate(&document, &rule, words, nodes, Evaluation::Snippets);
        let [(plain, _), (snippets, _)] = both(&document, &rule);
        assert_eq!(plain.snippets, 0);
        assert_eq!(snippets.snippets, due.snippets, "seed {seed}");
        due.snippets > 0
    }

    #[test]
    fn snippets_are_counted_as_the_evaluator_counts_them() {
        let mut with_snippets = 0;
        for seed in 0..1_000 {
            let random = &mut Random::new(seed);
            let nodes = 1 + random.below(20);
            let library = library(random, nodes);
            with_snippets += usize::from(has_snippets(seed, random, &library));
        }
        assert!(with_snippets > 300, "{with_snippets}");
    }

    #[test]
    fn snippets_of_branching_trees_are_counted_as_the_evaluator_counts_them() {
        let mut with_snippets = 0;
        for seed in 0..300 {
            let random = &mut Random::new(seed);
            let nodes = 40 + random.below(81);
            let library = branching_library(random, nodes);
            with_snippets += usize::from(has_snippets(seed, random, &library));
        }
        assert!(with_snippets > 150, "{with_snippets}");
    }
}
