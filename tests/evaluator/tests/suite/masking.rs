//! Request (n) of document 02: what it supposes, that it says enough for the
//! evaluations by the definitions, and what random renamings change.

use std::collections::BTreeMap;

use crate::samples::{document, run};
use evaluator::amount::amount;
use evaluator::document::{self, spell, Kind, Library};
use evaluator::evaluate::{evaluate, needed_words, Evaluation};
use evaluator::masking::{alike, constants, differences, masked, Right};
use evaluator::random::{any_library, any_rule, branching_library, library, rule_about};
use evaluator::random::{one_value_changed, renamed, wandering_rule, Random};
use evaluator::reader;
use evaluator::rule::{Sign, Test};
use evaluator::samples::counts::row;
use evaluator::samples::masks::{broken, GROUPS};
use evaluator::tree::Tree;

fn read(document: &[u8]) -> Library {
    document::read(document).expect("a legal document")
}

#[test]
fn constants_are_found_in_every_place() {
    let cases: [(&str, &[&str]); 12] = [
        (":a", &[]),
        ("(e=r)", &[]),
        ("#3.l*r", &[]),
        ("(e=\"a\")", &["a"]),
        ("(e<\" 1 \")", &[" 1 "]),
        ("(e!=\"\")", &[""]),
        ("!(e=\"a\")", &["a"]),
        ("&(e=\"a\")|(e=\"b\")(l>=\"a\")", &["a", "b", "a"]),
        ("(.l[(e=\"a\")]=r)", &["a"]),
        ("(e=*+l[!(e<=\"a\")])", &["a"]),
        ("#2.l[(e>\"a\")]", &["a"]),
        ("(.l[(.r[#0[(e=\"a\")]]!=\"b\")]=\"c\")", &["c", "b", "a"]),
    ];
    for (rule, due) in cases {
        let test = reader::read(rule.as_bytes());
        let due: Vec<&[u8]> = due.iter().map(|text| text.as_bytes()).collect();
        assert_eq!(constants(&test), due, "{rule}");
    }
}

#[test]
fn constants_of_random_rules_are_what_stands_in_quotes() {
    let mut found = 0;
    for seed in 0..2_000 {
        let random = &mut Random::new(seed);
        let size = 4 + random.below(150);
        let rule = any_rule(random, size);
        // Each second piece between quotes is a constant, and nothing else has
        // quotes around it.
        let spelled = rule.spell();
        let pieces = spelled.split(|byte| *byte == b'"').skip(1).step_by(2);
        let mut due: Vec<&[u8]> = pieces.collect();
        let mut constants = constants(&rule);
        found += constants.len();
        due.sort_unstable();
        constants.sort_unstable();
        assert_eq!(constants, due, "seed {seed}");
    }
    println!("{found} constants");
    assert!(found > 2_000, "{found}");
}

#[test]
fn documents_are_alike_in_depths_kinds_and_labels() {
    let one = [
        ('e', 0, "lib", ""),
        ('a', 1, "text", "5"),
        ('e', 1, "drug", ""),
        ('t', 2, "text", "6"),
    ];
    let library = |rows: &[(char, usize, &str, &str)]| read(&document(rows));
    // Other values are no difference.
    let mut others = one;
    (others[1].3, others[3].3) = ("a", " ");
    assert!(alike(&library(&one), &library(&others)));
    let changed = |at: usize, node: (char, usize, &'static str, &'static str)| {
        let mut rows = one;
        rows[at] = node;
        library(&rows)
    };
    for other in [
        changed(3, ('t', 1, "text", "6")),
        changed(1, ('t', 1, "text", "5")),
        changed(2, ('e', 1, "drugs", "")),
        changed(0, ('e', 0, "li", "")),
        library(&one[..3]),
    ] {
        assert!(!alike(&library(&one), &other));
        assert!(!alike(&other, &library(&one)));
    }
}

#[test]
fn what_is_masked_and_what_is_not() {
    let cases: [(&[&str], &[&str], &str, bool); 20] = [
        (&["a", "b"], &["x", "y"], "(e=r)", true),
        (&["a", "b"], &["x", "x"], "(e=r)", false),
        (&["a", "a"], &["x", "y"], "(e=r)", false),
        (&["a", " a "], &["x", "x"], "(e=r)", true),
        (&["a", "b"], &["b", "a"], ":lib", true),
        (&["5", "10"], &["7", "30"], "(e<r)", true),
        (&["5", "10"], &["30", "7"], "(e=r)", false),
        (&["5", "10"], &["7", "7.0"], "(e<r)", false),
        (&["5"], &["a"], ":lib", false),
        (&["a"], &["5"], ":lib", false),
        (&["a"], &[""], ":lib", false),
        (&[""], &["   "], ":lib", true),
        (&["5", "5.0"], &["-1", "-01"], "(e=r)", true),
        (&["5", "5.0"], &["-1", "-1"], "(e=r)", false),
        (&["a"], &["b"], "(e=\"c\")", true),
        (&["a"], &["b"], "(e=\"a\")", false),
        (&["a"], &["b"], "#2.l[(e=\" b \")]", false),
        (&["5"], &["6"], "(e=\"5.5\")", false),
        (&["5"], &["5.4"], "(e=\"5.5\")", true),
        (&["5"], &["5.4"], "(e=\"05\")", false),
    ];
    for (one, other, rule, due) in cases {
        let (first, second) = (read(&row(one)), read(&row(other)));
        let test = reader::read(rule.as_bytes());
        assert_eq!(
            masked(&first, &second, &test),
            due,
            "{one:?} {other:?} {rule}"
        );
        assert_eq!(
            masked(&second, &first, &test),
            due,
            "{other:?} {one:?} {rule}"
        );
        assert!(masked(&first, &first, &test), "{one:?} {rule}");
    }
}

#[test]
fn each_sign_that_differs_is_told() {
    let trees = [["5", "a"], ["a", "a"]].map(|values| Tree::of(&read(&row(&values))));
    let test = reader::read(b"(e<\"7\")");
    let found: Vec<_> = differences(&trees[0], &trees[1], &test)
        .into_iter()
        .map(|d| (d.left, d.sign, d.right))
        .collect();
    let constant = Right::Constant(b"7");
    let due = [
        (1, Sign::LessOrEqual, Right::Node(1)),
        (1, Sign::GreaterOrEqual, Right::Node(1)),
        (1, Sign::Equal, Right::Node(2)),
        (1, Sign::Unequal, Right::Node(2)),
        (1, Sign::Less, constant),
        (1, Sign::LessOrEqual, constant),
        (2, Sign::Equal, Right::Node(1)),
        (2, Sign::Unequal, Right::Node(1)),
    ];
    assert_eq!(found, due);
}

/// A library and a rule, with many equalities.
fn draw(random: &mut Random, most_nodes: usize) -> (Library, Tree, Test) {
    let nodes = 1 + random.below(most_nodes);
    let library = match random.below(10) {
        0..=4 => library(random, nodes),
        5..=8 => branching_library(random, nodes),
        _ => any_library(random, nodes),
    };
    let tree = Tree::of(&library);
    let size = 4 + random.below(16);
    let rule = match random.percent(60) {
        true => rule_about(random, size, &tree.values),
        false => wandering_rule(random, size, &tree.values),
    };
    (library, tree, rule)
}

/// Against the sentence, on pairs that are masked and on such that nearly are. On
/// two nodes the signs in one order tell those in the other.
#[test]
fn masked_is_what_the_sentence_says() {
    let (mut kept, mut broken) = (0, 0);
    for seed in 0..3_000 {
        let random = &mut Random::new(seed);
        let (one, tree, rule) = draw(random, 20);
        let renamed = renamed(random, &one, &rule).map(|renamed| renamed.library);
        let mut other = renamed.unwrap_or_else(|| one.clone());
        if random.percent(60) {
            other = one_value_changed(random, &other, &rule);
        }
        let found = differences(&tree, &Tree::of(&other), &rule);
        assert_eq!(masked(&one, &other, &rule), found.is_empty(), "seed {seed}");
        let mut in_order = found.iter().filter(|d| match d.right {
            Right::Node(right) => d.left <= right,
            Right::Constant(_) => true,
        });
        assert_eq!(in_order.next().is_none(), found.is_empty(), "seed {seed}");
        kept += usize::from(found.is_empty());
        broken += usize::from(!found.is_empty());
        if let Some(shorter) = without_last(&other) {
            assert!(!masked(&one, &shorter, &rule), "seed {seed}");
        }
    }
    println!("{kept} masked, {broken} not");
    assert!(kept > 1_600 && broken > 1_000, "{kept}, {broken}");
}

/// The library without its last node, if it has another.
fn without_last(library: &Library) -> Option<Library> {
    let (_, nodes) = library.nodes.split_last()?;
    let nodes = nodes.to_vec();
    (!nodes.is_empty()).then_some(Library { nodes })
}

#[test]
fn every_fixed_pair_is_masked_and_marks_what_is_due() {
    for (name, cases) in GROUPS {
        for case in cases() {
            let test = reader::read(case.rule.as_bytes());
            let [one, other] = [0, 1].map(|at| read(&case.documents[at]));
            assert!(masked(&one, &other, &test), "{name}: {}", case.rule);
            assert_ne!(one, other, "{name}");
            for document in &case.documents {
                let (outcome, marked) = run(document, case.rule);
                assert_eq!(marked, case.marked, "{name}: {}", case.rule);
                assert_eq!(outcome.snippets, case.snippets, "{name}: {}", case.rule);
            }
        }
    }
}

#[test]
fn every_fixed_pair_that_breaks_it_marks_other_nodes() {
    for case in broken() {
        let (left_out, rule) = (case.left_out, case.rule);
        let [one, other] = case.libraries();
        assert!(!masked(&one, &other, &case.test()), "{left_out}: {rule}");
        let rest_holds = (case.rest_holds)(&one, &other, &case.test());
        assert!(rest_holds, "{left_out}: {rule}");
        assert_ne!(case.marked[0], case.marked[1], "{left_out}: {rule}");
        for (document, due) in case.documents.iter().zip(case.marked) {
            assert_eq!(run(document, rule).1, due, "{left_out}: {rule}");
        }
    }
}

/// An accepted snippet evaluation by the definitions: marks, and snippets.
fn evaluated(library: &Library, rule: &Test) -> (Vec<u8>, usize) {
    let nodes = library.nodes.len();
    let (document, words) = (spell(library), needed_words(nodes));
    let kind = Evaluation::Snippets;
    let (outcome, marks) = evaluate(&document, &rule.spell(), words, nodes, kind);
    (marks.expect("an accepted call has marks"), outcome.snippets)
}

/// The promise, of the definitions themselves.
#[test]
fn the_definitions_mark_and_count_alike_on_masked_pairs() {
    let (mut counted, mut some) = (0, 0);
    for seed in 0..1_500 {
        let random = &mut Random::new(seed);
        let (one, tree, rule) = draw(random, 24);
        let Some(other) = renamed(random, &one, &rule) else {
            continue;
        };
        let (marks, snippets) = evaluated(&one, &rule);
        let spelled = rule.spell().escape_ascii().to_string();
        let same = evaluated(&other.library, &rule) == (marks.clone(), snippets);
        assert!(same, "seed {seed}: {spelled}");
        counted += usize::from(snippets > 0);
        let selected = marks.iter().filter(|mark| **mark == 1).count();
        some += usize::from(selected > 0 && selected < tree.size());
    }
    println!("{counted} had snippets, {some} marked some nodes and not all");
    assert!(counted > 700 && some > 520, "{counted}, {some}");
}

/// What a renaming changed.
#[derive(Default)]
struct Changes {
    /// By how many proposals it took; 0 where none kept the signs.
    proposals: BTreeMap<usize, usize>,
    cases: BTreeMap<&'static str, usize>,
    /// The nodes that are not empty, and those of them that have another value.
    filled: usize,
    changed: usize,
}

impl Changes {
    fn count(&mut self, name: &'static str, condition: bool) {
        *self.cases.entry(name).or_default() += usize::from(condition);
    }

    fn add(&mut self, one: &Library, other: &Library) {
        let trees = [Tree::of(one), Tree::of(other)];
        let values = |v: usize| [trees[0].compared(v), trees[1].compared(v)];
        let filled: Vec<usize> = (0..trees[0].size())
            .filter(|v| !values(*v)[0].is_empty())
            .collect();
        let changed = |v: &usize| values(*v)[0] != values(*v)[1];
        let others: Vec<usize> = filled.iter().copied().filter(changed).collect();
        self.filled += filled.len();
        self.changed += others.len();
        if filled.is_empty() {
            return;
        }
        self.count("not all empty", true);
        self.count("most are others", 2 * others.len() > filled.len());
        let amounts = |v: &usize| values(*v).map(amount);
        let other_amount = |v: &usize| amounts(v)[0] != amounts(v)[1];
        self.count("another amount", others.iter().any(other_amount));
        let word = |v: &usize| amounts(v) == [None, None];
        self.count("another word", others.iter().any(word));
        let joined = |v: &usize| one.nodes[*v].kind == Kind::Element && texts_inside(one, *v) > 1;
        self.count("joined, another", others.iter().any(joined));
        let numeral = |v: &usize| joined(v) && amounts(v)[0].is_some();
        self.count("joined to another numeral", others.iter().any(numeral));
        let blanks = |v: usize| one.nodes[v].value.len() - values(v)[0].len();
        let own = |v: usize| one.nodes[v].kind == Kind::Attribute;
        let padded =
            |v: &usize| own(*v) && blanks(*v) != other.nodes[*v].value.len() - values(*v)[1].len();
        self.count("other blanks", filled.iter().any(padded));
    }
}

/// How many texts inside an element are not empty.
fn texts_inside(library: &Library, node: usize) -> usize {
    let depth = library.nodes[node].depth;
    let behind = library.nodes[node + 1..].iter();
    let inside = behind.take_while(|inner| inner.depth > depth);
    let texts = inside.filter(|inner| inner.kind == Kind::Text && !inner.value.is_empty());
    texts.count()
}

#[test]
fn random_renamings_keep_the_signs_and_change_most_values() {
    const CASES: u64 = 4_000;
    let mut changes = Changes::default();
    for seed in 0..CASES {
        let random = &mut Random::new(seed);
        let (one, _, rule) = draw(random, 40);
        let renamed = renamed(random, &one, &rule);
        let proposals = renamed.as_ref().map_or(0, |renamed| renamed.proposals);
        *changes.proposals.entry(proposals).or_default() += 1;
        if let Some(renamed) = renamed {
            let other = renamed.library;
            assert!(masked(&one, &other, &rule), "seed {seed}");
            assert_eq!(document::check(&spell(&other)).number, 0, "seed {seed}");
            changes.add(&one, &other);
        }
    }
    let Changes {
        proposals,
        cases,
        filled,
        changed,
    } = &changes;
    println!("{CASES} pairs by proposals: {proposals:?}; {changed} of {filled} values; {cases:?}");
    assert!(proposals[&1] as u64 > CASES * 9 / 10, "{proposals:?}");
    assert!(changed * 4 > filled * 3, "{changed} of {filled}");
    assert!(
        cases["most are others"] * 4 > cases["not all empty"] * 3,
        "{cases:?}"
    );
    assert!(cases.values().all(|pairs| *pairs > 400), "{cases:?}");
}
