//! One equality by a list of its values: examples worked out by hand, every list
//! that has all values against the snippet evaluation, parts of them against a
//! second reading of the settling rule, and the order of all the checks.

use std::cell::Cell;

use crate::failure::assert_on_pair;
use crate::samples::{balanced, document, flat, run, steps, X};
use evaluator::by_values::{evaluate_values, groups, has_every_value, largest_first, nodes_of};
use evaluator::document::{read, Library};
use evaluator::evaluate::{evaluate_snippets, needed_words, Outcome};
use evaluator::meaning::reaches;
use evaluator::random::{
    equality, every_value, library, repeated, some_values, wandering_rule, Random,
};
use evaluator::reader;
use evaluator::rule::{equalities, Test};
use evaluator::samples::value_lists::GROUPS;
use evaluator::snippets::settle_by;
use evaluator::tree::Tree;

/// An accepted call with buffers a little longer than needed: the record, and
/// the numbers of the marked nodes. All else in the buffers is as is due.
fn accepted(document: &[u8], rule: &[u8], values: &[u16]) -> (Outcome, Vec<usize>) {
    let nodes = evaluator::document::check(document).nodes;
    let words = needed_words(nodes);
    let (mut scratch, mut marks) = (vec![7; words + 2], vec![9; nodes + 3]);
    let outcome = evaluate_values(document, rule, values, &mut scratch, &mut marks);
    assert_eq!((outcome.number, outcome.place), (0, 0));
    assert_eq!(scratch, [vec![0; words], vec![7; 2]].concat());
    assert_eq!(marks[nodes..], [9; 3]);
    assert!(marks[..nodes].iter().all(|mark| *mark <= 1));
    let marked: Vec<usize> = (0..nodes).filter(|v| marks[*v] == 1).collect();
    assert_eq!(outcome.selected, marked.len());
    (outcome, marked)
}

#[test]
fn every_fixed_list_is_counted_and_marked_as_due() {
    let mut cases = 0;
    for (name, of_group) in GROUPS {
        for case in of_group() {
            let (outcome, marked) = accepted(&case.document, case.rule.as_bytes(), case.values);
            let origin = format!("{name}: {} by {:?}", case.rule, case.values);
            assert_eq!(outcome.snippets, case.snippets, "{origin}");
            assert_eq!(marked, case.marked, "{origin}");
            cases += 1;
        }
    }
    assert_eq!(cases, 38);
}

/// The parts add to more than the whole: a + b is 90 + 90, and both together 126.
#[test]
fn two_parts_that_share_snippets() {
    let document = evaluator::samples::counts::row(&["a", "b", "c", "a", "b"]);
    let rule = evaluator::samples::counts::EVERYWHERE;
    let count = |values: &[u16]| accepted(&document, rule.as_bytes(), values).0.snippets;
    let (a, b, both) = (count(&[1]), count(&[2]), count(&[1, 2]));
    assert_eq!((a, b, both), (90, 90, 126));
    assert_eq!(run(&document, rule).0.snippets, both);
}

fn tree(document: &[u8]) -> Tree {
    Tree::of(&read(document).expect("a legal document"))
}

#[test]
fn groups_go_by_falling_size_and_rising_first_node() {
    // The root's value is that of all texts.
    let of = |values: &[&str]| {
        let mut rows = vec![('e', 0, "lib", "")];
        rows.extend(values.iter().map(|value| ('t', 1, "text", *value)));
        tree(&document(&rows))
    };
    let list = |values: &[&str]| largest_first(&of(values));
    assert_eq!(list(&[]), [0]);
    assert_eq!(list(&["a", "b"]), [0, 1, 2]);
    assert_eq!(list(&["b", "a", "a"]), [2, 0, 1]);
    assert_eq!(list(&["c", "b", "a", "b", "c", "b"]), [2, 1, 0, 3]);
    assert_eq!(list(&["a", "b", " a ", "b", "b "]), [2, 1, 0]);
    assert_eq!(
        groups(&of(&["b", "a", "b"])),
        [vec![0], vec![1, 3], vec![2]]
    );
    let tree = of(&["b", "a", "b"]);
    for (list, every) in [
        (&[0, 1, 2][..], true),
        (&[3, 2, 0, 1, 3], true),
        (&[0, 1, 3], false),
        (&[0, 1, 2, 4], false),
        (&[], false),
    ] {
        assert_eq!(has_every_value(&tree, list), every, "{list:?}");
    }
}

/// A pair of a library and an equality about it.
fn draw_pair(random: &mut Random) -> (Library, Test) {
    let nodes = 1 + random.below(25);
    let library = library(random, nodes);
    let values = Tree::of(&library).values;
    let size = 4 + random.below(20);
    let rule = match random.percent(60) {
        true => equality(random, size, &values),
        false => wandering_rule(random, size, &values),
    };
    (library, rule)
}

/// What the snippet evaluation hands back, with the marked nodes.
fn by_snippets(document: &[u8], rule: &[u8]) -> (Outcome, Vec<usize>) {
    let nodes = evaluator::document::check(document).nodes;
    let (mut scratch, mut marks) = (vec![0; needed_words(nodes)], vec![0; nodes]);
    let outcome = evaluate_snippets(document, rule, &mut scratch, &mut marks);
    (outcome, (0..nodes).filter(|v| marks[*v] == 1).collect())
}

/// "given any list that holds each of a comparison's values once, ... hands back
/// the same marks and summed snippet count" (02, k)
#[test]
fn every_value_in_any_order_is_the_snippet_evaluation() {
    let (counted, several) = (Cell::new(0), Cell::new(0));
    for seed in 5_000_000..5_001_500 {
        let random = &mut Random::new(seed);
        let (library, rule) = draw_pair(random);
        assert_on_pair(seed, &library, &rule.spell(), |document, rule| {
            let (tree, random) = (tree(document), &mut Random::new(seed));
            let due = by_snippets(document, rule);
            let falling = largest_first(&tree);
            let any = every_value(random, &tree);
            let rising: Vec<u16> = falling.iter().rev().copied().collect();
            let longer = repeated(random, &tree, &any);
            for list in [&falling, &rising, &any, &longer] {
                assert!(has_every_value(&tree, list));
                assert_eq!(accepted(document, rule, list), due, "{list:?}");
            }
            counted.set(counted.get() + usize::from(due.0.snippets > 0));
            several.set(several.get() + usize::from(falling.len() > 2));
        });
    }
    let (counted, several) = (counted.get(), several.get());
    println!("{counted} had snippets, {several} more than two values");
    assert!(counted > 1_000 && several > 700, "{counted}, {several}");
}

/// Both paths lead to one and the same node, or to two nodes of one value that is
/// in the list. No document says this of a part of the values; it follows from the
/// settling rule, and is looked up in the relations of the two paths.
fn led_to_values(tree: &Tree, rule: &Test, values: &[u16]) -> Vec<usize> {
    let (p, r) = equalities(rule)[0];
    let (first, second) = (reaches(tree, p), reaches(tree, r));
    let listed = |v: usize| nodes_of(values).any(|w| tree.compared(w) == tree.compared(v));
    let meet = |w: usize, u: usize| w == u || (tree.compared(w) == tree.compared(u) && listed(w));
    let holds = |v: &usize| {
        let others = second.from(*v);
        let some = first.from(*v);
        some.iter().any(|w| others.iter().any(|u| meet(*w, *u)))
    };
    (0..tree.size()).filter(holds).collect()
}

/// How much the parts exercised.
#[derive(Default)]
struct Parts {
    counted: Cell<usize>,
    fewer: Cell<usize>,
    fewer_marked: Cell<usize>,
    shared: Cell<usize>,
    nested: Cell<usize>,
}

fn add(counter: &Cell<usize>, condition: bool) {
    counter.set(counter.get() + usize::from(condition));
}

/// A part of the values and all others: each of the two is settled as the paths
/// lead, and together they yield what all values do.
fn try_parts(document: &[u8], rule: &[u8], seed: u64, parts: &Parts) {
    let (tree, random) = (tree(document), &mut Random::new(seed));
    let test = reader::read(rule);
    let (p, r) = equalities(&test)[0];
    let part = some_values(random, &tree);
    let all = largest_first(&tree);
    let listed = |w: usize| nodes_of(&part).any(|v| tree.compared(v) == tree.compared(w));
    let others: Vec<u16> = all
        .iter()
        .copied()
        .filter(|w| !listed(usize::from(*w)))
        .collect();
    let whole = accepted(document, rule, &all);
    let mut own = 0;
    for list in [&part, &others] {
        let (outcome, marked) = accepted(document, rule, list);
        assert_eq!(marked, led_to_values(&tree, &test, list), "{list:?}");
        assert_eq!((outcome, marked.clone()), {
            let longer = repeated(random, &tree, list);
            accepted(document, rule, &longer)
        });
        let count = settle_by(&tree, p, r, nodes_of(list)).snippets.len();
        add(&parts.counted, count > 0);
        add(
            &parts.fewer,
            count > 0 && outcome.snippets < whole.0.snippets,
        );
        add(&parts.fewer_marked, marked.len() < whole.1.len());
        add(&parts.nested, outcome.snippets > count);
        own += count;
    }
    let together = settle_by(&tree, p, r, 0..tree.size()).snippets.len();
    assert!(together <= own);
    add(&parts.shared, together < own);
}

#[test]
fn parts_of_the_values_settle_what_the_paths_lead_to() {
    let parts = Parts::default();
    for seed in 5_100_000..5_102_500 {
        let (library, rule) = draw_pair(&mut Random::new(seed));
        assert_on_pair(seed, &library, &rule.spell(), |document, rule| {
            if evaluator::by_values::is_equality(&reader::read(rule)) {
                try_parts(document, rule, seed, &parts);
            }
        });
    }
    let found = [
        ("counted", parts.counted.get(), 2_500),
        ("fewer than all", parts.fewer.get(), 1_500),
        ("fewer marked", parts.fewer_marked.get(), 600),
        ("shared by two parts", parts.shared.get(), 40),
        ("nested", parts.nested.get(), 900),
    ];
    println!("{found:?}");
    for (name, cases, least) in found {
        assert!(cases >= least, "{name}: {cases}");
    }
}

fn assert_refused(
    document: &[u8],
    rule: &str,
    values: &[u16],
    (words, marks): (usize, usize),
    due: (u32, usize),
) {
    let (mut scratch, mut lent) = (vec![7; words], vec![9; marks]);
    let rule_bytes = rule.as_bytes();
    let outcome = evaluate_values(document, rule_bytes, values, &mut scratch, &mut lent);
    let refused = Outcome {
        number: due.0,
        place: due.1,
        selected: 0,
        snippets: 0,
    };
    assert_eq!(outcome, refused, "{rule} by {values:?}");
    assert_eq!((scratch, lent), (vec![7; words], vec![9; marks]));
}

#[test]
fn other_rules_are_refused_by_23() {
    let x = X.as_bytes();
    for rule in [
        ":lib",
        "!(e=e)",
        "&(e=e)(e=e)",
        "|(e=e):lib",
        "(e=\"\")",
        "(e!=e)",
        "(e<e)",
        "(e<=e)",
        "(e>e)",
        "(e>=e)",
        "#1e",
        "#1[(e=e)]",
    ] {
        assert_refused(x, rule, &[0], (needed_words(5), 5), (23, 0));
        // Before the buffers and the list.
        assert_refused(x, rule, &[5], (needed_words(5) - 1, 4), (23, 0));
        assert_refused(x, rule, &[], (0, 0), (23, 0));
    }
}

#[test]
fn a_node_that_is_none_is_refused_by_13() {
    for nodes in [1, 2, 5, 64, 4_096] {
        let (document, words) = (flat(nodes), needed_words(nodes));
        let behind = nodes as u16;
        for list in [
            &[behind][..],
            &[0, behind],
            &[behind, 0],
            &[u16::MAX],
            &[0, 0, u16::MAX, 0],
        ] {
            assert_refused(&document, "(e=e)", list, (words, nodes), (13, 0));
            assert_refused(&document, "(e=e)", list, (words + 1, nodes + 1), (13, 0));
            assert_refused(&document, "(e=e)", list, (words - 1, nodes), (10, 0));
            assert_refused(&document, "(e=e)", list, (words, nodes - 1), (11, 0));
            assert_refused(&document, "(e=e)", list, (words - 1, nodes - 1), (10, 0));
        }
    }
    assert_eq!(accepted(&flat(5), b"(r=e)", &[4]).0.selected, 3);
}

#[test]
fn document_and_rule_are_judged_before_the_list() {
    let (long, many) = (format!("({}=e)", steps(15)), balanced(33));
    let cases: [(&[u8], &str, (u32, usize)); 8] = [
        (b"", "(e=e)", (2, 1)),
        (b"nodes=0\n", ":a", (3, 1)),
        (b"nodes=1\ndepth=1\n", "x", (4, 2)),
        (X.as_bytes(), "", (6, 0)),
        (X.as_bytes(), &"x".repeat(1_025), (5, 0)),
        (X.as_bytes(), &many, (8, many.len() - 2)),
        (X.as_bytes(), &long, (9, 0)),
        (X.as_bytes(), &format!("!{long}"), (9, 1)),
    ];
    for (document, rule, due) in cases {
        for list in [&[][..], &[0], &[9], &[u16::MAX]] {
            assert_refused(document, rule, list, (0, 0), due);
            assert_refused(document, rule, list, (10_000, 10), due);
        }
    }
}
