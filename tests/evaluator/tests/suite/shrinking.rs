//! The shrinker leaves only what a failure needs.

use evaluator::document::{check, read, spell, Library, BYTE_LIMIT};
use evaluator::masking::masked;
use evaluator::random::{any_library, library, renamed, Random};
use evaluator::rule::{counts, Test};
use evaluator::samples::document;
use evaluator::shrink::{shrink, shrink_alike, shrink_document, shrink_listed, shrink_rule};
use evaluator::{reader, rule_check};

#[test]
fn only_the_bytes_that_matter_are_left() {
    let fails = |bytes: &[u8]| bytes.contains(&b'x') && bytes.contains(&b'7');
    let small = shrink(b"many bytes with an x and then 7 and 77", fails);
    assert_eq!(small, b"x7");
}

#[test]
fn an_input_that_needs_every_item_stays() {
    let small = shrink(&[1, 2, 3], |items| items == [1, 2, 3]);
    assert_eq!(small, [1, 2, 3]);
}

#[test]
fn runs_may_go_where_no_single_item_may() {
    let fails = |items: &[i32]| items.len() % 2 == 1;
    assert_eq!(shrink(&[1, 2, 3, 4, 5, 6, 7], fails).len(), 1);
}

#[test]
fn a_document_loses_whole_nodes_and_stays_accepted() {
    let library = any_library(&mut Random::new(1), 200);
    let large = |bytes: &[u8]| check(bytes).nodes >= 3;
    let small = shrink_document(&spell(&library), large);
    assert_eq!(check(&small).nodes, 3);
    assert!(small.len() < 120, "{}", small.escape_ascii());
}

#[test]
fn what_stands_behind_the_last_node_stays_there() {
    let mut longer = spell(&any_library(&mut Random::new(2), 100));
    longer.push(b'x');
    let extra = |bytes: &[u8]| {
        let record = check(bytes);
        record.number == 2 && record.place > 5
    };
    let small = shrink_document(&longer, extra);
    assert_eq!(check(&small).place, 6);
    assert_eq!(
        small.len(),
        "nodes=1\ndepth=0\nkind=e\nlabel=a\nvalue=\nx".len()
    );
}

#[test]
fn a_rule_loses_all_around_the_part_that_matters() {
    let rule = b"|!(*+.lr[(.LR<R)]!=+e.r.R[:b]):a";
    let unequal = |rule: &[u8]| {
        let legal = rule_check::check(rule).number == 0;
        legal && rule.windows(2).any(|pair| pair == b"!=")
    };
    assert_eq!(shrink_rule(rule, unequal, || true), b"(e!=e)");
    let bracket = |rule: &[u8]| rule.windows(4).any(|bytes| bytes == b"[:b]");
    let legal = |rule: &[u8]| rule_check::check(rule).number == 0 && bracket(rule);
    assert_eq!(shrink_rule(rule, legal, || true), b"(e=[:b])");
    // A count loses nodes.
    let rule_with_counts = b"&:a!#4000.l[(e=.r[#37*+lr])]";
    let many = |rule: &[u8]| {
        let three = |test: &&Test| matches!(test, Test::AtLeast(3.., _));
        rule_check::read(rule).is_ok_and(|rule| counts(&rule).iter().any(three))
    };
    assert_eq!(shrink_rule(rule_with_counts, many, || true), b"#3e");
    // What is no rule loses bytes.
    assert_eq!(shrink_rule(b"(e=[:b]", bracket, || true), b"[:b]");
    // Nothing is tried once there is no going on.
    assert_eq!(shrink_rule(rule, legal, || false), rule);
}

#[test]
fn a_document_that_needs_its_length_is_given_up_soon() {
    let line = vec![b'x'; BYTE_LIMIT + 1];
    let too_long = |bytes: &[u8]| check(bytes).number == 1;
    assert_eq!(shrink_document(&line, too_long), line);
}

#[test]
fn a_deep_chain_is_given_up_soon() {
    // Only the last node can be left out, so that the end is far away.
    let rows: Vec<_> = (0..4_096).map(|depth| ('e', depth, "a", "")).collect();
    let deep = |bytes: &[u8]| read(bytes).is_ok_and(|library| library.nodes.len() > 10);
    let small = shrink_document(&document(&rows), deep);
    assert!(check(&small).nodes > 10);
}

#[test]
fn two_documents_lose_the_same_nodes_and_stay_masked() {
    let random = &mut Random::new(3);
    let one = library(random, 60);
    let rule = reader::read(b"|(*+lr=.R[:drug])!#2.l[(e<=\"a\")]");
    let other = renamed(random, &one, &rule).expect("a renaming").library;
    let fails = |one: &Library, other: &Library, rule: &Test| {
        let values = |library: &Library| -> Vec<Vec<u8>> {
            let nodes = library.nodes.iter();
            nodes.map(|node| node.value.clone()).collect()
        };
        let changed = values(one) != values(other);
        changed && !counts(rule).is_empty() && masked(one, other, rule)
    };
    assert!(fails(&one, &other, &rule));
    let (first, second, small) = shrink_alike(&one, &other, &rule, fails, || true);
    assert!(fails(&first, &second, &small));
    // A root, and the node of which the value is another.
    assert_eq!((first.nodes.len(), second.nodes.len()), (2, 2));
    assert_eq!(small.spell(), b"#0e");
    // Nothing is tried once there is no going on.
    let same = shrink_alike(&one, &other, &rule, fails, || false);
    assert_eq!(same, (one, other, rule));
}

#[test]
fn a_list_of_nodes_follows_the_nodes_that_are_left() {
    // Node v has the value v.
    let values: Vec<String> = (0..90).map(|number| number.to_string()).collect();
    let mut rows = vec![('e', 0, "lib", "")];
    rows.extend(
        values[1..]
            .iter()
            .map(|value| ('t', 1, "text", value.as_str())),
    );
    let document = document(&rows);
    let fails = |bytes: &[u8], list: &[u16]| {
        let nodes = read(bytes).map_or(Vec::new(), |library| library.nodes);
        let of = |node: &u16| nodes.get(usize::from(*node));
        let listed = list
            .iter()
            .any(|node| of(node).is_some_and(|n| n.value == b"70"));
        let none = list.iter().any(|node| of(node).is_none());
        listed && none && nodes.iter().any(|node| node.value == b"30")
    };
    let list = [5, 70, 3, 70, 92];
    let (small, left) = shrink_listed(&document, &list, fails, || true);
    assert_eq!(check(&small).nodes, 3, "{}", small.escape_ascii());
    // Node 70 is the last now, and the number two behind the last stays so.
    assert_eq!(left, [2, 2, 5]);
    // Nothing is tried once there is no going on.
    let same = shrink_listed(&document, &list, fails, || false);
    assert_eq!(same, (document, list.to_vec()));
    // More lines than a list has numbers for.
    let lines = vec![b'\n'; 300_000];
    let listed = |_: &[u8], list: &[u16]| list.last() == Some(&u16::MAX);
    let same = shrink_listed(&lines, &[7, u16::MAX], listed, || false);
    assert_eq!(same, (lines, vec![7, u16::MAX]));
}
