//! Makes a failing input small, so that a failing test can print it.

use std::cell::Cell;

use crate::document::{self, Library, Node};
use crate::rule::{parts, Piece, Test};
use crate::{reader, rule_check};

/// Leaves out as many items as the failure allows: runs of items, from half
/// the input down to single ones, are dropped whenever the rest still fails,
/// until no single item can be dropped.
pub fn shrink<T: Clone>(items: &[T], still_fails: impl Fn(&[T]) -> bool) -> Vec<T> {
    shrink_while(items, still_fails, || true)
}

/// The same, but with what is left once there is no more going on.
pub fn shrink_while<T: Clone>(
    items: &[T],
    still_fails: impl Fn(&[T]) -> bool,
    go_on: impl Fn() -> bool,
) -> Vec<T> {
    let mut small = items.to_vec();
    let mut run = small.len().div_ceil(2);
    while run > 0 {
        let before = small.len();
        let mut begin = 0;
        while begin < small.len() && go_on() {
            let end = (begin + run).min(small.len());
            let without = [&small[..begin], &small[end..]].concat();
            if still_fails(&without) {
                small = without;
            } else {
                begin = end;
            }
        }
        let again = run == 1 && small.len() < before;
        run = if again { 1 } else { run / 2 };
    }
    small
}

/// How many bytes all tries together may have, for nodes and for bytes each:
/// some seconds. To the end, a large document would take hours.
const BUDGET: usize = 500_000_000;

/// Makes a failing document small. Whole nodes are left out first, as four
/// lines with N lowered to match, so that what follows stays in its place;
/// then bytes. A large document is made as small as the budget allows.
pub fn shrink_document(document: &[u8], still_fails: impl Fn(&[u8]) -> bool) -> Vec<u8> {
    let spent = Cell::new(0);
    let counted = |bytes: &[u8]| {
        spent.set(spent.get() + bytes.len());
        still_fails(bytes)
    };
    let affordable = || spent.get() < BUDGET;
    let nodes_left = shrink_nodes(document, counted, affordable);
    spent.set(0);
    shrink_while(&nodes_left, counted, affordable)
}

/// Leaves out whole nodes only, as long as there is going on.
pub fn shrink_nodes(
    document: &[u8],
    still_fails: impl Fn(&[u8]) -> bool,
    go_on: impl Fn() -> bool,
) -> Vec<u8> {
    shrink_listed(document, &[], |bytes, _| still_fails(bytes), go_on).0
}

/// The same with a list of nodes, which stay the nodes that they are: what is left
/// out of the document is left out of the list too. A number that is none of a
/// node stays as far behind the last one.
pub fn shrink_listed(
    document: &[u8],
    list: &[u16],
    still_fails: impl Fn(&[u8], &[u16]) -> bool,
    go_on: impl Fn() -> bool,
) -> (Vec<u8>, Vec<u16>) {
    let lines: Vec<&[u8]> = document.split_inclusive(|byte| *byte == b'\n').collect();
    let Some((first, rest)) = lines.split_first() else {
        return (Vec::new(), list.to_vec());
    };
    let nodes: Vec<Numbered> = rest.chunks(4).enumerate().collect();
    let spell = |kept: &[Numbered]| {
        let mut bytes = lowered(first, nodes.len() - kept.len());
        bytes.extend(kept.iter().flat_map(|(_, lines)| lines.concat()));
        (bytes, renumbered(list, nodes.len(), kept))
    };
    let fails = |kept: &[Numbered]| {
        let (bytes, list) = spell(kept);
        still_fails(&bytes, &list)
    };
    spell(&shrink_while(&nodes, fails, go_on))
}

/// A node's number with its lines.
type Numbered<'a> = (usize, &'a [&'a [u8]]);

/// The list with the numbers that its nodes get when of so many only the kept
/// ones, rising, are left.
fn renumbered(list: &[u16], nodes: usize, kept: &[Numbered]) -> Vec<u16> {
    let renumber = |node: usize| match node < nodes {
        true => kept.binary_search_by_key(&node, |(number, _)| *number).ok(),
        false => Some(node - (nodes - kept.len())),
    };
    let left = list.iter().filter_map(|node| renumber(usize::from(*node)));
    left.map(|node| node as u16).collect()
}

/// Makes a failing rule small. A part is replaced by one inside it, a path by
/// the empty one, or the n of a count by a smaller one, as long as the rule still
/// fails; then bytes are left out. What is no legal rule only loses bytes.
pub fn shrink_rule(
    rule: &[u8],
    still_fails: impl Fn(&[u8]) -> bool,
    go_on: impl Fn() -> bool,
) -> Vec<u8> {
    let mut small = rule.to_vec();
    let fails = |rule: &Vec<u8>| go_on() && still_fails(rule);
    while let Some(simpler) = simpler_rules(&small).into_iter().find(&fails) {
        small = simpler;
    }
    shrink_while(&small, still_fails, go_on)
}

/// Makes two failing documents and their rule small. A node is left out of both,
/// so that they stay alike, and only what is accepted is tried.
pub fn shrink_alike(
    one: &Library,
    other: &Library,
    rule: &Test,
    still_fails: impl Fn(&Library, &Library, &Test) -> bool,
    go_on: impl Fn() -> bool,
) -> (Library, Library, Test) {
    let nodes = one.nodes.iter().cloned().zip(other.nodes.iter().cloned());
    let mut nodes: Vec<(Node, Node)> = nodes.collect();
    let mut rule = rule.clone();
    let apart = |nodes: &[(Node, Node)]| {
        let (one, other) = nodes.iter().cloned().unzip();
        (Library { nodes: one }, Library { nodes: other })
    };
    let accepted = |library: &Library| document::check(&document::spell(library)).number == 0;
    let fails = |nodes: &[(Node, Node)], rule: &Test| {
        let (one, other) = apart(nodes);
        accepted(&one) && accepted(&other) && still_fails(&one, &other, rule)
    };
    for _ in 0..2 {
        nodes = shrink_while(&nodes, |kept| fails(kept, &rule), &go_on);
        let legal = |bytes: &[u8]| rule_check::read(bytes).is_ok_and(|rule| fails(&nodes, &rule));
        rule = reader::read(&shrink_rule(&rule.spell(), legal, &go_on));
    }
    let (one, other) = apart(&nodes);
    (one, other, rule)
}

/// The rules with one part of a legal rule replaced, shortest first.
fn simpler_rules(rule: &[u8]) -> Vec<Vec<u8>> {
    if rule_check::check(rule).number != 0 {
        return Vec::new();
    }
    let test = reader::read(rule);
    let all = parts(&test);
    let mut simpler = Vec::new();
    for (at, part) in all.iter().enumerate() {
        let end = part.offset + part.piece.spell().len();
        let inside = all[at + 1..].iter().take_while(|inner| inner.offset < end);
        let mut shorter: Vec<Vec<u8>> = inside
            .filter(|inner| inner.piece.is_test() == part.piece.is_test())
            .map(|inner| inner.piece.spell())
            .collect();
        if !part.piece.is_test() && rule[part.offset] != b'e' {
            shorter.push(b"e".to_vec());
        }
        if let Piece::Test(Test::AtLeast(n, path)) = part.piece {
            let smaller = [0, n / 2, n.saturating_sub(1)].into_iter();
            let counts = smaller.filter(|other| other < n);
            shorter.extend(counts.map(|other| Test::AtLeast(other, path.clone()).spell()));
        }
        for bytes in shorter {
            simpler.push([&rule[..part.offset], &bytes, &rule[end..]].concat());
        }
    }
    simpler.sort_by_key(Vec::len);
    simpler
}

/// The first line with so many nodes less, or as it is if it has no number or
/// too small a one.
fn lowered(first: &[u8], less: usize) -> Vec<u8> {
    let text = String::from_utf8_lossy(first);
    let count = text
        .strip_prefix("nodes=")
        .and_then(|rest| rest.strip_suffix('\n'))
        .and_then(|digits| digits.parse::<usize>().ok())
        .and_then(|count| count.checked_sub(less));
    match count {
        Some(count) if less > 0 => format!("nodes={count}\n").into_bytes(),
        _ => first.to_vec(),
    }
}
