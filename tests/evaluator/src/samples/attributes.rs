//! Fixed documents about request (d) of document 02: two attributes of one
//! label on one element, and what only looks like them.

use super::documents::{case, refused, with_lines, DocumentCase};
use super::{document, name};
use crate::document::{BYTE_LIMIT, NODE_LIMIT};

/// Kind, depth, label, value.
type Row<'a> = (char, usize, &'a str, &'a str);

const ROOT: Row = ('e', 0, "lib", "");
/// An element inside the root, and a text.
const DRUG: Row = ('e', 1, "drug", "");
const TEXT: Row = ('t', 1, "text", "5");

/// Attributes of these labels, so deep.
fn attributes<'a>(depth: usize, labels: &[&'a str]) -> Vec<Row<'a>> {
    labels
        .iter()
        .map(|label| ('a', depth, *label, "v"))
        .collect()
}

/// The rows of several lists, the root before all of them.
fn rooted<'a>(lists: &[&[Row<'a>]]) -> Vec<Row<'a>> {
    [&[ROOT], lists.concat().as_slice()].concat()
}

fn accepted(rows: &[Row]) -> DocumentCase {
    case(document(rows), 0, 0, rows.len())
}

/// The line of a node's label: behind the first line, four for each node before
/// it, and its own depth and kind.
fn label_line(node: usize) -> usize {
    4 * node + 4
}

/// Refused since the attribute with this number is a repeat.
fn repeated(rows: &[Row], node: usize) -> DocumentCase {
    refused(document(rows), 14, label_line(node))
}

pub(super) fn repeats() -> Vec<DocumentCase> {
    let on_root = |labels: &[&str], node| repeated(&rooted(&[&attributes(1, labels)]), node);
    let mut cases = vec![
        // Next to each other and apart, at first and later.
        on_root(&["a", "a"], 2),
        on_root(&["a", "b", "a"], 3),
        on_root(&["a", "b", "b"], 3),
        on_root(&["a", "b", "b", "c"], 3),
        on_root(&["a", "b", "c", "d", "e", "f", "a"], 7),
        on_root(&["a", "b", "c", "d", "e", "f", "d", "g"], 7),
        // Of three the second, and of two labels the one repeated first.
        on_root(&["a", "a", "a"], 2),
        on_root(&["a", "b", "a", "a"], 3),
        on_root(&["a", "b", "b", "a"], 3),
        on_root(&["a", "b", "a", "b"], 3),
        // Names that other kinds have as well.
        on_root(&["text", "text"], 2),
        on_root(&["lib", "lib"], 2),
    ];
    // Whatever their values.
    let row = |value| ('a', 1, "a", value);
    for values in [["", ""], ["x", "y"], ["", "x"], ["x", ""]] {
        cases.push(repeated(&rooted(&[&values.map(row)]), 2));
    }
    // On an inner element, and on a later one.
    let inner = attributes(2, &["a", "b", "a"]);
    cases.push(repeated(&rooted(&[&[DRUG], &inner]), 4));
    let first = attributes(2, &["a", "b"]);
    cases.push(repeated(
        &rooted(&[&[TEXT, DRUG], &first, &[TEXT, DRUG], &inner]),
        9,
    ));
    cases
}

pub(super) fn elements() -> Vec<DocumentCase> {
    let (outer, inner) = (attributes(1, &["a", "b"]), attributes(2, &["a", "b"]));
    let turned = attributes(3, &["b", "a"]);
    let unit = ('e', 2, "drug", "");
    let label = |depth| ('a', depth, "drug", "v");
    vec![
        // Two elements, one behind the other, or one inside the other.
        accepted(&rooted(&[&[DRUG], &inner, &[DRUG], &inner])),
        accepted(&rooted(&[&outer, &[DRUG], &inner])),
        accepted(&rooted(&[&outer, &[DRUG], &inner, &[unit], &turned])),
        accepted(&rooted(&[
            &outer,
            &[TEXT, DRUG],
            &inner,
            &[TEXT, DRUG],
            &inner,
        ])),
        // Behind a deeper element that is closed again.
        accepted(&rooted(&[&[DRUG, unit], &turned, &[DRUG], &inner])),
        // An attribute labelled as its element, as one inside it, as both, or
        // as text is.
        accepted(&rooted(&[&[DRUG, label(2)]])),
        accepted(&rooted(&[&[label(1), DRUG]])),
        accepted(&rooted(&[&[label(1), DRUG, label(2), unit, label(3)]])),
        accepted(&rooted(&[&attributes(1, &["text", "lib"]), &[TEXT, TEXT]])),
        // Elements and texts may have one label as often as they like.
        accepted(&rooted(&[&[DRUG, DRUG, TEXT, DRUG, TEXT, TEXT]])),
    ]
}

pub(super) fn spellings() -> Vec<DocumentCase> {
    let kept = |labels: &[&str]| accepted(&rooted(&[&attributes(1, labels)]));
    let mut cases = vec![
        // 16 bytes with one of them changed: the last, the first, one inside.
        kept(&["abcdefghijklmn-9", "abcdefghijklmn-8"]),
        kept(&["abcdefghijklmn-9", "bbcdefghijklmn-9"]),
        kept(&["abcdefghijklmn-9", "abcdefgaijklmn-9"]),
        kept(&["abcdefghijklmn-9", "abcdefghajklmn-9"]),
        kept(&["abcdefghijklmn-9", "abcdefghijklmna9"]),
        // The same bytes in another order.
        kept(&["abcdefghijklmn-9", "abcdefghijklmn9-", "bacdefghijklmn-9"]),
        // One the beginning of the other, in both orders.
        kept(&["a", "aa", "aaa", "ab", "a-", "a--", "a0", "a00"]),
        kept(&["abcdefghijklmn-9", "abcdefghijklmn-", "abcdefghijklmn"]),
        kept(&["abcdefghijklmn", "abcdefghijklmn-", "abcdefghijklmn-9"]),
        // One the end of the other.
        kept(&["b", "ab", "aab", "aaaaaaaaaaaaaaab"]),
    ];
    let longest = ["abcdefghijklmn-9", "z---------------", "aaaaaaaaaaaaaaaa"];
    for label in longest.into_iter().chain(["a", "a-", "a0", "z9"]) {
        let labels = [label, "other", label];
        cases.push(repeated(&rooted(&[&attributes(1, &labels)]), 3));
    }
    cases
}

/// Two attributes `n`, node 2 the repeat, then an element with a text inside.
fn with_repeat() -> String {
    let (inside, inner) = (attributes(1, &["n", "n"]), ('t', 2, "text", "5"));
    let bytes = document(&rooted(&[&inside, &[DRUG, inner]]));
    String::from_utf8(bytes).expect("a document of letters")
}

/// The line of its repeat.
const REPEAT: usize = 12;

pub(super) fn bad_lines() -> Vec<DocumentCase> {
    // Line, text, and the number and the line that are due.
    let first = [
        (1, "nodes=05", 2, 1),
        (1, "nodes=0", 3, 1),
        (1, "nodes=4097", 3, 1),
        (4, "label=Lib", 2, 4),
        (5, "value=x", 4, 5),
        (6, "depth=2", 4, 6),
        (7, "kind=x", 2, 7),
        (8, "label=N", 2, 8),
        (9, "value=\u{7f}", 2, 9),
        // The repeat's own lines before its label.
        (10, "depth=01", 2, 10),
        (10, "depth=0", 4, 10),
        (10, "depth=2", 4, 10),
        (11, "kind=A", 2, 11),
        // It is no attribute then, but a text or an element with a value.
        (11, "kind=t", 4, 12),
        (11, "kind=e", 4, 13),
        // Its label line is not of the form, however it would be meant.
        (REPEAT, "label=n ", 2, REPEAT),
        (REPEAT, "label=n\r", 2, REPEAT),
        (REPEAT, " label=n", 2, REPEAT),
        (REPEAT, "label=N", 2, REPEAT),
        (REPEAT, "label=", 2, REPEAT),
        (REPEAT, "value=n", 2, REPEAT),
        // With two nodes all behind them is too much, so there is no repeat.
        (1, "nodes=2", 2, 10),
    ];
    let behind = [
        // The repeat's own value line, and what follows.
        (13, "value=\u{7f}"),
        (13, "valu=v"),
        (13, "n"),
        (14, "depth=9"),
        (14, "depth=x"),
        (15, "kind=x"),
        (15, "kind=a"),
        (16, "label="),
        (17, "value=x"),
        (20, "label=tex"),
        (21, "\0"),
        // A line more than due, or a node less.
        (1, "nodes=4"),
        (1, "nodes=6"),
        (1, "nodes=4096"),
    ];
    let changed = |line, text| with_lines(&with_repeat(), &[(line, text)]);
    let mut cases = vec![refused(with_repeat(), 14, REPEAT)];
    cases.extend(first.map(|(line, text, number, at)| refused(changed(line, text), number, at)));
    cases.extend(behind.map(|(line, text)| refused(changed(line, text), 14, REPEAT)));
    // With another label on either there is no repeat.
    cases.extend([8, REPEAT].map(|line| case(changed(line, "label=m"), 0, 0, 5)));
    cases
}

pub(super) fn cuts() -> Vec<DocumentCase> {
    let whole = with_repeat();
    let lines: Vec<&str> = whole.split_inclusive('\n').collect();
    let mut cases = Vec::new();
    for kept in 0..lines.len() {
        let short = lines[..kept].concat();
        match kept < REPEAT {
            true => cases.push(refused(short, 2, kept + 1)),
            // Behind the label line and all that may follow.
            false => cases.push(refused(short, 14, REPEAT)),
        }
    }
    // The label is there, but its line has no LF: the form decides.
    let begun = lines[..REPEAT].concat();
    cases.push(refused(begun.trim_end(), 2, REPEAT));
    // More than is due, up to the most bytes, and above.
    cases.push(refused(format!("{whole}\n"), 14, REPEAT));
    let mut long = whole.into_bytes();
    long.resize(BYTE_LIMIT, b'\n');
    cases.push(refused(long.clone(), 14, REPEAT));
    long.push(b'\n');
    cases.push(refused(long, 1, 0));
    cases
}

/// So many labels, all different.
fn names(count: usize) -> Vec<String> {
    (0..count).map(name).collect()
}

/// Attributes of these names, so deep.
fn named(depth: usize, names: &[String]) -> Vec<Row<'_>> {
    let labels: Vec<&str> = names.iter().map(String::as_str).collect();
    attributes(depth, &labels)
}

/// Attributes of the root, the last a repeat of this one; the first is 0.
fn last_repeats(names: &[String], of: usize) -> DocumentCase {
    let mut rows = rooted(&[&named(1, names)]);
    let last = rows.len() - 1;
    rows[last].2 = &names[of];
    repeated(&rows, last)
}

pub(super) fn around_25() -> Vec<DocumentCase> {
    let mut cases = Vec::new();
    for count in 22..=29 {
        let names = names(count);
        let rows = rooted(&[&named(1, &names)]);
        cases.push(accepted(&rows));
        cases.extend((0..count - 1).map(|of| last_repeats(&names, of)));
        // Each one a repeat of the first, with more behind it.
        for node in 2..=count {
            let mut rows = rows.clone();
            rows[node].2 = &names[0];
            cases.push(repeated(&rows, node));
        }
    }
    cases
}

pub(super) fn most() -> Vec<DocumentCase> {
    let count = NODE_LIMIT - 1;
    let names = names(count);
    let rows = rooted(&[&named(1, &names)]);
    let mut cases = vec![accepted(&rows)];
    cases.extend([0, 1, count / 2, count - 3, count - 2].map(|of| last_repeats(&names, of)));
    // At once, in the middle, and near the end with others behind.
    for (node, of) in [(2, 0), (count / 2, 0), (count / 2, 7), (count - 1, 1_000)] {
        let mut rows = rows.clone();
        rows[node].2 = &names[of];
        cases.push(repeated(&rows, node));
    }
    cases
}

pub(super) fn behind_many() -> Vec<DocumentCase> {
    let mut cases = Vec::new();
    for count in [25, 26, 300, 2_000] {
        let names = names(count);
        let turned: Vec<String> = names.iter().rev().cloned().collect();
        let (outer, inner) = (named(1, &names), named(2, &names));
        let large = [&[DRUG], inner.as_slice()].concat();
        // Another element with the same labels, and one inside with them.
        cases.push(accepted(&rooted(&[&large, &large])));
        cases.push(accepted(&rooted(&[&outer, &[DRUG], &named(2, &turned)])));
        // A small one behind it, without a repeat and with one, and a large one
        // with a repeat behind a small one and behind a large one.
        let (small, twice) = (attributes(2, &["name"]), attributes(2, &["name", "name"]));
        cases.push(accepted(&rooted(&[&large, &[DRUG], &small])));
        let behind = count + 2;
        cases.push(repeated(&rooted(&[&large, &[DRUG], &twice]), behind + 2));
        for (first, of) in [(&small, 0), (&inner, 0), (&inner, count - 2)] {
            let mut rows = rooted(&[&[DRUG], first, &large]);
            let last = rows.len() - 1;
            rows[last].2 = &names[of];
            cases.push(repeated(&rows, last));
        }
    }
    cases
}
