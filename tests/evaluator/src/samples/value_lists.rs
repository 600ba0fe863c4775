//! Fixed equalities with a list of some of their values, what these settle and
//! how many snippets they yield, worked out by hand.

use super::counts::{row, EVERYWHERE, PAIRS};
use super::selections::SESSION;
use super::X;

#[derive(Clone)]
pub struct ListCase {
    pub document: Vec<u8>,
    pub rule: &'static str,
    /// Nodes that stand for their values.
    pub values: &'static [u16],
    pub marked: &'static [usize],
    pub snippets: usize,
}

/// A name that says what holds of the cases, and the function that makes them.
pub type Group = (&'static str, fn() -> Vec<ListCase>);

/// All fixed cases.
pub const GROUPS: [Group; 5] = [
    ("the session's values one by one", session),
    ("only the values of the list settle nodes", two_settle),
    ("what two values yield is counted once", two_yield),
    ("one node for both paths needs no value", one_node),
    ("nested equalities have all their snippets", nested),
];

type Row = (&'static [u16], &'static [usize], usize);

fn cases(document: &[u8], rule: &'static str, rows: &[Row]) -> Vec<ListCase> {
    let case = |&(values, marked, snippets): &Row| ListCase {
        document: document.to_vec(),
        rule,
        values,
        marked,
        snippets,
    };
    rows.iter().map(case).collect()
}

/// On X the nodes 0, 1 and 3 have the empty value, 2 and 4 `heparin`. Of the 19
/// snippets the empty value yields those on the edges 0-1 and 1-3, two each.
/// `heparin` yields six on 1-2, five on 1-4 and four halves of these on 1-3. Node
/// 1 reaches 2 and 4, so `heparin` alone settles it.
fn session() -> Vec<ListCase> {
    let rows: [Row; 10] = [
        (&[], &[], 0),
        (&[0], &[], 4),
        (&[3], &[], 4),
        (&[1, 0, 3, 3], &[], 4),
        (&[2], &[1], 15),
        (&[4], &[1], 15),
        (&[2, 4, 2], &[1], 15),
        (&[0, 2], &[1], 19),
        (&[4, 1], &[1], 19),
        (&[4, 3, 2, 1, 0, 1, 2], &[1], 19),
    ];
    cases(X.as_bytes(), SESSION, &rows)
}

/// Attributes 1 to 4 with the values a, b, a, b; position 1 is the first `r` and 2
/// the second. From 1 the paths reach 1 and 3, which have the value a, and from 2
/// they reach 2 and 4. The value a yields (1, 3, 0, 2) and (1, 3, 2, 0) of power 1
/// and of the first the half (1, 2, 0, 1), which settles 1. So does b on 2 to 4.
fn two_settle() -> Vec<ListCase> {
    let rows: [Row; 7] = [
        (&[], &[], 0),
        (&[0], &[], 0),
        (&[1], &[1], 3),
        (&[4], &[2], 3),
        (&[3, 0, 1], &[1], 3),
        (&[2, 3], &[1, 2], 6),
        (&[3, 2, 1, 4], &[1, 2], 6),
    ];
    cases(&row(&["a", "b", "a", "b"]), "(e=.rr)", &rows)
}

/// The value a at nodes 1 and 4 yields five stretches and b at 2 and 5 yields
/// five; three of them are the same, so that both together yield seven.
fn two_yield() -> Vec<ListCase> {
    let all: &[usize] = &[0, 1, 2, 3, 4, 5];
    let rows: [Row; 8] = [
        (&[], all, 0),
        (&[0, 3], all, 0),
        (&[1], all, 5 * PAIRS),
        (&[2], all, 5 * PAIRS),
        (&[1, 2], all, 7 * PAIRS),
        (&[5, 4], all, 7 * PAIRS),
        (&[2, 3, 5, 1], all, 7 * PAIRS),
        (&[5, 4, 3, 2, 1, 0], all, 7 * PAIRS),
    ];
    cases(&row(&["a", "b", "c", "a", "b"]), EVERYWHERE, &rows)
}

/// Each node is reached from itself by both paths, so that it is marked by any
/// list. `heparin` yields nothing, since `e` does not leave node 1.
fn one_node() -> Vec<ListCase> {
    let all: &[usize] = &[0, 1, 2, 3, 4];
    let x = X.as_bytes();
    let same: [Row; 3] = [(&[], all, 0), (&[2], all, 0), (&[0], all, 4)];
    // From 1 the two reach 3 and 1, which have the empty value.
    let right: [Row; 3] = [(&[], &[], 0), (&[2], &[], 0), (&[3], &[1], 5)];
    [cases(x, "(e=e)", &same), cases(x, "(r=e)", &right)].concat()
}

/// The inner equality has its four snippets whatever the list. Outside, 0, 1 and
/// 2 end at each node: four pairs of different paths on each of 0-1 and 1-3.
fn nested() -> Vec<ListCase> {
    let all: &[usize] = &[0, 1, 2, 3, 4];
    let around: [Row; 4] = [
        (&[], all, 4),
        (&[4], all, 4),
        (&[1], all, 4 + 8),
        (&[2, 0], all, 4 + 8),
    ];
    // Twice inside. Outside 1, 2 and 3 end at each node and 0 at node 1 ends at 3:
    // five pairs on 0-1, since 0 may be at its lower end, and four on 1-3.
    let twice: [Row; 3] = [(&[], &[], 8), (&[2], &[], 8), (&[0], &[1], 8 + 9)];
    let (x, rule) = (X.as_bytes(), "(.r[&(e=e)!!(e=e)]=e)");
    [cases(x, "([(e=e)]=e)", &around), cases(x, rule, &twice)].concat()
}
