//! Fixed documents and rules with the number of their snippets, given by
//! document 01 or worked out by hand.

use super::libraries::{attribute, element};
use super::selections::SESSION;
use super::{amounts, at_least, blanks, flat, name, X};
use crate::document::{spell, Library};

pub struct CountCase {
    pub document: Vec<u8>,
    pub rule: &'static str,
    pub snippets: usize,
}

/// A name that says what holds of the cases, and the function that makes them.
pub type Group = (&'static str, fn() -> Vec<CountCase>);

/// All fixed cases.
pub const GROUPS: [Group; 8] = [
    ("document 01 gives two counts on X", given),
    ("a snippet yielded by two values counts once", two_values),
    ("nodes below y are no ends for p", not_below),
    ("only equalities of two paths count, each place", places),
    ("one node has no snippets", one_node),
    ("groups go by the cut value", blanks::groups),
    ("groups go by text and not by amount", amounts::groups),
    (
        "a count of nodes has no snippets of its own",
        at_least::snippets,
    ),
];

pub(super) fn case(document: &[u8], rule: &'static str, snippets: usize) -> CountCase {
    CountCase {
        document: document.to_vec(),
        rule,
        snippets,
    }
}

/// A root with attributes of these values, one right of the other. They are
/// nodes 1, 2 and so on.
pub fn row<T: AsRef<str>>(values: &[T]) -> Vec<u8> {
    let mut nodes = vec![element(0, "lib")];
    let values = values.iter().map(AsRef::as_ref).enumerate();
    nodes.extend(values.map(|(number, value)| attribute(1, &name(number), value)));
    spell(&Library { nodes })
}

fn given() -> Vec<CountCase> {
    let x = X.as_bytes();
    vec![case(x, SESSION, 19), case(x, "(e=e)", 4)]
}

/// Each of its positions is last and comes to every node of a row. So each
/// stretch has `PAIRS` snippets.
pub const EVERYWHERE: &str = "(*+rR=*+rR)";
/// The pairs of positions in different paths, in both orders, three and three.
pub const PAIRS: usize = 2 * 3 * 3;

fn two_values() -> Vec<CountCase> {
    // The value `a` at nodes 1 and 4 yields the stretches 1-3 and 2-4 of power
    // 1 and 1-2, 2-3, 3-4 of power 0; the value `b` at 2 and 5 yields 2-4, 3-5
    // and 2-3, 3-4, 4-5.
    let one = |values: &[&str], stretches| case(&row(values), EVERYWHERE, stretches * PAIRS);
    vec![
        one(&["a", "b", "c", "a", "x"], 5),
        one(&["a", "b", "c", "x", "b"], 5),
        one(&["a", "b", "c", "a", "b"], 7),
    ]
}

fn not_below() -> Vec<CountCase> {
    // Attributes 1, 2, 3 of one value; 3 is below 2 as its right child. The
    // positions are 0, 1 `r`, 2 `r` and 3, of which 2 and 3 are last. From 1
    // position 0 ends at 3 and position 1 at 2, which is y or below it, so on
    // the stretch 1-2 p is 2 or 3, with q 3, or 1 or 2: three snippets. On
    // 2-3 p is 2 or 3 again, with q 3 or 2: two more.
    vec![case(&row(&["a", "a", "a"]), "(.rr=e)", 5)]
}

fn places() -> Vec<CountCase> {
    let cases = [
        (":drug", 0),
        ("(e!=e)", 0),
        ("(e<=e)", 0),
        ("(e>=e)", 0),
        ("(e=\"\")", 0),
        ("&(e=e)(e=e)", 8),
        ("|:lib!(e=e)", 4),
        ("(*[(e=e)]<\"a\")", 4),
        ("(.[:no][(e=e)]!=[!(e=e)])", 8),
    ];
    cases
        .map(|(rule, count)| case(X.as_bytes(), rule, count))
        .into()
}

fn one_node() -> Vec<CountCase> {
    vec![case(&flat(1), "(*+lr=*+LR)", 0)]
}
