//! Fixed pairs of documents about request (n) of document 02: masked ones, with
//! what both documents mark, and ones that break the supposition in a single way.
//! Each expectation is worked out by hand.

use super::counts::{row, EVERYWHERE};
use super::selections::SESSION;
use super::{document, X};
use crate::document::{read, Kind, Library};
use crate::masking::{alike, differences, Difference, Right};
use crate::reader;
use crate::rule::{Sign, Test};
use crate::tree::Tree;
use crate::uncut::uncut;

/// Two masked documents and a rule.
pub struct MaskedCase {
    pub documents: [Vec<u8>; 2],
    pub rule: &'static str,
    /// The nodes that it marks in both, and the snippets that it counts.
    pub marked: &'static [usize],
    pub snippets: usize,
}

/// A name that says what holds of the cases, and the function that makes them.
pub type Group = (&'static str, fn() -> Vec<MaskedCase>);

/// All masked cases.
pub const GROUPS: [Group; 9] = [
    ("names become other names", names),
    ("names are exchanged", exchanged),
    ("constants are kept", constants_kept),
    ("limits become other limits", limits),
    ("one amount stays one amount", spellings),
    ("blanks come and go", padded),
    ("words become nearly numerals", nearly_numerals),
    ("texts are joined", joined_texts),
    ("counts stay", counting),
];

type Case = (&'static str, &'static [usize], usize);

fn on(one: Vec<u8>, other: Vec<u8>, cases: &[Case]) -> Vec<MaskedCase> {
    let case = |&(rule, marked, snippets): &Case| MaskedCase {
        documents: [one.clone(), other.clone()],
        rule,
        marked,
        snippets,
    };
    cases.iter().map(case).collect()
}

/// X with other names for its two drugs.
fn named(first: &str, second: &str) -> Vec<u8> {
    document(&[
        ('e', 0, "lib", ""),
        ('e', 1, "drug", ""),
        ('a', 2, "name", first),
        ('e', 1, "drug", ""),
        ('a', 2, "name", second),
    ])
}

/// What document 01 gives for X, on X with another name; and with two names,
/// where nothing but the four snippets of the empty value is left.
fn names() -> Vec<MaskedCase> {
    let on_x = [
        (SESSION, &[1][..], 19),
        ("(e=e)", &[0, 1, 2, 3, 4], 4),
        // Four of the empty value, and one from 1 to the second name.
        ("!(e=l)", &[1, 2, 3, 4], 5),
    ];
    let mut cases = on(X.into(), named("Q", "Q"), &on_x);
    cases.extend(on(X.into(), named("1234567890", "1234567890"), &on_x));
    let apart = named("heparin", "aspirin");
    cases.extend(on(apart, named("m-1", "m-2"), &[(SESSION, &[], 4)]));
    let rows = (
        row(&["a", "b", "c", "a", "x"]),
        row(&["u", "v", "w", "u", "a"]),
    );
    let all: &[usize] = &[0, 1, 2, 3, 4, 5];
    cases.extend(on(rows.0, rows.1, &[(EVERYWHERE, all, 90)]));
    cases
}

/// What the one node was called, the other one is.
fn exchanged() -> Vec<MaskedCase> {
    let (one, other) = (named("heparin", "aspirin"), named("aspirin", "heparin"));
    let mut cases = on(one, other, &[(SESSION, &[], 4), ("(l!=.rl)", &[1], 0)]);
    let (one, other) = (
        row(&["a", "b", "c", "a", "b"]),
        row(&["b", "c", "a", "b", "c"]),
    );
    let all: &[usize] = &[0, 1, 2, 3, 4, 5];
    cases.extend(on(
        one,
        other,
        &[(EVERYWHERE, all, 126), ("(e!=.r.rr)", &[], 0)],
    ));
    cases
}

/// What a rule names keeps its name, and no other node gets it.
fn constants_kept() -> Vec<MaskedCase> {
    let one = row(&["heparin", "aspirin", "heparin", "insulin"]);
    let other = row(&["heparin", "Q7", "heparin", "Q8"]);
    let cases = [
        ("(e=\"heparin\")", &[1, 3][..], 0),
        ("(e!=\" heparin \")", &[0, 2, 4], 0),
        ("(.r[!(e=\"heparin\")]!=e)", &[1, 3], 0),
        ("|(e=\"Q\")(e=\"\")", &[0], 0),
    ];
    on(one, other, &cases)
}

/// Drugs 1, 4 and 7 with a lower limit and an upper one.
fn limited(limits: [&str; 6]) -> Vec<u8> {
    let mut rows = vec![('e', 0, "lib", "")];
    for pair in limits.chunks(2) {
        rows.push(('e', 1, "drug", ""));
        rows.push(('a', 2, "low", pair[0]));
        rows.push(('a', 2, "high", pair[1]));
    }
    document(&rows)
}

fn limits() -> Vec<MaskedCase> {
    let one = limited(["5", "10", "10", "5", "5", "5.0"]);
    let other = limited(["7", "30", "30", "7", "7", "7.00"]);
    let mut cases = on(
        one.clone(),
        other,
        &[
            ("(l<.lr)", &[1], 0),
            ("(l<=.lr)", &[1, 7], 0),
            ("(l>.lr)", &[4], 0),
            ("&:drug(l!=.lr)", &[1, 4, 7], 0),
            // Between them and on either side, a constant keeps its place.
            ("(l<\"8\")", &[1, 7], 0),
            ("&(l>=\"8.5\")(.lr<\"8.5\")", &[4], 0),
            ("(+lr>\"4\")", &[1, 2, 4, 5, 7, 8], 0),
            ("(e>\"30.0001\")", &[], 0),
        ],
    );
    // A constant that is one of them stays.
    let other = limited(["0.0001", "10", "10", "0.0001", "0.0001", "00.0001"]);
    let kept: [Case; 3] = [
        ("(l<\"10\")", &[1, 7], 0),
        ("(l=\"10\")", &[4], 0),
        ("(e>=\"10\")", &[3, 5], 0),
    ];
    cases.extend(on(one, other, &kept));
    cases
}

fn spellings() -> Vec<MaskedCase> {
    let one = row(&["1.5", "1.50", "-0", "0"]);
    let other = row(&["3", "3.0", "-1", "-1.0"]);
    let cases: [Case; 5] = [
        ("(e=r)", &[], 0),
        ("(e!=r)", &[1, 2, 3], 0),
        ("(e<=r)", &[1, 3], 0),
        ("(e>r)", &[2], 0),
        ("(e<=e)", &[1, 2, 3, 4], 0),
    ];
    on(one, other, &cases)
}

fn padded() -> Vec<MaskedCase> {
    let one = row(&[" heparin ", "heparin", "aspirin", "", "5"]);
    let other = row(&["Q", "  Q", "R  ", "   ", " 6 "]);
    let cases: [Case; 4] = [
        // From 1 to 2 and from the root to 4, with the two positions in either
        // order.
        ("(e=r)", &[1], 4),
        ("(e!=r)", &[2, 3, 4], 0),
        ("(e=\"\")", &[0, 4], 0),
        ("(e<=\" 7 \")", &[5], 0),
    ];
    on(one, other, &cases)
}

fn nearly_numerals() -> Vec<MaskedCase> {
    let one = row(&["a", "b", "a", "4"]);
    let other = row(&["-", "1e3", "-", "-4"]);
    let cases: [Case; 3] = [
        ("(e!=.rr)", &[2], 0),
        ("(e<=.*+rR[!(e=\"\")])", &[4], 0),
        ("(e>\"-5\")", &[4], 0),
    ];
    on(one, other, &cases)
}

/// Drugs 1, 4 and 6 of the texts 2 and 3, 5, and 7; the root has them all.
fn drugs(texts: [&str; 4]) -> Vec<u8> {
    document(&[
        ('e', 0, "lib", ""),
        ('e', 1, "drug", ""),
        ('t', 2, "text", texts[0]),
        ('t', 2, "text", texts[1]),
        ('e', 1, "drug", ""),
        ('t', 2, "text", texts[2]),
        ('e', 1, "drug", ""),
        ('t', 2, "text", texts[3]),
    ])
}

/// `1` and `0` make the `10` that the second drug has, and the root is a numeral
/// too.
fn joined_texts() -> Vec<MaskedCase> {
    let cases: [Case; 5] = [
        ("&:drug(e<=r)", &[1], 0),
        ("&:drug(e>r)", &[4], 0),
        ("&:drug(e!=.r*r)", &[1, 4], 0),
        ("(e>\"9999\")", &[0], 0),
        ("&(e<=e)!:text", &[0, 1, 4, 6], 0),
    ];
    let one = drugs(["1", "0", "10", "9"]);
    let mut all = on(one.clone(), drugs(["2", "0", "20", "9"]), &cases);
    all.extend(on(one, drugs([" 3", "0", "30", "9  "]), &cases));
    all
}

fn counting() -> Vec<MaskedCase> {
    let one = row(&["heparin", "5", "heparin", "9", "5"]);
    let other = row(&["heparin", "-2", "heparin", "40", "-2"]);
    let mut cases = on(
        one,
        other,
        &[
            ("#2..l*r[(e=\"heparin\")]", &[0], 0),
            ("#3..l*r[(e=\"heparin\")]", &[], 0),
            ("#2.*r[(e<\"7\")]", &[1, 2], 0),
            ("#2.*r[(e<.r*r)]", &[], 0),
            ("#1.*r[(e<.r*r)]", &[1, 2], 0),
            // From 1 to the node 3 that the path stops at.
            ("(e=.*R[#1.r[(e>=\"7\")]])", &[3], 4),
        ],
    );
    let masked = named("Q", "Q");
    cases.extend(on(X.into(), masked, &[("#1.l[(e=e)]", &[0, 1, 3], 4)]));
    cases
}

/// Two documents and a rule that do not meet the supposition, but would if it
/// asked for less; and what the rule marks in the one and in the other.
pub struct BrokenCase {
    /// What is left out of the supposition.
    pub left_out: &'static str,
    /// Whether what is left of it holds.
    pub rest_holds: Supposition,
    pub documents: [Vec<u8>; 2],
    pub rule: &'static str,
    pub marked: [&'static [usize]; 2],
}

pub type Supposition = fn(&Library, &Library, &Test) -> bool;

impl BrokenCase {
    pub fn libraries(&self) -> [Library; 2] {
        let library = |document: &Vec<u8>| read(document).expect("a legal document");
        self.documents.each_ref().map(library)
    }

    pub fn test(&self) -> Test {
        reader::read(self.rule.as_bytes())
    }
}

/// One for each way to ask for less.
pub fn broken() -> Vec<BrokenCase> {
    let mut cases = vec![
        no_node_with_itself(),
        no_order(),
        no_equality(),
        neighbours_only(),
        one_order_only(),
        values_not_cut(),
        no_elements(),
    ];
    cases.extend(no_constants());
    cases.extend(no_inner_constants());
    cases.extend(unlike());
    cases
}

/// Whether the documents are alike, and only such signs differ.
fn only(one: &Library, other: &Library, rule: &Test, such: impl Fn(&Difference) -> bool) -> bool {
    let found = differences(&Tree::of(one), &Tree::of(other), rule);
    alike(one, other) && found.iter().all(such)
}

fn is_text(sign: Sign) -> bool {
    matches!(sign, Sign::Equal | Sign::Unequal)
}

/// The one numeral becomes a word.
fn no_node_with_itself() -> BrokenCase {
    BrokenCase {
        left_out: "a node with itself",
        rest_holds: |one, other, rule| only(one, other, rule, |d| d.right == Right::Node(d.left)),
        documents: [row(&["5"]), row(&["x"])],
        rule: "(e<=e)",
        marked: [&[1], &[]],
    }
}

fn no_order() -> BrokenCase {
    BrokenCase {
        left_out: "the order signs",
        rest_holds: |one, other, rule| only(one, other, rule, |d| !is_text(d.sign)),
        documents: [row(&["5", "10"]), row(&["10", "5"])],
        rule: "(e<r)",
        marked: [&[1], &[]],
    }
}

/// Two spellings of an amount become one.
fn no_equality() -> BrokenCase {
    BrokenCase {
        left_out: "= and !=",
        rest_holds: |one, other, rule| only(one, other, rule, |d| is_text(d.sign)),
        documents: [row(&["1.5", "1.50"]), row(&["1.5", "1.5"])],
        rule: "(e=r)",
        marked: [&[], &[1]],
    }
}

fn neighbours_only() -> BrokenCase {
    BrokenCase {
        left_out: "two nodes that are no neighbours",
        rest_holds: |one, other, rule| {
            only(one, other, rule, |d| match d.right {
                Right::Node(right) => right.abs_diff(d.left) > 1,
                Right::Constant(_) => false,
            })
        },
        documents: [row(&["a", "b", "c"]), row(&["a", "b", "a"])],
        rule: "(e=.rr)",
        marked: [&[], &[1]],
    }
}

/// All six signs on two nodes in document order tell what comes out in the other
/// order. So one of the order signs alone is asked here.
fn one_order_only() -> BrokenCase {
    BrokenCase {
        left_out: "all but =, != and < on two nodes in document order",
        rest_holds: |one, other, rule| {
            only(one, other, rule, |d| match d.right {
                Right::Node(right) if right > d.left => !is_text(d.sign) && d.sign != Sign::Less,
                Right::Node(right) => right < d.left,
                Right::Constant(_) => false,
            })
        },
        documents: [row(&["5", "3"]), row(&["5", "5.0"])],
        rule: "(e>r)",
        marked: [&[1], &[]],
    }
}

fn values_not_cut() -> BrokenCase {
    BrokenCase {
        left_out: "that values are cut",
        rest_holds: |one, other, rule| {
            let ((first, test), (second, _)) = (uncut(one, rule), uncut(other, rule));
            alike(one, other) && differences(&first, &second, &test).is_empty()
        },
        documents: [row(&[" a", "a"]), row(&[" a", "b"])],
        rule: "(e=r)",
        marked: [&[1], &[]],
    }
}

/// A drug has its name's 10 in its texts, and then 30 beside 20.
fn no_elements() -> BrokenCase {
    let drug = |values: [&str; 3]| {
        document(&[
            ('e', 0, "lib", ""),
            ('e', 1, "drug", ""),
            ('a', 2, "name", values[0]),
            ('t', 2, "text", values[1]),
            ('t', 2, "text", values[2]),
        ])
    };
    BrokenCase {
        left_out: "the values of elements",
        rest_holds: |one, other, rule| {
            let is_element = |v: usize| one.nodes[v].kind == Kind::Element;
            only(one, other, rule, |d| match d.right {
                Right::Node(right) => is_element(d.left) || is_element(right),
                Right::Constant(_) => is_element(d.left),
            })
        },
        documents: [drug(["10", "1", "0"]), drug(["20", "3", "0"])],
        rule: "(e=l)",
        marked: [&[0, 1], &[0]],
    }
}

fn no_constants() -> [BrokenCase; 2] {
    let case = |documents, rule, marked| BrokenCase {
        left_out: "the constants",
        rest_holds: |one, other, rule| {
            only(one, other, rule, |d| matches!(d.right, Right::Constant(_)))
        },
        documents,
        rule,
        marked,
    };
    let names = [X.into(), named("aspirin", "aspirin")];
    let limits = [row(&["5", "9"]), row(&["30", "40"])];
    [
        case(names, "(e=\"heparin\")", [&[2, 4], &[]]),
        case(limits, "(e<\"10\")", [&[1, 2], &[]]),
    ]
}

/// `b` is kept, and `heparin` stands inside alone.
fn no_inner_constants() -> [BrokenCase; 3] {
    let case = |left_out, rule, marked| BrokenCase {
        left_out,
        rest_holds: |one, other, rule| {
            only(one, other, rule, |d| d.right == Right::Constant(b"heparin"))
        },
        documents: [row(&["heparin", "heparin", "b"]), row(&["q", "q", "b"])],
        rule,
        marked,
    };
    [
        case(
            "a constant in a bracket",
            "|(e=\"b\")(e=.r[!(e=\"heparin\")])",
            [&[3], &[1, 3]],
        ),
        case(
            "a constant in a bracket in a bracket",
            "(.l[(e=.r[!(e=\"heparin\")])]!=\"b\")",
            [&[], &[0]],
        ),
        case(
            "a constant in a bracket in the path of a count",
            "|(e=\"b\")#2..l*r[(e=\"heparin\")]",
            [&[0, 3], &[3]],
        ),
    ]
}

/// The values are the same here, and something else is not. A case for kinds is
/// missing: nothing but the values of elements depends on them.
fn unlike() -> [BrokenCase; 2] {
    let drugs = |label, depths: [usize; 2]| {
        document(&[
            ('e', 0, "lib", ""),
            ('e', 1, "drug", ""),
            ('a', 2, label, "heparin"),
            ('e', depths[0], "drug", ""),
            ('a', depths[1], "name", "heparin"),
        ])
    };
    let case = |left_out, other| BrokenCase {
        left_out,
        rest_holds: |one, other, rule| {
            let kinds = one
                .nodes
                .iter()
                .zip(&other.nodes)
                .all(|(a, b)| a.kind == b.kind);
            kinds && differences(&Tree::of(one), &Tree::of(other), rule).is_empty()
        },
        documents: [X.into(), other],
        rule: SESSION,
        marked: [&[1], &[]],
    };
    [
        case("labels", drugs("brand", [1, 2])),
        case("depths", drugs("name", [2, 3])),
    ]
}
