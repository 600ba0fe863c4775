//! Fixed documents and rules with the nodes that must be marked: document 01's
//! cases on X, where a reading of it slips, what each construct means, blanks at
//! the ends of values, the order of amounts, and counts.

use super::{amounts, at_least, blanks, document, X};

pub struct SelectionCase {
    pub document: Vec<u8>,
    pub rule: &'static str,
    /// The numbers of the marked nodes, rising.
    pub marked: &'static [usize],
}

/// A name that says what holds of the cases, and the function that makes them.
pub type Group = (&'static str, fn() -> Vec<SelectionCase>);

/// All fixed cases.
pub const GROUPS: [Group; 41] = [
    ("the ten cases on X mark what is written", cases_on_x),
    ("= and != both fail at node 3 of X", both_fail),
    ("= and != may both hold, or one, or neither", both_hold),
    ("only R upward leaves node 3 of X, to node 1", upward),
    ("attribute values are not joined", attributes_apart),
    ("texts are joined in order", texts_joined),
    ("an element may be labelled text", labelled_text),
    ("l is the first child and r the next sibling", children),
    ("the signs quantify over reached nodes", quantified),
    ("no order sign holds of words", words),
    ("connectives mean what is written", connectives),
    ("every comparison of a rule is settled", several),
    ("blanks at the ends of a value are cut", blanks::at_the_ends),
    ("blanks inside a value are kept", blanks::inside),
    ("blanks alone make the empty value", blanks::alone),
    ("constants are cut too", blanks::constants),
    ("cut values are ordered", blanks::order),
    ("no other byte is a blank", blanks::other_bytes),
    ("texts are joined before they are cut", blanks::joined_texts),
    (
        "texts of blanks are cut where they end",
        blanks::blank_texts,
    ),
    ("joined texts are compared cut", blanks::drugs_compared),
    ("the longest values are cut", blanks::longest),
    ("X with padded names marks the same", blanks::on_padded_x),
    ("limits are ordered as amounts", amounts::limits),
    (
        "the order signs quantify over reached numerals",
        amounts::quantified,
    ),
    (
        "an order sign and its opposite may both fail",
        amounts::opposites,
    ),
    ("a numeral is what is written", amounts::forms),
    ("the boundaries of numerals", amounts::boundaries),
    (
        "constants that are no numerals have no order",
        amounts::other_constants,
    ),
    ("10 is more than 9", amounts::by_amount),
    ("one amount in several spellings", amounts::spellings),
    ("<= fails between equal words", amounts::equal_words),
    ("numerals and words side by side", amounts::mixed_kinds),
    (
        "joined texts may be a numeral or none",
        amounts::joined_texts,
    ),
    ("the longest values as numerals", amounts::longest),
    ("a count asks for at least n nodes", at_least::numbers),
    ("a node reached in two ways counts once", at_least::once),
    ("nodes inside and below are counted", at_least::inside),
    (
        "counts and comparisons stand in each other",
        at_least::nested,
    ),
    ("at least three concentrations", at_least::concentrations),
    ("nodes of a row are counted", at_least::rows),
];

/// The session of document 01.
pub const SESSION: &str = "(.l[:name]=..r*rl)";

/// "Marked on X (M)".
pub const CASES_ON_X: [(&str, &[usize]); 10] = [
    (":drug", &[1, 3]),
    ("!:drug", &[0, 2, 4]),
    ("(e=e)", &[0, 1, 2, 3, 4]),
    ("(e!=e)", &[]),
    ("(l=\"heparin\")", &[1, 3]),
    ("(e<\"a\")", &[]),
    ("(*l=\"heparin\")", &[0, 1, 2, 3, 4]),
    ("(.R*R=\"\")", &[3]),
    ("(r=e)", &[1]),
    (SESSION, &[1]),
];

pub(super) type Marked = (&'static str, &'static [usize]);

pub(super) fn on_x(cases: &[Marked]) -> Vec<SelectionCase> {
    on(X.as_bytes(), cases)
}

/// 0 lib, 1 drug with attribute 2, text 3, unit 4 with text 5, text 6; 7 empty.
pub(super) fn on_mixed(cases: &[Marked]) -> Vec<SelectionCase> {
    let mixed = document(&[
        ('e', 0, "lib", ""),
        ('e', 1, "drug", ""),
        ('a', 2, "name", "zz"),
        ('t', 2, "text", "a"),
        ('e', 2, "unit", ""),
        ('t', 3, "text", "b"),
        ('t', 2, "text", "c"),
        ('e', 1, "text", ""),
    ]);
    on(&mixed, cases)
}

pub(super) fn on(document: &[u8], cases: &[Marked]) -> Vec<SelectionCase> {
    let case = |&(rule, marked): &Marked| SelectionCase {
        document: document.to_vec(),
        rule,
        marked,
    };
    cases.iter().map(case).collect()
}

fn cases_on_x() -> Vec<SelectionCase> {
    on_x(&CASES_ON_X)
}

fn both_fail() -> Vec<SelectionCase> {
    on_x(&[
        ("(r=e)", &[1]),
        ("(r!=e)", &[]),
        // The denials hold there, and so are no comparisons.
        ("!(r=e)", &[0, 2, 3, 4]),
        ("!(r!=e)", &[0, 1, 2, 3, 4]),
    ])
}

fn both_hold() -> Vec<SelectionCase> {
    // The right siblings of 1 have "", of 2 "a", "b" and "c", of 3 "b" and
    // "c", of 4 "c"; no other node has any.
    on_mixed(&[
        ("(.r*r=.r*r)", &[1, 2, 3, 4]),
        ("(.r*r!=.r*r)", &[2, 3]),
        ("&(.r*r=.r*r)(.r*r!=.r*r)", &[2, 3]),
        ("!|(.r*r=.r*r)(.r*r!=.r*r)", &[0, 5, 6, 7]),
        ("(*r=\"c\")", &[2, 3, 4, 6]),
        ("(*r!=\"c\")", &[0, 1, 2, 3, 4, 5, 7]),
    ])
}

fn upward() -> Vec<SelectionCase> {
    // Every element of X has the empty value, so the first two ask which nodes
    // are left children and which are right children.
    on_x(&[
        ("(L=\"\")", &[1, 2, 4]),
        ("(R=\"\")", &[3]),
        // Node 1 alone is a drug whose parent has it as left child.
        ("(..R[:drug]L=\"\")", &[3]),
        ("(.L[:lib]=\"\")", &[1]),
        ("(.R[:drug]=\"\")", &[3]),
        ("(*L=\"heparin\")", &[2, 4]),
    ])
}

fn attributes_apart() -> Vec<SelectionCase> {
    let mut cases = on_x(&[("(e=\"heparin\")", &[2, 4]), ("(e=\"\")", &[0, 1, 3])]);
    cases.extend(on_mixed(&[("(e=\"zz\")", &[2]), ("(e=l)", &[0, 4])]));
    cases
}

fn texts_joined() -> Vec<SelectionCase> {
    on_mixed(&[
        ("(e=\"abc\")", &[0, 1]),
        ("(e=\"b\")", &[4, 5]),
        ("(e=\"\")", &[7]),
        ("(e=\"cba\")", &[]),
    ])
}

fn labelled_text() -> Vec<SelectionCase> {
    on_mixed(&[(":text", &[3, 5, 6, 7]), (":tex", &[]), (":texts", &[])])
}

fn children() -> Vec<SelectionCase> {
    on_mixed(&[
        ("(.l[:name]=\"zz\")", &[1]),
        ("(r=\"a\")", &[2]),
        ("(r=\"\")", &[1]),
        ("(*r=\"c\")", &[2, 3, 4, 6]),
        ("(L=\"abc\")", &[1, 2]),
        ("(.*RL=\"abc\")", &[1, 2, 3, 4, 6, 7]),
    ])
}

fn quantified() -> Vec<SelectionCase> {
    // From node 2 its right siblings have "a", "b" and "c".
    on_mixed(&[
        ("(.r*r=\"b\")", &[2, 3]),
        ("(.r*r=\"c\")", &[2, 3, 4]),
        ("(+er=\"\")", &[1, 7]),
        // Some of 3, 4, 6 against some of 3, 4, 6.
        ("(.r*r!=.r*r)", &[2, 3]),
        ("(.r*r=.r*r)", &[1, 2, 3, 4]),
        ("(r!=e)", &[1, 2, 3, 4]),
        ("(.l[!:name]!=e)", &[]),
        ("(.l[!:name]=e)", &[0, 4]),
    ])
}

fn words() -> Vec<SelectionCase> {
    let mut cases = on_mixed(&[
        ("(e<\"abc\")", &[]),
        ("(e<=\"abc\")", &[]),
        ("(e>\"ab\")", &[]),
        ("(e>=\"abcd\")", &[]),
        ("(e>\"\")", &[]),
        ("(e<=e)", &[]),
        ("(.r*r<=.r*r)", &[]),
        ("!(e>=e)", &[0, 1, 2, 3, 4, 5, 6, 7]),
    ]);
    cases.extend(on_x(&[
        ("(e<\"a\")", &[]),
        ("(e<=\"\")", &[]),
        ("(e>=e)", &[]),
        ("(e<=e)", &[]),
        ("(l>=\"heparin\")", &[]),
        ("!(e<\"a\")", &[0, 1, 2, 3, 4]),
    ]));
    cases
}

fn connectives() -> Vec<SelectionCase> {
    on_mixed(&[
        ("&:text(e=\"\")", &[7]),
        ("|:lib:unit", &[0, 4]),
        ("!|:text(e!=\"abc\")", &[0, 1]),
    ])
}

fn several() -> Vec<SelectionCase> {
    on_mixed(&[
        ("&(e=\"abc\")(l=\"zz\")", &[1]),
        ("|(e=\"zz\")(e=\"c\")", &[2, 6]),
        ("|(r=\"zz\")(r=\"c\")", &[4]),
        ("|(e=\"no\")|(e!=e)(l=e)", &[0, 4]),
        // Inside brackets, and behind the comparison around them.
        ("([(l=\"zz\")]=\"abc\")", &[1]),
        ("(e=[(e=\"c\")])", &[6]),
        ("(.r*r!=.*r[(.L[(l=\"zz\")]!=e)])", &[2]),
        ("(*l=*.l[(r=\"a\")])", &[0, 1, 2, 3, 4, 5, 6, 7]),
        ("&([(l=e)]=e)!(L=e)", &[0, 4]),
    ])
}
