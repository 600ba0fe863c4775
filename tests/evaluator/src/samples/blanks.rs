//! Fixed cases about request (b) of document 02: blanks at the ends of values
//! and constants, alone, inside, and in parts of an element's text.

use super::counts::{self, row, CountCase, EVERYWHERE, PAIRS};
use super::documents::{self, with_lines, DocumentCase};
use super::rules::{self, RuleCase};
use super::selections::{on, Marked, SelectionCase, SESSION};
use super::{document, X};
use crate::document::VALUE_LIMIT;

/// So many blanks.
pub fn blanks(count: usize) -> String {
    " ".repeat(count)
}

/// 0 lib with drug 1, whose attributes from 2 on have these values. Of 2 to 5
/// `a` is left, of 6 `a b`, of 7 `a  b`, of 8 and 9 nothing, as of the two
/// elements.
fn on_attributes(cases: &[Marked]) -> Vec<SelectionCase> {
    let values = [" a", "a ", "  a  ", "a", "a b", " a  b ", "", "   "];
    let labels = ["n2", "n3", "n4", "n5", "n6", "n7", "n8", "n9"];
    let mut rows = vec![('e', 0, "lib", ""), ('e', 1, "drug", "")];
    let attributes = labels.into_iter().zip(values);
    rows.extend(attributes.map(|(label, value)| ('a', 2, label, value)));
    on(&document(&rows), cases)
}

pub(super) fn at_the_ends() -> Vec<SelectionCase> {
    on_attributes(&[
        ("(e=\"a\")", &[2, 3, 4, 5]),
        ("(e!=\"a\")", &[0, 1, 6, 7, 8, 9]),
        ("(e=r)", &[2, 3, 4, 8]),
        ("(e!=r)", &[5, 6, 7]),
        ("(R=e)", &[3, 4, 5, 9]),
        ("(e=.r.r*r)", &[2, 3]),
        ("(e=*.R.RR)", &[0, 1, 2, 3, 4, 5, 6, 7, 8, 9]),
        ("(.l[(e=.r.rr)]=.l[(e=\"a\")])", &[1]),
    ])
}

pub(super) fn inside() -> Vec<SelectionCase> {
    on_attributes(&[
        ("(e=\"a b\")", &[6]),
        ("(e=\"a  b\")", &[7]),
        ("(e=\" a  b\")", &[7]),
        ("(e=\"ab\")", &[]),
        ("(e=\"a   b\")", &[]),
        ("&(e!=\"a b\")(e!=\"a  b\")", &[0, 1, 2, 3, 4, 5, 8, 9]),
    ])
}

pub(super) fn alone() -> Vec<SelectionCase> {
    on_attributes(&[
        ("(e=\"\")", &[0, 1, 8, 9]),
        ("(e!=\"\")", &[2, 3, 4, 5, 6, 7]),
        ("(e=L)", &[1]),
    ])
}

pub(super) fn constants() -> Vec<SelectionCase> {
    on_attributes(&[
        ("(e=\" a \")", &[2, 3, 4, 5]),
        ("(e=\" a\")", &[2, 3, 4, 5]),
        ("(e=\"a \")", &[2, 3, 4, 5]),
        ("(e!=\"a \")", &[0, 1, 6, 7, 8, 9]),
        ("(e=\" \")", &[0, 1, 8, 9]),
        ("(e=\"  \")", &[0, 1, 8, 9]),
        ("(e!=\"  \")", &[2, 3, 4, 5, 6, 7]),
        ("(e=\" a b \")", &[6]),
        ("(e=\"a  b  \")", &[7]),
        // The longest, with one byte that is left, and with none.
        ("(e=\"                               a\")", &[2, 3, 4, 5]),
        ("(e=\"a                               \")", &[2, 3, 4, 5]),
        ("(e=\"              a b               \")", &[6]),
        ("(e=\"                                \")", &[0, 1, 8, 9]),
        ("(l=\" a\")", &[1]),
        ("(.l[(e=\" a\")]=\"a \")", &[1]),
    ])
}

pub(super) fn order() -> Vec<SelectionCase> {
    // Of 1 to 4 `9` is left, of 5 `9 9`, of 6 `-3.5`, of 7 and 8 nothing, of 9
    // `10`.
    let values = [" 9", "9 ", "  9  ", "9", "9 9", " -3.5 ", "", "   ", "10 "];
    let cases: [Marked; 16] = [
        ("(e<\" 10 \")", &[1, 2, 3, 4, 6]),
        ("(e<=\" 9\")", &[1, 2, 3, 4, 6]),
        ("(e>\"9 \")", &[9]),
        ("(e>=\" 9\")", &[1, 2, 3, 4, 9]),
        ("(e<=\"   -3.5000\")", &[6]),
        // A blank inside makes no numeral, and blanks alone make none.
        ("(e<\"9 9\")", &[]),
        ("(e>=\" 9 9 \")", &[]),
        ("(e=\" 9 9 \")", &[5]),
        ("(e<=\"  \")", &[]),
        ("(e>=\"  \")", &[]),
        ("(e=\"  \")", &[0, 7, 8]),
        ("(e<r)", &[]),
        ("(e<=r)", &[1, 2, 3]),
        ("(e>=r)", &[1, 2, 3]),
        ("(e<.r*r)", &[1, 2, 3, 4, 6]),
        ("(e>.r*r)", &[1, 2, 3, 4]),
    ];
    on(&row(&values), &cases)
}

pub(super) fn other_bytes() -> Vec<SelectionCase> {
    // The byte behind the blank is none, and ends what is cut.
    let values = ["!a", "a!", "! a", "a !", " a ", " ! ", "!", "~ ", " ~"];
    let cases: [Marked; 9] = [
        ("(e=\"a\")", &[5]),
        ("(e=\" !a\")", &[1]),
        ("(e=\"a! \")", &[2]),
        ("(e=\" ! a \")", &[3]),
        ("(e=\"a !\")", &[4]),
        ("(e=\"!\")", &[6, 7]),
        ("(e=\"\")", &[0]),
        ("(e=\"~\")", &[8, 9]),
        ("(e=r)", &[6, 8]),
    ];
    on(&row(&values), &cases)
}

/// Drugs that begin at 1, 5, 9, 13, 17, 23 and 30, with their texts. What is
/// left of them is `a`, `a b`, `a b`, `a   b`, nothing, `a b` and `a b`.
fn on_texts(cases: &[Marked]) -> Vec<SelectionCase> {
    let drug = ('e', 1, "drug", "");
    let unit = ('e', 2, "unit", "");
    let text = |value| ('t', 2, "text", value);
    let inner = |value| ('t', 3, "text", value);
    let mut rows = vec![('e', 0, "lib", "")];
    rows.extend([drug, text(" "), text("a"), text("  ")]);
    rows.extend([drug, text(" a"), text(" "), text("b ")]);
    rows.extend([drug, text("a "), text(""), text("b")]);
    rows.extend([drug, text("a"), text("  "), text(" b")]);
    rows.extend([drug, ('a', 2, "name", "a"), text("  ")]);
    rows.extend([unit, inner(" "), text("")]);
    rows.extend([drug, text(" "), unit, ('a', 3, "name", " x ")]);
    rows.extend([inner("  a"), inner(" b  "), text(" ")]);
    rows.extend([drug, text("a"), unit, inner(" "), text("b")]);
    on(&document(&rows), cases)
}

pub(super) fn joined_texts() -> Vec<SelectionCase> {
    on_texts(&[
        ("(e=\"a\")", &[1, 3, 6, 10, 14, 18, 27, 31]),
        ("(e=\"a b\")", &[5, 9, 23, 25, 30]),
        ("(e=\" a b  \")", &[5, 9, 23, 25, 30]),
        ("(e=\"a   b\")", &[13]),
        ("(e=\"a  b\")", &[]),
        // As it would be if each text were cut before it is joined.
        ("(e=\"ab\")", &[]),
        ("(e=\"b\")", &[8, 12, 16, 28, 34]),
        ("(e=\"x\")", &[26]),
    ])
}

pub(super) fn blank_texts() -> Vec<SelectionCase> {
    on_texts(&[
        (
            "(e=\"\")",
            &[2, 4, 7, 11, 15, 17, 19, 20, 21, 22, 24, 29, 32, 33],
        ),
        ("&:drug(e=\" \")", &[17]),
        ("&:unit(e=\"  \")", &[20, 32]),
        ("(e=l)", &[20, 32]),
        ("&:drug(l=\"\")", &[1, 23]),
        ("&:drug(l!=e)", &[1, 5, 9, 13, 17, 23, 30]),
    ])
}

pub(super) fn drugs_compared() -> Vec<SelectionCase> {
    on_texts(&[
        ("&:drug(e=.r*r)", &[5, 9, 23]),
        ("&:drug(e=.R*R)", &[9, 23, 30]),
        ("&:drug(e=r)", &[5, 23]),
        ("&:drug(e!=r)", &[1, 9, 13, 17]),
        ("&:drug(e<=r)", &[]),
        ("&:drug(e>=r)", &[]),
        ("&:drug(e=..l*rl)", &[17]),
        ("&:drug(e=.l*r)", &[1, 17, 23]),
        ("&:unit(e=..RLr)", &[25]),
    ])
}

pub(super) fn longest() -> Vec<SelectionCase> {
    // Attributes 1 to 6; element 7 with 765 blanks, of which one is an `a`;
    // element 11 with 510 blanks.
    let half = VALUE_LIMIT / 2;
    let values = [
        blanks(VALUE_LIMIT),
        blanks(VALUE_LIMIT - 1) + "a",
        format!("a{}", blanks(VALUE_LIMIT - 1)),
        format!("{}a{}", blanks(half), blanks(half)),
        format!("a{}a", blanks(VALUE_LIMIT - 2)),
        "a".to_string(),
    ];
    let labels = ["n1", "n2", "n3", "n4", "n5", "n6"];
    let mut rows = vec![('e', 0, "lib", "")];
    let attributes = labels.into_iter().zip(&values);
    rows.extend(attributes.map(|(label, value)| ('a', 1, label, value.as_str())));
    let text = |value: usize| ('t', 2, "text", values[value].as_str());
    rows.extend([('e', 1, "drug", ""), text(0), text(3), text(0)]);
    rows.extend([('e', 1, "drug", ""), text(0), text(0)]);
    let cases: [Marked; 6] = [
        ("(e=\"a\")", &[0, 2, 3, 4, 6, 7, 9]),
        ("(e=\"\")", &[1, 8, 10, 11, 12, 13]),
        ("(e=\" \")", &[1, 8, 10, 11, 12, 13]),
        ("(e!=\"a\")", &[1, 5, 8, 10, 11, 12, 13]),
        ("(e=r)", &[2, 3, 6, 12]),
        ("(e=.l*r)", &[0, 7, 11]),
    ];
    on(&document(&rows), &cases)
}

/// Document X with blanks around the names.
fn padded_x() -> String {
    X.replacen("heparin", "  heparin", 1)
        .replace("=heparin", "=heparin ")
}

pub(super) fn on_padded_x() -> Vec<SelectionCase> {
    let cases: [Marked; 4] = [
        (SESSION, &[1]),
        ("(l=\"heparin\")", &[1, 3]),
        ("(*l=\"   heparin \")", &[0, 1, 2, 3, 4]),
        ("(e=\" \")", &[0, 1, 3]),
    ];
    on(padded_x().as_bytes(), &cases)
}

pub(super) fn groups() -> Vec<CountCase> {
    let case = |document: &[u8], rule, count| counts::case(document, rule, count);
    let one = |values: &[&str], stretches| case(&row(values), EVERYWHERE, stretches * PAIRS);
    // 1 drug (2, 3) and 4 drug (5, 6).
    let drugs = |texts: [&str; 4]| {
        let [two, three, five, six] = texts.map(|value| ('t', 2, "text", value));
        let drug = ('e', 1, "drug", "");
        document(&[('e', 0, "lib", ""), drug, two, three, drug, five, six])
    };
    vec![
        case(padded_x().as_bytes(), SESSION, 19),
        case(padded_x().as_bytes(), "(e=e)", 4),
        // As with the values `a b c a x` and so on.
        one(&["a", "b", "c", " a", "x"], 5),
        one(&["a ", "b", "c", "x", " b "], 5),
        one(&[" a", "b ", "c", "a ", "  b"], 7),
        one(&["a b", "b", "c", "a  b", "x"], 0),
        // The root has the empty value too, and one edge to node 1.
        one(&["", "b", "c", "  ", "x"], 6),
        one(&[" ", "b", "c", "   ", "x"], 6),
        case(&row(&["a", " a", "a "]), "(.rr=e)", 5),
        // Of 1, 3, 4 and 5 `a` is left. The stretches 1-4 and 4-5 have power 0
        // and 1-3 has power 1, and each has the two starts in either order.
        case(&drugs([" ", "a", "a", " "]), "(e=e)", 6),
        // Of 1 and 4 the same is left, or not: the stretch is 1-4.
        case(&drugs(["a ", "b", "a", " b"]), "(e=e)", 2),
        case(&drugs(["a ", "b", "a", "b"]), "(e=e)", 0),
    ]
}

pub(super) fn documents() -> Vec<DocumentCase> {
    let nodes = |document: &[u8]| document.iter().filter(|byte| **byte == b'\n').count() / 4;
    let mut cases: Vec<DocumentCase> = [at_the_ends(), joined_texts(), longest()]
        .iter()
        .map(|selections| &selections[0].document)
        .map(|document| documents::case(document.clone(), 0, 0, nodes(document)))
        .collect();
    let changed = |line, text: &str| with_lines(X, &[(line, text)]);
    for count in [1, 2, VALUE_LIMIT] {
        let value = format!("value={}", blanks(count));
        cases.push(documents::case(changed(13, &value), 0, 0, 5));
        // An element's V is empty, and blanks are not.
        cases.push(documents::refused(changed(9, &value), 4, 9));
    }
    let long = format!("value={}", blanks(VALUE_LIMIT + 1));
    cases.push(documents::refused(changed(13, &long), 2, 13));
    cases.push(documents::refused(changed(9, &long), 2, 9));
    // Nothing else in a document may have blanks around it.
    for (line, text) in [
        (1, "nodes=5 "),
        (1, "nodes= 5"),
        (6, "depth=1 "),
        (6, " depth=1"),
        (7, "kind=e "),
        (7, "kind= e"),
        (8, "label=drug "),
        (8, "label= drug"),
        (9, "value= "),
        (13, " value=heparin"),
        (13, "value =heparin"),
    ] {
        let number = if text == "value= " { 4 } else { 2 };
        cases.push(documents::refused(changed(line, text), number, line));
    }
    cases
}

pub(super) fn rules() -> Vec<RuleCase> {
    let equal = |constant: &str| format!("(e=\"{constant}\")");
    let cs = |count: usize| "c".repeat(count);
    let mut cases: Vec<RuleCase> = ["", " ", "  ", " a", "a ", " a ", " a b ", "! "]
        .map(|constant| rules::accepted(equal(constant)))
        .into();
    // 32 bytes and no more, however many of them are left.
    for fill in [
        blanks(32),
        cs(31) + " ",
        blanks(31) + "c",
        blanks(16) + &cs(16),
    ] {
        cases.push(rules::accepted(equal(&fill)));
        cases.push(rules::case(equal(&format!("{fill} ")), 6, 36));
        cases.push(rules::case(equal(&format!(" {fill}")), 6, 36));
    }
    // A blank stands in constants alone.
    cases.extend(rules::unread([
        ("( e=\"a\")", 1),
        ("(e =\"a\")", 2),
        ("(e= \"a\")", 3),
        ("(e=\"a\" )", 6),
        ("(e=\"a\") ", 7),
        ("([: a]=\" \")", 3),
    ]));
    cases
}
