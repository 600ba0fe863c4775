//! Fixed cases about request (f) of document 02: what is a numeral, how amounts
//! are ordered, and what no order sign holds of. Each expectation is worked out
//! by hand.

use super::counts::{self, row, CountCase, EVERYWHERE, PAIRS};
use super::document;
use super::selections::{on, Marked, SelectionCase};
use crate::document::VALUE_LIMIT;

/// 0 lib with the drugs 1 and 7: 1 has attributes 2 and 3 and limit 4 with texts
/// 5 and 6, 7 has attributes 8 and 9 and limit 10 with text 11.
fn on_limits(cases: &[Marked]) -> Vec<SelectionCase> {
    let limits = document(&[
        ('e', 0, "lib", ""),
        ('e', 1, "drug", ""),
        ('a', 2, "low", "9"),
        ('a', 2, "high", "10"),
        ('e', 2, "limit", ""),
        ('t', 3, "text", "1"),
        ('t', 3, "text", "0.50"),
        ('e', 1, "drug", ""),
        ('a', 2, "low", "-0"),
        ('a', 2, "high", "none"),
        ('e', 2, "limit", ""),
        ('t', 3, "text", " 10.5 "),
    ]);
    on(&limits, cases)
}

/// The values of 1 and 4 are `10.50`, those of 7, 10 and 11 are `10.5`; the root
/// has `10.50 10.5`, which is no numeral, as `none` is not.
pub(super) fn limits() -> Vec<SelectionCase> {
    on_limits(&[
        ("(e<=e)", &[1, 2, 3, 4, 5, 6, 7, 8, 10, 11]),
        ("(e<\"10\")", &[2, 5, 6, 8]),
        ("(e>\"9\")", &[1, 3, 4, 7, 10, 11]),
        ("(e>=\"10.50\")", &[1, 4, 7, 10, 11]),
        ("(e<=\"10.5\")", &[1, 2, 3, 4, 5, 6, 7, 8, 10, 11]),
        ("(e=\"10.5\")", &[7, 10, 11]),
        ("(e=\"10.50\")", &[1, 4]),
        ("(e!=\"10.5\")", &[0, 1, 2, 3, 4, 5, 6, 8, 9]),
        ("(e<\"0\")", &[]),
        ("(e<=\"0\")", &[8]),
        ("(e=\"0\")", &[]),
        ("(e<r)", &[2, 3]),
        ("(e<=r)", &[1, 2, 3]),
        ("(e>r)", &[5]),
        ("(e>=r)", &[1, 5]),
        ("(e=r)", &[]),
        ("(e!=r)", &[1, 2, 3, 5, 8, 9]),
        ("(r>e)", &[2, 3]),
    ])
}

/// An order sign asks for some pair of reached nodes too, and what is no numeral
/// is in none.
pub(super) fn quantified() -> Vec<SelectionCase> {
    on_limits(&[
        ("(.l*r<\"10\")", &[1, 4, 7]),
        ("(.l*r>=\"10\")", &[0, 1, 7, 10]),
        ("(.l*r<.l*r)", &[1, 4, 7]),
        ("(.l*r<=.l*r)", &[0, 1, 4, 7, 10]),
        ("(+er<=\"0\")", &[8]),
        // 9 is no numeral, but the node behind it is.
        ("(+er>=\"10.5\")", &[1, 3, 4, 7, 9, 10, 11]),
        ("(.l[!:low]>e)", &[]),
        ("(.l[!:low]>=e)", &[10]),
        ("([(e>\"9\")]=[(e<\"11\")])", &[1, 3, 4, 7, 10, 11]),
        ("&:limit(.R[(e<\"0.1\")]<=e)", &[]),
        ("&:limit(..RR[(e<\"0.1\")]<=e)", &[10]),
    ])
}

/// Where a value is no numeral both an order sign and its opposite fail.
pub(super) fn opposites() -> Vec<SelectionCase> {
    on_limits(&[
        ("!(e<\"10\")", &[0, 1, 3, 4, 7, 9, 10, 11]),
        ("!(e>=\"10\")", &[0, 2, 5, 6, 8, 9]),
        ("&!(e<\"10\")!(e>=\"10\")", &[0, 9]),
        ("&!(e<=\"10\")!(e>\"10\")", &[0, 9]),
        ("!(e<=e)", &[0, 9]),
        ("!(e<\"none\")", &[0, 1, 2, 3, 4, 5, 6, 7, 8, 9, 10, 11]),
    ])
}

/// What is a numeral and what is not, in the row of nodes from 1 on.
const FORMS: [&str; 50] = [
    // 1 to 8: up to nine digits, with leading zeros.
    "0",
    "9",
    "123456789",
    "1234567890",
    "000000001",
    "0000000001",
    "-123456789",
    "-1234567890",
    // 9 to 14: up to four decimals.
    "1.2345",
    "1.23456",
    "1.00000",
    "-0",
    "-0.0000",
    "00012",
    // 15 to 23: no digits before the point or behind it, and signs.
    ".5",
    "1.",
    "+1",
    "--1",
    "-",
    "",
    ".",
    "-.5",
    "-1.",
    // 24 to 26: the greatest, the least, and one digit more.
    "999999999.9999",
    "-999999999.9999",
    "9999999999.9",
    // 27 to 33: blanks at the ends, and inside.
    " 7",
    "7 ",
    "  -7.5   ",
    "7 7",
    "- 7",
    "7. 5",
    "7 .5",
    // 34 to 40: two points, a sign behind, other spellings of numbers.
    "1.5.2",
    "1.-5",
    "1-",
    "-1-",
    "1e3",
    "0x1",
    "1,5",
    // 41 to 48: the bytes beside the digits, and letters.
    "/",
    ":",
    "1/2",
    "1:2",
    "a",
    "1a",
    "a1",
    "1.5a",
    // 49 and 50: the most digits, all of them 0 or all but the last.
    "000000000.0000",
    "0.0001",
];

/// A value is a numeral exactly if `<=` holds between it and itself.
pub(super) fn forms() -> Vec<SelectionCase> {
    const NUMERALS: &[usize] = &[1, 2, 3, 5, 7, 9, 12, 13, 14, 24, 25, 27, 28, 29, 49, 50];
    let cases: [Marked; 6] = [
        ("(e<=e)", NUMERALS),
        ("(e>=e)", NUMERALS),
        ("(e<e)", &[]),
        ("(e>e)", &[]),
        ("(e<=\"999999999.9999\")", NUMERALS),
        ("(e>=\"-999999999.9999\")", NUMERALS),
    ];
    on(&row(&FORMS), &cases)
}

pub(super) fn boundaries() -> Vec<SelectionCase> {
    let cases: [Marked; 17] = [
        ("(e<\"0\")", &[7, 25, 29]),
        ("(e<=\"0\")", &[1, 7, 12, 13, 25, 29, 49]),
        (
            "(e>=\"-0\")",
            &[1, 2, 3, 5, 9, 12, 13, 14, 24, 27, 28, 49, 50],
        ),
        ("(e>\"0\")", &[2, 3, 5, 9, 14, 24, 27, 28, 50]),
        ("(e<\"0.0001\")", &[1, 7, 12, 13, 25, 29, 49]),
        ("(e<\"1\")", &[1, 7, 12, 13, 25, 29, 49, 50]),
        ("(e<=\"000000001\")", &[1, 5, 7, 12, 13, 25, 29, 49, 50]),
        ("(e>=\"12\")", &[3, 14, 24]),
        ("(e>\"12.0000\")", &[3, 24]),
        ("(e>\"1.2344\")", &[2, 3, 9, 14, 24, 27, 28]),
        ("(e>\"1.2345\")", &[2, 3, 14, 24, 27, 28]),
        ("(e>=\"999999999.9999\")", &[24]),
        ("(e>=\"999999999.9998\")", &[24]),
        ("(e>\"999999999.9999\")", &[]),
        ("(e<=\"-999999999.9999\")", &[25]),
        ("(e<\"-999999999.9999\")", &[]),
        ("(e<=\"-123456789\")", &[7, 25]),
    ];
    on(&row(&FORMS), &cases)
}

/// No order sign holds with a constant that is no numeral.
pub(super) fn other_constants() -> Vec<SelectionCase> {
    let cases: [Marked; 24] = [
        ("(e<\"1234567890\")", &[]),
        ("(e<=\"1234567890\")", &[]),
        ("(e>=\"0000000001\")", &[]),
        ("(e>\"-1234567890\")", &[]),
        ("(e>\"1.23450\")", &[]),
        ("(e<\"1.00000\")", &[]),
        ("(e<=\".5\")", &[]),
        ("(e>=\".5\")", &[]),
        ("(e<=\"1.\")", &[]),
        ("(e>=\"1.\")", &[]),
        ("(e<=\"+1\")", &[]),
        ("(e>=\"+1\")", &[]),
        ("(e<=\"--1\")", &[]),
        ("(e>=\"--1\")", &[]),
        ("(e>\"-\")", &[]),
        ("(e<=\"\")", &[]),
        ("(e>=\"\")", &[]),
        ("(e>\"   \")", &[]),
        ("(e<\"7 7\")", &[]),
        ("(e>\"- 7\")", &[]),
        ("(e<\"a\")", &[]),
        ("(e>=\"a\")", &[]),
        // As texts they are there.
        ("(e=\"1.\")", &[16]),
        ("(e=\"1234567890\")", &[4]),
    ];
    on(&row(&FORMS), &cases)
}

pub(super) fn by_amount() -> Vec<SelectionCase> {
    let values = ["9", "10", "09", "90", "100", "1", "-9", "-10"];
    let cases: [Marked; 11] = [
        ("(e<\"10\")", &[1, 3, 6, 7, 8]),
        ("(e<\"9\")", &[6, 7, 8]),
        ("(e<=\"9\")", &[1, 3, 6, 7, 8]),
        ("(e>\"9\")", &[2, 4, 5]),
        ("(e>=\"9\")", &[1, 2, 3, 4, 5]),
        ("(e>\"-9\")", &[1, 2, 3, 4, 5, 6]),
        ("(e>\"-10\")", &[1, 2, 3, 4, 5, 6, 7]),
        ("(e<r)", &[1, 3, 4]),
        ("(e>r)", &[2, 5, 6, 7]),
        ("(e=r)", &[]),
        ("(e=\"9\")", &[1]),
    ];
    on(&row(&values), &cases)
}

pub(super) fn spellings() -> Vec<SelectionCase> {
    // 1 to 4 are one amount, and so are 8 to 12.
    let values = [
        "1.5", "1.50", "01.5", "1.5000", "1.5001", "1.4999", "-1.5", "0", "-0", "-0.0", "0.0000",
        "000",
    ];
    let cases: [Marked; 19] = [
        ("(e<r)", &[4, 7]),
        ("(e<=r)", &[1, 2, 3, 4, 7, 8, 9, 10, 11]),
        ("(e>r)", &[5, 6]),
        ("(e>=r)", &[1, 2, 3, 5, 6, 8, 9, 10, 11]),
        ("(e=r)", &[]),
        ("(e!=r)", &[1, 2, 3, 4, 5, 6, 7, 8, 9, 10, 11]),
        ("(e=\"1.5\")", &[1]),
        ("(e=\"1.50\")", &[2]),
        ("(e!=\"1.5\")", &[0, 2, 3, 4, 5, 6, 7, 8, 9, 10, 11, 12]),
        ("(e<=\"1.5\")", &[1, 2, 3, 4, 6, 7, 8, 9, 10, 11, 12]),
        ("(e>=\"1.500\")", &[1, 2, 3, 4, 5]),
        ("(e<\"1.5\")", &[6, 7, 8, 9, 10, 11, 12]),
        ("(e>\"001.50\")", &[5]),
        ("(e=\"0\")", &[8]),
        ("(e=\"-0\")", &[9]),
        ("(e<=\"-0\")", &[7, 8, 9, 10, 11, 12]),
        ("(e>=\"-0.0\")", &[1, 2, 3, 4, 5, 6, 8, 9, 10, 11, 12]),
        ("(e<\"-0\")", &[7]),
        ("(e>\"-0.0000\")", &[1, 2, 3, 4, 5, 6]),
    ];
    on(&row(&values), &cases)
}

pub(super) fn equal_words() -> Vec<SelectionCase> {
    let values = ["a", "a", " a ", "", "  ", "1.", "1.", "1", "1"];
    let cases: [Marked; 12] = [
        ("(e=r)", &[1, 2, 4, 6, 8]),
        ("(e!=r)", &[3, 5, 7]),
        ("(e<=r)", &[8]),
        ("(e>=r)", &[8]),
        ("(e<r)", &[]),
        ("(e>r)", &[]),
        ("(e<=e)", &[8, 9]),
        ("(e<=\"a\")", &[]),
        ("(e>=\" a\")", &[]),
        ("(e<=\"\")", &[]),
        ("(e>=\"1.\")", &[]),
        ("(e<=\" 1 \")", &[8, 9]),
    ];
    on(&row(&values), &cases)
}

pub(super) fn mixed_kinds() -> Vec<SelectionCase> {
    let values = ["5", "heparin", "50", "5 mg", "-5"];
    let cases: [Marked; 18] = [
        ("(e<\"heparin\")", &[]),
        ("(e<=\"heparin\")", &[]),
        ("(e>\"heparin\")", &[]),
        ("(e>=\"heparin\")", &[]),
        ("(e=\"heparin\")", &[2]),
        ("(e<\"5 mg\")", &[]),
        ("(e<\"50\")", &[1, 5]),
        ("(e>=\"-5\")", &[1, 3, 5]),
        ("(e<r)", &[]),
        ("(e>r)", &[]),
        ("(e!=r)", &[1, 2, 3, 4]),
        ("(.r*r<e)", &[1, 3]),
        ("(e<.r*r)", &[1]),
        ("(.R*R<=.r*r)", &[2]),
        ("(.R*R>.r*r)", &[2, 3, 4]),
        ("(*+rR>\"40\")", &[1, 2, 3, 4, 5]),
        ("(*+rR<\"-5\")", &[]),
        ("(*+rR<=\"-5\")", &[1, 2, 3, 4, 5]),
    ];
    on(&row(&values), &cases)
}

/// Drugs that begin at 1, 4, 7, 10, 13, 16, 19, 23, 27 and 30. Joined and cut,
/// they have `10`, `-5`, `1.5`, `1. 5`, `12`, ten digits, `1`, `99`, `a` and `4`.
pub(super) fn joined_texts() -> Vec<SelectionCase> {
    let drug = ('e', 1, "drug", "");
    let text = |value| ('t', 2, "text", value);
    let mut rows = vec![('e', 0, "lib", "")];
    rows.extend([drug, text("1"), text("0")]);
    rows.extend([drug, text("-"), text("5")]);
    rows.extend([drug, text("1"), text(".5")]);
    rows.extend([drug, text("1."), text(" 5")]);
    rows.extend([drug, text(" 1"), text("2 ")]);
    rows.extend([drug, text("12345"), text("67890")]);
    rows.extend([drug, text("1"), text(""), text("  ")]);
    rows.extend([drug, ('e', 2, "unit", ""), ('t', 3, "text", "9"), text("9")]);
    rows.extend([drug, ('a', 2, "name", "3"), text("a")]);
    rows.extend([drug, ('a', 2, "name", "x"), text("4")]);
    let cases: [Marked; 10] = [
        (
            "(e<=e)",
            &[
                1, 2, 3, 4, 6, 7, 8, 12, 13, 14, 15, 17, 18, 19, 20, 23, 24, 25, 26, 28, 30, 32,
            ],
        ),
        ("&:drug(e<=e)", &[1, 4, 7, 13, 19, 23, 30]),
        ("&:drug(e<\"10\")", &[4, 7, 19, 30]),
        ("&:drug(e>=\"10\")", &[1, 13, 23]),
        ("&:drug(e<r)", &[4, 19]),
        ("&:drug(e>l)", &[1, 7, 13, 23]),
        ("&:drug(e>=l)", &[1, 7, 13, 19, 23]),
        ("&:drug(e<=l)", &[19]),
        ("(e=\"10\")", &[1]),
        ("(e=\"99\")", &[23]),
    ];
    on(&document(&rows), &cases)
}

pub(super) fn longest() -> Vec<SelectionCase> {
    // Attributes 1 to 4 of 255 bytes; element 5 with 508 blanks and `42`; element
    // 8 with 510 zeros.
    let fill = |byte: &str, text: &str| byte.repeat(VALUE_LIMIT - text.len()) + text;
    let (front, zeros) = (fill(" ", "42"), fill("0", ""));
    let behind = format!("{:VALUE_LIMIT$}", "42");
    let (apart, ones) = (fill(" ", "4 2"), fill("0", "1"));
    let values = [&front, &behind, &apart, &ones].map(String::as_str);
    let mut rows = vec![('e', 0, "lib", "")];
    let labels = ["n1", "n2", "n3", "n4"].into_iter().zip(values);
    rows.extend(labels.map(|(label, value)| ('a', 1, label, value)));
    let text = |value| ('t', 2, "text", value);
    let blank = fill(" ", "");
    rows.extend([('e', 1, "drug", ""), text(blank.as_str()), text(&front)]);
    rows.extend([('e', 1, "drug", ""), text(&zeros), text(&zeros)]);
    let cases: [Marked; 6] = [
        ("(e<=e)", &[1, 2, 5, 7]),
        ("(e<=\"42\")", &[1, 2, 5, 7]),
        ("(e>=\"                            42.0\")", &[1, 2, 5, 7]),
        ("(e>=\"42.0                            \")", &[1, 2, 5, 7]),
        ("(e<\"42.0001\")", &[1, 2, 5, 7]),
        ("(e>=r)", &[1]),
    ];
    on(&document(&rows), &cases)
}

/// Skeletons group by text: two spellings of one amount are two values.
pub(super) fn groups() -> Vec<CountCase> {
    let case = |document: &[u8], rule, count| counts::case(document, rule, count);
    let one = |values: &[&str], stretches| case(&row(values), EVERYWHERE, stretches * PAIRS);
    vec![
        // As with the values `a b c a x`, and with no two alike.
        one(&["1.5", "b", "c", "1.5", "x"], 5),
        one(&["1.5", "b", "c", "1.50", "x"], 0),
        one(&["0", "b", "c", "-0", "x"], 0),
        one(&["7", "b", "c", " 7", "x"], 5),
        // Order signs have none.
        case(&row(&["1", "1", "2"]), "(*+rR<=*+rR)", 0),
        case(&row(&["1", "1", "2"]), "(*+rR>*+rR)", 0),
    ]
}
