//! What a refusal of each ground prints, letter by letter.

use evaluator::samples::documents::with_line;
use evaluator::samples::{balanced, steps, X};
use std::error::Error;
use yurzhoad::{archive, Library, Refusal, Rule};

use crate::named_twice;

/// Asserts both forms: the line, and the line with the excerpt below it.
fn assert_printed(refusal: Refusal, line: &str, below: &str) {
    assert_eq!(refusal.to_string(), line);
    assert_eq!(format!("{refusal:#}"), format!("{line}{below}"));
    assert!(line.ends_with(refusal.words()), "{}", refusal.words());
    let excerpt = below.strip_prefix('\n');
    assert_eq!(refusal.excerpt(), excerpt);
}

fn document(document: impl AsRef<[u8]>) -> Refusal {
    Library::check(&document).expect_err("a refused document")
}

fn rule(rule: impl AsRef<[u8]>) -> Refusal {
    Rule::check(&rule).expect_err("a refused rule")
}

#[test]
fn number_1() {
    assert_printed(
        document(vec![b'x'; 1_048_577]),
        "the document is refused: number 1 at place 0: it has 1048577 bytes, and at most 1048576 are allowed",
        "",
    );
}

#[test]
fn number_2_by_what_is_due() {
    let cases = [
        (
            1,
            "nodes=05",
            "`nodes=` and a number of 1 to 5 digits without leading zeros",
        ),
        (
            6,
            "depth=",
            "`depth=` and a number of 1 to 4 digits without leading zeros",
        ),
        (7, "kind=x", "`kind=` and one of `e`, `a` and `t`"),
        (
            8,
            "label=Drug",
            "`label=` and 1 to 16 of a-z, 0-9 and hyphen, the first a letter",
        ),
        (
            9,
            "valu=",
            "`value=` and 0 to 255 printable ASCII characters",
        ),
    ];
    for (line, text, due) in cases {
        assert_printed(
            document(with_line(line, text)),
            &format!("the document is refused: number 2 at line {line}: due here is {due}"),
            &format!("\n  {line} | {text}"),
        );
    }
}

#[test]
fn number_2_behind_the_last_line() {
    assert_printed(
        document(format!("{X}depth=1\n")),
        "the document is refused: number 2 at line 22: nothing is due here: the lines of its 5 nodes are above",
        "\n  22 | depth=1",
    );
}

#[test]
fn number_3() {
    for count in ["0", "4097", "99999"] {
        assert_printed(
            document(format!("nodes={count}\n")),
            "the document is refused: number 3 at line 1: the number of nodes is 1 to 4096",
            &format!("\n  1 | nodes={count}"),
        );
    }
}

#[test]
fn number_4_by_the_field() {
    let depth = "depth 0 is for the first node alone; a node is at most one deeper than the node before it, and deeper only if that is an element";
    let kind = "an attribute stands directly behind its element, one deeper, or behind another attribute of the same depth";
    let cases = [
        (2, "depth=1", "the first node has depth 0"),
        (3, "kind=t", "the first node is an element"),
        (5, "value=x", "an element has no value of its own"),
        (6, "depth=0", depth),
        (10, "depth=3", depth),
        (15, "kind=a", kind),
        (17, "value= ", "an element has no value of its own"),
    ];
    for (line, text, words) in cases {
        assert_printed(
            document(with_line(line, text)),
            &format!("the document is refused: number 4 at line {line}: {words}"),
            &format!("\n  {line} | {text}"),
        );
    }
    assert_printed(
        document(with_line(11, "kind=t")),
        "the document is refused: number 4 at line 12: a text has the label `text`",
        "\n  12 | label=name",
    );
}

#[test]
fn number_5() {
    assert_printed(
        rule("x".repeat(1_025)),
        "the rule is refused: number 5 at place 0: it has 1025 bytes, and at most 1024 are allowed",
        "",
    );
}

#[test]
fn number_6() {
    assert_printed(
        rule("(e =e)"),
        "the rule is refused: number 6 at offset 2: it does not read on from here",
        "\n  (e =e)\n    ^",
    );
    assert_printed(
        rule("&:a"),
        "the rule is refused: number 6 at offset 3: it ends here and is not whole",
        "\n  &:a\n     ^",
    );
    assert_printed(
        rule("#4097e"),
        "the rule is refused: number 6 at offset 4: it does not read on from here",
        "\n  #4097e\n      ^",
    );
    assert_printed(
        rule("#12"),
        "the rule is refused: number 6 at offset 3: it ends here and is not whole",
        "\n  #12\n     ^",
    );
}

#[test]
fn number_7() {
    let deep = "!".repeat(32) + ":a";
    assert_printed(
        rule(&deep),
        "the rule is refused: number 7 at offset 32: the part that begins here is nested deeper than 32",
        &format!("\n  {deep}\n  {}^", " ".repeat(32)),
    );
}

#[test]
fn number_8() {
    // 1 + 31 + 33 tests, the last of them at the end.
    let many = format!("|{}{}", balanced(16), balanced(17));
    let (place, stretch) = (many.len() - 2, &many[many.len() - 72..]);
    assert_printed(
        rule(&many),
        &format!("the rule is refused: number 8 at offset {place}: a test begins here, and 64 tests are before it already"),
        &format!("\n  ...{stretch}\n  {}^", " ".repeat(3 + 70)),
    );
}

#[test]
fn number_9() {
    let long = format!("!({}=e)", steps(15));
    assert_printed(
        rule(&long),
        "the rule is refused: number 9 at offset 1: the comparison that opens here has more than 14 steps",
        &format!("\n  {long}\n   ^"),
    );
    let long = format!("&:a#3{}", steps(15));
    assert_printed(
        rule(&long),
        "the rule is refused: number 9 at offset 3: the count that begins here has more than 14 steps",
        &format!("\n  {long}\n     ^"),
    );
}

/// The refusal of a plain evaluation of X with so many words and marks.
fn lent(words: usize, marks: usize) -> Refusal {
    let (document, rule) = (X.as_bytes(), b":drug");
    let (mut scratch, mut marks) = (vec![0; words], vec![0; marks]);
    let answer = archive::evaluate_plain(document, rule, &mut scratch, &mut marks);
    Refusal::explain(answer.number, answer.place, document, rule).expect("a refused call")
}

#[test]
fn number_10() {
    assert_printed(
        lent(1_599, 5),
        "the call is refused: number 10 at place 0: the scratch is too short: 1600 words are needed for 5 nodes",
        "",
    );
}

#[test]
fn number_11() {
    assert_printed(
        lent(1_600, 4),
        "the call is refused: number 11 at place 0: there are too few marks: the document has 5 nodes",
        "",
    );
}

/// The refusal of an evaluation of X by values, with buffers long enough.
fn by_values(rule: &str, values: &[u16]) -> Refusal {
    let (document, rule) = (X.as_bytes(), rule.as_bytes());
    let (mut scratch, mut marks) = (vec![0; 1_600], vec![0; 5]);
    let answer = archive::evaluate_values(document, rule, values, &mut scratch, &mut marks);
    Refusal::explain(answer.number, answer.place, document, rule).expect("a refused call")
}

#[test]
fn number_13() {
    assert_printed(
        by_values("(e=e)", &[0, 5]),
        "the call is refused: number 13 at place 0: a node of the list is not in the document, which has 5 nodes",
        "",
    );
}

#[test]
fn number_23() {
    for rule in [":drug", "(e!=e)", "(e=\"a\")", "!(e=e)"] {
        assert_printed(
            by_values(rule, &[0, 5]),
            "the rule is refused: number 23 at place 0: it is not one equality between two paths",
            "",
        );
    }
}

#[test]
fn number_14() {
    assert_printed(
        document(named_twice()),
        "the document is refused: number 14 at line 24: the element has an attribute with this label already, on line 16",
        "\n  24 | label=name",
    );
}

/// The words of number 14 at this line, though no check need place it there.
fn words_of_14(line: usize, document: &[u8]) -> String {
    let refusal = Refusal::explain(14, line, document, b"").expect("a ground");
    refusal.words().to_string()
}

/// Where the label stands already is said if it does, in the same element.
#[test]
fn number_14_where_no_check_places_it() {
    let words = "the element has an attribute with this label already";
    let document = named_twice();
    assert_eq!(words_of_14(24, &document), format!("{words}, on line 16"));
    // The only unit, and the first name: the one above it is the library's.
    assert_eq!(words_of_14(20, &document), words);
    assert_eq!(words_of_14(16, &document), words);
    // No line of a label, and none at all.
    for line in [0, 1, 2, 3, 4, 5, 26, usize::MAX] {
        assert_eq!(words_of_14(line, &document), words, "{line}");
    }
    // A document that ends in the line of the label.
    let end = document.len() - "\nvalue=again\n".len();
    let short = &document[..end];
    assert_eq!(words_of_14(24, short), format!("{words}, on line 16"));
}

#[test]
fn a_refusal_is_an_error_that_can_be_sent() {
    let error: Box<dyn Error + Send + Sync> = rule("").into();
    let refusal: &Refusal = error.downcast_ref().expect("the refusal");
    assert_eq!((refusal.number(), refusal.place()), (6, 0));
}
