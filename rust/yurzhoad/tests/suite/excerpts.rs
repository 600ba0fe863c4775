//! Lines and carets: what is not printable, what is missing, what is long.

use evaluator::samples::documents::with_line;
use evaluator::samples::X;
use yurzhoad::{Ground, Library, Refusal, Rule};

use crate::named_twice;

fn of_document(document: impl AsRef<[u8]>) -> String {
    let refusal = Library::check(&document).expect_err("a refused document");
    refusal.excerpt().expect("a line").to_string()
}

fn of_rule(rule: impl AsRef<[u8]>) -> String {
    let refusal = Rule::check(&rule).expect_err("a refused rule");
    refusal.excerpt().expect("a caret").to_string()
}

#[test]
fn bytes_that_are_not_printable_are_escaped() {
    assert_eq!(of_document(X.replace('\n', "\r\n")), "  1 | nodes=5\\r");
    assert_eq!(
        of_document(with_line(13, "value=a\u{7f}b")),
        "  13 | value=a\\x7fb"
    );
    assert_eq!(
        of_document(with_line(13, "value=\t5 \u{b5}g")),
        "  13 | value=\\t5 \\xc2\\xb5g"
    );
    // What is printable stands as it is.
    assert_eq!(
        of_document(with_line(8, "label=\\r\"'~")),
        "  8 | label=\\r\"'~"
    );
}

#[test]
fn a_missing_line_is_said_to_be_missing() {
    assert_eq!(of_document(""), "  1 | the document ends before this line");
    assert_eq!(
        of_document("nodes=4096\n"),
        "  2 | the document ends before this line"
    );
    let short = X.strip_suffix("value=heparin\n").expect("the last line");
    assert_eq!(
        of_document(short),
        "  21 | the document ends before this line"
    );
}

#[test]
fn a_line_without_lf_is_said_to_have_none() {
    let short = X.strip_suffix('\n').expect("the last LF");
    assert_eq!(
        of_document(short),
        "  21 | value=heparin\n     | the document ends here, without LF"
    );
    assert_eq!(
        of_document("nodes=5"),
        "  1 | nodes=5\n    | the document ends here, without LF"
    );
}

#[test]
fn extra_bytes_are_shown() {
    assert_eq!(
        of_document(format!("{X}\n")),
        "  22 |\n     | the line is empty"
    );
    assert_eq!(
        of_document(format!("{X}x")),
        "  22 | x\n     | the document ends here, without LF"
    );
    assert_eq!(of_document(format!("{X}\0\nmore\n")), "  22 | \\x00");
    // Of many lines the first.
    assert_eq!(of_document(format!("{X}one\ntwo\n")), "  22 | one");
}

#[test]
fn the_label_that_is_given_twice_is_shown_where_it_is_given_again() {
    assert_eq!(of_document(named_twice()), "  24 | label=name");
}

#[test]
fn a_long_line_is_cut() {
    let value = "v".repeat(256);
    assert_eq!(
        of_document(with_line(13, &format!("value={value}"))),
        format!(
            "  13 | value={}...\n     | the line has 262 bytes",
            &value[..114]
        )
    );
    // As long as can be shown, and one more.
    let label = "b".repeat(114);
    assert_eq!(
        of_document(with_line(8, &format!("label={label}"))),
        format!("  8 | label={label}")
    );
    assert_eq!(
        of_document(with_line(8, &format!("label={label}b"))),
        format!("  8 | label={label}...\n    | the line has 121 bytes")
    );
}

#[test]
fn a_long_line_is_shown_around_its_first_bad_byte() {
    let (head, tail) = ("v".repeat(150), "w".repeat(90));
    assert_eq!(
        of_document(with_line(13, &format!("value={head}\u{7f}{tail}"))),
        format!(
            "  13 | ...{}\\x7f{}...\n     | the line has 247 bytes",
            &head[..60],
            &tail[..56]
        )
    );
    // The room that the one side does not need is the other's.
    assert_eq!(
        of_document(with_line(13, &format!("value={head}\u{7f}ww"))),
        format!(
            "  13 | ...{}\\x7fww\n     | the line has 159 bytes",
            &head[..114]
        )
    );
}

#[test]
fn a_document_that_is_one_long_line_is_cut() {
    assert_eq!(
        of_document(vec![b'x'; 1_048_576]),
        format!(
            "  1 | {}...\n    | the line has 1048576 bytes\n    | the document ends here, without LF",
            "x".repeat(120)
        )
    );
}

#[test]
fn a_caret_stands_under_its_byte() {
    assert_eq!(of_rule("x"), "  x\n  ^");
    assert_eq!(of_rule(":a!"), "  :a!\n    ^");
    assert_eq!(of_rule("(e==e)"), "  (e==e)\n     ^");
}

#[test]
fn a_caret_at_the_end_stands_behind_the_rule() {
    assert_eq!(of_rule(""), "  \n  ^");
    assert_eq!(of_rule(":"), "  :\n   ^");
    assert_eq!(of_rule("(e=\"c)"), "  (e=\"c)\n        ^");
}

#[test]
fn control_bytes_do_not_move_the_caret() {
    assert_eq!(of_rule(":a\r"), "  :a\\r\n    ^");
    assert_eq!(of_rule("\t:a"), "  \\t:a\n  ^");
    assert_eq!(of_rule(":a\n"), "  :a\\n\n    ^");
    assert_eq!(of_rule(b":a\xff:b"), "  :a\\xff:b\n    ^");
    // A refusal behind escaped bytes; no check places one there.
    let refusal = Refusal::explain(6, 4, b"", b"\t\xff!\r:a").expect("a ground");
    assert_eq!(refusal.excerpt(), Some("  \\t\\xff!\\r:a\n           ^"));
}

/// A rule of 1,024 bytes, joined from comparisons with constants, in which the
/// byte at this offset is one that no rule has.
fn long_rule(offset: usize) -> Vec<u8> {
    let mut rule = evaluator::samples::rules::constants(1_024).into_bytes();
    assert_eq!(rule.len(), 1_024);
    rule[offset] = 0x07;
    rule
}

#[test]
fn a_long_rule_is_shown_around_the_place() {
    for offset in [0, 1, 35, 36, 37, 500, 512, 986, 987, 988, 1_023] {
        let rule = long_rule(offset);
        let refusal = Rule::check(&rule).expect_err("a refused rule");
        assert_eq!((refusal.number(), refusal.place()), (6, offset));
        let excerpt = refusal.excerpt().expect("a caret");
        let (shown, below) = excerpt.split_once('\n').expect("two lines");
        // The caret is under the byte, and the shown bytes are those around it.
        let column = below.find('^').expect("a caret");
        assert_eq!(below, " ".repeat(column) + "^");
        assert!(shown[column..].starts_with("\\x07"), "{excerpt}");
        let (before, behind) = (&shown[2..column], &shown[column + 4..]);
        let before_bytes = before.strip_prefix("...").unwrap_or(before);
        let behind_bytes = behind.strip_suffix("...").unwrap_or(behind);
        assert!(rule[..offset].ends_with(before_bytes.as_bytes()));
        assert!(rule[offset + 1..].starts_with(behind_bytes.as_bytes()));
        assert_eq!(before != before_bytes, before_bytes.len() < offset);
        assert_eq!(behind != behind_bytes, behind_bytes.len() < 1_023 - offset);
        // All the room is used.
        assert_eq!(before_bytes.len() + 4 + behind_bytes.len(), 72);
    }
}

#[test]
fn a_rule_that_fits_is_shown_whole() {
    let rule = "!".repeat(31) + ":a" + &"x".repeat(15) + &"y".repeat(24);
    assert_eq!(rule.len(), 72);
    assert_eq!(of_rule(&rule), format!("  {rule}\n  {}^", " ".repeat(48)));
    let longer = format!("{rule}y");
    assert_eq!(
        of_rule(&longer),
        format!("  ...{}\n  {}^", &longer[1..], " ".repeat(3 + 47))
    );
}

#[test]
fn any_place_of_any_bytes_is_shown() {
    // What `explain` is given need not be an answer of the archive.
    let samples: [&[u8]; 4] = [b"", b"\n", X.as_bytes(), b"nodes=9\n\xff"];
    let mut shown = 0;
    for bytes in samples {
        for ground in Ground::ALL {
            for place in [0, 1, 2, 3, 21, 22, 23, usize::MAX] {
                let number = ground.number();
                let refusal = Refusal::explain(number, place, bytes, bytes).expect("a ground");
                let text = format!("{refusal:#}");
                assert!(text.is_ascii() && !text.contains(['\r', '\u{7f}']));
                shown += usize::from(refusal.excerpt().is_some());
            }
        }
    }
    // Four grounds of a document have a place, and four of a rule.
    assert_eq!(shown, samples.len() * 8 * 8);
}
