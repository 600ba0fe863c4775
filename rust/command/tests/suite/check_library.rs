//! `yurzhoad check LIBRARY` on good and damaged libraries.

use std::collections::BTreeMap;

use evaluator::samples::documents::{with_line, GROUPS};
use evaluator::samples::{document, X};
use yurzhoad::Library;

use crate::desk::{accepted, failed, named_twice, run_inside, Desk};

/// The whole of what a refusal prints, behind the file's name.
fn assert_refused(library: impl AsRef<[u8]>, words: &[&str]) {
    let desk = Desk::with("lib.txt", library);
    let due = format!("yurzhoad: lib.txt: {}\n", words.join("\n"));
    assert_eq!(desk.run(["check", "lib.txt"]), failed(1, &due));
}

#[test]
fn a_good_library_is_accepted_with_its_number_of_nodes() {
    let desk = Desk::with("x.txt", X);
    desk.put("one.txt", document(&[('e', 0, "lib", "")]));
    assert_eq!(
        desk.run(["check", "x.txt"]),
        accepted("accepted: 5 nodes\n")
    );
    assert_eq!(
        desk.run(["check", "one.txt"]),
        accepted("accepted: 1 node\n")
    );
}

#[test]
fn lines_that_end_in_cr_lf() {
    assert_refused(
        X.replace('\n', "\r\n"),
        &[
            "the document is refused: number 2 at line 1: due here is `nodes=` and a number \
             of 1 to 5 digits without leading zeros",
            "  1 | nodes=5\\r",
        ],
    );
    assert_refused(
        with_line(13, "value=heparin\r"),
        &[
            "the document is refused: number 2 at line 13: due here is `value=` and 0 to 255 \
             printable ASCII characters",
            "  13 | value=heparin\\r",
        ],
    );
}

#[test]
fn a_last_line_without_lf() {
    assert_refused(
        &X[..X.len() - 1],
        &[
            "the document is refused: number 2 at line 21: due here is `value=` and 0 to 255 \
             printable ASCII characters",
            "  21 | value=heparin",
            "     | the document ends here, without LF",
        ],
    );
}

#[test]
fn an_empty_file() {
    assert_refused(
        "",
        &[
            "the document is refused: number 2 at line 1: due here is `nodes=` and a number \
             of 1 to 5 digits without leading zeros",
            "  1 | the document ends before this line",
        ],
    );
}

#[test]
fn a_line_too_many_and_a_node_too_few() {
    assert_refused(
        format!("{X}\n"),
        &[
            "the document is refused: number 2 at line 22: nothing is due here: the lines of \
             its 5 nodes are above",
            "  22 |",
            "     | the line is empty",
        ],
    );
    assert_refused(
        with_line(1, "nodes=6"),
        &[
            "the document is refused: number 2 at line 22: due here is `depth=` and a number \
             of 1 to 4 digits without leading zeros",
            "  22 | the document ends before this line",
        ],
    );
}

#[test]
fn a_wrong_depth() {
    assert_refused(
        with_line(10, "depth=3"),
        &[
            "the document is refused: number 4 at line 10: depth 0 is for the first node alone; \
             a node is at most one deeper than the node before it, and deeper only if that is an \
             element",
            "  10 | depth=3",
        ],
    );
}

#[test]
fn other_broken_tree_rules() {
    assert_refused(
        with_line(15, "kind=a"),
        &[
            "the document is refused: number 4 at line 15: an attribute stands directly behind \
             its element, one deeper, or behind another attribute of the same depth",
            "  15 | kind=a",
        ],
    );
    assert_refused(
        with_line(5, "value=x"),
        &[
            "the document is refused: number 4 at line 5: an element has no value of its own",
            "  5 | value=x",
        ],
    );
}

#[test]
fn an_attribute_given_twice() {
    let due = [
        "the document is refused: number 14 at line 16: the element has an attribute with this \
         label already, on line 8",
        "  16 | label=name",
    ];
    assert_refused(named_twice(), &due);
    // A selection from such a library is refused in the same words, whichever
    // evaluation is asked for.
    let desk = Desk::with("lib.txt", named_twice());
    let due = failed(1, &format!("yurzhoad: lib.txt: {}\n", due.join("\n")));
    for option in ["--plain", "--both", "--count"] {
        let ran = desk.run(["select", option, ":drug", "lib.txt"]);
        assert_eq!(ran, due, "{option}");
    }
}

#[test]
fn bytes_that_are_no_text() {
    // A program, a picture, a text in another encoding: nothing reaches the
    // terminal as it is.
    let mut library = X.as_bytes().to_vec();
    let value = library.len() - 4;
    library[value] = 0xFF;
    assert_refused(
        library,
        &[
            "the document is refused: number 2 at line 21: due here is `value=` and 0 to 255 \
             printable ASCII characters",
            "  21 | value=hepa\\xffin",
        ],
    );
    assert_refused(
        [0x7F, b'E', b'L', b'F', 0x1B, b'[', 0, 9],
        &[
            "the document is refused: number 2 at line 1: due here is `nodes=` and a number \
             of 1 to 5 digits without leading zeros",
            "  1 | \\x7fELF\\x1b[\\x00\\t",
            "    | the document ends here, without LF",
        ],
    );
}

#[test]
fn the_name_of_the_file_is_shown_without_control_characters() {
    let desk = Desk::with("a\tb\u{1b}.txt", "");
    let ran = desk.run(["check", "a\tb\u{1b}.txt"]);
    assert!(ran
        .err
        .starts_with("yurzhoad: a\\tb\\u{1b}.txt: the document"));
    assert_eq!(ran.status, 1);
}

/// Every fixed document of the evaluator: the number and the place are those
/// that it has from the format, and the words those of the crate.
#[test]
fn every_fixed_document_is_judged_as_due() {
    let mut numbers = BTreeMap::new();
    for (name, cases) in GROUPS {
        for case in cases() {
            let ran = run_inside(&case.document, ["check", "-"]);
            *numbers.entry(case.due.number).or_insert(0) += 1;
            let due = match Library::check(&case.document) {
                Ok(_) => {
                    let plural = if case.due.nodes == 1 { "" } else { "s" };
                    accepted(&format!("accepted: {} node{plural}\n", case.due.nodes))
                }
                // The words of number 1 are those of a file that was cut.
                Err(_) if case.due.number == 1 => failed(1, LONG),
                Err(refusal) => failed(1, &format!("yurzhoad: standard input: {refusal:#}\n")),
            };
            assert_eq!(ran, due, "{name}");
            let (number, place) = (case.due.number, case.due.place);
            let told = format!(": number {number} at line {place}: ");
            assert!(number < 2 || ran.err.contains(&told), "{name}: {}", ran.err);
        }
    }
    assert!(numbers.keys().copied().eq([0, 1, 2, 3, 4, 14]));
    assert!(numbers.values().all(|cases| *cases > 1), "{numbers:?}");
}

const LONG: &str = "yurzhoad: standard input: the document is refused: number 1 at place 0: \
                    it has more than the 1048576 bytes that are allowed\n";
