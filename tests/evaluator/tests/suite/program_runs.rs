//! The program: what it reads, what it lends, what it prints.

use crate::samples::{document, flat, X};
use evaluator::program::{program, INPUT_LIMIT};

fn refused(number: u32, place: usize) -> String {
    format!("number={number}\nplace={place}\nselected=0\nsnippets=0\n")
}

fn input(rule: &str, document: &[u8]) -> Vec<u8> {
    [rule.as_bytes(), b"\n", document].concat()
}

#[test]
fn marked_nodes_are_printed_rising() {
    let printed = program(&input(":drug", X.as_bytes()));
    assert_eq!(
        printed,
        "number=0\nplace=0\nselected=2\nsnippets=0\nnode=1\nnode=3\n"
    );
    let printed = program(&input("(e!=e)", X.as_bytes()));
    assert_eq!(printed, "number=0\nplace=0\nselected=0\nsnippets=0\n");
    let printed = program(&input("(e=e)", X.as_bytes()));
    assert!(printed.ends_with("snippets=4\nnode=0\nnode=1\nnode=2\nnode=3\nnode=4\n"));
}

#[test]
fn without_an_lf_the_document_is_empty() {
    for rule in ["", ":a", "x", "(e=e)"] {
        assert_eq!(program(rule.as_bytes()), refused(2, 1));
    }
    assert_eq!(program(&[b'!'; 2_000]), refused(2, 1));
}

#[test]
fn an_lf_first_leaves_an_empty_rule() {
    assert_eq!(program(&input("", X.as_bytes())), refused(6, 0));
    assert_eq!(program(b"\n"), refused(2, 1));
    assert_eq!(program(b":a\n"), refused(2, 1));
}

#[test]
fn a_cr_is_refused_where_it_stands() {
    assert_eq!(program(&input(":a\r", X.as_bytes())), refused(6, 2));
    let document = X.replace('\n', "\r\n");
    assert_eq!(program(&input(":a", document.as_bytes())), refused(2, 1));
}

#[test]
fn the_words_lent_do_for_63_nodes_and_not_for_64() {
    assert!(program(&input(":lib", &flat(63))).ends_with("selected=1\nsnippets=0\nnode=0\n"));
    assert_eq!(program(&input(":lib", &flat(64))), refused(10, 0));
}

#[test]
fn input_above_65_536_bytes_is_1() {
    assert_eq!(program(&vec![b'x'; INPUT_LIMIT + 1]), refused(1, 0));
    assert_eq!(program(&vec![b'x'; INPUT_LIMIT]), refused(2, 1));
    // A legal document that fills the limit to the last byte. It is too large
    // for the words lent, so it is judged whole and then refused with 10.
    let value = "v".repeat(255);
    let rows = |last: usize| {
        let mut rows = vec![('t', 1, "text", value.as_str()); 228];
        rows[0] = ('e', 0, "lib", "");
        rows.push(('t', 1, "text", &value[..last]));
        input(":lib", &document(&rows))
    };
    let fill = INPUT_LIMIT - rows(0).len();
    assert_eq!(rows(fill).len(), INPUT_LIMIT);
    assert_eq!(program(&rows(fill)), refused(10, 0));
    assert_eq!(program(&rows(fill + 1)), refused(1, 0));
}
