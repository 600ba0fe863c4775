//! Wrong usage: what is wrong, how the command is used, and status 2.

use evaluator::samples::X;

use crate::desk::{accepted, failed, Desk, Ran};

const ALL: &str = "usage: yurzhoad check | select | explain [OPTION]... OPERAND...";
const CHECK: &str = "usage: yurzhoad check [--json] LIBRARY | --rule RULE";
const SELECT: &str =
    "usage: yurzhoad select [--plain | --both | --values NODES] [--count] [--json] RULE LIBRARY";
const EXPLAIN: &str = "usage: yurzhoad explain RULE";

fn misused(words: &str, usage: &str) -> Ran {
    let err = format!("yurzhoad: {words}\n{usage}\n`yurzhoad --help` says more\n");
    failed(2, &err)
}

fn assert_misused(arguments: &[&str], words: &str, usage: &str) {
    let desk = Desk::with("x.txt", X);
    assert_eq!(desk.run(arguments), misused(words, usage), "{arguments:?}");
}

#[test]
fn nothing_and_no_command() {
    assert_misused(&[], "nothing is asked for", ALL);
    assert_misused(&["chekc", "x.txt"], "there is no command chekc", ALL);
    assert_misused(&["--json", "check"], "there is no command --json", ALL);
    assert_misused(&[""], "there is no command \"\"", ALL);
    assert_misused(&["a\x1b[31m\n"], "there is no command a\\u{1b}[31m\\n", ALL);
    assert_misused(&["help", "chekc"], "there is no command chekc", ALL);
    let extra = "more is one argument too many";
    assert_misused(&["help", "check", "more"], extra, ALL);
    assert_misused(&["--version", "more"], extra, ALL);
}

#[test]
fn missing_operands() {
    assert_misused(&["check"], "check: LIBRARY is missing", CHECK);
    assert_misused(&["check", "--"], "check: LIBRARY is missing", CHECK);
    assert_misused(&["check", "--rule"], "check: RULE is missing", CHECK);
    let both = "select: RULE and LIBRARY are missing";
    assert_misused(&["select"], both, SELECT);
    assert_misused(&["select", "--count"], both, SELECT);
    assert_misused(&["select", ":drug"], "select: LIBRARY is missing", SELECT);
    assert_misused(&["explain"], "explain: RULE is missing", EXPLAIN);
}

#[test]
fn extra_operands() {
    let words = |name: &str| format!("{name}: y.txt is one argument too many");
    assert_misused(&["check", "x.txt", "y.txt"], &words("check"), CHECK);
    assert_misused(&["check", "--rule", ":a", "y.txt"], &words("check"), CHECK);
    let select = ["select", ":a", "x.txt", "y.txt", "z.txt"];
    assert_misused(&select, &words("select"), SELECT);
    assert_misused(&["explain", ":a", "y.txt"], &words("explain"), EXPLAIN);
}

#[test]
fn unknown_options() {
    for option in ["--jsno", "-x", "--json=1", "--JSON", "--version"] {
        let words = format!("check: there is no option {option}");
        assert_misused(&["check", option, "x.txt"], &words, CHECK);
    }
    // Each command has its own.
    let plain = "check: there is no option --plain";
    assert_misused(&["check", "--plain", "x.txt"], plain, CHECK);
    let rule = "select: there is no option --rule";
    assert_misused(&["select", "--rule", ":a", "x.txt"], rule, SELECT);
    let json = "explain: there is no option --json";
    assert_misused(&["explain", ":a", "--json"], json, EXPLAIN);
}

#[test]
fn what_excludes_each_other() {
    let words = "select: --plain and --both exclude each other";
    assert_misused(
        &["select", "--plain", "--both", ":a", "x.txt"],
        words,
        SELECT,
    );
    assert_misused(
        &["select", "--both", ":a", "x.txt", "--plain"],
        words,
        SELECT,
    );
    for other in ["--plain", "--both"] {
        let words = format!("select: {other} and --values exclude each other");
        let before = ["select", other, "--values", "1", "(e=e)", "x.txt"];
        assert_misused(&before, &words, SELECT);
        let behind = ["select", "--values", "", "(e=e)", "x.txt", other];
        assert_misused(&behind, &words, SELECT);
    }
    let words = "select: RULE and LIBRARY cannot both be read from standard input";
    assert_misused(&["select", "-", "-"], words, SELECT);
    assert_misused(&["select", "--json", "--", "-", "-"], words, SELECT);
}

#[test]
fn lists_of_nodes_that_are_none() {
    // The last one is the rule that was meant.
    for list in [
        "a", "1,", ",1", "1,,2", "1, 2", "-1", "+1", "1.0", "--", "(e=e)",
    ] {
        let words = format!(
            "select: --values takes numbers of nodes with commas between them, and not {list}"
        );
        let arguments = ["select", "--values", list, "(e=e)", "x.txt"];
        assert_misused(&arguments, &words, SELECT);
    }
    let missing = "select: NODES is missing behind --values";
    assert_misused(&["select", "(e=e)", "x.txt", "--values"], missing, SELECT);
    let words = "select: LIBRARY is missing";
    assert_misused(&["select", "--values", "1", "(e=e)"], words, SELECT);
    let words = "check: there is no option --values";
    assert_misused(&["check", "--values", "1", "x.txt"], words, CHECK);
}

#[test]
fn options_stand_before_and_behind_operands() {
    let desk = Desk::with("x.txt", X);
    let due = accepted("{\"accepted\":true,\"selected\":2,\"snippets\":null}\n");
    for arguments in [
        ["select", "--plain", "--count", "--json", ":drug", "x.txt"],
        ["select", ":drug", "--json", "x.txt", "--count", "--plain"],
        ["select", ":drug", "x.txt", "--plain", "--json", "--count"],
    ] {
        assert_eq!(desk.run(arguments), due, "{arguments:?}");
    }
    // An option that is given twice is given.
    let twice = ["select", "--count", "--count", ":drug", "x.txt"];
    assert_eq!(desk.run(twice), accepted("2\n"));
    assert_eq!(
        desk.run(["check", ":drug", "--rule"]),
        accepted("accepted: 1 test of 64, nesting 1 of 32, no comparison or count\n")
    );
}

#[test]
fn behind_two_dashes_all_are_operands() {
    let desk = Desk::with("--json", X);
    assert_eq!(
        desk.run(["check", "--", "--json"]),
        accepted("accepted: 5 nodes\n")
    );
    assert_eq!(
        desk.run(["select", "--count", "--", ":drug", "--json"]),
        accepted("2\n")
    );
    let refused = "yurzhoad: the rule is refused: number 6 at offset 0: \
                   it does not read on from here\n  --help\n  ^\n";
    assert_eq!(desk.run(["explain", "--", "--help"]), failed(1, refused));
    // The second `--` is an operand.
    let ran = desk.run(["check", "--rule", "--", "--"]);
    assert_eq!(ran.err.lines().nth(1), Some("  --"));
    assert_eq!(ran.status, 1);
}
