//! Libraries and rules at the limits, and far above them.

use std::fs::File;
use std::io::Seek;
use std::path::Path;
use std::process::Stdio;

use evaluator::document::spell;
use evaluator::samples::libraries::{chain, formulary, level};
use evaluator::samples::{flat, joined};
use yurzhoad::limits::{MAX_DOCUMENT_BYTES, MAX_NODES, MAX_RULE_BYTES};

use crate::desk::{accepted, failed, of_length, Desk, Ran};

fn too_long(name: &str) -> Ran {
    failed(
        1,
        &format!(
            "yurzhoad: {name}: the document is refused: number 1 at place 0: \
             it has more than the 1048576 bytes that are allowed\n"
        ),
    )
}

#[test]
fn libraries_of_4_096_nodes() {
    let desk = Desk::new();
    let libraries = [
        ("chain.txt", chain(MAX_NODES)),
        ("level.txt", level(MAX_NODES)),
        ("formulary.txt", formulary(MAX_NODES)),
    ];
    for (name, library) in libraries {
        desk.put(name, spell(&library));
        assert_eq!(
            desk.run(["check", name]),
            accepted("accepted: 4096 nodes\n")
        );
        let ran = desk.run(["select", "--both", "(.l[:name]=..r*rl)", name]);
        assert_eq!(ran.status, 0);
        let selected = ran.out.lines().count();
        let agreed =
            format!("yurzhoad: both evaluations agree: {selected} of 4096 nodes selected\n");
        assert_eq!(ran.err, agreed, "{name}");
    }
}

#[test]
fn a_formulary_of_4_096_nodes_line_by_line() {
    let library = formulary(MAX_NODES);
    let desk = Desk::with("lib.txt", spell(&library));
    let names = desk.run(["select", ":name", "lib.txt"]);
    let drugs = desk.run(["select", "--plain", ":drug", "lib.txt"]);
    let (mut due_names, mut due_drugs) = (String::new(), String::new());
    // A drug has 11 nodes, and its name is the second of them.
    for drug in 0..(MAX_NODES - 1).div_ceil(11) {
        let (node, number) = (1 + 11 * drug, 1 + drug);
        let path = format!("/library/drug[{number}]");
        let inside = library.nodes[node + 1..].iter();
        let texts = inside.take_while(|node| node.depth > 1);
        let texts = texts.filter(|node| node.label == b"text");
        let value: String = texts.map(|node| text(&node.value)).collect();
        due_drugs += &format!("{node}\t{path}\tdrug\t{value}\n");
        if let Some(name) = library.nodes.get(node + 1) {
            let (node, value) = (node + 1, text(&name.value));
            due_names += &format!("{node}\t{path}/@name\tname\t{value}\n");
        }
    }
    assert_eq!(names, accepted(&due_names));
    assert_eq!(drugs, accepted(&due_drugs));
    assert_eq!(drugs.out.lines().count(), 373);
}

fn text(bytes: &[u8]) -> String {
    String::from_utf8_lossy(bytes).into_owned()
}

#[test]
fn a_library_of_4_097_nodes_is_3() {
    let desk = Desk::with("lib.txt", flat(MAX_NODES + 1));
    let due = "yurzhoad: lib.txt: the document is refused: number 3 at line 1: \
               the number of nodes is 1 to 4096\n  1 | nodes=4097\n";
    assert_eq!(desk.run(["check", "lib.txt"]), failed(1, due));
    assert_eq!(desk.run(["select", ":a", "lib.txt"]), failed(1, due));
}

#[test]
fn libraries_around_1_048_576_bytes() {
    let desk = Desk::new();
    for bytes in [MAX_DOCUMENT_BYTES - 1, MAX_DOCUMENT_BYTES] {
        desk.put("lib.txt", of_length(bytes));
        let due = accepted("accepted: 4096 nodes\n");
        assert_eq!(desk.run(["check", "lib.txt"]), due);
        assert_eq!(desk.run_on(&of_length(bytes), ["check", "-"]), due);
    }
    let long = of_length(MAX_DOCUMENT_BYTES + 1);
    desk.put("lib.txt", &long);
    assert_eq!(desk.run(["check", "lib.txt"]), too_long("lib.txt"));
    assert_eq!(desk.run(["select", ":a", "lib.txt"]), too_long("lib.txt"));
    assert_eq!(
        desk.run_on(&long, ["check", "-"]),
        too_long("standard input")
    );
}

/// The program gets the file as its standard input; where it stopped to read
/// can be asked for afterwards.
#[test]
fn a_file_of_4_gib_is_not_read_to_its_end() {
    let desk = Desk::new();
    let file = File::create(desk.path("huge")).expect("a file");
    // It takes no room: nothing is written.
    file.set_len(4 << 30).expect("a file with a hole");
    assert_eq!(desk.run(["check", "huge"]), too_long("huge"));

    let mut shared = File::open(desk.path("huge")).expect("the file");
    let input = shared.try_clone().expect("one more handle");
    let mut command = desk.command(["check", "-"]);
    let output = command.stdin(Stdio::from(input)).output();
    let ran = Ran::from(output.expect("the program ends"));
    assert_eq!(ran, too_long("standard input"));
    let read = shared.stream_position().expect("a position");
    let most = MAX_DOCUMENT_BYTES as u64 + 65_536;
    assert!((MAX_DOCUMENT_BYTES as u64..most).contains(&read), "{read}");
}

/// A file without end would never be read whole.
#[test]
fn a_file_without_end_is_too_long() {
    let endless = "/dev/zero";
    if !Path::new(endless).exists() {
        return;
    }
    let desk = Desk::new();
    assert_eq!(desk.run(["check", endless]), too_long(endless));
    assert_eq!(desk.run(["select", ":a", endless]), too_long(endless));
    let input = File::open(endless).expect("the file");
    let mut command = desk.command(["explain", "-"]);
    let output = command.stdin(Stdio::from(input)).output();
    let due = "yurzhoad: standard input: the rule is refused: number 5 at place 0: \
               it has more than the 1024 bytes that are allowed\n";
    assert_eq!(Ran::from(output.expect("the program ends")), failed(1, due));
}

/// From standard input the LF behind a rule is none of its bytes.
#[test]
fn rules_around_1_024_bytes_from_standard_input() {
    let constant = format!("(e=\"{}\")", "c".repeat(32));
    let longest = "!".repeat(11) + &joined("&", &constant, 26);
    assert_eq!(longest.len(), MAX_RULE_BYTES);
    let desk = Desk::new();
    let run = |rule: String| desk.run_on(rule.as_bytes(), ["check", "--rule", "-"]);
    for behind in ["", "\n"] {
        let ran = run(format!("{longest}{behind}"));
        assert_eq!((ran.status, ran.err.as_str()), (0, ""), "{behind:?}");
        assert!(ran.out.starts_with("accepted: 62 tests of 64, "));
    }
    let due = "yurzhoad: standard input: the rule is refused: number 5 at place 0: \
               it has more than the 1024 bytes that are allowed\n";
    for behind in ["x", "x\n", "\n\n", "\nx", "\n\n\n", "xx"] {
        let ran = run(format!("{longest}{behind}"));
        assert_eq!(ran, failed(1, due), "{behind:?}");
    }
    // One LF is taken off, and a second belongs to the rule.
    let shorter = &longest[1..];
    let ran = run(format!("{shorter}\n\n"));
    assert!(
        ran.err.contains(": number 6 at offset 1023: "),
        "{}",
        ran.err
    );
    let due = "yurzhoad: standard input: the rule is refused: number 6 at offset 2: \
               it does not read on from here\n  :a\\n\n    ^\n";
    assert_eq!(run(":a\n\n".to_string()), failed(1, due));
}
