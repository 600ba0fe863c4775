//! The proved program beside the evaluator's: the same bytes in, the same out.

use std::fs::File;
use std::io::Write;
use std::path::{Path, PathBuf};
use std::process::{Child, Command, Stdio};
use std::thread;

use evaluator::document::{spell, DocumentRecord};
use evaluator::program::{program, INPUT_LIMIT};
use evaluator::random::{damage_document, library, rule, Random};
use evaluator::samples::selections::{CASES_ON_X, SESSION};
use evaluator::samples::{counts, document, documents, flat, selections, X};

fn binary() -> PathBuf {
    let path = Path::new(env!("CARGO_MANIFEST_DIR")).join("../../crates/select/out/select");
    assert!(
        path.is_file(),
        "crates/select/out/select is missing: run `rt run` in crates/select first"
    );
    path
}

/// What the program prints on an input, which it gets in pieces of this size.
fn printed(input: &[u8], piece: usize) -> String {
    let mut child = Command::new(binary())
        .stdin(Stdio::piped())
        .stdout(Stdio::piped())
        .spawn()
        .expect("the program starts");
    let mut pipe = child.stdin.take().expect("a pipe");
    let bytes = input.to_vec();
    // The program ends before it has read all of what is too long; then the
    // pipe breaks, which is no matter here.
    let writer = thread::spawn(move || {
        for part in bytes.chunks(piece) {
            if pipe.write_all(part).is_err() {
                break;
            }
        }
    });
    let output = child.wait_with_output().expect("the program ends");
    writer.join().expect("the input is written");
    assert!(output.status.success());
    assert!(output.stderr.is_empty());
    String::from_utf8(output.stdout).expect("text")
}

fn assert_printed(name: &str, input: &[u8]) -> String {
    let text = printed(input, 1 << 20);
    assert_eq!(text, program(input), "{name}");
    text
}

fn joined(rule: &str, document: &[u8]) -> Vec<u8> {
    [rule.as_bytes(), b"\n", document].concat()
}

#[test]
fn the_session_prints_what_is_written() {
    let input = joined(SESSION, X.as_bytes());
    let due = "number=0\nplace=0\nselected=1\nsnippets=19\nnode=1\n";
    assert_eq!(assert_printed("the session", &input), due);
    // However the input arrives.
    for piece in [1, 7, 100] {
        assert_eq!(printed(&input, piece), due);
    }
}

#[test]
fn the_cases_on_x_and_their_refusals_print_alike() {
    for (rule, _) in CASES_ON_X {
        assert_printed(rule, &joined(rule, X.as_bytes()));
        assert_printed(rule, &joined(&format!("{rule}\r"), X.as_bytes()));
        assert_printed(rule, &joined(rule, X.replace('\n', "\r\n").as_bytes()));
        assert_printed(rule, &joined(rule, &X.as_bytes()[..X.len() - 1]));
        // Without an LF all of it is the rule.
        assert_printed(rule, rule.as_bytes());
    }
    for input in ["", "\n", "\n\n", ":a\n", ":a", "x", &"!".repeat(2_000)] {
        assert_printed("no document", input.as_bytes());
    }
    assert_printed("no rule", &joined("", X.as_bytes()));
    assert_printed("a long rule", &joined(&"!".repeat(1_025), X.as_bytes()));
}

#[test]
fn every_fixed_selection_and_count_prints_alike() {
    for (name, cases) in selections::GROUPS {
        for case in cases() {
            let origin = format!("{name}: {}", case.rule);
            let text = assert_printed(&origin, &joined(case.rule, &case.document));
            let node = |v: &usize| format!("node={v}\n");
            let nodes: String = case.marked.iter().map(node).collect();
            let (_, listed) = text.split_once("snippets=").expect("four lines");
            let (_, listed) = listed.split_once('\n').expect("a line");
            assert_eq!(listed, nodes, "{origin}");
        }
    }
    for (name, cases) in counts::GROUPS {
        for case in cases() {
            let origin = format!("{name}: {}", case.rule);
            let text = assert_printed(&origin, &joined(case.rule, &case.document));
            let due = format!("\nsnippets={}\n", case.snippets);
            assert!(text.contains(&due), "{origin}");
        }
    }
}

#[test]
fn every_fixed_document_prints_alike() {
    let mut repeats = 0;
    for (name, cases) in documents::GROUPS {
        for case in cases() {
            let input = joined(":name", &case.document);
            let text = assert_printed(name, &input);
            let DocumentRecord { number, place, .. } = case.due;
            // What is accepted may be too large for the program, and what is
            // refused too long.
            if number > 0 && input.len() <= INPUT_LIMIT {
                let due = format!("number={number}\nplace={place}\n");
                assert!(text.starts_with(&due), "{name}: {text}");
                repeats += usize::from(number == 14);
            }
        }
    }
    assert!(repeats > 100, "{repeats}");
}

#[test]
fn the_words_lent_do_for_63_nodes_and_not_for_64() {
    for nodes in [1, 2, 62, 63, 64, 65, 500] {
        for rule in [":lib", ":text", "(e=\"\")"] {
            assert_printed(rule, &joined(rule, &flat(nodes)));
        }
    }
    assert_printed("63 nodes with snippets", &joined("(e=r)", &flat(63)));
}

#[test]
fn input_above_the_limit_is_1() {
    let one = "number=1\nplace=0\nselected=0\nsnippets=0\n";
    for length in [INPUT_LIMIT - 1, INPUT_LIMIT, INPUT_LIMIT + 1, 300_000] {
        for byte in [b'x', b'\n', 0, 0xFF] {
            let text = assert_printed("filled", &vec![byte; length]);
            assert_eq!(text == one, length > INPUT_LIMIT);
        }
    }
    // A legal document that fills the limit to the last byte, and one more.
    let value = "v".repeat(255);
    let rows = |last: usize| {
        let mut rows = vec![('t', 1, "text", value.as_str()); 228];
        rows[0] = ('e', 0, "lib", "");
        rows.push(('t', 1, "text", &value[..last]));
        joined(":lib", &document(&rows))
    };
    let fill = INPUT_LIMIT - rows(0).len();
    for (last, number) in [(fill - 1, 10), (fill, 10), (fill + 1, 1)] {
        let text = assert_printed("a document at the limit", &rows(last));
        assert!(text.starts_with(&format!("number={number}\n")));
    }
    // A limit that is reached in pieces.
    assert_eq!(printed(&rows(fill + 1), 1_000), one);
}

#[test]
fn a_read_or_a_write_that_fails_ends_it_with_an_error() {
    // A folder cannot be read.
    let folder = File::open(env!("CARGO_MANIFEST_DIR")).expect("a folder");
    let output = Command::new(binary())
        .stdin(folder)
        .output()
        .expect("the program ends");
    assert_eq!(output.status.code(), Some(1));
    assert!(output.stdout.is_empty() && !output.stderr.is_empty());
    // Nothing fits on a full device.
    let full = File::create("/dev/full").expect("the device");
    let output = Command::new(binary())
        .stdin(Stdio::null())
        .stdout(full)
        .stderr(Stdio::piped())
        .spawn()
        .and_then(Child::wait_with_output)
        .expect("the program ends");
    assert_eq!(output.status.code(), Some(1));
    assert!(!output.stderr.is_empty());
}

#[test]
fn random_inputs_print_alike() {
    for seed in 0..300 {
        let random = &mut Random::new(seed);
        let nodes = 1 + random.below(20);
        let whole = spell(&library(random, nodes));
        let rule = rule(random, 12).spell();
        let document = match random.percent(80) {
            true => whole,
            false => damage_document(random, &whole),
        };
        let input = [&rule[..], b"\n", &document].concat();
        assert_printed(&format!("seed {seed}"), &input);
    }
}
