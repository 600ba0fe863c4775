//! Standard input, files that cannot be read, and output that cannot be
//! written.

use std::fs::{self, File};
use std::io::{BufRead, BufReader, Write};
use std::path::Path;
use std::process::{Child, Stdio};

use evaluator::samples::X;

use crate::desk::{accepted, failed, of_length, Desk, Ran};

#[test]
fn a_dash_is_standard_input() {
    let desk = Desk::with("x.txt", X);
    let x = X.as_bytes();
    let drugs = accepted("1\t/lib/drug[1]\tdrug\t\n3\t/lib/drug[2]\tdrug\t\n");
    assert_eq!(
        desk.run_on(x, ["check", "-"]),
        accepted("accepted: 5 nodes\n")
    );
    assert_eq!(desk.run_on(x, ["select", ":drug", "-"]), drugs);
    // A rule with an LF behind it, and without.
    for rule in [":drug\n", ":drug"] {
        let rule = rule.as_bytes();
        assert_eq!(desk.run_on(rule, ["select", "-", "x.txt"]), drugs);
        assert_eq!(
            desk.run_on(rule, ["check", "--rule", "-"]),
            accepted("accepted: 1 test of 64, nesting 1 of 32, no comparison or count\n")
        );
        let explained = desk.run_on(rule, ["explain", "-"]);
        assert_eq!(explained, desk.run(["explain", ":drug"]));
        assert_eq!(explained.status, 0);
    }
    // Nothing at all is an empty library, and an empty rule.
    let ran = desk.run_on(b"", ["check", "-"]);
    assert!(ran
        .err
        .contains("standard input: the document is refused: number 2 at line 1"));
    let ran = desk.run_on(b"\n", ["check", "--rule", "-"]);
    let due = "yurzhoad: standard input: the rule is refused: number 6 at offset 0: \
               it ends here and is not whole\n  \n  ^\n";
    assert_eq!(ran, failed(1, due));
}

#[test]
fn a_rule_from_standard_input_with_cr_lf_is_refused_at_the_cr() {
    let due = "yurzhoad: standard input: the rule is refused: number 6 at offset 5: \
               it does not read on from here\n  :drug\\r\n       ^\n";
    let ran = Desk::new().run_on(b":drug\r\n", ["explain", "-"]);
    assert_eq!(ran, failed(1, due));
}

#[test]
fn a_file_with_the_name_of_standard_input() {
    let desk = Desk::with("-", X);
    assert_eq!(desk.run(["check", "./-"]), accepted("accepted: 5 nodes\n"));
}

/// What the system says of a file.
fn trouble(desk: &Desk, name: &str) -> Ran {
    let error = fs::read(desk.path(name)).expect_err("a file that cannot be read");
    failed(2, &format!("yurzhoad: {name}: {error}\n"))
}

#[test]
fn files_that_cannot_be_read() {
    let desk = Desk::with("x.txt", X);
    fs::create_dir(desk.path("folder")).expect("a folder");
    for name in ["missing.txt", "folder", "x.txt/inside"] {
        let due = trouble(&desk, name);
        assert_eq!(desk.run(["check", name]), due);
        assert_eq!(desk.run(["check", "--json", name]), due);
        // Before the rule is looked at.
        assert_eq!(desk.run(["select", ":a!", name]), due);
        assert_eq!(desk.run(["select", "--both", "--count", ":a", name]), due);
    }
    let missing = trouble(&desk, "missing.txt").err;
    assert_eq!(
        desk.run(["check", ""]),
        failed(2, &missing.replace("missing.txt", "\"\""))
    );
}

/// Who may read everything, reads it: then the file is accepted.
#[cfg(unix)]
#[test]
fn a_file_without_permission() {
    use std::os::unix::fs::PermissionsExt;

    let desk = Desk::with("x.txt", X);
    let closed = fs::Permissions::from_mode(0o000);
    fs::set_permissions(desk.path("x.txt"), closed).expect("permissions");
    let due = match File::open(desk.path("x.txt")) {
        Ok(_) => accepted("accepted: 5 nodes\n"),
        Err(_) => trouble(&desk, "x.txt"),
    };
    assert_eq!(desk.run(["check", "x.txt"]), due);
}

#[test]
fn standard_input_that_cannot_be_read() {
    let desk = Desk::with("x.txt", X);
    let folder = File::open(desk.folder()).expect("a folder");
    let error = fs::read(desk.folder()).expect_err("a folder is no file");
    for arguments in [
        &["check", "-"][..],
        &["explain", "-"],
        &["select", "-", "x.txt"],
    ] {
        let input = folder.try_clone().expect("one more handle");
        let mut command = desk.command(arguments);
        let output = command.stdin(Stdio::from(input)).output();
        let due = failed(2, &format!("yurzhoad: standard input: {error}\n"));
        assert_eq!(Ran::from(output.expect("the program ends")), due);
    }
}

/// Starts a run that writes far more than a pipe holds.
fn start_large(desk: &Desk, option: &str) -> Child {
    desk.put("large.txt", of_length(1_000_000));
    desk.command(["select", option, "(e=e)", "large.txt"])
        .stdout(Stdio::piped())
        .stderr(Stdio::piped())
        .spawn()
        .expect("the program starts")
}

#[test]
fn a_reader_that_leaves_ends_the_run_quietly() {
    let desk = Desk::new();
    for option in ["--plain", "--json"] {
        let mut child = start_large(&desk, option);
        drop(child.stdout.take());
        let ran = Ran::from(child.wait_with_output().expect("the program ends"));
        assert_eq!(ran, accepted(""), "{option}");
    }
    // One that reads a line first, as `head -n 1` does.
    let mut child = start_large(&desk, "--plain");
    let mut lines = BufReader::new(child.stdout.take().expect("a pipe"));
    let mut line = String::new();
    lines.read_line(&mut line).expect("a line");
    assert!(line.starts_with("0\t/lib\tlib\t"), "{line}");
    drop(lines);
    let ran = Ran::from(child.wait_with_output().expect("the program ends"));
    assert_eq!(ran, accepted(""));
    // And one that reads to the end gets all.
    let child = start_large(&desk, "--plain");
    let ran = Ran::from(child.wait_with_output().expect("the program ends"));
    assert_eq!(ran.out.lines().count(), 4_096);
    assert!(ran.out.len() > 1_000_000, "{}", ran.out.len());
}

/// Runs the command with a rule that it gets when nobody reads its output any
/// more.
fn run_unread(arguments: &[&str], rule: &[u8]) -> Ran {
    let mut child = Desk::new().start(arguments);
    drop(child.stdout.take());
    let mut input = child.stdin.take().expect("a pipe");
    input.write_all(rule).expect("the program reads it");
    drop(input);
    child.wait_with_output().expect("the program ends").into()
}

#[test]
fn little_that_nobody_reads_ends_quietly_too() {
    for arguments in [&["check", "--rule", "-"][..], &["explain", "-"]] {
        assert_eq!(run_unread(arguments, b":a"), accepted(""));
    }
}

#[test]
fn a_refusal_stays_one_if_nobody_reads_the_object() {
    let due = "yurzhoad: standard input: the rule is refused: number 6 at offset 2: \
               it does not read on from here\n  :a!\n    ^\n";
    let ran = run_unread(&["check", "--json", "--rule", "-"], b":a!");
    assert_eq!(ran, failed(1, due));
}

/// A device that takes nothing, where there is one.
fn full() -> Option<File> {
    let device = Path::new("/dev/full");
    let open = || File::options().write(true).open(device);
    device.exists().then(|| open().expect("the device"))
}

/// Runs the command with an output that takes nothing.
fn write_to(full: &File, desk: &Desk, arguments: &[&str]) -> Ran {
    let device = full.try_clone().expect("one more handle");
    let output = desk.command(arguments).stdout(device).output();
    Ran::from(output.expect("the program ends"))
}

#[test]
fn output_that_cannot_be_written() {
    let Some(full) = full() else {
        return;
    };
    let desk = Desk::with("x.txt", X);
    for arguments in [
        &["check", "x.txt"][..],
        &["check", "--rule", ":a"],
        &["select", ":drug", "x.txt"],
        &["explain", ":a"],
        &["--help"],
        &["--version"],
    ] {
        let ran = write_to(&full, &desk, arguments);
        assert_eq!(ran.status, 2, "{arguments:?}");
        let told = ran.err.starts_with("yurzhoad: standard output: ");
        assert!(told && ran.err.lines().count() == 1, "{}", ran.err);
    }
    // Where nothing is selected, nothing is written.
    let ran = write_to(&full, &desk, &["select", "(e!=e)", "x.txt"]);
    assert_eq!(ran, accepted(""));
}

#[test]
fn a_refusal_whose_object_cannot_be_written() {
    let Some(full) = full() else {
        return;
    };
    let arguments = ["check", "--json", "--rule", ":a!"];
    let ran = write_to(&full, &Desk::new(), &arguments);
    assert_eq!(ran.status, 2);
    assert!(ran.err.contains("number 6 at offset 2"), "{}", ran.err);
    let told = "\nyurzhoad: standard output: ";
    assert!(ran.err.contains(told), "{}", ran.err);
}

#[test]
fn no_standard_error_changes_nothing_else() {
    let Some(full) = full() else {
        return;
    };
    let desk = Desk::with("x.txt", X);
    let run = |arguments: &[&str]| {
        let device = full.try_clone().expect("one more handle");
        let output = desk.command(arguments).stderr(device).output();
        let output = output.expect("the program ends");
        (output.status.code(), output.stdout)
    };
    assert_eq!(run(&["check", "--rule", ":a!"]), (Some(1), Vec::new()));
    assert_eq!(run(&["check"]), (Some(2), Vec::new()));
    let both = ["select", "--both", "--count", ":drug", "x.txt"];
    assert_eq!(run(&both), (Some(0), b"2\n".to_vec()));
}
