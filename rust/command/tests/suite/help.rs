//! Help and version; the examples of the help are run.

use std::env;
use std::path::Path;
use std::process::Command;

use yurzhoad::limits::{MAX_COUNT, MAX_DOCUMENT_BYTES, MAX_NODES};

use crate::desk::{accepted, Desk, PROGRAM};

const COMMANDS: [&str; 3] = ["check", "select", "explain"];

/// The help as it is printed.
fn help(arguments: &[&str]) -> String {
    let ran = Desk::new().run(arguments);
    assert_eq!((ran.status, ran.err.as_str()), (0, ""), "{arguments:?}");
    ran.out
}

/// All four texts.
fn texts() -> Vec<String> {
    let mut texts = vec![help(&["--help"])];
    texts.extend(COMMANDS.map(|command| help(&[command, "--help"])));
    texts
}

#[test]
fn help_is_given_however_it_is_asked_for() {
    let all = help(&["--help"]);
    assert!(all.starts_with("yurzhoad selects the entries of a drug library"));
    assert_eq!(help(&["-h"]), all);
    assert_eq!(help(&["help"]), all);
    for command in COMMANDS {
        let text = help(&[command, "--help"]);
        assert!(text.starts_with(&format!("yurzhoad {command} ")), "{text}");
        assert_eq!(help(&[command, "-h"]), text);
        assert_eq!(help(&["help", command]), text);
        assert_eq!(help(&["--help", command]), text);
        // Whatever else stands there.
        assert_eq!(help(&[command, "--what", "a", "b", "c", "--help"]), text);
    }
}

#[test]
fn every_option_is_in_the_help_of_its_command() {
    let options: [(&str, &[&str]); 3] = [
        ("check", &["--rule", "--json"]),
        (
            "select",
            &["--plain", "--both", "--values", "--count", "--json"],
        ),
        ("explain", &[]),
    ];
    for (command, options) in options {
        let text = help(&[command, "--help"]);
        for option in options {
            let line = format!("\n  {option} ");
            assert!(text.contains(&line), "{command} {option}");
        }
    }
}

#[test]
fn the_texts_fit_a_terminal() {
    for text in texts() {
        assert!(text.is_ascii() && text.ends_with('\n'));
        let long = text.lines().find(|line| line.len() >= 80);
        assert_eq!(long, None);
    }
}

/// The texts write them out with commas.
#[test]
fn the_limits_in_the_help_are_those_of_the_crate() {
    let thousands = |number: usize| match number {
        1_000_000.. => format!(
            "{},{:03},{:03}",
            number / 1_000_000,
            number / 1_000 % 1_000,
            number % 1_000
        ),
        _ => format!("{},{:03}", number / 1_000, number % 1_000),
    };
    let (bytes, nodes) = (thousands(MAX_DOCUMENT_BYTES), thousands(MAX_NODES));
    let line = format!("  LIBRARY   a file of at most {bytes} bytes and {nodes} nodes");
    for arguments in [&["--help"][..], &["check", "--help"], &["select", "--help"]] {
        assert!(help(arguments).contains(&line), "{arguments:?}");
    }
    let counted = format!("\nnodes, 0 to {}. ", thousands(MAX_COUNT));
    assert!(help(&["explain", "--help"]).contains(&counted));
}

#[test]
fn the_version_is_that_of_the_package() {
    let due = concat!("yurzhoad ", env!("CARGO_PKG_VERSION"), "\n");
    for argument in ["--version", "-V"] {
        assert_eq!(Desk::new().run([argument]), accepted(due));
    }
}

/// The lines of a text behind the one that begins so, up to an empty line.
fn lines_behind<'a>(text: &'a str, heading: &str) -> Vec<&'a str> {
    let lines = text.lines().skip_while(|line| !line.starts_with(heading));
    let below = lines.skip(1).skip_while(|line| line.is_empty());
    below
        .take_while(|line| !line.is_empty())
        .map(str::trim_start)
        .collect()
}

/// Runs a line in a shell that finds the program.
fn run_line(desk: &Desk, line: &str) -> (Option<i32>, usize) {
    let folder = Path::new(PROGRAM).parent().expect("a folder");
    let mut folders = vec![folder.to_path_buf()];
    folders.extend(env::split_paths(&env::var_os("PATH").unwrap_or_default()));
    let output = Command::new("sh")
        .args(["-c", line])
        .current_dir(desk.folder())
        .env("PATH", env::join_paths(folders).expect("folders"))
        .output()
        .expect("a shell");
    (output.status.code(), output.stdout.len())
}

#[test]
fn the_examples_run_on_the_library_that_is_shown() {
    let all = help(&["--help"]);
    let library = lines_behind(&all, "is a drug with the attribute `name`:");
    assert_eq!(library.len(), 13, "{library:?}");
    let desk = Desk::with("lib.txt", library.join("\n") + "\n");
    for text in texts() {
        let examples = lines_behind(&text, "examples");
        assert!(examples.len() >= 5, "{examples:?}");
        for line in examples {
            let (status, written) = run_line(&desk, line);
            assert_eq!(status, Some(0), "{line}");
            // The session's rule selects nothing in a library of one drug.
            assert!(written > 0 || line.contains("..r*rl"), "{line}");
        }
    }
}

#[test]
fn the_objects_that_the_help_shows_are_printed() {
    let library = lines_behind(&help(&["--help"]), "is a drug with").join("\n") + "\n";
    let desk = Desk::with("lib.txt", library);
    let shown = |command: &str, object: &str| {
        let text = help(&[command, "--help"]);
        let joined: String = text.lines().map(str::trim_start).collect();
        assert!(joined.contains(object.trim_end()), "{object}");
    };
    shown("check", &desk.run(["check", "--json", "lib.txt"]).out);
    let rule = "(.l[:name]=..r*rl)";
    shown("check", &desk.run(["check", "--json", "--rule", rule]).out);
    let select = ["select", "--json", ":drug", "lib.txt"];
    shown("select", &desk.run(select).out);
}
