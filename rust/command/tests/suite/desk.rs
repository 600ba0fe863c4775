//! A folder with files to run the command on, and what a run ends in.

use std::ffi::{OsStr, OsString};
use std::fs;
use std::io::Write;
use std::path::{Path, PathBuf};
use std::process::{self, Child, Command, Output, Stdio};
use std::sync::atomic::{AtomicUsize, Ordering};
use std::thread;

use evaluator::document::{spell, Library};
use evaluator::samples::libraries::{attribute, element, text};

/// The program.
pub const PROGRAM: &str = env!("CARGO_BIN_EXE_yurzhoad");

/// What a run ended in.
#[derive(Debug, PartialEq, Eq)]
pub struct Ran {
    pub status: i32,
    pub out: String,
    pub err: String,
}

impl From<Output> for Ran {
    fn from(output: Output) -> Ran {
        Ran {
            status: output.status.code().expect("the program ends by itself"),
            out: String::from_utf8(output.stdout).expect("text"),
            err: String::from_utf8(output.stderr).expect("text"),
        }
    }
}

/// A run that says nothing on standard error.
pub fn accepted(out: &str) -> Ran {
    Ran {
        status: 0,
        out: out.to_string(),
        err: String::new(),
    }
}

/// A run that ends in words on standard error alone.
pub fn failed(status: i32, err: &str) -> Ran {
    Ran {
        status,
        out: String::new(),
        err: err.to_string(),
    }
}

/// A folder of its own for each test; it is removed in the end.
pub struct Desk {
    folder: PathBuf,
}

impl Desk {
    pub fn new() -> Desk {
        static MADE: AtomicUsize = AtomicUsize::new(0);
        let number = MADE.fetch_add(1, Ordering::Relaxed);
        let name = format!("yurzhoad-command-{}-{number}", process::id());
        let folder = std::env::temp_dir().join(name);
        fs::create_dir(&folder).expect("a new folder");
        Desk { folder }
    }

    /// A desk with one file.
    pub fn with(name: &str, bytes: impl AsRef<[u8]>) -> Desk {
        let desk = Desk::new();
        desk.put(name, bytes);
        desk
    }

    pub fn put(&self, name: &str, bytes: impl AsRef<[u8]>) {
        fs::write(self.path(name), bytes).expect("a file");
    }

    pub fn path(&self, name: &str) -> PathBuf {
        self.folder.join(name)
    }

    pub fn folder(&self) -> &Path {
        &self.folder
    }

    /// The command in this folder, ready to be started.
    pub fn command<A: AsRef<OsStr>>(&self, arguments: impl IntoIterator<Item = A>) -> Command {
        let mut command = Command::new(PROGRAM);
        command.args(arguments).current_dir(&self.folder);
        command
    }

    /// Starts the command in this folder, with a pipe for each stream.
    pub fn start<A: AsRef<OsStr>>(&self, arguments: impl IntoIterator<Item = A>) -> Child {
        self.command(arguments)
            .stdin(Stdio::piped())
            .stdout(Stdio::piped())
            .stderr(Stdio::piped())
            .spawn()
            .expect("the program starts")
    }

    /// Runs the command in this folder, with nothing on standard input.
    pub fn run<A: AsRef<OsStr>>(&self, arguments: impl IntoIterator<Item = A>) -> Ran {
        self.run_on(b"", arguments)
    }

    /// Runs the command in this folder, with these bytes on standard input.
    pub fn run_on<A: AsRef<OsStr>>(
        &self,
        input: &[u8],
        arguments: impl IntoIterator<Item = A>,
    ) -> Ran {
        let mut child = self.start(arguments);
        let mut pipe = child.stdin.take().expect("a pipe");
        let bytes = input.to_vec();
        // The program may end before it has read all: then the pipe breaks,
        // which is no matter here.
        let writer = thread::spawn(move || drop(pipe.write_all(&bytes)));
        let output = child.wait_with_output().expect("the program ends");
        writer.join().expect("the input is written");
        output.into()
    }
}

impl Drop for Desk {
    fn drop(&mut self) {
        // A folder that is left over harms nothing.
        let _ = fs::remove_dir_all(&self.folder);
    }
}

/// Runs the command inside this process, with these bytes on standard input.
pub fn run_inside<A: Into<OsString>>(
    mut input: &[u8],
    arguments: impl IntoIterator<Item = A>,
) -> Ran {
    let arguments: Vec<OsString> = arguments.into_iter().map(Into::into).collect();
    let (mut out, mut err) = (Vec::new(), Vec::new());
    let status = yurzhoad_command::run(&arguments, &mut input, &mut out, &mut err);
    Ran {
        status: status.into(),
        out: String::from_utf8(out).expect("text"),
        err: String::from_utf8(err).expect("text"),
    }
}

/// A drug that has two names, on the lines 8 and 16.
pub fn named_twice() -> Vec<u8> {
    spell(&Library {
        nodes: vec![
            element(0, "drug"),
            attribute(1, "name", "heparin"),
            attribute(1, "unit", "mg"),
            attribute(1, "name", "again"),
        ],
    })
}

/// A library of 4,096 nodes that has just so many bytes: texts, with values as
/// long as it takes.
pub fn of_length(bytes: usize) -> Vec<u8> {
    let mut nodes = vec![text(1, ""); 4_096];
    nodes[0] = element(0, "lib");
    let mut library = Library { nodes };
    let mut short = bytes - spell(&library).len();
    for node in &mut library.nodes[1..] {
        let fill = short.min(255);
        node.value = vec![b'~'; fill];
        short -= fill;
    }
    let document = spell(&library);
    assert_eq!(document.len(), bytes);
    document
}
