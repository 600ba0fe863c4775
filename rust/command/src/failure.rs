//! How a run ends that does not end well: its words and its exit status.

use std::io::{self, ErrorKind, Write};

use yurzhoad::limits::{MAX_DOCUMENT_BYTES, MAX_RULE_BYTES};
use yurzhoad::{Ground, Refusal};

use crate::help::{Topic, HINT};
use crate::json;

/// The exit status where all was accepted.
pub const ACCEPTED: u8 = 0;
/// A library or a rule is refused.
pub const REFUSED: u8 = 1;
/// The command is used wrongly, or a file cannot be read or written.
pub const TROUBLE: u8 = 2;
/// The two evaluations differ.
pub const DIFFER: u8 = 3;

/// Why a run ends before its end.
#[derive(Debug)]
pub enum Failure {
    /// The arguments are none that the command has a meaning for.
    Usage { words: String, topic: Topic },
    /// A file, or standard input, cannot be read.
    File { name: String, error: io::Error },
    /// A library or a rule is refused.
    Refused(Refused),
    /// The two evaluations differ, in these words.
    Differ(String),
    /// Standard output cannot be written.
    Output(io::Error),
}

/// A refusal, and of what.
#[derive(Debug)]
pub struct Refused {
    /// How messages call the place that it was read from.
    pub name: Option<String>,
    pub refusal: Refusal,
    /// Whether it was not read to its end.
    pub cut: bool,
}

/// Only writing uses it: who reads says what was read.
impl From<io::Error> for Failure {
    fn from(error: io::Error) -> Failure {
        Failure::Output(error)
    }
}

impl Failure {
    /// Tells the failure on standard error, and a refusal on standard output
    /// too if objects are asked for. Returns the exit status.
    pub fn report(&self, json: bool, out: &mut dyn Write, err: &mut dyn Write) -> u8 {
        if let Some(words) = self.words() {
            // If standard error is gone too, the status has to do.
            let _ = writeln!(err, "yurzhoad: {words}");
        }
        match self {
            Failure::Refused(refused) if json => refused.write_object(out, err),
            Failure::Refused(_) => REFUSED,
            Failure::Differ(_) => DIFFER,
            Failure::Output(error) if error.kind() == ErrorKind::BrokenPipe => ACCEPTED,
            Failure::Output(_) | Failure::Usage { .. } | Failure::File { .. } => TROUBLE,
        }
    }

    /// What stands behind the command's name. A reader that has seen enough,
    /// as `head` has, is told nothing.
    fn words(&self) -> Option<String> {
        match self {
            Failure::Usage { words, topic } => Some(format!("{words}\n{}\n{HINT}", topic.usage())),
            Failure::File { name, error } => Some(format!("{name}: {error}")),
            Failure::Refused(refused) => Some(refused.words()),
            Failure::Differ(words) => Some(words.clone()),
            Failure::Output(error) if error.kind() == ErrorKind::BrokenPipe => None,
            Failure::Output(error) => Some(format!("standard output: {error}")),
        }
    }
}

impl Refused {
    /// Name, number, place and words, and the excerpt below.
    fn words(&self) -> String {
        let name = self.name.iter().map(|name| format!("{name}: "));
        let line = self.refusal.to_string();
        // The line ends in what is wrong.
        let before = &line[..line.len() - self.refusal.words().len()];
        let excerpt = self.refusal.excerpt().map(|excerpt| format!("\n{excerpt}"));
        let mut words: String = name.collect();
        words += before;
        words += &self.what_is_wrong();
        words + &excerpt.unwrap_or_default()
    }

    /// In words. How long it is cannot be said where it was not read to its end.
    fn what_is_wrong(&self) -> String {
        let more = |most| format!("it has more than the {most} bytes that are allowed");
        match self.refusal.ground() {
            Ground::DocumentLength if self.cut => more(MAX_DOCUMENT_BYTES),
            Ground::RuleLength if self.cut => more(MAX_RULE_BYTES),
            _ => self.refusal.words().to_string(),
        }
    }

    /// The refusal as an object. That it cannot be written is told, but whether
    /// its reader has left changes nothing: it is a refusal.
    fn write_object(&self, out: &mut dyn Write, err: &mut dyn Write) -> u8 {
        let object = format!(
            "{{\"accepted\":false,\"number\":{},\"place\":{},\"words\":{}}}",
            self.refusal.number(),
            self.refusal.place(),
            json::string(&self.what_is_wrong()),
        );
        match writeln!(out, "{object}").and_then(|()| out.flush()) {
            Err(error) if error.kind() != ErrorKind::BrokenPipe => {
                Failure::Output(error).report(false, out, err)
            }
            _ => REFUSED,
        }
    }
}
