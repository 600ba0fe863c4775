//! Reads libraries and rules, and of each no more than shows it to be too long.

use std::ffi::{OsStr, OsString};
use std::fs::File;
use std::io::{self, Read};

use yurzhoad::limits::{MAX_DOCUMENT_BYTES, MAX_RULE_BYTES};
use yurzhoad::{Ground, Library, Refusal, Rule};

use crate::failure::{Failure, Refused};
use crate::output::shown;

/// How standard input is called in messages.
const STANDARD_INPUT: &str = "standard input";

/// Where a library or a rule comes from, by its operand.
#[derive(Debug, PartialEq, Eq)]
pub enum Source {
    /// `-`
    StandardInput,
    /// The name of a file, or the text of a rule.
    Operand(OsString),
}

impl Source {
    /// What the operand stands for.
    pub fn of(operand: OsString) -> Source {
        match operand == *"-" {
            true => Source::StandardInput,
            false => Source::Operand(operand),
        }
    }
}

/// The bytes of a library or a rule.
pub struct Input {
    bytes: Vec<u8>,
    /// How messages call the place it was read from; a rule that is an operand
    /// needs no name.
    name: Option<String>,
    /// Whether it is longer than allowed, and was not read to its end.
    cut: bool,
}

impl Input {
    /// The library, if it is accepted.
    pub fn checked_library(&self) -> Result<Library<'_>, Failure> {
        Library::check(&self.bytes).map_err(|refusal| self.refused(refusal))
    }

    /// The rule, if it is accepted.
    pub fn checked_rule(&self) -> Result<Rule<'_>, Failure> {
        Rule::check(&self.bytes).map_err(|refusal| self.refused(refusal))
    }

    /// The refusal of a call with this rule, which was accepted by itself: a list
    /// of values is none of it.
    pub fn refused_with(&self, refusal: Refusal) -> Failure {
        match refusal.ground() {
            Ground::NoSuchNode => Failure::Refused(Refused {
                name: None,
                refusal,
                cut: false,
            }),
            _ => self.refused(refusal),
        }
    }

    fn refused(&self, refusal: Refusal) -> Failure {
        Failure::Refused(Refused {
            name: self.name.clone(),
            refusal,
            cut: self.cut,
        })
    }
}

/// All that can be read from: files by their names, and standard input.
pub struct Sources<'a> {
    standard_input: &'a mut dyn Read,
}

impl<'a> Sources<'a> {
    pub fn new(standard_input: &'a mut dyn Read) -> Sources<'a> {
        Sources { standard_input }
    }

    /// Reads a library: all of it, or one byte more than a library may have. So
    /// a file of any size is refused by the check itself, and at once.
    pub fn library(&mut self, source: &Source) -> Result<Input, Failure> {
        let most = MAX_DOCUMENT_BYTES + 1;
        let (name, read) = match source {
            Source::StandardInput => (
                STANDARD_INPUT.to_string(),
                read_at_most(most, &mut self.standard_input),
            ),
            Source::Operand(file) => (shown(file), read_file(most, file)),
        };
        match read {
            Ok(bytes) => Ok(Input {
                cut: bytes.len() > MAX_DOCUMENT_BYTES,
                bytes,
                name: Some(name),
            }),
            Err(error) => Err(Failure::File { name, error }),
        }
    }

    /// Reads a rule. From standard input one LF at its end is taken off: no rule
    /// has one, and `echo` and editors put it there.
    pub fn rule(&mut self, source: &Source) -> Result<Input, Failure> {
        if let Source::Operand(rule) = source {
            return Ok(Input {
                bytes: rule.as_encoded_bytes().to_vec(),
                name: None,
                cut: false,
            });
        }
        let name = STANDARD_INPUT.to_string();
        // One byte more than a rule may have, and the LF.
        match read_at_most(MAX_RULE_BYTES + 2, &mut self.standard_input) {
            Ok(mut bytes) => {
                if bytes.last() == Some(&b'\n') {
                    bytes.pop();
                }
                Ok(Input {
                    cut: bytes.len() > MAX_RULE_BYTES,
                    bytes,
                    name: Some(name),
                })
            }
            Err(error) => Err(Failure::File { name, error }),
        }
    }
}

fn read_file(most: usize, name: &OsStr) -> io::Result<Vec<u8>> {
    read_at_most(most, &mut File::open(name)?)
}

fn read_at_most(most: usize, source: &mut dyn Read) -> io::Result<Vec<u8>> {
    let mut bytes = Vec::new();
    source.take(most as u64).read_to_end(&mut bytes)?;
    Ok(bytes)
}
