//! What the command `yurzhoad` does: it checks libraries and rules, selects the
//! nodes of a library at which a rule holds, and tells a rule in words.
//!
//! The command is [`run`]; the program `yurzhoad` hands it the arguments and
//! the streams of its process. `yurzhoad --help` says how it is used.
#![forbid(unsafe_code)]
#![warn(missing_docs)]

mod check;
mod explain;
mod failure;
mod help;
mod input;
mod json;
mod output;
mod reader;
mod select;
mod summary;
mod usage;

use std::ffi::OsString;
use std::io::{Read, Write};

use failure::Failure;
use input::Sources;
use usage::Request;

/// Runs the command with the arguments behind its name, and returns its exit
/// status: 0 accepted, 1 refused, 2 wrong usage or trouble with a file, 3 if
/// the two evaluations differ.
///
/// All that was asked for goes to `out`, and all else to `err`.
///
/// ```
/// use std::ffi::OsString;
///
/// let arguments = ["check", "--rule", ":drug"].map(OsString::from);
/// let (mut out, mut err) = (Vec::new(), Vec::new());
/// let status = yurzhoad_command::run(&arguments, &mut &b""[..], &mut out, &mut err);
/// assert_eq!(status, 0);
/// assert!(out.starts_with(b"accepted: 1 test of 64"));
/// assert!(err.is_empty());
/// ```
pub fn run(
    arguments: &[OsString],
    input: &mut dyn Read,
    out: &mut dyn Write,
    err: &mut dyn Write,
) -> u8 {
    let request = match usage::read(arguments) {
        Ok(request) => request,
        Err(failure) => return failure.report(false, out, err),
    };
    let json = request.json();
    match answer(request, Sources::new(input), out, err) {
        Ok(()) => failure::ACCEPTED,
        Err(failure) => failure.report(json, out, err),
    }
}

/// Does what was asked for. What is written is sent on before it returns, since
/// a later failure of the stream could not be told.
fn answer(
    request: Request,
    mut sources: Sources<'_>,
    out: &mut dyn Write,
    err: &mut dyn Write,
) -> Result<(), Failure> {
    match request {
        Request::Help(topic) => out.write_all(topic.text().as_bytes())?,
        Request::Version => writeln!(out, "yurzhoad {}", env!("CARGO_PKG_VERSION"))?,
        Request::CheckLibrary { library, json } => {
            check::library(&sources.library(&library)?, json, out)?
        }
        Request::CheckRule { rule, json } => check::rule(&sources.rule(&rule)?, json, out)?,
        Request::Select {
            rule,
            library,
            options,
        } => {
            // In this order they are judged, too.
            let library = sources.library(&library)?;
            let rule = sources.rule(&rule)?;
            select::select(&rule, &library, options, out, err)?
        }
        Request::Explain { rule } => explain::explain(&sources.rule(&rule)?.checked_rule()?, out)?,
    }
    Ok(out.flush()?)
}
