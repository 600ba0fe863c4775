//! `yurzhoad check`: whether a library or a rule is accepted.

use std::io::Write;

use crate::failure::Failure;
use crate::input::Input;
use crate::output::counted;
use crate::reader;
use crate::summary::Summary;

/// Checks a library, and writes how many nodes it has.
pub fn library(input: &Input, json: bool, out: &mut dyn Write) -> Result<(), Failure> {
    let nodes = input.checked_library()?.nodes();
    match json {
        true => writeln!(out, "{{\"accepted\":true,\"nodes\":{nodes}}}")?,
        false => writeln!(out, "accepted: {}", counted(nodes, "node"))?,
    }
    Ok(())
}

/// Checks a rule, and writes how near it comes to the limits.
pub fn rule(input: &Input, json: bool, out: &mut dyn Write) -> Result<(), Failure> {
    let rule = input.checked_rule()?;
    let summary = Summary::of(&reader::parts(&rule));
    let (tests, nesting, steps) = (summary.tests, summary.nesting, summary.most_steps());
    match json {
        true => writeln!(
            out,
            "{{\"accepted\":true,\"tests\":{tests},\"nesting\":{nesting},\"steps\":{steps}}}"
        )?,
        false => writeln!(out, "accepted: {summary}")?,
    }
    Ok(())
}
