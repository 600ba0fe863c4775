//! The command `yurzhoad`; all it does is in the library beside it.
#![forbid(unsafe_code)]

use std::env;
use std::ffi::OsString;
use std::io::{self, BufWriter};
use std::process::ExitCode;

/// Thousands of lines may be written: not each by a call of the system.
const BUFFER_BYTES: usize = 65_536;

fn main() -> ExitCode {
    let arguments: Vec<OsString> = env::args_os().skip(1).collect();
    let mut input = io::stdin().lock();
    let mut out = BufWriter::with_capacity(BUFFER_BYTES, io::stdout().lock());
    let mut err = io::stderr().lock();
    let status = yurzhoad_command::run(&arguments, &mut input, &mut out, &mut err);
    ExitCode::from(status)
}
