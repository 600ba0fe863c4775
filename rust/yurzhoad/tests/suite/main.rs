//! What the crate adds to the archive: words, excerpts, entries, paths and
//! buffers that are kept. What the archive itself decides is tested in
//! `tests/archive`; here it is only asked whether it arrives.

mod amounts;
mod blanks;
mod checks;
mod counts;
mod declarations;
mod entries;
mod excerpts;
mod grounds;
mod limits;
mod paths;
mod selections;
mod selector_reuse;
mod value_lists;
mod wordings;

use std::fs;
use std::path::Path;

use evaluator::samples::document;

/// A file of the repository.
fn file(name: &str) -> String {
    let root = Path::new(env!("CARGO_MANIFEST_DIR")).join("../..");
    fs::read_to_string(root.join(name)).unwrap_or_else(|error| panic!("{name}: {error}"))
}

/// A library with a drug that has two names, on the lines 16 and 24. The
/// library has a name of its own.
fn named_twice() -> Vec<u8> {
    document(&[
        ('e', 0, "lib", ""),
        ('a', 1, "name", "heparin"),
        ('e', 1, "drug", ""),
        ('a', 2, "name", "heparin"),
        ('a', 2, "unit", "mg"),
        ('a', 2, "name", "again"),
    ])
}
