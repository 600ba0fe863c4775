//! Links the archive of the proved code, which must have been built before.

use std::env;
use std::path::{Path, PathBuf};

/// Names another folder of the archive, for builds outside the repository. A
/// relative one is taken from this package.
const FOLDER: &str = "YURZHOAD_ARCHIVE_DIR";

fn main() {
    println!("cargo:rerun-if-env-changed={FOLDER}");
    println!("cargo:rerun-if-changed=build.rs");
    let folder = folder();
    let archive = folder.join("libexports.a");
    println!("cargo:rerun-if-changed={}", archive.display());
    assert!(
        archive.is_file(),
        "{} is missing: run `rt lib` in crates/exports first, \
         or name the folder of libexports.a in {FOLDER}",
        archive.display()
    );
    // The linker may run in another folder than this script does.
    let folder = folder.canonicalize().expect("the folder is there");
    println!("cargo:rustc-link-search=native={}", folder.display());
    println!("cargo:rustc-link-lib=static=exports");
}

/// The folder that is named, or the one into which `rt` writes.
fn folder() -> PathBuf {
    if let Some(named) = env::var_os(FOLDER) {
        return PathBuf::from(named);
    }
    let package = env::var("CARGO_MANIFEST_DIR").expect("cargo sets the package's folder");
    Path::new(&package).join("../../crates/exports/out")
}
