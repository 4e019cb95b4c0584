//! Links the library: the file that the environment variable CRPM_LIBRARY
//! names (an absolute path), else target/staticlib/libcapi.a of this repository.

use std::env;
use std::path::{Path, PathBuf};

fn main() {
    println!("cargo::rerun-if-env-changed=CRPM_LIBRARY");
    match library() {
        Ok(path) => link(&path),
        Err(reason) => println!("cargo::error={reason}; run `scripts/prove capi` first, or set CRPM_LIBRARY"),
    }
}

/// The library's file, or why there is none.
fn library() -> Result<PathBuf, String> {
    let package = PathBuf::from(env::var_os("CARGO_MANIFEST_DIR").expect("cargo sets it"));
    let (named, said) = match env::var_os("CRPM_LIBRARY") {
        Some(path) => (PathBuf::from(path), "CRPM_LIBRARY names no file"),
        None => (PathBuf::from("../../target/staticlib/libcapi.a"), "the library is missing"),
    };
    let path = package.join(named);
    println!("cargo::rerun-if-changed={}", path.display());
    match path.is_file() {
        true => Ok(path),
        false => Err(format!("{said}: {}", path.display())),
    }
}

fn link(path: &Path) {
    let (Some(folder), Some(name)) = (path.parent(), path.file_name()) else { return };
    println!("cargo::rustc-link-search=native={}", folder.display());
    println!("cargo::rustc-link-lib=static:+verbatim={}", name.display());
}
