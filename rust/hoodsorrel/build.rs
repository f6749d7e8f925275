//! Links the static libraries that `.ci/libraries` made.

use std::env;
use std::path::{Path, PathBuf};
use std::process::exit;

const LIBRARIES: [&str; 2] = ["capi", "viewer"];

/// The folder of the libraries, which may be relative to the project's root.
const VARIABLE: &str = "HOODSORREL_LIB_DIR";

/// Where they are if the variable does not say, seen from the project's root.
const DEFAULT_FOLDER: &str = "target/staticlib";

fn main() {
    println!("cargo:rerun-if-env-changed={VARIABLE}");
    let folder = folder();
    println!("cargo:rustc-link-search=native={}", folder.display());
    for name in LIBRARIES {
        link(&folder, name);
    }
}

fn link(folder: &Path, name: &str) {
    let library = folder.join(format!("lib{name}.a"));
    println!("cargo:rerun-if-changed={}", library.display());
    if !library.is_file() {
        eprintln!(
            "no {}: build it with `.ci/libraries`, or set {VARIABLE} to its folder",
            library.display()
        );
        exit(1);
    }
    println!("cargo:rustc-link-lib=static={name}");
}

fn folder() -> PathBuf {
    let here = PathBuf::from(env::var_os("CARGO_MANIFEST_DIR").expect("cargo sets it"));
    let folder = env::var_os(VARIABLE).unwrap_or(DEFAULT_FOLDER.into());
    here.join("../..").join(folder)
}
