//! Copies the reference's sources into OUT_DIR with their private items made visible, if they are the ones meant: those
//! whose digests SHA256SUMS has.

mod sha256;

use std::env;
use std::fs;
use std::path::{Path, PathBuf};
use std::process::exit;

const FILES: [&str; 2] = ["mesh", "pano"];

/// Where the sources are if REFERENCE_SRC does not say, seen from the project's root.
const DEFAULT_FOLDER: &str = "../shared/docs/src/src";

/// The digests, as `sha256sum` prints them.
const SUMS: &str = include_str!("SHA256SUMS");

fn main() {
    println!("cargo:rerun-if-env-changed=REFERENCE_SRC");
    let from = source_folder();
    let to = PathBuf::from(env::var_os("OUT_DIR").expect("cargo sets OUT_DIR"));
    let mut modules = String::new();
    for name in FILES {
        let file = format!("{name}.rs");
        let original = read(&from.join(&file));
        if !is_meant(&file, &original) {
            fail(&format!(
                "{} is not the file meant: rust/reference/SHA256SUMS has another digest",
                from.join(&file).display()
            ));
        }
        let copy = made_visible(&original);
        if without_visibility(&original) != without_visibility(&copy) {
            fail(&format!("the copy of {file} differs in more than `pub `"));
        }
        write(&to.join(&file), &copy);
        modules.push_str(&format!("pub mod {name};\n"));
    }
    write(&to.join("modules.rs"), &modules);
}

/// The folder in REFERENCE_SRC, which may be relative to the project's root.
fn source_folder() -> PathBuf {
    let here = PathBuf::from(env::var_os("CARGO_MANIFEST_DIR").expect("cargo sets it"));
    let folder = env::var_os("REFERENCE_SRC").unwrap_or(DEFAULT_FOLDER.into());
    here.join("../..").join(folder)
}

fn is_meant(file: &str, text: &str) -> bool {
    SUMS.lines()
        .any(|line| line == format!("{}  {file}", sha256::digest(text.as_bytes())))
}

fn read(path: &Path) -> String {
    println!("cargo:rerun-if-changed={}", path.display());
    fs::read_to_string(path).unwrap_or_else(|error| {
        fail(&format!(
            "no reference source {}: {error}; set REFERENCE_SRC to the folder of mesh.rs and pano.rs",
            path.display()
        ))
    })
}

fn write(path: &Path, text: &str) {
    if let Err(error) = fs::write(path, text) {
        fail(&format!("cannot write {}: {error}", path.display()));
    }
}

fn fail(message: &str) -> ! {
    eprintln!("{message}");
    exit(1)
}

/// The block at the margin that a line stands in.
#[derive(Clone, Copy)]
enum Block {
    Fields,
    Methods,
    Other,
}

fn made_visible(text: &str) -> String {
    let mut block = Block::Other;
    let mut copy = String::new();
    for line in text.split_inclusive('\n') {
        let code = line.trim_start_matches(' ');
        let indent = line.len() - code.len();
        if is_private_item(indent, code, block) {
            copy.push_str(&line[..indent]);
            copy.push_str("pub ");
            copy.push_str(code);
        } else {
            copy.push_str(line);
        }
        if indent == 0 && !code.trim_end().is_empty() {
            block = opened_by(code.trim_end());
        }
    }
    copy
}

/// What a line at the margin opens. Items of trait impls cannot be made `pub`.
fn opened_by(code: &str) -> Block {
    let code = code.strip_prefix("pub ").unwrap_or(code);
    if !code.ends_with('{') {
        Block::Other
    } else if code.starts_with("struct ") {
        Block::Fields
    } else if code.starts_with("impl") && !code.contains(" for ") {
        Block::Methods
    } else {
        Block::Other
    }
}

fn is_private_item(indent: usize, code: &str, block: Block) -> bool {
    match (indent, block) {
        (0, _) => starts_item(code),
        (4, Block::Methods) => starts_item(code),
        (4, Block::Fields) => starts_field(code),
        _ => false,
    }
}

fn starts_item(code: &str) -> bool {
    ["fn ", "unsafe fn ", "const ", "struct "]
        .iter()
        .any(|word| code.starts_with(word))
}

fn starts_field(code: &str) -> bool {
    let name = code.split(':').next().unwrap_or("");
    name.len() < code.len() && name.chars().all(|c| c.is_alphanumeric() || c == '_')
}

/// The text without the `pub ` at the head of its lines.
fn without_visibility(text: &str) -> String {
    let mut bare = String::new();
    for line in text.split_inclusive('\n') {
        let code = line.trim_start_matches(' ');
        bare.push_str(&line[..line.len() - code.len()]);
        bare.push_str(code.strip_prefix("pub ").unwrap_or(code));
    }
    bare
}
