//! The declarations of src/raw.rs against the source of the libraries: every C function is declared, with its
//! arguments by name and type in their order; and every public call of the library has its Rust call.

use std::collections::BTreeMap;
use std::fs;
use std::path::{Path, PathBuf};

/// The arguments of each C function.
type Functions = BTreeMap<String, Vec<String>>;

fn root() -> PathBuf {
    Path::new(env!("CARGO_MANIFEST_DIR")).join("../..")
}

/// The texts of the files of a folder, and of those in it.
fn texts(folder: &Path) -> Vec<String> {
    let mut texts = Vec::new();
    for entry in fs::read_dir(folder).expect("a folder") {
        let path = entry.expect("an entry").path();
        if path.is_dir() {
            texts.extend(self::texts(&path));
        } else {
            texts.push(fs::read_to_string(path).expect("a text"));
        }
    }
    texts
}

/// `NAME: TYPE, NAME: TYPE` one by one, without spaces and line ends.
fn arguments(text: &str) -> Vec<String> {
    text.split(',')
        .map(|argument| argument.split_whitespace().collect())
        .filter(|argument: &String| !argument.is_empty())
        .collect()
}

/// What the source has: `pub extern "C" fn NAME(ARGUMENTS) -> i64`.
fn in_the_source(krate: &str) -> Functions {
    let mut functions = Functions::new();
    for text in texts(&root().join("crates").join(krate).join("src")) {
        for function in text.split("pub extern \"C\" fn ").skip(1) {
            let (name, rest) = function.split_once('(').expect("arguments");
            let (text, rest) = rest.split_once(')').expect("their end");
            assert!(rest.starts_with(" -> i64"), "{name}");
            functions.insert(name.into(), arguments(text));
        }
    }
    functions
}

/// What raw.rs has: `SYMBOL as NAME(ARGUMENTS);`, where some arguments stand for several.
fn declared() -> Functions {
    let path = Path::new(env!("CARGO_MANIFEST_DIR")).join("src/raw.rs");
    let text = fs::read_to_string(path).expect("src/raw.rs");
    let blocks = text.split("\ncalls! {").skip(1);
    let blocks = blocks.map(|block| block.split_once("\n}").expect("its end").0);
    let lines = blocks.flat_map(|block| block.split(");"));
    lines
        .filter_map(|line| line.split_once(" as "))
        .map(|(symbol, call)| {
            let (_, text) = call.split_once('(').expect("arguments");
            let all = arguments(text).into_iter();
            (symbol.trim().into(), all.flat_map(spread).collect())
        })
        .collect()
}

fn spread(argument: String) -> Vec<String> {
    match argument.as_str() {
        "crop:[f32;4]" => arguments("top: f32, bottom: f32, left: f32, right: f32"),
        "fields:[u32;4]" => arguments("t: u32, b: u32, l: u32, r: u32"),
        "given:Given" => {
            arguments("rings: u32, sectors: u32, cells: u32, radius: f32, face_width: u32")
        }
        _ => vec![argument],
    }
}

#[test]
fn the_declarations_are_those_of_the_source() {
    let mut source = in_the_source("capi_c");
    source.extend(in_the_source("viewer"));
    assert!(source.len() > 60);
    assert_eq!(declared(), source);
}

/// The public calls that a crate hands on: `pub use MODULE::call;` or `pub use MODULE::{Type, call};`.
fn public_calls(krate: &str) -> Vec<String> {
    let path = root().join("crates").join(krate).join("src/lib.rt");
    let text = fs::read_to_string(path).expect("a crate");
    let uses = text.split("\npub use ").skip(1);
    uses.map(|rest| rest.split_once(';').expect("its end").0)
        .filter_map(|path| path.rsplit("::").next())
        .flat_map(|names| names.trim_matches(['{', '}']).split(','))
        .map(str::trim)
        .filter(|name| name.starts_with(|letter: char| letter.is_lowercase()))
        .map(String::from)
        .collect()
}

/// A public call's name here: what makes the empty list is `Shown::none`.
fn name_here(call: &str) -> &str {
    match call {
        "none_shown" => "none",
        _ => call,
    }
}

#[test]
fn every_public_call_is_here() {
    let crates = ["bits", "payload", "display", "alignment"];
    let mut calls = crates.map(public_calls).concat();
    assert!(calls.len() > 40);
    calls.push("scene".into());
    let here = texts(&Path::new(env!("CARGO_MANIFEST_DIR")).join("src")).concat();
    for call in calls {
        let name = name_here(&call);
        assert!(here.contains(&format!("pub fn {name}(")), "no {call}");
    }
}
