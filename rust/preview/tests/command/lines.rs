//! The command line: help, and lines that are wrong.

use crate::run::{place, preview, run, text};

#[test]
fn help_is_printed_and_ends_with_0() {
    let out = place("help.svg");
    let late = preview("mesh", "m1.bin", &out, &["--help"]);
    for output in [run(&["--help"]), run(&["-h"]), late] {
        assert_eq!(output.status.code(), Some(0));
        assert_eq!(text(&output.stderr), "");
        assert!(text(&output.stdout).starts_with("usage: preview KIND FILE"));
    }
    assert!(!out.exists());
}

#[test]
fn help_names_every_kind_and_flag() {
    let output = run(&["--help"]);
    let usage = text(&output.stdout);
    for kind in ["equi or 0", "cbmp or 1", "mesh or 2"] {
        assert!(usage.contains(kind), "{kind}");
    }
    for flag in [
        "out",
        "mesh",
        "rings",
        "sectors",
        "cells",
        "radius",
        "face-width",
        "help",
    ] {
        assert!(usage.contains(&format!("--{flag}")), "{flag}");
    }
    assert!(usage.lines().all(|line| line.chars().count() <= 100));
}

#[test]
fn a_wrong_line_says_what_is_wrong_and_exits_with_2() {
    for (line, message) in [
        ("", "takes a kind and a file"),
        ("mesh", "takes a kind and a file, not mesh alone"),
        ("mesh a another", "takes a kind and a file, and not another"),
        (
            "ball a",
            "a kind is equi, cbmp or mesh (0, 1 or 2), not ball",
        ),
        ("mesh a --colour red", "there is no --colour"),
        ("mesh a --rings", "--rings takes a value"),
        (
            "mesh a --rings many",
            "--rings takes a whole number, not many",
        ),
    ] {
        let words: Vec<&str> = line.split_whitespace().collect();
        let output = run(&words);
        assert_eq!(output.status.code(), Some(2), "{line}");
        let expected = format!("preview: {message}\npreview --help shows the usage\n");
        assert_eq!(text(&output.stderr), expected);
        assert_eq!(text(&output.stdout), "");
    }
}

#[test]
fn a_wrong_line_writes_nothing() {
    let out = place("wrong.svg");
    let output = preview("mesh", "m1.bin", &out, &["--rings", "many"]);
    assert_eq!(output.status.code(), Some(2));
    assert!(!out.exists());
}
