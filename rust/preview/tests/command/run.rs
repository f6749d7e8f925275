//! Runs the command, and looks at what it wrote.

use std::fs;
use std::path::{Path, PathBuf};
use std::process::{Command, Output};

pub fn samples() -> PathBuf {
    Path::new(env!("CARGO_MANIFEST_DIR")).join("../../samples")
}

/// A place for a file, with nothing there.
pub fn place(name: &str) -> PathBuf {
    let file = Path::new(env!("CARGO_TARGET_TMPDIR")).join(name);
    let _ = fs::remove_file(&file);
    file
}

/// What `preview WORDS..` does.
pub fn run(words: &[&str]) -> Output {
    let mut command = Command::new(env!("CARGO_BIN_EXE_preview"));
    command.args(words).output().expect("it starts")
}

/// What `preview KIND FILE --out OUT WORDS..` does, the file being a sample or named by its whole path.
pub fn preview(kind: &str, sample: impl AsRef<Path>, out: &Path, words: &[&str]) -> Output {
    Command::new(env!("CARGO_BIN_EXE_preview"))
        .arg(kind)
        .arg(samples().join(sample))
        .arg("--out")
        .arg(out)
        .args(words)
        .output()
        .expect("it starts")
}

pub fn text(bytes: &[u8]) -> &str {
    std::str::from_utf8(bytes).expect("it writes text")
}

/// The picture that was written, after a look at the status and the listing.
pub fn picture(output: &Output, listing: &str, out: &Path) -> String {
    assert_eq!(text(&output.stderr), "");
    assert_eq!(output.status.code(), Some(0));
    assert_eq!(text(&output.stdout), listing);
    fs::read_to_string(out).expect("a picture")
}

/// The picture of a sample.
pub fn drawn(kind: &str, sample: &str, name: &str, words: &[&str]) -> String {
    let out = place(name);
    assert!(
        preview(kind, sample, &out, words).status.success(),
        "{sample}"
    );
    fs::read_to_string(out).expect("a picture")
}
