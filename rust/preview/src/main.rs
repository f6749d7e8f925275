//! Draws a payload as an SVG picture and lists what was read. Every number of the drawing comes from the scene call of
//! the library; nothing here parses a payload. `preview --help` says how it is used.

mod axes;
mod colours;
mod cube;
mod eyes;
mod letters;
mod listing;
mod modes;
mod numbers;
mod options;
mod page;
mod panels;
mod plane;
mod ranges;
mod scene;
mod sides;
mod space;
mod sphere;
mod submeshes;
mod svg;
mod table;
#[cfg(test)]
mod testing;
mod textures;
mod ticks;
mod usage;

use std::fs::{self, File};
use std::io::{self, Read, Write};
use std::path::Path;
use std::process::ExitCode;

use numbers::counted;
use options::{Options, Request};
use scene::Reading;
use usage::{HINT, USAGE};

/// Bytes of a file that are read: one more than a payload may have, so that a longer file is refused as one.
const READ: u64 = 67_108_865;

fn main() -> ExitCode {
    let done = match Request::parse(std::env::args_os().skip(1)) {
        Ok(Request::Help) => print(USAGE),
        Ok(Request::Draw(options)) => run(&options),
        Err(message) => {
            eprintln!("preview: {message}\n{HINT}");
            return ExitCode::from(2);
        }
    };
    match done {
        Ok(()) => ExitCode::SUCCESS,
        Err(message) => {
            eprintln!("{message}");
            ExitCode::FAILURE
        }
    }
}

fn run(options: &Options) -> Result<(), String> {
    let payload = read(&options.file).map_err(|error| failed(&options.file, error))?;
    let scene = scene::scene(options.kind, &payload, options.drawn.given)?;
    has_mesh(&scene.reading, options.drawn.mesh)?;
    let name = options.file.file_name().unwrap_or_default();
    let unread = scene.reading.unread(payload.len());
    let (listing, picture) = page::page(&name.to_string_lossy(), options.drawn, &scene, unread);
    write(options, &picture)?;
    print(&listing.text())
}

/// Whether the mesh to show is there. A list without meshes shows none.
fn has_mesh(reading: &Reading, mesh: usize) -> Result<(), String> {
    match reading {
        Reading::Meshes(counts) if counts.meshes.max(1) <= mesh as u64 => {
            let meshes = counted(counts.meshes, "mesh", "meshes");
            Err(format!(
                "preview: --mesh {mesh}: the list has {meshes}, numbered from 0"
            ))
        }
        _ => Ok(()),
    }
}

fn print(text: &str) -> Result<(), String> {
    io::stdout()
        .write_all(text.as_bytes())
        .map_err(|error| format!("preview: standard output: {error}"))
}

fn read(file: &Path) -> io::Result<Vec<u8>> {
    let mut payload = Vec::new();
    File::open(file)?.take(READ).read_to_end(&mut payload)?;
    Ok(payload)
}

/// Writes the picture, but never over the payload.
fn write(options: &Options, picture: &str) -> Result<(), String> {
    let out = &options.out;
    if let (Ok(one), Ok(other)) = (fs::canonicalize(out), fs::canonicalize(&options.file)) {
        if one == other {
            return Err(format!(
                "preview: {}: is the payload; name another file with --out",
                out.display()
            ));
        }
    }
    fs::write(out, picture).map_err(|error| failed(out, error))
}

fn failed(file: &Path, error: io::Error) -> String {
    format!("preview: {}: {error}", file.display())
}
