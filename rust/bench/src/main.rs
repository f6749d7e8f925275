//! Times of the reference and of the library on the same data, the two sides in turn.
//!
//! `bench` prints the tables. For an instruction counter, `bench once rust|ours small|random|tiny` makes one run of one
//! side of the mesh reader, in `meshes::counted`, and `bench once rust|ours writer small|random` one of the writer, in
//! `writer::counted`.

mod fields;
mod fills;
mod look_up;
mod mesh_box;
mod mesh_lists;
mod meshes;
mod random;
mod readers;
mod scene;
mod shares;
mod timing;
mod triangles;
mod writer;

use std::process::ExitCode;

fn main() -> ExitCode {
    let words: Vec<String> = std::env::args().skip(1).collect();
    match run(&words.iter().map(String::as_str).collect::<Vec<_>>()) {
        Ok(()) => ExitCode::SUCCESS,
        Err(message) => {
            eprintln!("bench: {message}");
            ExitCode::FAILURE
        }
    }
}

fn run(words: &[&str]) -> Result<(), String> {
    match words {
        [] => [
            fields::table,
            fills::table,
            meshes::table,
            readers::table,
            writer::table,
            scene::table,
            triangles::table,
            shares::table,
            look_up::table,
        ]
        .iter()
        .try_for_each(|table| table()),
        ["once", side, list] => meshes::once(side, list),
        ["once", side, "writer", steps] => writer::once(side, steps),
        _ => Err(
            "asked for none of the tables, `once SIDE LIST` and `once SIDE writer STEPS`"
                .to_string(),
        ),
    }
}
