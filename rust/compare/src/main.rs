//! Compares the calls of the library with the Rust that they replace.
//!
//! `compare [--long] [--seed N] [SUBJECT]...`
//!
//! Or writes the list of stored answers: `compare --answers [--seed N]`

mod alignment;
mod answers;
mod bits;
mod crops;
mod display;
mod grids;
mod inputs;
mod lent;
mod mesh;
mod options;
mod refusals;
mod scene;
mod tally;
mod view;

use std::io::{stdout, BufWriter};
use std::process::ExitCode;

use options::Options;
use tally::{Found, Tally};

type Subject = (&'static str, fn(&Options) -> Vec<Tally>);

const FOLDERS: [&[Subject]; 8] = [
    bits::SUBJECTS,
    crops::SUBJECTS,
    grids::SUBJECTS,
    mesh::SUBJECTS,
    scene::SUBJECTS,
    display::SUBJECTS,
    alignment::SUBJECTS,
    view::SUBJECTS,
];

fn subjects() -> impl Iterator<Item = &'static Subject> {
    FOLDERS.into_iter().flatten()
}

fn main() -> ExitCode {
    let parsed = Options::parse(std::env::args().skip(1)).and_then(known_subjects);
    let options = match parsed {
        Ok(options) => options,
        Err(message) => {
            eprintln!("compare: {message}");
            return ExitCode::from(2);
        }
    };
    if options.answers {
        return write_answers(&options);
    }
    if compare(&options) {
        ExitCode::SUCCESS
    } else {
        ExitCode::FAILURE
    }
}

fn write_answers(options: &Options) -> ExitCode {
    let mut out = BufWriter::new(stdout().lock());
    match answers::write(options, &mut out) {
        Ok(()) => ExitCode::SUCCESS,
        Err(error) => {
            eprintln!("compare: {error}");
            ExitCode::FAILURE
        }
    }
}

fn known_subjects(options: Options) -> Result<Options, String> {
    for word in &options.subjects {
        if !subjects().any(|(name, _)| name == word) {
            let names: Vec<&str> = subjects().map(|(name, _)| *name).collect();
            return Err(format!("no subject {word} among {}", names.join(" ")));
        }
    }
    Ok(options)
}

/// Runs the selected subjects and prints what they found. Whether all is well.
fn compare(options: &Options) -> bool {
    println!("seed {}", options.seed);
    let mut found = Found::default();
    for (_, run) in subjects().filter(|(name, _)| options.selects(name)) {
        let tallies = run(options);
        tallies.iter().for_each(Tally::print);
        found.add(&tallies);
    }
    found.print();
    found.is_well()
}
