//! Says how many points a mesh list draws: `measure FILE`.

use std::env::args;
use std::fs::read;
use std::process::ExitCode;

use hoodsorrel::viewer::measure_meshes;

fn main() -> ExitCode {
    let Some(file) = args().nth(1) else {
        eprintln!("usage: measure FILE");
        return ExitCode::from(2);
    };
    let payload = match read(&file) {
        Ok(payload) => payload,
        Err(error) => {
            eprintln!("{file}: {error}");
            return ExitCode::from(2);
        }
    };
    match measure_meshes(&payload) {
        Ok(points) => {
            println!("{points} points");
            ExitCode::SUCCESS
        }
        Err(refusal) => {
            eprintln!("{refusal}");
            ExitCode::FAILURE
        }
    }
}
