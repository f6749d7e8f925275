//! The command line.

use std::ffi::{OsStr, OsString};
use std::path::PathBuf;
use std::str::FromStr;

use crate::scene::Given;

pub enum Request {
    Help,
    Draw(Options),
}

pub struct Options {
    /// 0, 1 or 2; the scene call refuses any other number.
    pub kind: u32,
    pub file: PathBuf,
    pub out: PathBuf,
    pub drawn: Drawn,
}

/// What the page needs besides the payload.
#[derive(Clone, Copy)]
pub struct Drawn {
    pub given: Given,
    /// The mesh that is shown from three sides.
    pub mesh: usize,
}

impl Request {
    /// Of the words after the program's name. A wrong line is told by what is wrong with it.
    pub fn parse(mut words: impl Iterator<Item = OsString>) -> Result<Request, String> {
        let mut plain = Vec::new();
        let mut out = None;
        let mut drawn = Drawn {
            given: Given::default(),
            mesh: 0,
        };
        while let Some(word) = words.next() {
            match word.to_str() {
                Some("-h" | "--help") => return Ok(Request::Help),
                Some("--out") => out = Some(PathBuf::from(value("--out", words.next())?)),
                Some(flag) if flag.starts_with("--") => set(&mut drawn, flag, &mut words)?,
                _ => plain.push(word),
            }
        }
        let [kind, file] = <[OsString; 2]>::try_from(plain).map_err(|plain| said(&plain))?;
        let file = PathBuf::from(file);
        Ok(Request::Draw(Options {
            kind: kind_of(&kind)?,
            out: out.unwrap_or_else(|| file.with_extension("svg")),
            file,
            drawn,
        }))
    }
}

/// What is wrong with words that are not two.
fn said(plain: &[OsString]) -> String {
    match plain {
        [] => "takes a kind and a file".to_string(),
        [word] => format!("takes a kind and a file, not {} alone", word.display()),
        [_, _, rest @ ..] => {
            let words: Vec<String> = rest.iter().map(|word| word.display().to_string()).collect();
            format!("takes a kind and a file, and not {}", words.join(" "))
        }
    }
}

fn set(
    drawn: &mut Drawn,
    flag: &str,
    words: &mut impl Iterator<Item = OsString>,
) -> Result<(), String> {
    let given = &mut drawn.given;
    match flag {
        "--mesh" => drawn.mesh = whole(flag, words.next())?,
        "--rings" => given.rings = whole(flag, words.next())?,
        "--sectors" => given.sectors = whole(flag, words.next())?,
        "--cells" => given.cells = whole(flag, words.next())?,
        "--radius" => given.radius = number(flag, "a number", words.next())?,
        "--face-width" => given.face_width = whole(flag, words.next())?,
        _ => return Err(format!("there is no {flag}")),
    }
    Ok(())
}

fn value(flag: &str, word: Option<OsString>) -> Result<OsString, String> {
    word.ok_or_else(|| format!("{flag} takes a value"))
}

fn whole<N: FromStr>(flag: &str, word: Option<OsString>) -> Result<N, String> {
    number(flag, "a whole number", word)
}

fn number<N: FromStr>(flag: &str, what: &str, word: Option<OsString>) -> Result<N, String> {
    let word = value(flag, word)?;
    let read = word.to_str().and_then(|word| word.parse().ok());
    read.ok_or_else(|| format!("{flag} takes {what}, not {}", word.display()))
}

fn kind_of(word: &OsStr) -> Result<u32, String> {
    match word.to_str() {
        Some("equi") => Ok(0),
        Some("cbmp") => Ok(1),
        Some("mesh") => Ok(2),
        number => number
            .and_then(|number| number.parse().ok())
            .ok_or_else(|| {
                format!(
                    "a kind is equi, cbmp or mesh (0, 1 or 2), not {}",
                    word.display()
                )
            }),
    }
}

#[cfg(test)]
mod tests {
    use super::*;

    fn parse(line: &str) -> Result<Request, String> {
        Request::parse(line.split_whitespace().map(OsString::from))
    }

    fn options(line: &str) -> Options {
        match parse(line) {
            Ok(Request::Draw(options)) => options,
            _ => panic!("{line}"),
        }
    }

    #[test]
    fn kinds_by_name_and_by_number() {
        for (word, kind) in [("equi", 0), ("cbmp", 1), ("mesh", 2), ("2", 2), ("7", 7)] {
            assert_eq!(options(&format!("{word} a.bin")).kind, kind);
        }
    }

    #[test]
    fn defaults() {
        let options = options("mesh folder/a.bin");
        assert_eq!(options.file, PathBuf::from("folder/a.bin"));
        assert_eq!(options.out, PathBuf::from("folder/a.svg"));
        let Drawn { given, mesh } = options.drawn;
        assert_eq!((given.rings, given.sectors, given.cells), (18, 36, 4));
        assert_eq!((given.radius, given.face_width, mesh), (1.0, 1024, 0));
    }

    #[test]
    fn flags_anywhere() {
        let line = "--rings 2 equi --sectors 3 a --cells 5 --radius -1.5 --face-width 512 --out b --mesh 6";
        let options = options(line);
        assert_eq!(options.out, PathBuf::from("b"));
        let Drawn { given, mesh } = options.drawn;
        assert_eq!((given.rings, given.sectors, given.cells), (2, 3, 5));
        assert_eq!((given.radius, given.face_width, mesh), (-1.5, 512, 6));
    }

    #[test]
    fn help_anywhere() {
        for line in ["-h", "--help", "mesh --help", "mesh a b c -h --colour red"] {
            assert!(matches!(parse(line), Ok(Request::Help)), "{line}");
        }
    }

    #[test]
    fn a_wrong_line_says_what_is_wrong() {
        for (line, message) in [
            ("", "takes a kind and a file"),
            ("mesh", "takes a kind and a file, not mesh alone"),
            ("mesh a b c", "takes a kind and a file, and not b c"),
            (
                "ball a",
                "a kind is equi, cbmp or mesh (0, 1 or 2), not ball",
            ),
            ("-1 a", "a kind is equi, cbmp or mesh (0, 1 or 2), not -1"),
            ("mesh a --rings", "--rings takes a value"),
            ("mesh a --rings x", "--rings takes a whole number, not x"),
            ("mesh a --rings -1", "--rings takes a whole number, not -1"),
            ("mesh a --radius x", "--radius takes a number, not x"),
            ("mesh a --mesh 1.5", "--mesh takes a whole number, not 1.5"),
            ("mesh a --out", "--out takes a value"),
            ("mesh a --colour red", "there is no --colour"),
        ] {
            assert_eq!(parse(line).err().as_deref(), Some(message), "{line}");
        }
    }
}
