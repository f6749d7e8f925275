//! The command line.

pub struct Options {
    pub seed: u64,
    /// Sweep over all 2^32 inputs where a call has so many.
    pub long: bool,
    /// Write the list of stored answers instead of comparing.
    pub answers: bool,
    /// The names of the subjects to run; none means all.
    pub subjects: Vec<String>,
}

impl Options {
    pub fn parse(mut words: impl Iterator<Item = String>) -> Result<Options, String> {
        let mut options = Options {
            seed: 1,
            long: false,
            answers: false,
            subjects: Vec::new(),
        };
        while let Some(word) = words.next() {
            match word.as_str() {
                "--long" => options.long = true,
                "--answers" => options.answers = true,
                "--seed" => options.seed = seed(words.next())?,
                _ if word.starts_with('-') => return Err(format!("unknown flag {word}")),
                _ => options.subjects.push(word),
            }
        }
        if options.answers && (options.long || !options.subjects.is_empty()) {
            return Err("--answers takes no --long and no subjects".into());
        }
        Ok(options)
    }

    pub fn selects(&self, name: &str) -> bool {
        self.subjects.is_empty() || self.subjects.iter().any(|subject| subject == name)
    }
}

fn seed(word: Option<String>) -> Result<u64, String> {
    word.and_then(|word| word.parse().ok())
        .ok_or("--seed takes a number".into())
}
