//! The command line.

use std::path::PathBuf;

pub const USAGE: &str = "spoilt [--frames N] [--seed S] [--write FILE | --check FILE]";

pub enum Page {
    Write(PathBuf),
    Check(PathBuf),
}

pub struct Arguments {
    /// The least number of frames, copies put in later not counted.
    pub frames: u64,
    pub seed: u64,
    pub page: Option<Page>,
}

impl Arguments {
    pub fn from_command_line(mut words: impl Iterator<Item = String>) -> Result<Arguments, String> {
        // The lists of the gate.
        let mut arguments = Arguments {
            frames: 100_000,
            seed: 1,
            page: None,
        };
        while let Some(word) = words.next() {
            let value = words.next().ok_or(format!("{word} needs a value"))?;
            let number = || value.parse().map_err(|_| format!("{value} is no number"));
            match word.as_str() {
                "--frames" => arguments.frames = number()?,
                "--seed" => arguments.seed = number()?,
                "--write" => arguments.page = Some(Page::Write(PathBuf::from(value))),
                "--check" => arguments.page = Some(Page::Check(PathBuf::from(value))),
                _ => return Err(format!("unknown word {word}")),
            }
        }
        Ok(arguments)
    }
}
