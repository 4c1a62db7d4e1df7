//! A replay program as a contestant: its start, its reading and its writing
//! are timed with it.

use std::io::{Read, Write};
use std::path::{Path, PathBuf};
use std::process::{Command, Stdio};

use generator::stream::Stream;
use panels::list_text::write_list;
use panels::Answer;

use crate::contestants::{digest, Contestant, EMPTY_DIGEST};

pub struct Program {
    path: PathBuf,
    name: String,
}

impl Program {
    pub fn new(path: &Path) -> Program {
        let file = path.file_name().unwrap_or(path.as_os_str());
        Program {
            path: path.to_path_buf(),
            name: format!("{} (text)", file.to_string_lossy()),
        }
    }

    fn replay(&self, list: &str) -> Result<String, String> {
        let mut child = Command::new(&self.path)
            .stdin(Stdio::piped())
            .stdout(Stdio::piped())
            .spawn()
            .map_err(|error| format!("{} does not start: {error}", self.path.display()))?;
        let mut input = child.stdin.take().expect("piped above");
        let mut output = child.stdout.take().expect("piped above");
        let mut text = String::new();
        std::thread::scope(|scope| {
            scope.spawn(move || {
                let _ = input.write_all(list.as_bytes());
            });
            output.read_to_string(&mut text)
        })
        .map_err(|error| error.to_string())?;
        child.wait().map_err(|error| error.to_string())?;
        Ok(text)
    }
}

impl Contestant for Program {
    fn name(&self) -> &str {
        &self.name
    }

    fn run(&mut self, stream: &Stream) -> Result<u64, String> {
        let text = self.replay(&write_list(&stream.heading().text(), &stream.frames))?;
        let mut all = EMPTY_DIGEST;
        for line in text.lines().take_while(|line| *line != "--") {
            all = digest(all, answer_from(line)?);
        }
        Ok(all)
    }
}

fn answer_from(line: &str) -> Result<Answer, String> {
    let wrong = || format!("`{line}` is no answer");
    match line.split_once(' ') {
        None if line == "Done" => Ok(Answer::Done),
        None if line == "Absent" => Ok(Answer::Absent),
        Some(("Value", value)) => u32::from_str_radix(value, 16)
            .map(Answer::Value)
            .map_err(|_| wrong()),
        Some(("Refused", number)) => number.parse().map(Answer::Refused).map_err(|_| wrong()),
        _ => Err(wrong()),
    }
}
