//! The command line.

use std::path::PathBuf;
use std::time::Duration;

use generator::{suites, Suite};

use crate::subject::Subject;

pub const USAGE: &str = "compare (--program PATH | --self) [--frames N] [--seed S] \
                         [--suite NAME [--list I]] [--list-length L] [--patience SECONDS] \
                         [--all-events] [--counts]\ncompare --names";

pub struct Arguments {
    pub subject: Subject,
    /// The least number of frames, of which each suite has its share; copies put
    /// in later are not counted.
    pub frames: u64,
    pub seed: u64,
    /// This one alone, if given.
    pub suite: Option<&'static Suite>,
    /// The number of the first list.
    pub first_list: u64,
    /// Without it every list has its own length.
    pub list_length: Option<usize>,
    /// How long a program may take for one list.
    pub patience: Duration,
    pub all_events: bool,
    pub counts: bool,
}

pub enum Task {
    Compare(Arguments),
    /// Writes the names of all that the suites must reach.
    Names,
}

impl Task {
    pub fn from_command_line(mut words: impl Iterator<Item = String>) -> Result<Task, String> {
        let mut subject = None;
        let mut arguments = Arguments {
            subject: Subject::FastPanel,
            frames: 100_000,
            seed: 1,
            suite: None,
            first_list: 0,
            list_length: None,
            patience: Duration::from_secs(120),
            all_events: false,
            counts: false,
        };
        while let Some(word) = words.next() {
            let mut value = || words.next().ok_or(format!("{word} needs a value"));
            match word.as_str() {
                "--names" => return Ok(Task::Names),
                "--program" => subject = Some(Subject::Program(PathBuf::from(value()?))),
                "--self" => subject = Some(Subject::FastPanel),
                "--frames" => arguments.frames = number(&value()?)?,
                "--seed" => arguments.seed = number(&value()?)?,
                "--suite" => {
                    let name = value()?;
                    let suite = suites::named(&name).ok_or(format!("no suite {name}"))?;
                    arguments.suite = Some(suite);
                }
                "--list" => arguments.first_list = number(&value()?)?,
                "--list-length" => arguments.list_length = Some(number(&value()?)?.max(1) as usize),
                "--patience" => arguments.patience = Duration::from_secs(number(&value()?)?),
                "--all-events" => arguments.all_events = true,
                "--counts" => arguments.counts = true,
                _ => return Err(format!("unknown word {word}")),
            }
        }
        arguments.subject = subject.ok_or("either --program PATH or --self")?;
        Ok(Task::Compare(arguments))
    }
}

fn number(word: &str) -> Result<u64, String> {
    word.parse()
        .map_err(|_| format!("{word} is no whole number"))
}
