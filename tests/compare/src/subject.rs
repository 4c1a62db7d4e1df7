//! What is compared with the plain panel: a program, started once a list, or
//! the fast panel in this process.

use std::io::{Read, Write};
use std::path::PathBuf;
use std::process::{Child, Command, Stdio};
use std::sync::mpsc::{channel, Receiver};
use std::thread;
use std::time::Duration;

use panels::replay::replay;
use panels::FastPanel;

pub enum Subject {
    Program(PathBuf),
    FastPanel,
}

/// A list under way.
pub enum Run {
    Program {
        child: Child,
        written: Receiver<std::io::Result<Vec<u8>>>,
    },
    FastPanel {
        list: String,
    },
}

impl Subject {
    pub fn start(&self, list: String) -> Result<Run, String> {
        match self {
            Subject::FastPanel => Ok(Run::FastPanel { list }),
            Subject::Program(path) => {
                let mut child = Command::new(path)
                    .stdin(Stdio::piped())
                    .stdout(Stdio::piped())
                    .spawn()
                    .map_err(|error| format!("{} does not start: {error}", path.display()))?;
                let mut input = child.stdin.take().expect("piped above");
                let mut output = child.stdout.take().expect("piped above");
                // Both ends at once, so that neither pipe fills up. A program
                // that stops reading shows by the answers it does not give.
                thread::spawn(move || {
                    let _ = input.write_all(list.as_bytes());
                });
                let (sender, written) = channel();
                thread::spawn(move || {
                    let mut text = Vec::new();
                    let end = output.read_to_end(&mut text);
                    // Nobody waits any more if patience has run out.
                    let _ = sender.send(end.map(|_| text));
                });
                Ok(Run::Program { child, written })
            }
        }
    }
}

impl Run {
    /// Everything the subject writes. A program that lives the milliseconds
    /// itself would hold us for years: patience has an end.
    pub fn finish(self, patience: Duration) -> Result<String, String> {
        let text = match self {
            Run::FastPanel { list } => {
                let mut text = Vec::new();
                replay::<FastPanel>(list.as_bytes(), &mut text)
                    .map_err(|error| error.to_string())?;
                text
            }
            Run::Program { mut child, written } => {
                let text = written.recv_timeout(patience);
                if text.is_err() {
                    // It may have ended by itself in the meantime.
                    let _ = child.kill();
                }
                child.wait().map_err(|error| error.to_string())?;
                text.map_err(|_| format!("no end after {} seconds", patience.as_secs()))?
                    .map_err(|error| error.to_string())?
            }
        };
        Ok(String::from_utf8_lossy(&text).into_owned())
    }
}
