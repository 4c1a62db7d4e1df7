//! The two panels: each replays a list and shows what is found of output 0.

use std::io::Write;
use std::path::Path;
use std::process::{Command, Stdio};

use panels::replay::replay;
use spoilt::table::ALL;
use spoilt::{switch, SpoiltPanel};

pub struct Shown {
    /// Progress_Value, in units.
    pub light: u32,
    /// Milliseconds.
    pub burning: u64,
}

/// The proved panel, by its replay program.
pub fn proved(program: &Path, list: &str) -> Result<Shown, String> {
    let failed = |error: std::io::Error| format!("{}: {error}", program.display());
    let mut child = Command::new(program)
        .stdin(Stdio::piped())
        .stdout(Stdio::piped())
        .spawn()
        .map_err(failed)?;
    let mut input = child.stdin.take().expect("piped above");
    // A list of a page fits the pipe; the program reads it when it comes to it.
    input.write_all(list.as_bytes()).map_err(failed)?;
    drop(input);
    let output = child.wait_with_output().map_err(failed)?;
    shown(&String::from_utf8_lossy(&output.stdout))
}

/// The bought code: the fast panel with that edit.
pub fn bought(list: &str) -> Result<Shown, String> {
    let index = ALL
        .iter()
        .position(|spoilt| spoilt.wrong.starts_with("The bought code"))
        .ok_or("no spoilt panel is the bought code")?;
    switch::turn_on(index + 1);
    let mut text = Vec::new();
    replay::<SpoiltPanel>(list.as_bytes(), &mut text).map_err(|error| error.to_string())?;
    shown(&String::from_utf8_lossy(&text))
}

/// What the text of a replay says of its first output.
fn shown(text: &str) -> Result<Shown, String> {
    let number = |name: &str| {
        let mut lines = text.lines().skip_while(|line| *line != "output 0");
        let line = lines.find_map(|line| line.strip_prefix(name)?.strip_prefix(' '));
        line.and_then(|number| number.parse().ok())
            .ok_or(format!("no `{name}` is found in the replay: {text}"))
    };
    Ok(Shown {
        light: number("progress")? as u32,
        burning: number("burning")?,
    })
}
