//! Replays a list from a reader: a line for each answer, a line `--`, then
//! what is found. A bad line ends the replay with a line that says so.

use std::io::{self, BufRead, Write};
use std::process::ExitCode;

use crate::found::Found;
use crate::list_text::{read_heading, read_string, refused_start, Line};
use crate::panel::Panel;

/// Whether the list was good.
pub fn replay<Chosen: Panel>(input: impl BufRead, mut output: impl Write) -> io::Result<bool> {
    let mut panel: Option<Chosen> = None;
    let mut line_number = 0;
    for line in input.split(b'\n') {
        line_number += 1;
        let line = line?;
        let line = String::from_utf8_lossy(&line);
        match take_line(&mut panel, &line) {
            Ok(Some(answer)) => writeln!(output, "{answer}")?,
            Ok(None) => {}
            Err(wrong) => {
                writeln!(output, "line {line_number}: {wrong}")?;
                output.flush()?;
                return Ok(false);
            }
        }
    }
    let Some(panel) = panel else {
        writeln!(
            output,
            "line {}: the list ended before `outputs N`",
            line_number + 1
        )?;
        output.flush()?;
        return Ok(false);
    };
    write_found(&mut output, &panel.found())?;
    output.flush()?;
    Ok(true)
}

/// The answer, if the line held a string of bytes.
fn take_line<Chosen: Panel>(
    panel: &mut Option<Chosen>,
    line: &str,
) -> Result<Option<crate::Answer>, String> {
    match panel {
        None => {
            if let Some(parameters) = read_heading(line)? {
                let started = Chosen::start(parameters);
                *panel = Some(started.map_err(|answer| refused_start(&parameters, answer))?);
            }
            Ok(None)
        }
        Some(panel) => match read_string(line)? {
            Line::Comment => Ok(None),
            Line::Content(bytes) => Ok(Some(panel.frame(&bytes))),
        },
    }
}

/// From the line `--` to the end.
pub fn write_found(mut output: impl Write, found: &[Found]) -> io::Result<()> {
    writeln!(output, "--")?;
    for (index, found) in found.iter().enumerate() {
        write!(output, "output {index}\n{found}")?;
    }
    Ok(())
}

/// The whole of a replay program.
pub fn replay_standard_input<Chosen: Panel>() -> ExitCode {
    let input = io::stdin().lock();
    let output = io::BufWriter::new(io::stdout().lock());
    match replay::<Chosen>(input, output) {
        Ok(true) => ExitCode::SUCCESS,
        Ok(false) => ExitCode::FAILURE,
        Err(error) => {
            eprintln!("{error}");
            ExitCode::FAILURE
        }
    }
}
