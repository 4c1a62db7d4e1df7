//! Times panels in frames a second over streams of good frames.
//!
//! `bench [--frames N] [--seconds S] [--write DIRECTORY] [--program PATH]`
//!
//! `--frames` is the length of a stream, `--seconds` how long each panel is
//! timed on each stream at least. `--write` writes the streams as lists that
//! replay programs read, and times nothing. `--program` also times a replay
//! program, its start and its text included.

mod contestants;
mod program;

use std::path::{Path, PathBuf};
use std::process::ExitCode;
use std::time::{Duration, Instant};

use contestants::{all_in_process, Contestant};
use generator::stream::{streams, Stream, OUTPUTS};
use panels::list_text::write_list;

struct Arguments {
    frames: usize,
    seconds: f64,
    write: Option<PathBuf>,
    program: Option<PathBuf>,
}

fn arguments() -> Result<Arguments, String> {
    let mut arguments = Arguments {
        frames: 20_000,
        seconds: 0.3,
        write: None,
        program: None,
    };
    let mut words = std::env::args().skip(1);
    while let Some(word) = words.next() {
        let value = words.next().ok_or(format!("{word} needs a value"))?;
        let wrong = |_| format!("{word} {value}?");
        match word.as_str() {
            "--frames" => arguments.frames = value.parse().map_err(|_| wrong(()))?,
            "--seconds" => arguments.seconds = value.parse().map_err(|_| wrong(()))?,
            "--write" => arguments.write = Some(PathBuf::from(value)),
            "--program" => arguments.program = Some(PathBuf::from(value)),
            _ => return Err(format!("unknown word {word}")),
        }
    }
    Ok(arguments)
}

fn main() -> ExitCode {
    match arguments().and_then(|arguments| run(&arguments)) {
        Ok(()) => ExitCode::SUCCESS,
        Err(wrong) => {
            eprintln!("{wrong}");
            ExitCode::FAILURE
        }
    }
}

fn run(arguments: &Arguments) -> Result<(), String> {
    let streams: Vec<Stream> = OUTPUTS
        .iter()
        .flat_map(|outputs| streams(*outputs, arguments.frames))
        .collect();
    if let Some(directory) = &arguments.write {
        return write_streams(directory, &streams);
    }
    let mut contestants = all_in_process();
    if let Some(path) = &arguments.program {
        contestants.push(Box::new(program::Program::new(path)));
    }
    print!("{:<18} {:>7} {:>7}", "stream", "outputs", "frames");
    for contestant in &contestants {
        print!("  {:>22}", contestant.name());
    }
    println!("   (frames a second)");
    for stream in &streams {
        time_stream(stream, &mut contestants, arguments.seconds)?;
    }
    Ok(())
}

/// All contestants must give the same answers, or the times mean nothing.
fn time_stream(
    stream: &Stream,
    contestants: &mut [Box<dyn Contestant>],
    seconds: f64,
) -> Result<(), String> {
    let frames = stream.frames.len();
    print!("{:<18} {:>7} {:>7}", stream.name, stream.outputs, frames);
    let mut first_digest = None;
    for contestant in contestants {
        let digest = contestant.run(stream)?;
        if *first_digest.get_or_insert(digest) != digest {
            return Err(format!("{} answers otherwise", contestant.name()));
        }
        print!(
            "  {:>22.0}",
            frames_a_second(contestant.as_mut(), stream, seconds)?
        );
    }
    println!();
    Ok(())
}

/// The best of the runs: what else the machine does only makes runs longer.
fn frames_a_second(
    contestant: &mut dyn Contestant,
    stream: &Stream,
    seconds: f64,
) -> Result<f64, String> {
    let begin = Instant::now();
    let mut best = Duration::MAX;
    while begin.elapsed().as_secs_f64() < seconds {
        let start = Instant::now();
        std::hint::black_box(contestant.run(stream)?);
        best = best.min(start.elapsed());
    }
    Ok(stream.frames.len() as f64 / best.as_secs_f64())
}

fn write_streams(directory: &Path, streams: &[Stream]) -> Result<(), String> {
    std::fs::create_dir_all(directory).map_err(|error| error.to_string())?;
    for stream in streams {
        let name = stream.name.replace([' ', '^'], "-");
        let file = directory.join(format!("{name}-{}.list", stream.outputs));
        std::fs::write(&file, write_list(&stream.heading().text(), &stream.frames))
            .map_err(|error| format!("{}: {error}", file.display()))?;
        println!("{}", file.display());
    }
    Ok(())
}
