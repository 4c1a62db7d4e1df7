//! Lent tables: rows of numbers, which the program `lent_tables` of crates/ lends
//! to the proved panel and this one to a panel in Rust.
//!
//! `lent run` answers the rows of standard input.
//! `lent stored` writes the rows that are kept in crates/lent_tables/stdin.
//! `lent compare PROGRAM TABLES SEED` sends so many tables from a seed to both.

use std::io::{Read, Write};
use std::process::{Command, ExitCode, Stdio};

use generator::Random;
use lent::{generate, rows, stored};

/// Tables that a program gets in one go.
const AT_ONCE: u64 = 500;

fn main() -> ExitCode {
    let words: Vec<String> = std::env::args().skip(1).collect();
    let words: Vec<&str> = words.iter().map(String::as_str).collect();
    let done = match words[..] {
        ["run"] => run(),
        ["stored"] => write(&stored::stored()),
        ["compare", program, tables, seed] => match (tables.parse(), seed.parse()) {
            (Ok(tables), Ok(seed)) => compare(program, tables, seed),
            _ => Err("TABLES and SEED are whole numbers".into()),
        },
        _ => Err("lent run | lent stored | lent compare PROGRAM TABLES SEED".into()),
    };
    match done {
        Ok(()) => ExitCode::SUCCESS,
        Err(wrong) => {
            eprintln!("lent: {wrong}");
            ExitCode::FAILURE
        }
    }
}

fn write(text: &str) -> Result<(), String> {
    std::io::stdout()
        .write_all(text.as_bytes())
        .map_err(|error| error.to_string())
}

fn run() -> Result<(), String> {
    let mut text = String::new();
    std::io::stdin()
        .read_to_string(&mut text)
        .map_err(|error| error.to_string())?;
    write(&rows::run(&text))
}

/// Table i has the seed S + i. The first difference is written with its table.
fn compare(program: &str, tables: u64, seed: u64) -> Result<(), String> {
    let (mut refused, mut answers) = (0, 0);
    let mut first = 0;
    while first < tables {
        let seeds = seed + first..seed + tables.min(first + AT_ONCE);
        let texts: Vec<String> = seeds
            .clone()
            .map(|seed| generate::table(&mut Random::from_seed(seed)))
            .collect();
        let expected: Vec<String> = texts.iter().map(|text| rows::run(text)).collect();
        let found = answer(program, &texts.concat())?;
        let mut rest = found.as_str();
        for ((text, expected), seed) in texts.iter().zip(&expected).zip(seeds) {
            rest = rest.strip_prefix(expected.as_str()).ok_or_else(|| {
                format!("a difference at seed {seed}, in the table\n{text}expected\n{expected}found\n{}", head(rest, expected))
            })?;
            let lines = || {
                expected
                    .lines()
                    .filter(|line| !line.starts_with(['t', 'p', 'o', 's']))
            };
            answers += lines().count();
            refused += lines().filter(|line| *line == "Refused 1").count();
        }
        if !rest.is_empty() {
            return Err(format!("more text than tables: {}", head(rest, "")));
        }
        first += AT_ONCE;
    }
    if refused == 0 || refused == answers {
        return Err("no table kept the rules, or none broke them".into());
    }
    println!("{tables} tables, {answers} answers, {refused} of them Refused 1: no difference");
    Ok(())
}

/// As much of a text as was expected, and a little more.
fn head(text: &str, expected: &str) -> String {
    text.chars().take(expected.chars().count() + 200).collect()
}

fn answer(program: &str, text: &str) -> Result<String, String> {
    let mut child = Command::new(program)
        .stdin(Stdio::piped())
        .stdout(Stdio::piped())
        .spawn()
        .map_err(|error| format!("{program} does not start: {error}"))?;
    let mut input = child.stdin.take().expect("piped above");
    let text = text.to_owned();
    // Both ends at once, so that neither pipe fills up.
    let sending = std::thread::spawn(move || {
        let _ = input.write_all(text.as_bytes());
    });
    let written = child
        .wait_with_output()
        .map_err(|error| error.to_string())?;
    let _ = sending.join();
    String::from_utf8(written.stdout).map_err(|error| error.to_string())
}
