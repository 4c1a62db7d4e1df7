//! Runs every spoilt panel over the lists of the gate and says where each is
//! first told from the plain panel.
//!
//! `spoilt [--frames N] [--seed S] [--write FILE | --check FILE]`
//! `--write` puts the page of results into a file, `--check` asks that the file
//! holds just that page. A panel that the suite it names does not tell apart is
//! a failure, and so is one that is told though no list should be able to.

mod arguments;
mod page;
mod run;
mod trial;

use std::process::ExitCode;

use arguments::{Arguments, Page};

fn main() -> ExitCode {
    match Arguments::from_command_line(std::env::args().skip(1)) {
        Ok(arguments) => run_and_report(&arguments),
        Err(wrong) => {
            eprintln!("{wrong}\n{}", arguments::USAGE);
            ExitCode::from(2)
        }
    }
}

fn run_and_report(arguments: &Arguments) -> ExitCode {
    // A spoilt panel may panic; that tells it apart and need not be printed.
    std::panic::set_hook(Box::new(|_| {}));
    let results = run::run(arguments, run::is_its_own);
    let mut failures = page::failures(&results, || run::elsewhere(arguments, &results));
    let page = page::page(arguments, &results);
    match &arguments.page {
        None => println!("{page}"),
        Some(Page::Write(file)) => {
            if let Err(error) = std::fs::write(file, page) {
                failures.push(format!("{}: {error}", file.display()));
            }
        }
        Some(Page::Check(file)) => {
            if !std::fs::read_to_string(file).is_ok_and(|stored| stored == page) {
                failures.push(format!("{} is not this run's page", file.display()));
            }
        }
    }
    for failure in &failures {
        println!("FAILED: {failure}");
    }
    println!("{}", page::summary(&results));
    ExitCode::from(u8::from(!failures.is_empty()))
}
