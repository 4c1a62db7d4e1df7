//! Compares a program that replays lists with the plain panel, over suites of
//! hostile lists from a seed.
//!
//! `compare --program PATH [--frames N] [--seed S]`
//! `compare --self [...]` compares the fast panel, without any program.
//! `--suite NAME` takes the lists of one suite alone, `--list I` begins with its
//! list I.
//! `--patience SECONDS` is how long a program may take for one list.
//! `--all-events` makes it a failure if an expected event was not reached.
//! `--counts` prints how often each was met.
//! `compare --names` prints the names of all that the suites must reach.

mod arguments;
mod check;
mod expectation;
mod lockstep;
mod subject;
mod totals;

use std::process::ExitCode;

use arguments::{Arguments, Task};
use generator::{suites, Which};
use totals::Totals;

fn main() -> ExitCode {
    match Task::from_command_line(std::env::args().skip(1)) {
        Ok(Task::Compare(arguments)) => compare(&arguments),
        Ok(Task::Names) => {
            print!("{}", suites::names());
            ExitCode::SUCCESS
        }
        Err(wrong) => {
            eprintln!("{wrong}\n{}", arguments::USAGE);
            ExitCode::from(2)
        }
    }
}

fn compare(arguments: &Arguments) -> ExitCode {
    let mut all: Vec<Totals> = Vec::new();
    for suite in suites::ALL {
        if arguments.suite.is_some_and(|only| only.name != suite.name) {
            continue;
        }
        let mut totals = Totals::of(suite);
        let share = match arguments.suite {
            Some(_) => 100,
            None => suite.share,
        };
        let mut number = arguments.first_list;
        while totals.frames * 100 < arguments.frames * share {
            let which = Which {
                suite,
                run: arguments.seed,
                number,
            };
            if let Err(difference) = check::check_list(arguments, which, &mut totals) {
                println!("{difference}");
                return ExitCode::FAILURE;
            }
            number += 1;
        }
        all.push(totals);
    }
    totals::print(&all, arguments.counts);
    let reached = all.iter().all(Totals::everything_reached);
    ExitCode::from(u8::from(arguments.all_events && !reached))
}
