//! A list on the proved panel and on the bought code, side by side.
//!
//! `bus_error PROGRAM LIST [FILE...]` prints a table: after each message that a
//! comment names, the light and the burning time of output 0. PROGRAM is the
//! proved panel's replay. Each FILE must hold the table as it is printed.

mod moments;
mod sides;

use std::path::Path;
use std::process::ExitCode;

use moments::Moment;
use sides::{bought, proved, Shown};

fn main() -> ExitCode {
    let words: Vec<String> = std::env::args().skip(1).collect();
    let [program, list, files @ ..] = &words[..] else {
        eprintln!("bus_error PROGRAM LIST [FILE...]");
        return ExitCode::from(2);
    };
    match table(Path::new(program), Path::new(list)) {
        Ok(table) => {
            print!("{table}");
            let mut all_fresh = true;
            for file in files {
                let fresh = std::fs::read_to_string(file).is_ok_and(|text| text.contains(&table));
                if !fresh {
                    eprintln!("{file} does not hold this table");
                }
                all_fresh &= fresh;
            }
            ExitCode::from(u8::from(!all_fresh))
        }
        Err(wrong) => {
            eprintln!("{wrong}");
            ExitCode::FAILURE
        }
    }
}

fn table(program: &Path, list: &Path) -> Result<String, String> {
    let text = std::fs::read_to_string(list).map_err(|error| error.to_string())?;
    let mut table = String::from(
        "| at, s | message | proved: light | burning, s | model: light | burning, s |\n\
         |---:|---|---:|---:|---:|---:|\n",
    );
    for Moment {
        time,
        message,
        so_far,
    } in moments::of_list(&text)?
    {
        let (proved, bought) = (proved(program, so_far)?, bought(so_far)?);
        // what is wrong stands out
        let marked = |shown: String, right: String| match shown == right {
            true => shown,
            false => format!("**{shown}**"),
        };
        table += &format!(
            "| {} | {message} | {} | {} | {} | {} |\n",
            seconds(time),
            percent(&proved),
            seconds(proved.burning),
            marked(percent(&bought), percent(&proved)),
            marked(seconds(bought.burning), seconds(proved.burning)),
        );
    }
    Ok(table)
}

/// Milliseconds as seconds, with all three places.
fn seconds(milliseconds: u64) -> String {
    let whole = milliseconds / 1_000;
    let part = milliseconds % 1_000;
    match whole {
        1_000.. => format!("{},{:03}.{part:03}", whole / 1_000, whole % 1_000),
        _ => format!("{whole}.{part:03}"),
    }
}

/// Two places are enough to see; the list's levels are whole percents.
fn percent(shown: &Shown) -> String {
    format!("{:.2} %", f64::from(shown.light) / 65_536.0)
}
