//! The page of results, docs/SPOILT.md.

use generator::suites;
use spoilt::table::{Spoilt, ALL};

use crate::arguments::Arguments;
use crate::run::Results;
use crate::trial::Difference;

/// Each spoilt panel with its number.
fn numbered() -> impl Iterator<Item = (usize, &'static Spoilt)> {
    ALL.iter()
        .enumerate()
        .map(|(index, spoilt)| (index + 1, spoilt))
}

/// What is not as it should be; `elsewhere` says which other suites tell.
pub fn failures(
    results: &Results,
    elsewhere: impl FnOnce() -> Vec<Option<Difference>>,
) -> Vec<String> {
    let mut failures = Vec::new();
    if let Some(difference) = &results.told[0] {
        failures.push(format!("nothing is spoilt, and still: {difference}"));
    }
    let elsewhere = elsewhere();
    for (number, spoilt) in numbered() {
        let wrong = format!("{}: {}", spoilt.subject, spoilt.wrong);
        match (&results.told[number], spoilt.unseen) {
            (None, None) => {
                let elsewhere = match &elsewhere[number] {
                    Some(difference) => format!("; it is by {difference}"),
                    None => String::new(),
                };
                let suite = spoilt.suite;
                failures.push(format!("{wrong} Not told apart by {suite}{elsewhere}"));
            }
            (Some(difference), Some(_)) => {
                failures.push(format!("{wrong} Told, though no list should: {difference}"))
            }
            _ => {}
        }
    }
    failures
}

pub fn summary(results: &Results) -> String {
    let told = results.told[1..].iter().flatten().count();
    let unseen = ALL.iter().filter(|spoilt| spoilt.unseen.is_some()).count();
    let sum = results.sum();
    format!(
        "{} spoilt panels over {} lists, {} frames, and as many lists with copies, {} frames: \
         {told} told apart; {unseen} that no list can show",
        ALL.len(),
        sum.lists,
        sum.frames,
        sum.frames_with_copies
    )
}

/// What each suite has run.
fn suites_table(results: &Results) -> String {
    let mut text = String::from(
        "| suite | about | lists | frames | with copies | panels that name it |\n|---|---|---|---|---|---|\n",
    );
    for (suite, counts) in suites::ALL.iter().zip(&results.counts) {
        let named = ALL.iter().filter(|spoilt| spoilt.suite == suite.name);
        text += &format!(
            "| {} | {} | {} | {} | {} | {} |\n",
            suite.name,
            suite.subject,
            counts.lists,
            counts.frames,
            counts.frames_with_copies,
            named.count()
        );
    }
    let unseen = ALL.iter().filter(|spoilt| spoilt.unseen.is_some()).count();
    text + &format!("| none | no list can show it | all | all | all | {unseen} |\n")
}

pub fn page(arguments: &Arguments, results: &Results) -> String {
    let mut text = format!(
        "# Spoilt panels

Made by `tests/target/release/spoilt --frames {} --seed {} --write docs/SPOILT.md`; the gate asks
with `--check` that it is what the run gives.

`tests/fast`, the panel in plain Rust, is spoilt in one way after another (`tests/spoilt/edits`:
an old text, a new one, and the sentence of the paper, document 01 or a § of document 02, that it
breaks). Each spoilt panel names a suite of lists (`tests/generator/src/suites`) and runs over those
lists of it that the gate gives to the proved panel (`compare --frames {} --seed {}`: the same
lists, without and with copies) until an answer, or what is found after a list, is not the plain
panel's. It does not check its record rules, so each shows by what it does and not by refusal 1. What
the lists tell apart here, they would tell apart in the proved panel too.

A panel that its suite does not tell apart is a failure of the run. So is one that any suite tells
apart though its reason says that no list can show it. List i of a suite comes from the run's seed,
the suite's name and i alone, so a new suite moves no row of an older one.

{}
",
        arguments.frames, arguments.seed, arguments.frames, arguments.seed, suites_table(results)
    );
    let mut subject = "";
    let mut row = 0;
    for (number, spoilt) in numbered() {
        row += 1;
        if spoilt.subject != subject {
            subject = spoilt.subject;
            row = 1;
            let (_, name) = subject.split_once('-').unwrap_or(("", subject));
            let name = name.replacen('-', ": ", 1);
            text += &format!(
                "## {}{}\n\n| | the panel | the paper | {} |\n|---|---|---|---|\n",
                name[..1].to_uppercase(),
                &name[1..],
                if spoilt.unseen.is_some() {
                    "why no list can show it"
                } else {
                    "first told apart"
                }
            );
        }
        let result = match (&results.told[number], spoilt.unseen) {
            (Some(difference), _) => difference.to_string(),
            (None, Some(reason)) => reason.to_string(),
            (None, None) => "NOT TOLD APART".to_string(),
        };
        // a bar would end the cell
        let cells = [spoilt.wrong, spoilt.paper, &result].map(|cell| cell.replace('|', "\\|"));
        text += &format!("| {row} | {} |\n", cells.join(" | "));
        if numbered()
            .nth(number)
            .is_none_or(|(_, next)| next.subject != subject)
        {
            text.push('\n');
        }
    }
    text.trim_end().to_string() + "\n"
}
