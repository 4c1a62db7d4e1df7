//! One list, without and with copies, against the plain panel.

use events::Observer;
use generator::{pair_seen_by, Heading, Pair, Which};
use panels::list_text::write_list;

use crate::arguments::Arguments;
use crate::expectation::Expectation;
use crate::lockstep::check_in_lockstep;
use crate::subject::Subject;
use crate::totals::Totals;

/// The words of the first difference, with the list and the file it is written to.
pub fn check_list(arguments: &Arguments, which: Which, totals: &mut Totals) -> Result<(), String> {
    let mut observer = Observer::new();
    let pair = pair_seen_by(which, arguments.list_length, &mut |bytes, answer, panel| {
        observer.saw(bytes, answer, panel)
    });
    let Pair { list, with_copies } = &pair;
    let Heading { words, tenants, .. } = &list.heading;
    let tenants = tenants
        .as_ref()
        .map(|(place, digits)| (*place, digits.as_str()));
    observer.saw_start(words, tenants, &list.panel);
    let heading = list.heading.text();
    let text = write_list(&heading, &list.frames);
    let text_with_copies = write_list(&heading, &with_copies.frames);

    let run = arguments.subject.start(text.clone())?;
    let expectation = Expectation::new(&list.heading, &list.answers, &list.panel);
    let written = run
        .finish(arguments.patience)
        .and_then(|written| {
            expectation.compare(&written, &list.frames)?;
            Ok(written)
        })
        .map_err(|difference| report(which, "", &text, &difference))?;

    let run = arguments.subject.start(text_with_copies.clone())?;
    let (answers, panel) = pair.live_with_copies();
    let expectation_with_copies = Expectation::new(&list.heading, &answers, &panel);
    run.finish(arguments.patience)
        .and_then(|written_with_copies| {
            expectation_with_copies.compare(&written_with_copies, &with_copies.frames)?;
            copies_change_nothing(&written, &written_with_copies, &pair)
        })
        .map_err(|difference| report(which, "-with-copies", &text_with_copies, &difference))?;

    if let Subject::FastPanel = arguments.subject {
        check_in_lockstep(&list.heading, &list.frames)
            .map_err(|difference| report(which, "", &text, &difference))?;
    }

    totals.add(list, with_copies.frames.len(), &observer);
    Ok(())
}

/// What the subject wrote for the list with copies, the answers to the copies
/// left out, is what it wrote for the list without them.
fn copies_change_nothing(
    written: &str,
    written_with_copies: &str,
    Pair { list, with_copies }: &Pair,
) -> Result<(), String> {
    if list.panel.is_err() {
        return Ok(());
    }
    let mut lines = written_with_copies.lines();
    let answers_to_originals = lines
        .by_ref()
        .take(with_copies.frames.len())
        .zip(&with_copies.is_original)
        .filter(|(_, is_original)| **is_original)
        .map(|(line, _)| line);
    let answers = written.lines().take(list.frames.len());
    if !answers_to_originals.eq(answers) {
        return Err("copies change the answer to another frame".to_string());
    }
    if !lines.eq(written.lines().skip(list.frames.len())) {
        return Err("copies change what is found".to_string());
    }
    Ok(())
}

fn report(which: Which, ending: &str, list: &str, difference: &str) -> String {
    let (suite, number) = (which.suite.name, which.number);
    let file = format!(
        "difference-{}-{number}{ending}.list",
        suite.trim_start_matches('§')
    );
    let kept = match std::fs::write(&file, list) {
        Ok(()) => format!("the list is in {file}"),
        Err(error) => format!("{file} cannot be written: {error}"),
    };
    format!("DIFFERENCE in list {number} of suite {suite}; {kept}\n{difference}")
}
