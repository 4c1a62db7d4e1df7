//! Puts the edits of one file into its text, each behind the switch with its
//! number. Places may lie apart, be the same, or lie one in the other.

use super::edits::{Edit, Spoilt};

/// An edit and the bytes of the source that it takes the place of.
struct Place<'a> {
    number: usize,
    edit: &'a Edit,
    start: usize,
    end: usize,
}

pub fn weave(file: &str, source: &str, spoilt: &[Spoilt]) -> String {
    let mut places: Vec<Place> = Vec::new();
    for (index, spoilt) in spoilt.iter().enumerate() {
        for edit in spoilt.edits.iter().filter(|edit| edit.file == file) {
            let (start, end) = find_once(source, &edit.old)
                .unwrap_or_else(|count| panic!("{}: {count} times in {file}", spoilt.wrong));
            places.push(Place {
                // 0 is the panel with nothing switched on
                number: index + 1,
                edit,
                start,
                end: if edit.is_arm { start } else { end },
            });
        }
    }
    // the outer before the inner, arms before what they stand before
    places.sort_by_key(|place| (place.start, !place.edit.is_arm, usize::MAX - place.end));
    let mut left = &places[..];
    woven(source, 0, source.len(), &mut left)
}

/// The bytes from `start` to `end` with all edits that lie in them.
fn woven(source: &str, start: usize, end: usize, left: &mut &[Place]) -> String {
    let mut text = String::new();
    let mut at = start;
    while let [place, rest @ ..] = *left {
        if place.start >= end {
            break;
        }
        assert!(place.end <= end, "places overlap at {}", place.edit.old);
        *left = rest;
        text += &source[at..place.start];
        at = place.end;
        let switch = format!("crate::switch::is_on({})", place.number);
        if place.edit.is_arm {
            text += &place.edit.new.replace("SPOILT", &switch);
            continue;
        }
        let old = woven(source, place.start, place.end, left);
        let new = &place.edit.new;
        let chosen = format!("if {switch} {{\n{new}}} else {{\n{old}\n}}");
        // a statement stands for itself, an expression in a greater one
        text += &match old.trim_end().ends_with([';', '}']) {
            true => chosen,
            false => format!("({chosen})"),
        };
    }
    text + &source[at..end]
}

/// The one place of a text, blanks and line ends apart; else how many there are.
fn find_once(source: &str, wanted: &str) -> Result<(usize, usize), usize> {
    let solid = |text: &str| -> Vec<(usize, char)> {
        let characters = text.char_indices();
        characters.filter(|(_, one)| !one.is_whitespace()).collect()
    };
    let wanted: Vec<char> = solid(wanted).into_iter().map(|(_, one)| one).collect();
    let places: Vec<(usize, usize)> = solid(source)
        .windows(wanted.len())
        .filter(|window| window.iter().map(|(_, one)| one).eq(&wanted))
        .map(|window| {
            let (last, one) = window[wanted.len() - 1];
            (window[0].0, last + one.len_utf8())
        })
        .collect();
    match places[..] {
        [place] => Ok(place),
        _ => Err(places.len()),
    }
}
