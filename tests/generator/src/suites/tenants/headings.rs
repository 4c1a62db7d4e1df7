//! Words that mark the first station, the last one, none or all of them, and
//! bits that no station has; written in every place, or left out.

use events::edges::EDGES_OF_MARKS;
use events::tenants::{Marked, STATIONS};
use plain::Parameter;

use crate::heading::Heading;
use crate::random::Random;
use crate::suites::set::headings::{out_of_range, shuffled};

/// One list in so many has a number out of range.
const REFUSED: u64 = 16;

/// So many sorts of marks: those of `Marked`, edges, and any bits.
const SORTS: u64 = 10;

/// Every sort of marks with every number of stations in turn.
pub fn heading(random: &mut Random, number: u64) -> Heading {
    let turn = number / SORTS;
    // Where the word is left out there are 8, as in the old panel.
    let stations = match turn % (STATIONS.len() as u64 + 2) {
        8 => None,
        9 => Some(random.between(1, 32) as u32),
        place => Some(STATIONS[place as usize]),
    };
    let sort = (number % SORTS) as usize;
    let marks = marks(random, sort, turn, stations.unwrap_or(8));
    let mut words = vec![(Parameter::Stations, stations)];
    for parameter in [Parameter::Fade, Parameter::Duration] {
        let longest = random.pick(&[1_000, 5_000, 100_000, 14_400_000]);
        words.push((parameter, random.chance(40).then_some(longest)));
    }
    let mut further: Vec<(Parameter, u64)> = words
        .into_iter()
        .filter_map(|(parameter, number)| Some((parameter, number?.into())))
        .collect();
    let few = random.between(2, 4);
    let mut outputs = random.pick(&[1, 1, 1, few, few, 64]);
    if number % REFUSED == REFUSED - 1 {
        let parameter = Parameter::ALL[(number / REFUSED % 4) as usize];
        let (_, wrong) = random.pick(&out_of_range(parameter));
        match parameter {
            Parameter::Outputs => outputs = wrong,
            _ => {
                further.retain(|(other, _)| *other != parameter);
                further.push((parameter, wrong));
            }
        }
    }
    let heading = shuffled(random, outputs, further);
    // A word of no marks may be left out.
    match marks == 0 && random.chance(50) {
        true => heading,
        false => with_tenants(random, heading, marks),
    }
}

fn marks(random: &mut Random, sort: usize, turn: u64, stations: u32) -> u32 {
    let any = random.bits() as u32;
    let one = random.below(stations.into()) as u32;
    if let Some(marked) = Marked::ALL.get(sort) {
        return marked.word(stations).unwrap_or(any);
    }
    match sort {
        6 => EDGES_OF_MARKS[(turn % EDGES_OF_MARKS.len() as u64) as usize],
        // All stations but one, or one alone.
        7 => !(1 << one),
        8 => 1 << one,
        _ => any,
    }
}

/// In any place after `outputs C`, in any number of digits, in either case.
fn with_tenants(random: &mut Random, heading: Heading, marks: u32) -> Heading {
    let place = random.between(1, heading.words.len() as u64) as usize;
    let least = format!("{marks:X}").len() as u64;
    let width = match random.chance(60) {
        true => least,
        false => random.between(least, 8),
    } as usize;
    let case = random.below(3);
    let digits = format!("{marks:0width$X}");
    let cased = digits.chars().map(|digit| match case {
        0 => digit,
        1 => digit.to_ascii_lowercase(),
        _ if random.chance(50) => digit.to_ascii_lowercase(),
        _ => digit,
    });
    let tenants = Some((place, cased.collect()));
    Heading { tenants, ..heading }
}
