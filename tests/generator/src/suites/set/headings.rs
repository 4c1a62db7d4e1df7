//! Sets at every edge, written in every order, and sets that no panel may be
//! started with.

use events::edges::of_parameter;
use events::set::edges_of;
use plain::{Parameter, Parameters};

use crate::heading::Heading;
use crate::random::Random;

/// One list in so many has a set that is out of range.
const REFUSED: u64 = 3;

/// Shops and hotels, and the ends of the range.
const STATIONS: [u64; 6] = [1, 2, 3, 30, 31, 32];

/// The numbers of the suite's list of that number in turn, so that few lists
/// have them all.
pub fn heading(random: &mut Random, number: u64) -> Heading {
    let turn = number / REFUSED;
    match number % REFUSED == REFUSED - 1 {
        true => refused(random, turn),
        false => started(random, number - turn),
    }
}

fn started(random: &mut Random, turn: u64) -> Heading {
    let edge = |parameter, turn: u64| u64::from(edges_of(parameter)[(turn % 10) as usize]);
    let stations = match turn % 7 {
        6 => random.between(1, 32),
        place => STATIONS[place as usize],
    };
    let few = random.between(2, 5);
    let outputs = random.pick(&[1, 1, few, few, 63, 64]);
    // Every pair of the two has its turn in a hundred lists.
    let fade = edge(Parameter::Fade, turn);
    let duration = edge(Parameter::Duration, 7 * turn + turn / 10);
    let mut further = vec![
        (Parameter::Stations, stations),
        (Parameter::Fade, fade),
        (Parameter::Duration, duration),
    ];
    if random.chance(30) {
        further.retain(|_| random.chance(40));
    }
    shuffled(random, outputs, further)
}

/// Each number out of range in turn, or two of them; the others are the old
/// panel's, written or left out.
fn refused(random: &mut Random, turn: u64) -> Heading {
    let singles = Parameter::ALL.into_iter().flat_map(out_of_range);
    let mut wrong: Vec<Vec<(Parameter, u64)>> = singles.map(|word| vec![word]).collect();
    for first in Parameter::ALL {
        for second in Parameter::ALL.into_iter().filter(|second| first < *second) {
            let pair = [first, second].map(|one| random.pick(&out_of_range(one)));
            wrong.push(pair.to_vec());
        }
    }
    let wrong = &wrong[turn as usize % wrong.len()];
    let others = Parameters::of_old_panel(1);
    let mut outputs = others.outputs.into();
    let mut further = Vec::new();
    for parameter in Parameter::ALL {
        let word = wrong.iter().find(|(other, _)| *other == parameter);
        let number = word.map_or(others.of(parameter).into(), |(_, number)| *number);
        if parameter == Parameter::Outputs {
            outputs = number;
        } else if word.is_some() || random.chance(50) {
            further.push((parameter, number));
        }
    }
    shuffled(random, outputs, further)
}

/// By one on each side, and further out.
pub(crate) fn out_of_range(parameter: Parameter) -> Vec<(Parameter, u64)> {
    let is_good = |number: &u64| {
        u32::try_from(*number).is_ok_and(|number| parameter.range().contains(&number))
    };
    let edges = of_parameter(parameter).into_iter();
    let outside = edges.filter(|number| !is_good(number));
    outside.map(|number| (parameter, number)).collect()
}

/// `outputs` first, and the others in any order.
pub(crate) fn shuffled(
    random: &mut Random,
    outputs: u64,
    mut further: Vec<(Parameter, u64)>,
) -> Heading {
    let mut words = vec![(Parameter::Outputs, outputs)];
    while !further.is_empty() {
        let place = random.below(further.len() as u64) as usize;
        words.push(further.remove(place));
    }
    Heading {
        words,
        tenants: None,
        blanks: random.pick(&[" ", " ", " ", "  ", "\t", " \t "]),
        digits: random.pick(&[1, 1, 1, 2, 12, 24]),
    }
}
