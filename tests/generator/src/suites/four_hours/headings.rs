//! Longest fades up to four hours, written or left out, longest durations up to
//! a day, and longer ones, which no panel may be started with.

use events::four_hours::{LONGEST_DURATIONS, LONGEST_FADES, NOT_STARTED};
use plain::Parameter;

use crate::heading::Heading;
use crate::random::Random;
use crate::suites::set::headings::shuffled;

/// One list in so many has one of the two out of range.
const REFUSED: u64 = 4;

/// One list in so many may live hours. The one in the middle of them has a
/// longest fade of four hours, as the test below asks.
pub const GREAT_LISTS: u64 = 24;

/// The numbers of the suite's list of that number in turn.
pub fn heading(random: &mut Random, number: u64) -> Heading {
    let turn = number / REFUSED;
    let mut fade = in_turn(&LONGEST_FADES, number - turn);
    // A day in most lists, so that durations are compared with fade times.
    let mut duration = match random.chance(60) {
        true => None,
        false => random.pick(&LONGEST_DURATIONS),
    };
    if number % REFUSED == REFUSED - 1 {
        match in_turn(&NOT_STARTED, turn) {
            (Parameter::Fade, wrong) => fade = Some(wrong),
            (_, wrong) => duration = Some(wrong),
        }
    }
    let stations = random.chance(20).then(|| random.between(1, 32) as u32);
    let further = [
        (Parameter::Fade, fade),
        (Parameter::Duration, duration),
        (Parameter::Stations, stations),
    ];
    let written = further
        .into_iter()
        .filter_map(|(parameter, number)| Some((parameter, number?.into())));
    let few = random.between(2, 5);
    let outputs = random.pick(&[1, 1, few, few, 64]);
    shuffled(random, outputs, written.collect())
}

fn in_turn<Kind: Copy>(all: &[Kind], turn: u64) -> Kind {
    all[(turn % all.len() as u64) as usize]
}

#[cfg(test)]
mod tests {
    use super::*;

    #[test]
    fn great_lists_may_fade_for_four_hours() {
        for turn in 0..100 {
            let number = GREAT_LISTS * turn + GREAT_LISTS / 2;
            let heading = heading(&mut Random::from_seed(turn), number);
            assert_eq!(heading.parameters().fade, 14_400_000);
            assert_eq!(heading.parameters().out_of_range(), None);
        }
    }
}
