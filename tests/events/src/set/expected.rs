//! Every event that a thorough suite of sets must reach (§6).

use plain::Parameter;

use super::*;
use crate::base::Event;
use crate::words::BOTH;

/// Longest fades or durations: the ends of their range, beside a fresh
/// Fade_Time, and beside the longest ramp.
pub fn edges_of(parameter: Parameter) -> [u32; 10] {
    let greatest = *parameter.range().end();
    std::array::from_fn(|place| match place {
        8 => greatest - 1,
        9 => greatest,
        _ => LIVED[place],
    })
}

/// Those of them that any list can live to their end.
const LIVED: [u32; 8] = [100, 101, 999, 1_000, 1_001, 799_999, 800_000, 800_001];

pub fn expected() -> Vec<Event> {
    let mut events = words();
    whole_numbers(&mut events);
    movements(&mut events);
    stations(&mut events);
    events.into_iter().map(Event::Set).collect()
}

/// All sequences of some of the three words, and all pairs out of range.
fn words() -> Vec<SetEvent> {
    let three = [Parameter::Stations, Parameter::Fade, Parameter::Duration].map(Some);
    let mut sequences = vec![[None; 3]];
    for first in three {
        sequences.push([first, None, None]);
        for second in three.into_iter().filter(|second| *second != first) {
            sequences.push([first, second, None]);
            let third = three
                .into_iter()
                .find(|third| ![first, second].contains(third));
            sequences.push([first, second, third.flatten()]);
        }
    }
    let mut events: Vec<SetEvent> = sequences.into_iter().map(SetEvent::Words).collect();
    for first in Parameter::ALL {
        for second in Parameter::ALL.into_iter().filter(|second| first < *second) {
            events.push(SetEvent::Named { first, second });
        }
    }
    events
}

fn whole_numbers(events: &mut Vec<SetEvent>) {
    for (field, bound) in BOUNDED {
        for longest in edges_of(bound) {
            for at in [Longest::Reached, Longest::Passed] {
                events.push(SetEvent::Whole { field, longest, at });
            }
        }
        events.extend(BOTH.map(|taken| SetEvent::Between { field, taken }));
    }
    for field in [WholeField::BlinkTime, WholeField::BlinkWarnDelay] {
        events.extend([Longest::Reached, Longest::Passed].map(|at| SetEvent::Day { field, at }));
        events.extend(
            [Parameter::Fade, Parameter::Duration].map(|than| SetEvent::Above { field, than }),
        );
    }
}

fn movements(events: &mut Vec<SetEvent>) {
    for longest in edges_of(Parameter::Fade) {
        events.push(SetEvent::FreshRead { longest });
        looks(events, Lasting::FreshFadeTime, longest);
    }
    for longest in LIVED {
        looks(events, Lasting::LongestFade, longest);
        events.push(SetEvent::DurationFires { longest });
    }
    for longest in LIVED.into_iter().filter(|longest| *longest < SLOWEST_RAMP) {
        looks(events, Lasting::SlowestRamp, longest);
    }
}

fn looks(events: &mut Vec<SetEvent>, lasting: Lasting, longest: u32) {
    events.extend(Moment::ALL.map(|moment| SetEvent::Looked {
        lasting,
        longest,
        moment,
    }));
}

fn stations(events: &mut Vec<SetEvent>) {
    for stations in [1, 2, 3, 30, 31, 32] {
        events.extend(
            [Place::Last, Place::Beyond].map(|place| SetEvent::Station { stations, place }),
        );
    }
    for stations in MANY_STATIONS {
        for station in 0..stations as u8 {
            events.push(SetEvent::Copy { stations, station });
            events.push(SetEvent::OwnNumber { stations, station });
        }
    }
}
