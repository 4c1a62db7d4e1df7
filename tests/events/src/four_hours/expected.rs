//! Every event that a thorough suite of long fade times must reach (§7).

use super::*;
use crate::base::Event;
use crate::light::{LightEvent, Place};

/// Longest fades that panels are started with; none is left out of the heading.
pub const LONGEST_FADES: [Option<u32>; 6] = [
    Some(FOUR_HOURS),
    Some(SHORTEST),
    Some(FOUR_HOURS - 1),
    None,
    Some(FOUR_HOURS / 2),
    Some(SLOWEST_RAMP),
];

/// Longest durations likewise: a day at most, as before.
pub const LONGEST_DURATIONS: [Option<u32>; 6] = [
    None,
    Some(LONGEST),
    Some(FOUR_HOURS + 1),
    Some(FOUR_HOURS),
    Some(FOUR_HOURS - 1),
    Some(LONGEST - 1),
];

/// What none is started with any more, and what none ever was.
pub const NOT_STARTED: [(Parameter, u32); 5] = [
    (Parameter::Fade, FOUR_HOURS + 1),
    (Parameter::Fade, LONGEST),
    (Parameter::Duration, LONGEST + 1),
    (Parameter::Fade, LONGEST - 1),
    (Parameter::Fade, LONGEST + 1),
];

pub fn expected() -> Vec<Event> {
    let mut events = headings();
    whole_numbers(&mut events);
    turned_down(&mut events);
    for by in FADE_TIMES {
        events.extend(Moment::ALL.map(|moment| FourHoursEvent::Looked { by, moment }));
    }
    let mut events: Vec<Event> = events.into_iter().map(Event::FourHours).collect();
    events.push(Event::LongestFadeRanOut);
    let around = [Place::LastDark, Place::FirstLit, Place::SecondLit];
    events.extend(around.map(|place| Event::Light(LightEvent::LongestDarkPart { place })));
    events
}

fn headings() -> Vec<FourHoursEvent> {
    let started = |parameter| move |number| FourHoursEvent::Started { parameter, number };
    let fades = LONGEST_FADES.map(started(Parameter::Fade));
    let durations = LONGEST_DURATIONS.map(started(Parameter::Duration));
    let not_started =
        NOT_STARTED.map(|(parameter, number)| FourHoursEvent::NotStarted { parameter, number });
    [&fades[..], &durations, &not_started].concat()
}

/// All fields at all of the times; which of them are taken is said by hand.
fn whole_numbers(events: &mut Vec<FourHoursEvent>) {
    for value in FOUR_HOUR_EDGES {
        for field in FADE_TIMES {
            for longest in LONGEST_FADES.into_iter().flatten() {
                let taken = value <= longest;
                events.push(FourHoursEvent::Whole {
                    field,
                    value,
                    longest,
                    taken,
                });
            }
            let taken = value <= 14_400_000;
            events.push(FourHoursEvent::LeftOut {
                field,
                value,
                taken,
            });
        }
        let taken = value <= 86_400_000;
        for field in OTHERS {
            for longest in LONGEST_FADES.into_iter().flatten() {
                events.push(FourHoursEvent::Whole {
                    field,
                    value,
                    longest,
                    taken,
                });
            }
            events.push(FourHoursEvent::LeftOut {
                field,
                value,
                taken,
            });
        }
    }
}

fn turned_down(events: &mut Vec<FourHoursEvent>) {
    for (field, refusal) in [
        (WholeField::CommandFadeTime, answer::REAL),
        (WholeField::TaggedFadeTime, answer::REAL),
        (WholeField::TaggedFadeTime, answer::TAGGING),
        (WholeField::TaggedFadeTime, answer::TAGGED_FIELD),
    ] {
        events.push(FourHoursEvent::RefusedBefore { field, refusal });
    }
    for field in [WholeField::CommandFadeTime, WholeField::TaggedFadeTime] {
        events.push(FourHoursEvent::BesideBadDuration { field });
    }
    for field in FADE_TIMES {
        events.push(FourHoursEvent::Copy { field });
        for refusal in [answer::NUMBER_BELOW_LAST, answer::TIME_BEFORE_PANEL_TIME] {
            events.push(FourHoursEvent::NeverArrives { field, refusal });
        }
    }
}
