//! Every event that a thorough suite of movements' light must reach (§2).

use plain::frame::{FADE_TO, RAMP_TO_AT_RATE};

use super::{Act, Course, LightEvent, Place, Way, READ, WRITTEN};
use crate::base::Event;
use crate::words::{Rank, BOTH, COMMANDS};

pub fn expected() -> Vec<Event> {
    of_light().into_iter().map(Event::Light).collect()
}

fn of_light() -> Vec<LightEvent> {
    let mut events = Vec::new();
    for ramp in BOTH {
        stretches(&mut events, ramp);
        for (way, place) in edges(ramp) {
            let acts = acts().into_iter();
            events.extend(acts.map(|act| LightEvent::Acted { way, place, act }));
            let into = retargets(place).into_iter();
            events.extend(into.map(|into| LightEvent::Retargeted { way, place, into }));
            // A duration falls due before a frame of that millisecond acts, so
            // not in the one in which the movement starts: a ramp's only dark one.
            if !(ramp && place == Place::LastDark) {
                events.extend(BOTH.map(|own_movement| LightEvent::DurationFired {
                    way,
                    place,
                    own_movement,
                }));
            }
        }
    }
    for kind in FADE_TO..=RAMP_TO_AT_RATE {
        let kind = kind.into();
        events.push(LightEvent::CommandedBackToZero { kind });
    }
    events.extend(BOTH.map(|just_then| LightEvent::FirstUnit { just_then }));
    events.extend(BOTH.map(|just_before| LightEvent::ElapsedReadAtSecond { just_before }));
    events
}

/// Every order in which two frames can lie about a movement's light.
fn stretches(events: &mut Vec<LightEvent>, ramp: bool) {
    // The slowest ramp gives light after one millisecond.
    let rise: &[Place] = match ramp {
        true => &[
            Place::LastDark,
            Place::FirstLit,
            Place::SecondLit,
            Place::Lit,
        ],
        false => &[
            Place::Dark,
            Place::LastDark,
            Place::FirstLit,
            Place::SecondLit,
            Place::Lit,
        ],
    };
    for (course, places) in [
        (Course::RiseFromZero, rise),
        (Course::FallToZero, &[Place::Lit, Place::LastLit]),
        (Course::BetweenLit, &[Place::Lit, Place::LastMoving]),
    ] {
        let way = Way { course, ramp };
        for (index, begins) in places.iter().enumerate() {
            let lasts = matches!(begins, Place::Dark | Place::Lit);
            let later = &places[index + usize::from(!lasts)..];
            for ends in later.iter().chain(&[Place::AtEnd, Place::PastEnd]) {
                events.push(LightEvent::Stretch {
                    way,
                    begins: *begins,
                    ends: *ends,
                });
            }
        }
    }
}

fn edges(ramp: bool) -> Vec<(Way, Place)> {
    let way = |course| Way { course, ramp };
    let rise = way(Course::RiseFromZero);
    let mut edges = vec![
        (rise, Place::LastDark),
        (rise, Place::FirstLit),
        (way(Course::FallToZero), Place::LastLit),
        (way(Course::BetweenLit), Place::LastMoving),
    ];
    if !ramp {
        edges.push((rise, Place::Dark));
    }
    edges
}

fn acts() -> Vec<Act> {
    let mut acts: Vec<Act> = COMMANDS.map(|kind| Act::Command(kind.into())).to_vec();
    acts.extend(WRITTEN.map(|property| Act::Property(property.into())));
    acts.extend(READ.map(|property| Act::Read(property.into())));
    for rank in [Rank::Stronger, Rank::Winner, Rank::Weaker] {
        acts.push(Act::Empty { rank });
        acts.extend(BOTH.map(|lit| Act::Write { lit, rank }));
    }
    acts
}

/// What a command can make of a movement that has come there.
fn retargets(place: Place) -> Vec<Option<Way>> {
    let courses: &[Course] = match place {
        Place::Dark | Place::LastDark => &[Course::RiseFromZero],
        _ => &[Course::FallToZero, Course::BetweenLit],
    };
    let mut ways = vec![None];
    for course in courses {
        ways.extend(BOTH.map(|ramp| {
            Some(Way {
                course: *course,
                ramp,
            })
        }));
    }
    ways
}
