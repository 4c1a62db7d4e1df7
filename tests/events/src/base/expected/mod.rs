//! Every event that a thorough suite of document 01 must reach.

use plain::frame::*;
use plain::settings::*;
use plain::{Answer, Output, Parameters};

mod due;

use super::event::*;
use crate::words::{Answered, Rank, Situation, BOTH, COMMANDS};

/// The kinds of document 01.
fn kinds() -> impl Iterator<Item = u8> {
    (CLOCK..=READ_PROPERTY).chain(COMMANDS)
}

pub fn expected() -> Vec<Event> {
    let mut events = Vec::new();
    list_events(&mut events);
    first_arrival_events(&mut events);
    property_events(&mut events);
    slot_and_command_events(&mut events);
    due::movement_events(&mut events);
    due::duration_events(&mut events);
    due::warning_events(&mut events);
    events
}

fn list_events(events: &mut Vec<Event>) {
    events.extend([
        Event::NoByte,
        Event::UnknownKind,
        Event::StationOverSeven,
        Event::NumberZero,
        Event::OutputNotInTable,
        Event::SameNumberOtherBytes,
        Event::SameNumberOtherKind,
        Event::OlderNumberSameBytes,
        Event::OlderNumberOtherBytes,
        Event::LateFrame,
        Event::LateClock,
        Event::ClockAccepted,
        Event::HighestNumber,
        Event::LastMillisecond,
        Event::LastOutputOf64,
    ]);
    for kind in kinds() {
        events.push(Event::TooShort { kind: kind.into() });
        events.push(Event::TooLong { kind: kind.into() });
    }
    for late in BOTH {
        for answer in [Answered::Done, Answered::Value, Answered::Absent] {
            events.push(Event::Copy { late, answer });
        }
        for number in 9..=13 {
            let answer = Answered::Refused(number);
            events.push(Event::Copy { late, answer });
        }
    }
    events.extend(Jump::ALL.map(Event::Jump));
}

fn first_arrival_events(events: &mut Vec<Event>) {
    for kind in kinds() {
        let answers: &[Answered] = match kind {
            CLOCK => &[],
            WRITE_PRESENT_VALUE => &[Answered::Done, Answered::Refused(10), Answered::Refused(11)],
            EMPTY_A_SLOT => &[Answered::Done, Answered::Refused(10)],
            WRITE_PROPERTY => &[
                Answered::Done,
                Answered::Refused(9),
                Answered::Refused(10),
                Answered::Refused(11),
                Answered::Refused(12),
                Answered::Refused(13),
            ],
            READ_PROPERTY => &[Answered::Value, Answered::Absent, Answered::Refused(9)],
            0x10 | 0x15 | 0x16 | 0x1A => &[Answered::Done, Answered::Refused(12)],
            _ => &[Answered::Done, Answered::Refused(11), Answered::Refused(12)],
        };
        for answer in answers {
            events.push(Event::FirstArrival {
                kind: kind.into(),
                answer: *answer,
            });
        }
    }
}

fn property_events(events: &mut Vec<Event>) {
    events.extend([
        Event::PartOfSecondCleared,
        Event::ElapsedActiveTimeReadAtMost,
        Event::ProgressReadBelowOnePercent,
        Event::BoundMovesWarningLevel,
    ]);
    for ramp in BOTH {
        for slower in BOTH {
            events.push(Event::PaceWrittenInMovement { ramp, slower });
        }
    }
    let fresh = Output::fresh(&Parameters::of_old_panel(1));
    for property in 0..=255_u8 {
        let readable = matches!(
            property,
            RELINQUISH_DEFAULT..=LAST_DURATION | FIRST_SLOT..=LAST_SLOT
        );
        let sometimes_absent =
            matches!(property, LAST_LEVEL..=LAST_DURATION | FIRST_SLOT..=LAST_SLOT);
        // Of the unknown numbers, those beside a known one and the ends. A change
        // may make one of them known; from then on it is not expected here.
        let tried = matches!(property, 0x00 | 0x15 | 0x16 | 0x1C | 0x20 | 0x31 | 0xFF);
        let unknown = fresh.read_property(property) == Answer::Refused(9);
        let unknown_but_tried = tried && unknown;
        if readable {
            events.push(read(property, Answered::Value));
        }
        if sometimes_absent {
            events.push(read(property, Answered::Absent));
        }
        if unknown_but_tried {
            events.push(read(property, Answered::Refused(9)));
        }
        let written: &[Answered] = match property {
            RELINQUISH_DEFAULT | RAMP_RATE | STEP_INCREMENT => {
                &[Answered::Done, Answered::Refused(11)]
            }
            FADE_TIME | BLINK_ENABLE | BLINK_TIME | BLINK_WARN_DELAY | ELAPSED_ACTIVE_TIME => {
                &[Answered::Done, Answered::Refused(12)]
            }
            MINIMUM | MAXIMUM => &[Answered::Done, Answered::Refused(11), Answered::Refused(13)],
            LIGHTING_COMMAND_PRIORITY => &[Answered::Done, Answered::Refused(10)],
            _ if readable || unknown_but_tried => &[Answered::Refused(9)],
            _ => &[],
        };
        let writable = written.len() > 1;
        for answer in written {
            for situation in Situation::ALL {
                if writable || situation == Situation::Lit {
                    events.push(Event::PropertyWritten {
                        property: property.into(),
                        answer: *answer,
                        situation,
                    });
                }
            }
        }
    }
}

fn read(property: u8, answer: Answered) -> Event {
    Event::PropertyRead {
        property: property.into(),
        answer,
    }
}

/// In a warning slot 6 wins, and no frame acts on slot 6.
pub fn situations_and_ranks() -> Vec<(Situation, Rank)> {
    let mut pairs = Vec::new();
    for situation in Situation::ALL {
        for rank in [Rank::Stronger, Rank::Winner, Rank::Weaker] {
            if !(situation.is_warning() && rank == Rank::Winner) {
                pairs.push((situation, rank));
            }
        }
    }
    pairs
}

fn slot_and_command_events(events: &mut Vec<Event>) {
    for (situation, rank) in situations_and_ranks() {
        for lit in BOTH {
            events.push(Event::SlotWritten {
                lit,
                situation,
                rank,
            });
        }
        // What is stronger than the winner is empty, the winner is live.
        for was_live in BOTH {
            let possible = match rank {
                Rank::Stronger => !was_live,
                Rank::Winner => was_live,
                Rank::Weaker => true,
            };
            if possible {
                events.push(Event::SlotEmptied {
                    was_live,
                    situation,
                    rank,
                });
            }
        }
        for kind in COMMANDS {
            events.push(Event::Command {
                kind: kind.into(),
                situation,
                rank,
            });
        }
    }
    events.extend([
        Event::CommandFromBelowOnePercent,
        Event::LosingCommandLeavesMovement,
    ]);
    events.extend(
        [
            Step::UpWithin,
            Step::UpToMinimum,
            Step::UpToMaximum,
            Step::DownWithin,
            Step::DownToMinimum,
            Step::DownToZeroGivesMinimum,
            Step::DownFromZero,
        ]
        .map(Event::Stepped),
    );
    events.extend([Stop::AtZero, Stop::RaisedToMinimum, Stop::AsReached].map(Event::Stopped));
}
