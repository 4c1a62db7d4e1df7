//! Every event that a thorough suite of relays must reach (§3).

use plain::frame::*;
use plain::settings::*;

use super::{Gap, Mover, RelayEvent, Stand};
use crate::base::Event;
use crate::words::{Answered, Hexadecimal, Situation, BOTH, COMMANDS};

/// The edges of the two values, and what lies between them.
pub const STANDS: [Stand; 7] = [
    Stand::JustBelowInactive,
    Stand::AtInactive,
    Stand::JustAboveInactive,
    Stand::Between,
    Stand::JustBelowActive,
    Stand::AtActive,
    Stand::JustAboveActive,
];

const WARNING_TURN_AND_ENDS: [Mover; 3] = [
    Mover::WarningTurn,
    Mover::WarningEnd { lit: false },
    Mover::WarningEnd { lit: true },
];

/// Of the events of the list and of properties, those that §3 brings.
pub fn expected() -> Vec<Event> {
    let refused = Answered::Refused(16);
    let mut events = vec![Event::FirstArrival {
        kind: Hexadecimal(WRITE_PROPERTY),
        answer: refused,
    }];
    events.extend(BOTH.map(|late| Event::Copy {
        late,
        answer: refused,
    }));
    for property in (BINARY_ACTIVE_VALUE..=RELAY_STATE).map(Hexadecimal) {
        events.push(Event::PropertyRead {
            property,
            answer: Answered::Value,
        });
        let answers: &[u8] = match property.0 {
            BINARY_ACTIVE_VALUE | BINARY_INACTIVE_VALUE => &[11, 16],
            POLARITY => &[12],
            _ => &[9],
        };
        let mut written: Vec<Answered> = answers.iter().copied().map(Answered::Refused).collect();
        let mut situations = vec![Situation::Lit];
        if property.0 <= POLARITY {
            written.push(Answered::Done);
            situations = Situation::ALL.to_vec();
        }
        for answer in written {
            events.extend(situations.iter().map(|situation| Event::PropertyWritten {
                property,
                answer,
                situation: *situation,
            }));
        }
    }
    events.extend(of_relays().into_iter().map(Event::Relay));
    events
}

fn of_relays() -> Vec<RelayEvent> {
    let mut events = Vec::new();
    for by in movers() {
        judgings(&mut events, by);
        for active in BOTH {
            let turned = turning_situations(by, active).into_iter();
            events.extend(turned.map(|situation| RelayEvent::Turned {
                by,
                situation,
                active,
            }));
        }
    }
    events.extend(WARNING_TURN_AND_ENDS.map(|by| RelayEvent::TurnedWithDuration { by }));
    for active in BOTH {
        events.push(RelayEvent::WarningStartsLit { active });
        events.push(RelayEvent::RememberedFromTheWay { active });
        events.extend(BOTH.map(|ramp| RelayEvent::LightLagsBehind { ramp, active }));
        for from_reverse in BOTH {
            events.extend(BOTH.map(|to_reverse| RelayEvent::PolarityWritten {
                from_reverse,
                to_reverse,
                active,
            }));
        }
    }
    events.extend([1, 2, 3].map(|turns| RelayEvent::TurnsOnTheWay { turns }));
    writes(&mut events);
    reads(&mut events);
    events.push(RelayEvent::LateAfterRefusal);
    events
}

fn property(number: u8) -> Mover {
    Mover::Property(Hexadecimal(number))
}

fn movers() -> Vec<Mover> {
    let mut movers = vec![
        Mover::Write,
        Mover::Empty,
        Mover::Duration,
        Mover::WarningStart,
    ];
    movers.extend(WARNING_TURN_AND_ENDS);
    movers.extend(COMMANDS.map(|kind| Mover::Command(kind.into())));
    movers.extend(
        [
            RELINQUISH_DEFAULT,
            MINIMUM,
            MAXIMUM,
            BINARY_ACTIVE_VALUE,
            BINARY_INACTIVE_VALUE,
        ]
        .map(property),
    );
    movers
}

fn judgings(events: &mut Vec<RelayEvent>, by: Mover) {
    let stands: &[Stand] = match by {
        // To zero; no value is one unit.
        Mover::WarningStart => &[Stand::BelowInactive, Stand::AtInactive],
        _ => &STANDS,
    };
    for stand in stands {
        for was_active in BOTH {
            if was_possible(by, *stand, was_active) {
                events.push(RelayEvent::Judged {
                    by,
                    was_active,
                    stand: *stand,
                });
            }
        }
    }
}

/// Whether the relay can have been so before.
fn was_possible(by: Mover, stand: Stand, was_active: bool) -> bool {
    let inactive_edge = matches!(stand, Stand::JustBelowInactive | Stand::AtInactive);
    let active_edge = matches!(stand, Stand::AtActive | Stand::JustAboveActive);
    match by {
        // Zero is at or below every inactive value.
        Mover::WarningTurn | Mover::WarningEnd { lit: false } => !was_active,
        // What the value that is not written says was judged before.
        Mover::Property(Hexadecimal(BINARY_ACTIVE_VALUE)) => !(inactive_edge && was_active),
        Mover::Property(Hexadecimal(BINARY_INACTIVE_VALUE)) => was_active || !active_edge,
        _ => true,
    }
}

/// What the output can be doing before the relay turns so. In the dark it is
/// inactive already.
fn turning_situations(by: Mover, active: bool) -> Vec<Situation> {
    use Situation::*;
    let lit = vec![Lit, Moving, WarningLit];
    match (by, active) {
        // Slot 6 wins in a warning, whatever else is emptied or shown.
        (Mover::Empty | Mover::Duration, true) => vec![Dark, Lit, Moving],
        (Mover::Empty | Mover::Duration, false) => vec![Lit, Moving],
        (Mover::WarningStart, true) => vec![],
        (Mover::WarningStart, false) => vec![Lit, Moving],
        (Mover::WarningTurn, _) | (Mover::WarningEnd { lit: false }, _) => match active {
            true => vec![WarningDark],
            false => vec![],
        },
        (Mover::WarningEnd { lit: true }, _) => vec![WarningLit],
        (Mover::Property(Hexadecimal(number)), _) => match (number, active) {
            // A movement's owner is live.
            (RELINQUISH_DEFAULT, true) => vec![Dark, Lit],
            (RELINQUISH_DEFAULT, false) => vec![Lit],
            // A movement's target lies in Min..Max: Min only raises it, and Max
            // only lowers it.
            (MINIMUM, false) | (MAXIMUM, true) => vec![Lit, WarningLit],
            (MINIMUM, true) | (MAXIMUM, false) => lit,
            (BINARY_ACTIVE_VALUE, true) | (BINARY_INACTIVE_VALUE, false) => lit,
            _ => vec![],
        },
        (Mover::Command(Hexadecimal(kind)), _) => match (kind, active) {
            // It changes no slot but that of its movement and slot 6.
            (STOP, true) => vec![Moving, WarningDark, WarningLit],
            (STOP, false) => vec![Moving, WarningLit],
            // Without a movement a step goes on from Present_Value.
            (STEP_UP | STEP_UP_BY, false) => vec![Moving, WarningLit],
            (STEP_DOWN | STEP_DOWN_BY, true) => vec![Moving],
            (_, true) => Situation::ALL.to_vec(),
            (_, false) => lit,
        },
        (Mover::Write, true) => Situation::ALL.to_vec(),
        (Mover::Write, false) => lit,
    }
}

fn writes(events: &mut Vec<RelayEvent>) {
    for property in [BINARY_ACTIVE_VALUE, BINARY_INACTIVE_VALUE] {
        let property = Hexadecimal(property);
        for gap in [
            Gap::Wide,
            Gap::OneUnit,
            Gap::OneUnitByRounding,
            Gap::Equal,
            Gap::EqualByRounding,
            Gap::EqualByRaising,
            Gap::CrossedByOne,
            Gap::Crossed,
        ] {
            events.push(RelayEvent::Written { property, gap });
        }
    }
    // No inactive value is below 0, and no active one above 100 percent.
    for (property, percent, taken) in [
        (BINARY_ACTIVE_VALUE, 0, false),
        (BINARY_ACTIVE_VALUE, 1, false),
        (BINARY_ACTIVE_VALUE, 1, true),
        (BINARY_ACTIVE_VALUE, 100, true),
        (BINARY_INACTIVE_VALUE, 0, true),
        (BINARY_INACTIVE_VALUE, 1, false),
        (BINARY_INACTIVE_VALUE, 1, true),
        (BINARY_INACTIVE_VALUE, 100, false),
    ] {
        events.push(RelayEvent::WrittenAtEdge {
            property: Hexadecimal(property),
            percent,
            taken,
        });
    }
}

fn reads(events: &mut Vec<RelayEvent>) {
    for number in BINARY_ACTIVE_VALUE..=RELAY_STATE {
        for situation in Situation::ALL {
            for active in BOTH {
                let dark = matches!(situation, Situation::Dark | Situation::WarningDark);
                if dark && active {
                    continue;
                }
                events.extend(BOTH.map(|reverse| RelayEvent::Read {
                    property: Hexadecimal(number),
                    situation,
                    active,
                    reverse,
                }));
            }
        }
    }
    for property in [BINARY_ACTIVE_VALUE, BINARY_INACTIVE_VALUE, PRESENT_VALUE] {
        let property = Hexadecimal(property);
        events.push(RelayEvent::ReadAfterRefusal { property });
    }
}
