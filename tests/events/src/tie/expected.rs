//! Every event that a thorough suite of halves must reach (§5).

use plain::frame::*;
use plain::settings::*;

use super::{Decider, Field, Small, Span, Tie, TieEvent};
use crate::base::Event;
use crate::words::{Hexadecimal, BOTH};

const WITH_LEVEL: [u8; 5] = [FADE_TO, FADE_TO_OVER, RAMP_TO, RAMP_TO_AT_RATE, GOTO];
const RAISED: [u8; 3] = [
    RELINQUISH_DEFAULT,
    BINARY_ACTIVE_VALUE,
    BINARY_INACTIVE_VALUE,
];

pub fn expected() -> Vec<Event> {
    ties().into_iter().map(Event::Tie).collect()
}

fn ties() -> Vec<TieEvent> {
    let mut events = Vec::new();
    for field in levels().into_iter().chain([MINIMUM, MAXIMUM].map(property)) {
        rounded(
            &mut events,
            field,
            &[Span::BelowSixtyFour, Span::FromSixtyFour],
        );
    }
    for field in rates_and_steps() {
        let all = [Span::BelowOne, Span::BelowSixtyFour, Span::FromSixtyFour];
        rounded(&mut events, field, &all);
    }
    for field in rates() {
        for tie in [Tie::LowerEven, Tie::JustBelow] {
            events.push(TieEvent::StillRuns { field, tie });
        }
    }
    for field in levels() {
        for small in [Small::NextToZero, Small::BetweenUnits] {
            events.push(TieEvent::Raised { field, small });
        }
    }
    decisions(&mut events);
    events.extend([MINIMUM, MAXIMUM].map(|property| TieEvent::SameBound {
        property: Hexadecimal(property),
    }));
    events
}

fn property(number: u8) -> Field {
    Field::Property(Hexadecimal(number))
}

/// What is raised to 65,536 below one percent.
fn levels() -> Vec<Field> {
    let mut fields = vec![Field::Slot];
    for kind in WITH_LEVEL.map(Hexadecimal) {
        fields.extend(BOTH.map(|tagged| Field::Level { kind, tagged }));
    }
    fields.extend(RAISED.map(property));
    fields
}

/// What a ramp goes by.
fn rates() -> [Field; 3] {
    let kind = Hexadecimal(RAMP_TO);
    let [plain, tagged] = BOTH.map(|tagged| Field::Rate { tagged });
    [plain, tagged, Field::Setting { kind }]
}

fn rates_and_steps() -> Vec<Field> {
    let mut fields = rates().to_vec();
    for tagged in BOTH {
        for kind in [STEP_UP_BY, STEP_DOWN_BY].map(Hexadecimal) {
            fields.push(Field::Step { kind, tagged });
        }
    }
    fields.extend([STEP_UP, STEP_DOWN].map(|kind| Field::Setting {
        kind: Hexadecimal(kind),
    }));
    fields.extend([RAMP_RATE, STEP_INCREMENT].map(property));
    fields
}

fn rounded(events: &mut Vec<TieEvent>, field: Field, spans: &[Span]) {
    for span in spans.iter().copied() {
        events.extend(Tie::ALL.map(|tie| TieEvent::Rounded { field, tie, span }));
    }
}

/// With halves going up a value is higher or the same. So what is written below
/// a tie can only be taken, or only be refused, by that; what is stored there,
/// only the other way.
fn decisions(events: &mut Vec<TieEvent>) {
    for (number, taken_by_written) in [
        (MINIMUM, true),
        (MAXIMUM, false),
        (BINARY_ACTIVE_VALUE, false),
        (BINARY_INACTIVE_VALUE, true),
    ] {
        for (by, taken) in [
            (Decider::Written, taken_by_written),
            (Decider::Stored, !taken_by_written),
        ] {
            events.push(TieEvent::Decided {
                property: Hexadecimal(number),
                taken,
                by,
            });
        }
    }
}
