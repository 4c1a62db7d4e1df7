//! Every event that a thorough suite of far jumps must reach (§4).

use super::{Arrival, Far, JumpEvent, Measure, Wrap, READ};
use crate::base::Event;
use crate::light::{Course, Way};
use crate::words::BOTH;

pub fn expected() -> Vec<Event> {
    jumps().into_iter().map(Event::Jumped).collect()
}

fn jumps() -> Vec<JumpEvent> {
    let mut events = Vec::new();
    for ramp in BOTH {
        for up in BOTH {
            for measure in [Measure::FromStart, Measure::SinceStart, Measure::FromMiddle] {
                events.extend(Far::ALL.map(|far| JumpEvent::Far {
                    ramp,
                    up,
                    measure,
                    far,
                }));
            }
        }
        for course in [Course::RiseFromZero, Course::FallToZero, Course::BetweenLit] {
            let way = Way { course, ramp };
            let by = |arrival| JumpEvent::By { way, arrival };
            events.extend(READ.map(|property| by(Arrival::Read(property.into()))));
            events.extend(
                [
                    Arrival::Clock,
                    Arrival::Write,
                    Arrival::Property,
                    Arrival::Command,
                ]
                .map(by),
            );
        }
        for wrap in [Wrap::Before, Wrap::LastBefore, Wrap::At, Wrap::After] {
            events.extend(BOTH.map(|from_two_to_40| JumpEvent::Wrap {
                ramp,
                wrap,
                from_two_to_40,
            }));
        }
    }
    events
}
