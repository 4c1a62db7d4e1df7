//! Refusals 2 to 8, copies, clocks and first arrivals.

use plain::frame::{self, length_of_kind, CLOCK, LAST_TIME, TAGGED_COMMAND};
use plain::Answer;

use super::{Event, Jump};
use crate::seen::Seen;
use crate::tally::Tally;

pub fn list(seen: &Seen, events: &mut Tally<Event>) {
    if seen.is_first_arrival() {
        first_arrival(seen, events);
    } else if seen.is_accepted_clock() {
        events.count(Event::ClockAccepted);
    } else {
        return turned_down(seen, events);
    }
    events.count(Event::Jump(Jump::of(seen.jump())));
    if seen.after.time() == LAST_TIME {
        events.count(Event::LastMillisecond);
    }
}

fn first_arrival(seen: &Seen, events: &mut Tally<Event>) {
    events.count(Event::FirstArrival {
        kind: seen.bytes[0].into(),
        answer: seen.answer.into(),
    });
    if frame::output(seen.bytes) == 63 {
        events.count(Event::LastOutputOf64);
    }
    if frame::number(seen.bytes) == u32::MAX {
        events.count(Event::HighestNumber);
    }
}

/// A frame that does not touch the panel.
fn turned_down(seen: &Seen, events: &mut Tally<Event>) {
    let bytes = seen.bytes;
    let kind = bytes.first().copied().unwrap_or(0);
    let stations = seen.after.parameters().stations;
    let event = match seen.answer {
        Answer::Refused(2) if bytes.is_empty() => Event::NoByte,
        Answer::Refused(2) => Event::UnknownKind,
        Answer::Refused(3) => match bytes.len() < length_of_kind(kind).unwrap_or(0) {
            true => Event::TooShort { kind: kind.into() },
            false => Event::TooLong { kind: kind.into() },
        },
        Answer::Refused(4) => match u32::from(frame::station(bytes)) >= stations {
            true => Event::StationOverSeven,
            false => Event::NumberZero,
        },
        Answer::Refused(5) => Event::OutputNotInTable,
        Answer::Refused(6) => {
            let latest = seen.latest_of_station();
            if latest.is_some_and(|latest| latest.bytes[1..] == bytes[1..]) {
                events.count(Event::SameNumberOtherKind);
            }
            Event::SameNumberOtherBytes
        }
        Answer::Refused(7) => match seen.arrivals.iter().any(|one| one.bytes == bytes) {
            true => Event::OlderNumberSameBytes,
            false => Event::OlderNumberOtherBytes,
        },
        Answer::Refused(8) if kind == CLOCK => Event::LateClock,
        Answer::Refused(8) => Event::LateFrame,
        // Copies in tags have events of their own.
        _ if kind == TAGGED_COMMAND => return,
        answer => Event::Copy {
            late: frame::time(bytes) < seen.time,
            answer: answer.into(),
        },
    };
    events.count(event);
}
