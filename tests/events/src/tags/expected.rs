//! Every event that a thorough suite of tagged commands must reach (§1).

use plain::answer;
use plain::frame::TAGGED_COMMAND;
use plain::tags::{Cause, Fault};

use super::TaggedEvent;
use crate::base::{situations_and_ranks, Event};
use crate::words::{Answered, Hexadecimal, BOTH, COMMANDS};

/// Of the events of the list, those of kind 1B.
pub fn expected() -> Vec<Event> {
    let kind = Hexadecimal(TAGGED_COMMAND);
    let mut events = vec![Event::TooShort { kind }, Event::TooLong { kind }];
    let refused = [11, 12, 14, 15].map(Answered::Refused);
    for answer in [Answered::Done].into_iter().chain(refused) {
        events.push(Event::FirstArrival { kind, answer });
    }
    events.extend(tagged().into_iter().map(Event::Tagged));
    events
}

fn tagged() -> Vec<TaggedEvent> {
    let mut events = Vec::new();
    for kind in COMMANDS.map(Hexadecimal) {
        for (situation, rank) in situations_and_ranks() {
            events.push(TaggedEvent::Command {
                kind,
                situation,
                rank,
            });
        }
        for has_duration in BOTH {
            events.push(TaggedEvent::Taken { kind, has_duration });
        }
    }
    events.extend(single_faults().into_iter().map(TaggedEvent::OnlyWrongBy));
    events.extend(pairs_of_faults());
    for number in [answer::TAGGING, answer::TAGGED_FIELD] {
        for range in [answer::REAL, answer::WHOLE_NUMBER] {
            events.push(TaggedEvent::RefusedBeforeRange { number, range });
        }
    }
    for number in answer::STATION_OR_NUMBER..=answer::TIME_BEFORE_PANEL_TIME {
        for body in [None, Some(answer::TAGGING), Some(answer::TAGGED_FIELD)] {
            events.push(TaggedEvent::TurnedDown { number, body });
        }
    }
    for either in BOTH {
        events.push(TaggedEvent::SameCommandOtherForm {
            tagged_first: either,
        });
        events.push(TaggedEvent::Copy {
            late: either,
            answer: Answered::Done,
        });
        for number in [11, 12, 14, 15] {
            events.push(TaggedEvent::Copy {
                late: either,
                answer: Answered::Refused(number),
            });
        }
    }
    events
}

/// L below 2 is never wrong alone: no operation is there then.
fn single_faults() -> Vec<Fault> {
    let mut faults = Vec::new();
    let mut each = |cause, tags: &[u8]| {
        faults.extend(tags.iter().map(|tag| Fault { cause, tag: *tag }));
    };
    each(Cause::LengthAboveSeventeen, &[0]);
    each(
        Cause::NumberAboveFive,
        &[6, 7, 8, 9, 10, 11, 12, 13, 14, 15],
    );
    each(Cause::ApplicationTag, &[0, 1, 2, 3, 4, 5]);
    each(Cause::ZeroInsideLength, &[0]);
    each(Cause::EqualNumbers, &[0, 1, 2, 3, 4, 5]);
    each(Cause::FallingNumbers, &[0, 1, 2, 3, 4]);
    for form in 0..=7 {
        let cause = Cause::Octets { form };
        match form {
            1 => each(cause, &[1, 2, 3]),
            2 | 3 => each(cause, &[0, 1, 2, 3]),
            4 => each(cause, &[0]),
            _ => each(cause, &[0, 1, 2, 3, 4, 5]),
        }
    }
    // L is at least 2, so tag 0 is cut off only where it is not the first.
    each(Cause::PastLength, &[1, 2, 3, 4, 5]);
    each(Cause::Padding, &[0]);
    each(Cause::OperationAboveTen, &[0]);
    each(Cause::Missing, &[0, 1, 2, 3, 4]);
    each(Cause::Foreign, &[1, 2, 3, 4]);
    each(Cause::NotInFewestOctets, &[4, 5]);
    faults
}

fn pairs_of_faults() -> Vec<TaggedEvent> {
    let all = &[Cause::Missing, Cause::Foreign, Cause::NotInFewestOctets][..];
    let mut pairs = Vec::new();
    let mut each = |tagging, fields: &[Cause]| {
        pairs.extend(fields.iter().map(|field| TaggedEvent::WrongTwice {
            tagging,
            field: *field,
        }));
    };
    each(Cause::LengthBelowTwo, &[Cause::Missing]);
    each(Cause::LengthAboveSeventeen, all);
    for tagging in [
        Cause::NumberAboveFive,
        Cause::ApplicationTag,
        Cause::ZeroInsideLength,
        Cause::EqualNumbers,
        Cause::FallingNumbers,
        Cause::PastLength,
        Cause::Padding,
    ] {
        each(tagging, all);
    }
    // Four octets are wrong for the operation alone, and without an operation,
    // as with one above 10, no field is its own or foreign.
    for form in [0, 1, 2, 3, 5, 6, 7] {
        each(Cause::Octets { form }, all);
    }
    each(Cause::Octets { form: 4 }, &[Cause::NotInFewestOctets]);
    each(Cause::OperationAboveTen, &[Cause::NotInFewestOctets]);
    pairs
}
