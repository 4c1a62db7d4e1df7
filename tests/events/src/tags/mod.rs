//! Tagged commands (§1).

mod expected;

pub use expected::expected;

use plain::answer;
use plain::command::out_of_range;
use plain::frame::{tagged_body, TAGGED_COMMAND};
use plain::last_command::LastCommand;
use plain::panel::FirstArrival;
use plain::tags::{self, Cause, Fault};
use plain::Answer;

use crate::base::Event;
use crate::seen::{Act, Seen};
use crate::tally::Tally;
use crate::words::{Answered, Hexadecimal, Rank, Situation};

#[derive(Clone, Copy, Debug, PartialEq, Eq, PartialOrd, Ord)]
pub enum TaggedEvent {
    /// One that is carried out, by the kind of its operation.
    Command {
        kind: Hexadecimal,
        situation: Situation,
        rank: Rank,
    },
    Taken {
        kind: Hexadecimal,
        has_duration: bool,
    },
    /// Nothing else is wrong with the body.
    OnlyWrongBy(Fault),
    /// Two faults and no more: 14 is answered.
    WrongTwice {
        tagging: Cause,
        field: Cause,
    },
    /// A field is out of range besides.
    RefusedBeforeRange {
        number: u8,
        range: u8,
    },
    /// Refusals 4 to 8, by what the body would be refused with.
    TurnedDown {
        number: u8,
        body: Option<u8>,
    },
    Copy {
        late: bool,
        answer: Answered,
    },
    /// The station's last number and all that is meant are the same.
    SameCommandOtherForm {
        tagged_first: bool,
    },
}

/// A tagged frame that is no first arrival, or the other form of the latest one.
pub fn list(seen: &Seen, events: &mut Tally<Event>) {
    let Some(&kind) = seen.bytes.first() else {
        return;
    };
    let tagged = kind == TAGGED_COMMAND;
    let event = match seen.answer {
        _ if seen.is_first_arrival() || seen.is_accepted_clock() => return,
        Answer::Refused(answer::NO_BYTE_OR_UNKNOWN_KIND | answer::WRONG_LENGTH) => return,
        Answer::Refused(number @ answer::STATION_OR_NUMBER..=answer::TIME_BEFORE_PANEL_TIME) => {
            if number == answer::LAST_NUMBER_OTHER_BYTES {
                let latest = seen.latest_of_station();
                let other_form = latest.and_then(|latest| same_command(latest, seen.bytes));
                other_form
                    .into_iter()
                    .for_each(|event| events.count(Event::Tagged(event)));
            }
            if !tagged {
                return;
            }
            TaggedEvent::TurnedDown {
                number,
                body: tags::read(tagged_body(seen.bytes)).refusal(),
            }
        }
        _ if !tagged => return,
        answer => TaggedEvent::Copy {
            late: plain::frame::time(seen.bytes) < seen.time,
            answer: answer.into(),
        },
    };
    events.count(Event::Tagged(event));
}

/// Two frames of one station and number that are not the same bytes.
fn same_command(latest: &FirstArrival, second: &[u8]) -> Option<TaggedEvent> {
    let first = &latest.bytes;
    let tagged_first = first[0] == TAGGED_COMMAND;
    let tagged_second = second[0] == TAGGED_COMMAND;
    let command = LastCommand::of_frame(first);
    let same = tagged_first != tagged_second
        && first[1..13] == second[1..13]
        && command.is_some()
        && command == LastCommand::of_frame(second);
    same.then_some(TaggedEvent::SameCommandOtherForm { tagged_first })
}

pub fn act(act: &Act, events: &mut Tally<Event>) {
    if act.kind() != TAGGED_COMMAND {
        return;
    }
    if let Some(carried) = act.command() {
        let kind = Hexadecimal(carried.kind);
        events.count(Event::Tagged(TaggedEvent::Command {
            kind,
            situation: Situation::of(act.arrived),
            rank: Rank::of(act.arrived, carried.slot),
        }));
        let has_duration = carried.command.duration.is_some();
        events.count(Event::Tagged(TaggedEvent::Taken { kind, has_duration }));
    }
    let reading = tags::read(tagged_body(act.bytes));
    if let Some(number) = reading.refusal() {
        refused(act, &reading, number, |event| {
            events.count(Event::Tagged(event))
        });
    }
}

fn refused(act: &Act, reading: &tags::Reading, number: u8, mut note: impl FnMut(TaggedEvent)) {
    if let Some(range) = out_of_range(&reading.command, act.parameters) {
        note(TaggedEvent::RefusedBeforeRange { number, range });
    }
    let causes = reading.faults.iter().map(|fault| fault.cause);
    let (fields, taggings): (Vec<Cause>, Vec<Cause>) =
        causes.partition(|cause| cause.refusal() == answer::TAGGED_FIELD);
    match (&taggings[..], &fields[..]) {
        ([tagging], [field]) => note(TaggedEvent::WrongTwice {
            tagging: *tagging,
            field: *field,
        }),
        ([_], []) | ([], [_]) => note(TaggedEvent::OnlyWrongBy(reading.faults[0])),
        _ => {}
    }
}
