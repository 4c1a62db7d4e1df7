//! "Four hours is the longest anyone fades" (§7): headings, fade times about
//! four hours and a day, and what keeps its day.

mod event;
mod expected;

pub use event::*;
pub use expected::{expected, LONGEST_DURATIONS, LONGEST_FADES, NOT_STARTED};

use std::ops::RangeInclusive;

use plain::frame::*;
use plain::settings::{FOUR_HOURS, IN_PROCESS, LONGEST, PROGRESS_VALUE, SHORTEST};
use plain::tags::{self, has_form, tags_of, used_and_padding};
use plain::{answer, Answer, Panel, Parameter};

use crate::base::Event;
use crate::edges::{WholeField, FOUR_HOUR_EDGES};
use crate::passing::Passed;
use crate::seen::{Act, Seen};
use crate::set::{is_refused_whole, moment, out_of_range, whole_fields, Moment, SLOWEST_RAMP};
use crate::tally::Tally;
use crate::words::is_ramp;

/// "Of Fade_Time and of every fade time."
pub const FADE_TIMES: [WholeField; 3] = [
    WholeField::FadeTime,
    WholeField::CommandFadeTime,
    WholeField::TaggedFadeTime,
];

/// What keeps its day.
pub const OTHERS: [WholeField; 4] = [
    WholeField::Duration,
    WholeField::TaggedDuration,
    WholeField::BlinkTime,
    WholeField::BlinkWarnDelay,
];

/// Fade times that were taken before §7.
pub const LONGER: RangeInclusive<u32> = FOUR_HOURS + 1..=LONGEST;

/// What is remembered of an output.
#[derive(Clone, Copy, Default)]
pub struct Memory {
    /// Where the length of the movement that lasts came from, if it is a fade.
    by: Option<WholeField>,
}

/// A list that began so has ended: what its frames met is counted by now.
pub fn start(
    words: &[(Parameter, u64)],
    started: &Result<Panel, Answer>,
    events: &mut Tally<Event>,
) {
    let written = |parameter| {
        let word = words.iter().find(|(other, _)| *other == parameter);
        word.and_then(|(_, number)| u32::try_from(*number).ok())
    };
    if started.is_err() {
        if let [parameter] = out_of_range(words)[..] {
            if let Some(number) = written(parameter) {
                let not_started = FourHoursEvent::NotStarted { parameter, number };
                events.count(Event::FourHours(not_started));
            }
        }
        return;
    }
    let both = [Parameter::Fade, Parameter::Duration];
    for parameter in both {
        let number = written(parameter);
        let started = FourHoursEvent::Started { parameter, number };
        events.count(Event::FourHours(started));
    }
    if both.map(written) != [None, None] {
        return;
    }
    let met: Vec<Event> = events.iter().map(|(event, _)| *event).collect();
    for event in met {
        if let Event::FourHours(FourHoursEvent::Whole {
            field,
            value,
            taken,
            ..
        }) = event
        {
            events.count(Event::FourHours(FourHoursEvent::LeftOut {
                field,
                value,
                taken,
            }));
        }
    }
}

/// Longer fade times in frames that never arrive.
pub fn list(seen: &Seen, events: &mut Tally<Event>) {
    let whole = |kind: &u8| *kind != CLOCK && length_of_kind(*kind) == Some(seen.bytes.len());
    if seen.is_first_arrival() || !seen.bytes.first().is_some_and(whole) {
        return;
    }
    let latest = seen.latest_of_station();
    let is_copy = latest.is_some_and(|latest| latest.bytes == seen.bytes);
    for field in longer_fade_times(seen.bytes) {
        let event = match seen.answer {
            _ if is_copy => FourHoursEvent::Copy { field },
            Answer::Refused(refusal) => FourHoursEvent::NeverArrives { field, refusal },
            _ => continue,
        };
        events.count(Event::FourHours(event));
    }
}

fn longer_fade_times(bytes: &[u8]) -> Vec<WholeField> {
    let longer =
        |(field, value): &(WholeField, u32)| FADE_TIMES.contains(field) && LONGER.contains(value);
    let fields = whole_fields(bytes).into_iter().filter(longer);
    fields.map(|(field, _)| field).collect()
}

pub fn act(act: &Act, passed: &Passed, memory: &mut Memory, events: &mut Tally<Event>) {
    let mut note = |event| events.count(Event::FourHours(event));
    whole_numbers(act, &mut note);
    refused_before(act, &mut note);
    if act.kind() == READ_PROPERTY {
        if matches!(byte_field(act.bytes), PROGRESS_VALUE | IN_PROCESS) {
            looked(act, passed, memory, note);
        }
        return;
    }
    if let Some(carried) = act.command() {
        memory.by = match carried.kind {
            FADE_TO => Some(WholeField::FadeTime),
            FADE_TO_OVER if carried.tagged => Some(WholeField::TaggedFadeTime),
            FADE_TO_OVER => Some(WholeField::CommandFadeTime),
            _ => None,
        };
    }
}

fn is_in_range(act: &Act, field: WholeField, value: u32) -> bool {
    match field {
        WholeField::Duration | WholeField::TaggedDuration => act.parameters.is_duration(value),
        _ if FADE_TIMES.contains(&field) => act.parameters.is_fade_time(value),
        _ => value <= LONGEST,
    }
}

/// A number that is refused counts if nothing else in its frame is out of range.
fn whole_numbers(act: &Act, note: &mut impl FnMut(FourHoursEvent)) {
    let taken = act.is_done();
    if !taken && !is_refused_whole(act) {
        return;
    }
    let longest = act.parameters.fade;
    let fields = whole_fields(act.bytes);
    for (field, value) in fields.iter().copied() {
        let others = || fields.iter().filter(|(other, _)| *other != field);
        let others_good = others().all(|(other, value)| is_in_range(act, *other, *value));
        let by_the_set = FADE_TIMES.contains(&field) || act.parameters.duration == LONGEST;
        if by_the_set && others_good && FOUR_HOUR_EDGES.contains(&value) {
            note(FourHoursEvent::Whole {
                field,
                value,
                longest,
                taken,
            });
        }
        if FADE_TIMES.contains(&field) && LONGER.contains(&value) && !others_good {
            note(FourHoursEvent::BesideBadDuration { field });
        }
    }
}

/// 11 for the level; 14 and 15 for tags among which there is a longer fade time.
fn refused_before(act: &Act, note: &mut impl FnMut(FourHoursEvent)) {
    let Answer::Refused(refusal) = act.answer else {
        return;
    };
    match refusal {
        answer::REAL => {
            for field in longer_fade_times(act.bytes) {
                note(FourHoursEvent::RefusedBefore { field, refusal });
            }
        }
        answer::TAGGING | answer::TAGGED_FIELD => {
            let (used, _) = used_and_padding(tagged_body(act.bytes));
            let longer = |tag: &tags::Tag| {
                tag.number() == tags::FADE_TIME
                    && has_form(tag.number(), tag.form())
                    && LONGER.contains(&tag.value())
            };
            if tags_of(used).iter().any(longer) {
                let field = WholeField::TaggedFadeTime;
                note(FourHoursEvent::RefusedBefore { field, refusal });
            }
        }
        _ => {}
    }
}

fn looked(act: &Act, passed: &Passed, memory: &Memory, mut note: impl FnMut(FourHoursEvent)) {
    let Some((movement, moment)) = moment(act, passed) else {
        return;
    };
    let four_hours = !is_ramp(&movement) && movement.length == u64::from(FOUR_HOURS);
    if let Some(by) = memory.by.filter(|_| four_hours) {
        note(FourHoursEvent::Looked { by, moment });
    }
}
