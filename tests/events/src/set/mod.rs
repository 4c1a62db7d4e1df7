//! Panels with sets of their own (§6): headings, and frames at the edges that
//! their numbers move.

mod event;
mod expected;

pub use event::*;
pub use expected::{edges_of, expected};

use plain::frame::*;
use plain::last_command::LastCommand;
use plain::movement::Movement;
use plain::settings::*;
use plain::{answer, Answer, Panel, Parameter, Parameters};

use crate::base::Event;
use crate::edges::WholeField;
use crate::passing::Passed;
use crate::seen::{Act, Seen};
use crate::tally::Tally;
use crate::words::is_ramp;

/// In milliseconds, from 0 to 100 percent or back.
pub const SLOWEST_RAMP: u32 = 800_000;

/// Hotels.
const MANY_STATIONS: [u32; 2] = [30, 32];

/// The fields whose range the set bounds, each with its number of the set.
const BOUNDED: [(WholeField, Parameter); 5] = [
    (WholeField::FadeTime, Parameter::Fade),
    (WholeField::CommandFadeTime, Parameter::Fade),
    (WholeField::TaggedFadeTime, Parameter::Fade),
    (WholeField::Duration, Parameter::Duration),
    (WholeField::TaggedDuration, Parameter::Duration),
];

/// What is remembered of an output.
#[derive(Clone, Copy, Default)]
pub struct Memory {
    fade_time_written: bool,
    /// The movement that lasts goes by a Fade_Time that was never written.
    by_fresh_fade_time: bool,
}

/// A list begins so.
pub fn start(
    words: &[(Parameter, u64)],
    started: &Result<Panel, Answer>,
    events: &mut Tally<Event>,
) {
    let mut note = |event| events.count(Event::Set(event));
    match started {
        Ok(_) => {
            let mut further = [None; 3];
            for (place, (parameter, _)) in further.iter_mut().zip(&words[1..]) {
                *place = Some(*parameter);
            }
            note(SetEvent::Words(further));
        }
        Err(_) => {
            if let [first, second] = out_of_range(words)[..] {
                note(SetEvent::Named { first, second });
            }
        }
    }
}

/// The parameters whose numbers are, in the order of the set.
pub(crate) fn out_of_range(words: &[(Parameter, u64)]) -> Vec<Parameter> {
    let wrong = words.iter().filter(|(parameter, number)| {
        let number = u32::try_from(*number).unwrap_or(u32::MAX);
        !parameter.range().contains(&number)
    });
    let mut wrong: Vec<Parameter> = wrong.map(|(parameter, _)| *parameter).collect();
    wrong.sort();
    wrong
}

/// Stations, copies and numbers.
pub fn list(seen: &Seen, events: &mut Tally<Event>) {
    let mut note = |event| events.count(Event::Set(event));
    let stations = seen.after.parameters().stations;
    let has_head = |kind: &u8| *kind != CLOCK && length_of_kind(*kind) == Some(seen.bytes.len());
    if !seen.bytes.first().is_some_and(has_head) {
        return;
    }
    let station = station(seen.bytes);
    let arrives = seen.is_first_arrival();
    if arrives && u32::from(station) == stations - 1 {
        let place = Place::Last;
        note(SetEvent::Station { stations, place });
    }
    let otherwise_good = number(seen.bytes) > 0
        && usize::from(output(seen.bytes)) < seen.before.len()
        && time(seen.bytes) >= seen.time;
    if otherwise_good && u32::from(station) == stations {
        let place = Place::Beyond;
        note(SetEvent::Station { stations, place });
    }
    if !MANY_STATIONS.contains(&stations) {
        return;
    }
    let latest = seen.latest_of_station();
    if !arrives && latest.is_some_and(|latest| latest.bytes == seen.bytes) {
        note(SetEvent::Copy { stations, station });
    }
    let passed = |number| {
        let mut others = seen.arrivals.iter();
        others.any(|other| other.station != station && other.number >= number)
    };
    if arrives && passed(number(seen.bytes)) {
        note(SetEvent::OwnNumber { stations, station });
    }
}

/// A duration that falls due.
pub fn passed(passed: &Passed, parameters: &Parameters, events: &mut Tally<Event>) {
    let longest = parameters.duration;
    let fires = passed.due.iter().any(|due| due.duration_fires());
    if fires && passed.before.last.duration == Some(longest) {
        events.count(Event::Set(SetEvent::DurationFires { longest }));
    }
}

pub fn act(act: &Act, passed: &Passed, memory: &mut Memory, events: &mut Tally<Event>) {
    let mut note = |event| events.count(Event::Set(event));
    let parameters = act.parameters;
    for (field, value) in whole_fields(act.bytes) {
        match BOUNDED.into_iter().find(|(bounded, _)| *bounded == field) {
            Some((_, bound)) => bounded(act, field, value, bound, &mut note),
            None => blink_time(act, field, value, &mut note),
        }
    }
    if act.kind() == READ_PROPERTY {
        match byte_field(act.bytes) {
            FADE_TIME if !memory.fade_time_written => note(SetEvent::FreshRead {
                longest: parameters.fade,
            }),
            PROGRESS_VALUE | IN_PROCESS => looked(act, passed, memory, note),
            _ => {}
        }
        return;
    }
    memory.by_fresh_fade_time = act.command().is_some_and(|carried| {
        carried.kind == FADE_TO
            && act.after.owns_movement(carried.slot)
            && !memory.fade_time_written
    });
    if act.kind() == WRITE_PROPERTY && byte_field(act.bytes) == FADE_TIME {
        memory.fade_time_written |= act.is_done();
    }
}

/// Fade times, durations and blink times in a frame.
pub(crate) fn whole_fields(bytes: &[u8]) -> Vec<(WholeField, u32)> {
    if bytes[0] == WRITE_PROPERTY {
        let field = match byte_field(bytes) {
            FADE_TIME => WholeField::FadeTime,
            BLINK_TIME => WholeField::BlinkTime,
            BLINK_WARN_DELAY => WholeField::BlinkWarnDelay,
            _ => return Vec::new(),
        };
        return vec![(field, value_field(bytes))];
    }
    let Some(command) = LastCommand::of_frame(bytes) else {
        return Vec::new();
    };
    let (fade_time, duration) = match bytes[0] == TAGGED_COMMAND {
        true => (WholeField::TaggedFadeTime, WholeField::TaggedDuration),
        false => (WholeField::CommandFadeTime, WholeField::Duration),
    };
    let fields = [(fade_time, command.fade_time), (duration, command.duration)];
    fields
        .into_iter()
        .filter_map(|(field, value)| Some((field, value?)))
        .collect()
}

pub(crate) fn is_refused_whole(act: &Act) -> bool {
    act.answer == Answer::Refused(answer::WHOLE_NUMBER)
}

fn bounded(
    act: &Act,
    field: WholeField,
    value: u32,
    bound: Parameter,
    note: &mut impl FnMut(SetEvent),
) {
    let longest = act.parameters.of(bound);
    let other = match bound {
        Parameter::Fade => act.parameters.duration,
        _ => act.parameters.fade,
    };
    if value == longest && act.is_done() {
        let at = Longest::Reached;
        note(SetEvent::Whole { field, longest, at });
    }
    if value == longest + 1 && is_refused_whole(act) {
        let at = Longest::Passed;
        note(SetEvent::Whole { field, longest, at });
    }
    if (other + 1..=longest).contains(&value) && act.is_done() {
        note(SetEvent::Between { field, taken: true });
    }
    if (longest + 1..=other).contains(&value) && is_refused_whole(act) {
        note(SetEvent::Between {
            field,
            taken: false,
        });
    }
}

fn blink_time(act: &Act, field: WholeField, value: u32, note: &mut impl FnMut(SetEvent)) {
    let parameters = act.parameters;
    if parameters.fade.max(parameters.duration) < LONGEST {
        let at = match value.checked_sub(LONGEST) {
            Some(0) if act.is_done() => Some(Longest::Reached),
            Some(1) if is_refused_whole(act) => Some(Longest::Passed),
            _ => None,
        };
        if let Some(at) = at {
            note(SetEvent::Day { field, at });
        }
    }
    for than in [Parameter::Fade, Parameter::Duration] {
        if value == parameters.of(than) + 1 && act.is_done() {
            note(SetEvent::Above { field, than });
        }
    }
}

/// When a movement is looked at, and which; nothing if there is none.
pub(crate) fn moment(act: &Act, passed: &Passed) -> Option<(Movement, Moment)> {
    let moment = match (&act.arrived.movement, &passed.before.movement) {
        (Some(movement), _) if movement.gone + 1 == movement.length => Moment::LastMillisecond,
        (Some(_), _) => Moment::OnTheWay,
        (None, Some(movement)) if movement.gone + passed.milliseconds == movement.length => {
            Moment::Over
        }
        _ => return None,
    };
    Some((passed.before.movement?, moment))
}

fn looked(act: &Act, passed: &Passed, memory: &Memory, mut note: impl FnMut(SetEvent)) {
    let Some((movement, moment)) = moment(act, passed) else {
        return;
    };
    let longest = act.parameters.fade;
    for lasting in lastings(&movement, longest, memory) {
        note(SetEvent::Looked {
            lasting,
            longest,
            moment,
        });
    }
}

fn lastings(movement: &Movement, longest: u32, memory: &Memory) -> Vec<Lasting> {
    let ramp = is_ramp(movement);
    let mut lastings = Vec::new();
    if memory.by_fresh_fade_time {
        lastings.push(Lasting::FreshFadeTime);
    }
    if !ramp && movement.length == u64::from(longest) {
        lastings.push(Lasting::LongestFade);
    }
    if ramp && movement.length == u64::from(SLOWEST_RAMP) && SLOWEST_RAMP > longest {
        lastings.push(Lasting::SlowestRamp);
    }
    lastings
}
