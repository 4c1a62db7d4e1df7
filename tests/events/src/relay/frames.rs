//! What frames do to a relay, and what they read of it.

use plain::answer;
use plain::frame::*;
use plain::last_command::LastCommand;
use plain::panel::FirstArrival;
use plain::real::{self, HUNDRED_PERCENT, ONE_PERCENT};
use plain::settings::*;
use plain::{Answer, Output};

use super::{judged, relay_values, shows_between, Gap, Mover, RelayEvent};
use crate::base::Event;
use crate::seen::{Act, Seen};
use crate::tally::Tally;
use crate::words::{is_ramp, Hexadecimal, Situation};

/// A frame has acted, or was refused.
pub fn act(act: &Act, events: &mut Tally<Event>) {
    if let Some(by) = mover(act) {
        judged(act.arrived, act.after, by, events);
    }
    let mut note = |event| events.count(Event::Relay(event));
    let active = act.after.active;
    let stays = act.after.present_value() == act.arrived.present_value();
    if act.starts_warning() && stays && shows_between(act.after) {
        note(RelayEvent::WarningStartsLit { active });
    }
    if act.arrived.movement.is_none() {
        lagging_light(act.after).into_iter().for_each(&mut note);
    }
    match act.kind() {
        WRITE_PROPERTY => written(act, note),
        READ_PROPERTY => read(act).into_iter().for_each(note),
        _ => {}
    }
}

/// Nothing for a read.
fn mover(act: &Act) -> Option<Mover> {
    Some(match act.kind() {
        WRITE_PRESENT_VALUE if act.starts_warning() => Mover::WarningStart,
        WRITE_PRESENT_VALUE => Mover::Write,
        EMPTY_A_SLOT => Mover::Empty,
        WRITE_PROPERTY => Mover::Property(byte_field(act.bytes).into()),
        READ_PROPERTY => return None,
        _ => {
            let operation = LastCommand::of_frame(act.bytes)?.operation;
            Mover::Command(Hexadecimal(STOP + operation))
        }
    })
}

/// In a movement that has just started.
fn lagging_light(output: &Output) -> Option<RelayEvent> {
    let ramp = is_ramp(output.movement.as_ref()?);
    let (active_value, inactive_value) = relay_values(output);
    let active = output.active;
    let lags = match active {
        true => output.progress_value() <= inactive_value,
        false => output.progress_value() >= active_value,
    };
    lags.then_some(RelayEvent::LightLagsBehind { ramp, active })
}

/// A property was written, or refused.
fn written(act: &Act, mut note: impl FnMut(RelayEvent)) {
    let (property, value) = (byte_field(act.bytes), value_field(act.bytes));
    let (active, inactive) = relay_values(act.after);
    let other = match property {
        BINARY_ACTIVE_VALUE => inactive,
        BINARY_INACTIVE_VALUE => active,
        POLARITY if value <= 1 => {
            return note(RelayEvent::PolarityWritten {
                from_reverse: act.arrived.settings.polarity_reverse,
                to_reverse: act.after.settings.polarity_reverse,
                active: act.after.active,
            })
        }
        _ => return,
    };
    let Some(level) = real::level(value) else {
        return;
    };
    let (property, taken) = (property.into(), act.is_done());
    note(RelayEvent::Written {
        property,
        gap: gap(value, level, other, taken),
    });
    if matches!(level, 0 | ONE_PERCENT | HUNDRED_PERCENT) {
        note(RelayEvent::WrittenAtEdge {
            property,
            percent: level / ONE_PERCENT,
            taken,
        });
    }
}

fn read(act: &Act) -> Option<RelayEvent> {
    let property = byte_field(act.bytes);
    let of_relay = (BINARY_ACTIVE_VALUE..=RELAY_STATE).contains(&property);
    of_relay.then(|| RelayEvent::Read {
        property: property.into(),
        situation: Situation::of(act.arrived),
        active: act.arrived.active,
        reverse: act.arrived.settings.polarity_reverse,
    })
}

fn gap(bits: u32, level: u32, other: u32, taken: bool) -> Gap {
    let real = f32::from_bits(bits);
    let is_that_unit = real == f32::from_bits(real::level_as_real(level));
    let way = (f64::from(real) * f64::from(ONE_PERCENT) - f64::from(other)).abs();
    match (taken, level.abs_diff(other)) {
        (true, 1) if way < 1.0 => Gap::OneUnitByRounding,
        (true, 1) => Gap::OneUnit,
        (true, _) => Gap::Wide,
        (false, 0) if is_that_unit => Gap::Equal,
        (false, 0) if real < 1.0 => Gap::EqualByRaising,
        (false, 0) => Gap::EqualByRounding,
        (false, 1) => Gap::CrossedByOne,
        (false, _) => Gap::Crossed,
    }
}

fn refused_with_16(arrival: &FirstArrival) -> bool {
    arrival.answer == Answer::Refused(answer::INACTIVE_NOT_BELOW_ACTIVE)
}

/// The frame before was refused 16.
pub fn list(seen: &Seen, events: &mut Tally<Event>) {
    let Some((last, earlier)) = seen.arrivals.split_last() else {
        return;
    };
    if !refused_with_16(last) {
        return;
    }
    let late = Answer::Refused(answer::TIME_BEFORE_PANEL_TIME);
    let event = match seen.is_first_arrival() {
        true => read_after(last, seen.bytes),
        false if seen.answer == late && seen.bytes[0] != CLOCK => {
            let time = time(seen.bytes);
            let otherwise_in_time = earlier.iter().all(|arrival| arrival.time <= time)
                && seen.clocks.iter().all(|clock| *clock <= time);
            otherwise_in_time.then_some(RelayEvent::LateAfterRefusal)
        }
        false => None,
    };
    event
        .into_iter()
        .for_each(|event| events.count(Event::Relay(event)));
}

fn read_after(last: &FirstArrival, bytes: &[u8]) -> Option<RelayEvent> {
    let property = byte_field(bytes);
    let tells = matches!(
        property,
        BINARY_ACTIVE_VALUE | BINARY_INACTIVE_VALUE | PRESENT_VALUE
    );
    let same_output = output(bytes) == output(&last.bytes);
    (bytes[0] == READ_PROPERTY && tells && same_output).then(|| RelayEvent::ReadAfterRefusal {
        property: property.into(),
    })
}
