//! Kinds 04 and 05.

use plain::frame::{byte_field, value_field, READ_PROPERTY, WRITE_PROPERTY};
use plain::movement::{Movement, Pace};
use plain::real;
use plain::settings::*;
use plain::Answer;

use super::Event;
use crate::passing::Passed;
use crate::seen::Act;
use crate::tally::Tally;
use crate::words::{is_ramp, Situation};

pub fn act(act: &Act, passed: &Passed, events: &mut Tally<Event>) {
    match act.kind() {
        READ_PROPERTY => read(act, events),
        WRITE_PROPERTY => written(act, passed, events),
        _ => {}
    }
}

fn read(act: &Act, events: &mut Tally<Event>) {
    let property = byte_field(act.bytes);
    events.count(Event::PropertyRead {
        property: property.into(),
        answer: act.answer.into(),
    });
    if property == ELAPSED_ACTIVE_TIME && act.answer == Answer::Value(u32::MAX) {
        events.count(Event::ElapsedActiveTimeReadAtMost);
    }
    let below_one_percent = 1..real::ONE_PERCENT;
    if property == PROGRESS_VALUE && below_one_percent.contains(&act.arrived.progress_value()) {
        events.count(Event::ProgressReadBelowOnePercent);
    }
}

fn written(act: &Act, passed: &Passed, events: &mut Tally<Event>) {
    let (property, value) = (byte_field(act.bytes), value_field(act.bytes));
    events.count(Event::PropertyWritten {
        property: property.into(),
        answer: act.answer.into(),
        situation: Situation::of(act.arrived),
    });
    if !act.is_done() {
        return;
    }
    if let Some(movement) = &act.arrived.movement {
        pace(movement, property, value, events);
    }
    let moves = act.after.present_value() != act.arrived.present_value();
    if matches!(property, MINIMUM | MAXIMUM) && act.arrived.warning.is_some() && moves {
        events.count(Event::BoundMovesWarningLevel);
    }
    if property == ELAPSED_ACTIVE_TIME {
        // Its burning time is not carried along: here it is lived.
        let mut lived = passed.before;
        lived.pass(passed.milliseconds);
        if !lived.burning.is_multiple_of(1_000) {
            events.count(Event::PartOfSecondCleared);
        }
    }
}

/// A pace that a movement under way does not take.
fn pace(movement: &Movement, property: u8, value: u32, events: &mut Tally<Event>) {
    let (own, other) = match (property, movement.pace) {
        (FADE_TIME, Pace::Fade) => (movement.length, u64::from(value)),
        (RAMP_RATE, Pace::Ramp { units_a_second }) => {
            let rate = real::rate_or_step(value).unwrap_or(units_a_second);
            (u64::from(rate), u64::from(units_a_second))
        }
        _ => return,
    };
    if own != other {
        events.count(Event::PaceWrittenInMovement {
            ramp: is_ramp(movement),
            slower: other > own,
        });
    }
}
