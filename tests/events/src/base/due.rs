//! Durations that fire, movements that run out, and warnings that turn or run
//! out, on the way to a frame's time.

use plain::settings::FOUR_HOURS;
use plain::warning::Warning;

use super::{Coincidence, Event, FiredIn, Memory};
use crate::passing::{Due, Passed};
use crate::tally::Tally;
use crate::words::{goes_up, is_ramp, DAY};

pub fn passed(passed: &Passed, memory: Memory, events: &mut Tally<Event>) {
    for due in &passed.due {
        if let Some(slot) = due.emptied_slot() {
            fired(due, slot, events);
            if memory.duration == DAY {
                events.count(Event::WholeDayDurationFired);
            }
        }
        if let Some(warning) = &due.before.warning {
            warned(due, warning, events);
        }
        movement(due, events);
    }
}

/// What the firing duration meets, before it empties its slot.
fn fired(due: &Due, slot: u8, events: &mut Tally<Event>) {
    let before = &due.before;
    let own_movement = before.owns_movement(slot);
    let mut coincidence = None;
    let fired_in = if let Some(movement) = &before.movement {
        if movement.gone + 1 == movement.length {
            coincidence = Some(Coincidence::MovementEnd { own_movement });
        }
        match own_movement {
            true => FiredIn::ItsOwnMovement,
            false => FiredIn::AnotherMovement,
        }
    } else if let Some(warning) = &before.warning {
        let own_slot = warning.slot == slot;
        if warning.gone + 1 == warning.dark_time + warning.lit_time {
            let lit = warning.lit_time > 0;
            coincidence = Some(Coincidence::WarningEnd { own_slot, lit });
        } else if warning.gone + 1 == warning.dark_time {
            coincidence = Some(Coincidence::WarningTurn { own_slot });
        }
        match own_slot {
            true => FiredIn::WarningAtItsOwnSlot,
            false => FiredIn::WarningElsewhere,
        }
    } else {
        FiredIn::Rest
    };
    events.count(Event::DurationFired {
        fired_in,
        slot_live: before.slot(slot).is_some(),
    });
    if let Some(coincidence) = coincidence {
        events.count(Event::DurationFiredTogetherWith(coincidence));
    }
}

fn warned(due: &Due, warning: &Warning, events: &mut Tally<Event>) {
    let (dark, lit) = (warning.dark_time > 0, warning.lit_time > 0);
    let gone = warning.gone + 1;
    let settings = &due.before.settings;
    if gone == warning.dark_time + warning.lit_time {
        let own_slot_live = due.before.slot(warning.slot).is_some();
        events.count(Event::WarningRanOut {
            dark,
            lit,
            own_slot_live: own_slot_live && due.emptied_slot() != Some(warning.slot),
        });
        if gone == 2 * DAY {
            events.count(Event::TwoDayWarningRanOut);
        }
        if lit != (settings.blink_warn_delay > 0) {
            events.count(Event::WarningRanOutUnderOtherDelay { lit });
        }
    } else if gone == warning.dark_time {
        events.count(Event::WarningTurned);
        if settings.into_range_if_lit(warning.level) != warning.level {
            events.count(Event::WarningTurnedOutOfRange);
        }
    }
}

/// It runs out, unless a duration of its owner comes first.
fn movement(due: &Due, events: &mut Tally<Event>) {
    let Some(movement) = &due.before.movement else {
        return;
    };
    let last = movement.gone + 1 == movement.length;
    if last && due.emptied_slot() != Some(movement.owner) {
        events.count(Event::MovementRanOut {
            ramp: is_ramp(movement),
            up: goes_up(movement),
        });
        if movement.length == u64::from(FOUR_HOURS) {
            events.count(Event::LongestFadeRanOut);
        }
    }
}
